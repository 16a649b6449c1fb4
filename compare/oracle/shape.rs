//! The records that the oracle's driver and the opened Rust hand to each other.

/// The whole state of a hasher, in the words of the paper.
#[derive(Clone, Copy)]
pub struct State {
    pub words: [u32; 5],
    pub pending: [u8; 64],
    pub fill: u64,
    pub blocks: u64,
    pub mark: bool,
    pub detect: bool,
    pub mitigate: bool,
    pub lent: bool,
    pub reduced: bool,
    pub conditions: bool,
    pub first: First,
}

/// The number of the first marked block, from 0, and the place of the record that marked it; zeros where none was.
#[derive(Clone, Copy, Default, PartialEq)]
pub struct First {
    pub block: u64,
    pub place: u64,
}

/// What one block gives.
pub struct Block {
    pub words: [u32; 5],
    pub mark: bool,
    pub place: usize,
    pub tried: usize,
}
