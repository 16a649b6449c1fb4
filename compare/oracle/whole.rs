//! Stands as `ubc_check` in the build of the Rust as it ships: its own table and its own `ubc_check`, as they are. What a
//! request lends is not looked at, so an answer can only be right where that is the same.

#[path = "open.rs"]
mod open;
#[path = "original.rs"]
mod original;
pub use original::{ubc_check, Testt, SHA1_DVS};

use crate::Sha1;
use shape::Block;

impl Sha1 {
    pub fn set_table(_: u32, _: &[u32]) {}
    pub fn lend(_: u32, _: &[u32]) {}
    pub fn lend_conditions(_: Option<&[u32]>) {}

    /// The place of the record that was tried last: the Rust still has the schedules of the block and of its sibling.
    pub fn last_tried(&self) -> usize {
        let ctx = self.detection.as_ref().unwrap();
        let differs = |dm: &[u32; 80]| (0..80).any(|t| ctx.m1[t] ^ ctx.m2[t] != dm[t]);
        SHA1_DVS.iter().position(|record| !differs(&record.dm)).unwrap()
    }

    pub fn masks_taken() -> usize {
        panic!("the Rust as it ships takes no masks")
    }

    pub fn one_block(_: [u32; 5], _: &[u8; 64], _: bool, _: bool) -> Block {
        panic!("the Rust as it ships does not say how many it tried")
    }
}
