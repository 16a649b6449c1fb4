//! Stand-in for what lib.rs names of the crate `digest`: a few traits, two lengths and a block buffer.
//! A block is a plain array here, so nothing needs a crate of type-level numbers.
#![no_std]

pub mod typenum {
    /// A length known to the compiler.
    pub trait Unsigned {
        const USIZE: usize;
        type Bytes;
    }
    #[derive(Clone)]
    pub struct U20;
    #[derive(Clone)]
    pub struct U64;
    impl Unsigned for U20 {
        const USIZE: usize = 20;
        type Bytes = [u8; 20];
    }
    impl Unsigned for U64 {
        const USIZE: usize = 64;
        type Bytes = [u8; 64];
    }
}

pub mod core_api {
    pub trait BlockSizeUser {
        type BlockSize: crate::typenum::Unsigned;
    }
}

pub mod block_buffer {
    use core::marker::PhantomData;
    use core::slice::from_ref;

    /// A full block is handed on at once, so between calls fewer than 64 bytes are held.
    #[derive(Clone)]
    pub struct Eager;

    #[derive(Clone)]
    pub struct BlockBuffer<Size, Kind> {
        bytes: [u8; 64],
        pos: usize,
        kind: PhantomData<(Size, Kind)>,
    }

    impl<Size, Kind> Default for BlockBuffer<Size, Kind> {
        fn default() -> Self {
            Self { bytes: [0; 64], pos: 0, kind: PhantomData }
        }
    }

    impl<Size, Kind> BlockBuffer<Size, Kind> {
        pub fn get_pos(&self) -> usize {
            self.pos
        }

        pub fn get_data(&self) -> &[u8] {
            &self.bytes[..self.pos]
        }

        pub fn reset(&mut self) {
            self.pos = 0;
        }

        /// Hands every full block to `compress`, straight from the input where that can be, and holds the rest.
        pub fn digest_blocks(&mut self, input: &[u8], mut compress: impl FnMut(&[[u8; 64]])) {
            let mut input = input;
            let room = 64 - self.pos;
            if input.len() < room {
                self.bytes[self.pos..self.pos + input.len()].copy_from_slice(input);
                self.pos += input.len();
                return;
            }
            if self.pos > 0 {
                self.bytes[self.pos..].copy_from_slice(&input[..room]);
                compress(from_ref(&self.bytes));
                input = &input[room..];
            }
            let (blocks, rest) = input.as_chunks::<64>();
            if !blocks.is_empty() {
                compress(blocks);
            }
            self.bytes[..rest.len()].copy_from_slice(rest);
            self.pos = rest.len();
        }

        /// FIPS 180-4's padding: the byte 80, zeros, and the bit length in 8 bytes, high byte first.
        pub fn len64_padding_be(&mut self, bits: u64, mut compress: impl FnMut(&[u8; 64])) {
            let mut block = [0u8; 64];
            block[..self.pos].copy_from_slice(&self.bytes[..self.pos]);
            block[self.pos] = 0x80;
            if self.pos >= 56 {
                compress(&block);
                block = [0; 64];
            }
            block[56..].copy_from_slice(&bits.to_be_bytes());
            compress(&block);
            self.pos = 0;
        }
    }
}

pub trait OutputSizeUser {
    type OutputSize: typenum::Unsigned;
}

pub type Output<T> = <<T as OutputSizeUser>::OutputSize as typenum::Unsigned>::Bytes;

pub trait HashMarker {}

pub trait Update {
    fn update(&mut self, data: &[u8]);
}

pub trait Reset {
    fn reset(&mut self);
}

pub trait FixedOutput: Update + OutputSizeUser + Sized {
    fn finalize_into(self, out: &mut Output<Self>);
}

pub trait FixedOutputReset: FixedOutput + Reset {
    fn finalize_into_reset(&mut self, out: &mut Output<Self>);
}

pub trait Digest {
    fn update(&mut self, data: impl AsRef<[u8]>);
}

impl<D: Update + HashMarker> Digest for D {
    fn update(&mut self, data: impl AsRef<[u8]>) {
        Update::update(self, data.as_ref());
    }
}
