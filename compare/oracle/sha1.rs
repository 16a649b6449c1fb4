//! Stand-in for what lib.rs names of the crate `sha1`: the block size and the plain compression.
//! It is FIPS 180-4 written out, and is also the plain Rust SHA-1 that speed/ measures against.
#![no_std]

/// Only its block size is asked for.
pub struct Sha1Core;

impl digest::core_api::BlockSizeUser for Sha1Core {
    type BlockSize = digest::typenum::U64;
}

/// One step on the five registers; the names move on, so that no register does.
macro_rules! step {
    ($f:expr, $k:expr, $a:ident, $b:ident, $c:ident, $d:ident, $e:ident, $w:expr) => {
        $e = $e
            .wrapping_add($a.rotate_left(5))
            .wrapping_add($f($b, $c, $d))
            .wrapping_add($k)
            .wrapping_add($w);
        $b = $b.rotate_left(30);
    };
}

/// Twenty steps of one round; the message schedule lives in a ring of 16 words.
macro_rules! round {
    ($f:expr, $k:expr, $from:expr, $a:ident, $b:ident, $c:ident, $d:ident, $e:ident, $w:ident) => {
        let mut t = $from;
        while t < $from + 20 {
            step!($f, $k, $a, $b, $c, $d, $e, word(&mut $w, t));
            step!($f, $k, $e, $a, $b, $c, $d, word(&mut $w, t + 1));
            step!($f, $k, $d, $e, $a, $b, $c, word(&mut $w, t + 2));
            step!($f, $k, $c, $d, $e, $a, $b, word(&mut $w, t + 3));
            step!($f, $k, $b, $c, $d, $e, $a, word(&mut $w, t + 4));
            t += 5;
        }
    };
}

#[inline(always)]
fn word(w: &mut [u32; 16], t: usize) -> u32 {
    if t >= 16 {
        w[t % 16] = (w[(t - 3) % 16] ^ w[(t - 8) % 16] ^ w[(t - 14) % 16] ^ w[t % 16]).rotate_left(1);
    }
    w[t % 16]
}

#[inline(always)]
fn choose(b: u32, c: u32, d: u32) -> u32 {
    (b & c) | (!b & d)
}

#[inline(always)]
fn parity(b: u32, c: u32, d: u32) -> u32 {
    b ^ c ^ d
}

#[inline(always)]
fn majority(b: u32, c: u32, d: u32) -> u32 {
    (b & c) | (d & (b | c))
}

pub fn compress(state: &mut [u32; 5], blocks: &[[u8; 64]]) {
    for block in blocks {
        let mut w = [0u32; 16];
        for t in 0..16 {
            w[t] = u32::from_be_bytes([block[4 * t], block[4 * t + 1], block[4 * t + 2], block[4 * t + 3]]);
        }
        let [mut a, mut b, mut c, mut d, mut e] = *state;
        round!(choose, 0x5A827999, 0, a, b, c, d, e, w);
        round!(parity, 0x6ED9EBA1, 20, a, b, c, d, e, w);
        round!(majority, 0x8F1BBCDC, 40, a, b, c, d, e, w);
        round!(parity, 0xCA62C1D6, 60, a, b, c, d, e, w);
        for (s, x) in state.iter_mut().zip([a, b, c, d, e]) {
            *s = s.wrapping_add(x);
        }
    }
}
