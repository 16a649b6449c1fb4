//! A deeper look at the Rust's recompression. A mark needs a sibling that collides, and the only ones at hand are the
//! control record and record 27 of the crate's table, whose test step is 65. So for step 58 and a real difference the
//! answers can only say `not marked`. Here the sibling's start and end themselves are compared, for both steps, with
//! a plain walk: step by step forward, undone to the start, and through all 80 steps from there.
//!
//!   ends SEED COUNT

use sha1_ends::Sha1;

fn f(t: usize, b: u32, c: u32, d: u32) -> u32 {
    match t / 20 {
        0 => (b & c) ^ (!b & d),
        2 => (b & c) ^ (b & d) ^ (c & d),
        _ => b ^ c ^ d,
    }
}

const K: [u32; 4] = [0x5A827999, 0x6ED9EBA1, 0x8F1BBCDC, 0xCA62C1D6];

fn step([a, b, c, d, e]: [u32; 5], t: usize, w: u32) -> [u32; 5] {
    let sum = [f(t, b, c, d), e, K[t / 20], w].iter().fold(a.rotate_left(5), |x, y| x.wrapping_add(*y));
    [sum, a, b.rotate_left(30), c, d]
}

fn undo([sum, a, b, c, d]: [u32; 5], t: usize, w: u32) -> [u32; 5] {
    let b = b.rotate_right(30);
    let e = [a.rotate_left(5), f(t, b, c, d), K[t / 20], w].iter().fold(sum, |x, y| x.wrapping_sub(*y));
    [a, b, c, d, e]
}

fn schedule(first: &[u32]) -> [u32; 80] {
    let mut w = [0; 80];
    w[..16].copy_from_slice(first);
    for t in 16..80 {
        w[t] = (w[t - 3] ^ w[t - 8] ^ w[t - 14] ^ w[t - 16]).rotate_left(1);
    }
    w
}

fn walk(words: [u32; 5], block: &[u32; 16], record: &[u32]) -> ([u32; 5], [u32; 5]) {
    let w = schedule(block);
    let sibling: Vec<u32> = (0..80).map(|t| w[t] ^ record[2 + t]).collect();
    let test = record[1] as usize;
    let there = (0..test).fold(words, |s, t| step(s, t, w[t]));
    let start = (0..test).rev().fold(there, |s, t| undo(s, t, sibling[t]));
    let last = (0..80).fold(start, |s, t| step(s, t, sibling[t]));
    let mut end = start;
    end.iter_mut().zip(last).for_each(|(x, y)| *x = x.wrapping_add(y));
    (start, end)
}

fn main() {
    let args: Vec<u64> = std::env::args().skip(1).map(|a| a.parse().expect("a number")).collect();
    let [mut seed, count] = args[..] else { panic!("usage: ends SEED COUNT") };
    let mut chance = || {
        seed = seed.wrapping_mul(6364136223846793005).wrapping_add(1442695040888963407);
        ((seed ^ seed >> 29) >> 32) as u32
    };
    let mut differ = 0;
    for i in 0..count {
        let words = [0; 5].map(|_| chance());
        let block = [0; 16].map(|_| chance());
        let mut first = [0; 16].map(|_| chance());
        if i % 4 == 0 {
            first = [0; 16];
            first[(i / 4 % 16) as usize] = 1 << (i % 32);
        }
        let mut record = vec![0, if chance() % 2 == 0 { 58 } else { 65 }];
        record.extend(schedule(&first));
        differ += (walk(words, &block, &record) != Sha1::ends(words, &block, &record)) as u32;
    }
    println!("{count} comparisons, {differ} differences");
    std::process::exit((differ != 0) as i32);
}
