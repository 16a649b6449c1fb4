//! Blocks by chance, each with the mask that the Rust's own `ubc_check` gives for its schedule, on standard output: 64 bytes
//! and a big-endian word. The blocks of the files come first. Few blocks have a vector left, so every eighth block is drawn
//! until it has one.
//!
//!   masks SEED COUNT FILE ..

#[path = "../rust/ubc_check.rs"]
#[allow(dead_code)]
mod ubc_check;

use std::io::Write;

fn mask(block: &[u8]) -> u32 {
    let mut w = [0; 80];
    for t in 0..80 {
        w[t] = match t {
            0..=15 => u32::from_be_bytes(block[4 * t..4 * t + 4].try_into().unwrap()),
            _ => (w[t - 3] ^ w[t - 8] ^ w[t - 14] ^ w[t - 16]).rotate_left(1),
        };
    }
    ubc_check::ubc_check(&w)
}

fn drawn(seed: &mut u64) -> [u8; 64] {
    core::array::from_fn(|_| {
        *seed = seed.wrapping_mul(6364136223846793005).wrapping_add(1442695040888963407);
        ((*seed ^ *seed >> 29) >> 32) as u8
    })
}

fn main() {
    let args: Vec<String> = std::env::args().collect();
    let [seed, count, files @ ..] = &args[1..] else { panic!("usage: masks SEED COUNT FILE ..") };
    let (mut seed, count): (u64, usize) = (seed.parse().unwrap(), count.parse().unwrap());
    let mut out = std::io::BufWriter::new(std::io::stdout().lock());
    let mut write = |block: &[u8]| {
        out.write_all(block).unwrap();
        out.write_all(&mask(block).to_be_bytes()).unwrap();
    };
    let files: Vec<u8> = files.iter().flat_map(|f| std::fs::read(f).expect("cannot read a file")).collect();
    let published = files.chunks_exact(64);
    let more = count.checked_sub(published.len()).expect("more blocks in the files than asked for");
    published.for_each(&mut write);
    for i in 0..more {
        let mut block = drawn(&mut seed);
        while i % 8 == 0 && mask(&block) == 0 {
            block = drawn(&mut seed);
        }
        write(&block);
    }
    out.flush().unwrap();
}
