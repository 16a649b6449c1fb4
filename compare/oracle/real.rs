//! The Rust whole, with its own table and its own `ubc_check`, against the oracle's build of it with the same table
//! and the same masks lent. Three runs of each message must agree in verdict and digest:
//!   its own masks; its own masks, computed here by ubc_check.rs and lent; all masks (each vector tried).
//! The messages go into a request file as well, with the real masks, for the other programs to answer.
//!
//!   real REQUESTS TABLE SEED COUNT FILE ..

#[path = "../rust/ubc_check.rs"]
#[allow(dead_code)]
mod ubc_check;

use std::io::Write;

/// The masks of a message's blocks, padding included: they depend on nothing but the block.
fn masks(message: &[u8]) -> Vec<u32> {
    let mut padded = message.to_vec();
    padded.push(0x80);
    while padded.len() % 64 != 56 {
        padded.push(0);
    }
    padded.extend_from_slice(&(8 * message.len() as u64).to_be_bytes());
    let mask = |block: &[u8]| {
        let mut w = [0; 80];
        for t in 0..80 {
            w[t] = match t {
                0..=15 => u32::from_be_bytes(block[4 * t..4 * t + 4].try_into().unwrap()),
                _ => (w[t - 3] ^ w[t - 8] ^ w[t - 14] ^ w[t - 16]).rotate_left(1),
            };
        }
        ubc_check::ubc_check(&w)
    };
    padded.chunks(64).map(mask).collect()
}

/// Verdict and digest of a message in two pieces; the same code for both builds of the Rust.
macro_rules! hashed {
    ($rust:ident, $own:expr, $flags:expr, $message:expr, $cut:expr) => {{
        let mut h = $rust::Sha1::builder()
            .safe_hash($flags & 2 != 0)
            .use_ubc($own)
            .reduced_round_collision($flags & 8 != 0)
            .build();
        digest::Update::update(&mut h, &$message[..$cut]);
        digest::Update::update(&mut h, &$message[$cut..]);
        match h.try_finalize() {
            $rust::CollisionResult::Ok(d) => (0, d),
            $rust::CollisionResult::Mitigated(d) => (1, d),
            $rust::CollisionResult::Collision(d) => (2, d),
        }
    }};
}

fn record(file: &mut impl Write, kind: u8, body: &[u8]) {
    file.write_all(&[kind]).unwrap();
    file.write_all(&(body.len() as u32).to_be_bytes()).unwrap();
    file.write_all(body).unwrap();
}

/// A session of one update and one finish, each lent its share of the masks. The conditions, slot 0 too, are not looked at.
fn session(flags: u64, message: &[u8], masks: &[u32]) -> Vec<u8> {
    let mut b = Vec::new();
    let word = |b: &mut Vec<u8>, x: u32| b.extend_from_slice(&x.to_be_bytes());
    [0x67452301, 0xEFCDAB89, 0x98BADCFE, 0x10325476, 0xC3D2E1F0].iter().for_each(|x| word(&mut b, *x));
    b.extend_from_slice(&[0; 64 + 24]);
    b.extend_from_slice(&flags.to_be_bytes());
    b.extend_from_slice(&[0; 16]);
    let (first, last) = masks.split_at(message.len() / 64);
    b.push(1);
    word(&mut b, 0);
    word(&mut b, 0);
    word(&mut b, message.len() as u32);
    b.extend_from_slice(message);
    word(&mut b, first.len() as u32);
    first.iter().for_each(|x| word(&mut b, *x));
    b.push(3);
    word(&mut b, 0);
    word(&mut b, 0);
    word(&mut b, last.len() as u32);
    last.iter().for_each(|x| word(&mut b, *x));
    b
}

fn drawn(seed: &mut u64) -> usize {
    *seed = seed.wrapping_mul(6364136223846793005).wrapping_add(1442695040888963407);
    ((*seed ^ *seed >> 29) >> 32) as usize
}

fn main() {
    let args: Vec<String> = std::env::args().collect();
    let [requests, table, seed, count, files @ ..] = &args[1..] else {
        panic!("usage: real REQUESTS TABLE SEED COUNT FILE ..")
    };
    let mut file = std::io::BufWriter::new(std::fs::File::create(requests).expect("cannot write the requests"));
    let table = std::fs::read(table).expect("cannot read the table");
    let words: Vec<u32> = table.chunks(4).map(|w| u32::from_be_bytes(w.try_into().unwrap())).collect();
    sha1_lent::Sha1::set_table(0, &words);
    record(&mut file, 1, &[&[0; 4], &table[..]].concat());

    let files: Vec<Vec<u8>> = files.iter().map(|f| std::fs::read(f).expect("cannot read a file")).collect();
    let (mut seed, count): (u64, usize) = (seed.parse().unwrap(), count.parse().unwrap());
    let mut chance = || drawn(&mut seed);
    let (mut compared, mut differ, mut marked, mut selecting) = (0, 0, 0, 0);
    for i in 0..count {
        // A published file first in one message of sixteen, then bytes by chance.
        let mut message = if i % 16 == 0 { files[i / 16 % files.len()].clone() } else { vec![] };
        let more = chance() % 300;
        message.extend((0..more).map(|_| chance() as u8));
        let masks = masks(&message);
        let flags = (chance() % 4 * 2) & 2 | (chance() % 2 * 8);
        let cut = chance() % (message.len() + 1);
        let own = hashed!(sha1_real, true, flags, message, cut);
        let every = hashed!(sha1_real, false, flags, message, cut);
        sha1_lent::Sha1::lend(0, &masks);
        let lent = hashed!(sha1_lent, true, flags, message, cut);
        compared += 2;
        differ += (own != lent) as u32 + (own != every) as u32;
        marked += (own.0 != 0) as u32;
        selecting += masks.iter().filter(|m| **m != 0).count();
        record(&mut file, 3, &session(flags as u64 | 1 | 4, &message, &masks));
    }
    file.flush().unwrap();
    println!("real masks: {count} messages, {marked} marked, {selecting} blocks whose mask selects something");
    println!("{compared} comparisons, {differ} differences");
    std::process::exit((differ != 0) as i32);
}
