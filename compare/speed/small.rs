//! Does what small.source does, by the Rust's `Update::update`: the same standard input, the same line. The table and the conditions
//! are the Rust's own, compiled in.

use std::io::Read;

const MESSAGE: usize = 8 << 20;
const LENT: usize = 16 + 10496 + 3744;

macro_rules! hashed {
    ($rust:ident, $detect:expr, $own:expr, $size:expr, $times:expr, $part:expr) => {{
        let fresh = || $rust::Sha1::builder().detect_collision($detect).use_ubc($own).build();
        let mut h = fresh();
        for _ in 0..$times {
            h = fresh();
            let mut left = MESSAGE;
            while left > 0 {
                let part = &$part[..left.min($part.len())];
                part.chunks($size).for_each(|piece| digest::Update::update(&mut h, piece));
                left -= part.len();
            }
        }
        let result = h.try_finalize();
        assert!(!result.has_collision());
        *result.hash()
    }};
}

fn main() {
    let mut given = vec![];
    std::io::stdin().read_to_end(&mut given).expect("cannot read");
    let text = std::str::from_utf8(&given[..16]).expect("a request");
    let number = |s: &str| s.trim().parse::<usize>().expect("a number");
    let (size, times, part) = (number(&text[1..3]), number(&text[3..]), &given[LENT..]);
    let digest = match given[0] {
        b'0' => hashed!(sha1_real, false, false, size, times, part),
        b'1' => hashed!(sha1_one, true, false, size, times, part),
        _ => hashed!(sha1_real, true, true, size, times, part),
    };
    println!("ok {}", digest.iter().map(|b| format!("{b:02x}")).collect::<String>());
}
