//! A Rust program that does what purserumble does, for the measurement end to end: the same arguments, standard input in
//! pieces of 64 KiB, the same line.
//!
//!   program [table=FILE] [raw]
//!
//! The Rust has its vectors compiled in, so FILE must hold the crate's own 32 records or the first of them alone.

mod plain;

use std::io::{Read, Write};

const RECORD: usize = 328;

/// Hands standard input on in pieces, to its end.
fn pieces(mut take: impl FnMut(&[u8])) {
    let (mut input, mut buf) = (std::io::stdin().lock(), vec![0; 64 * 1024]);
    loop {
        match input.read(&mut buf) {
            Ok(0) => return,
            Ok(n) => take(&buf[..n]),
            Err(_) => stop("refused 16"),
        }
    }
}

fn stop(line: &str) -> ! {
    println!("{line}");
    std::process::exit(0)
}

/// The Rust with detection, masks off.
macro_rules! checked {
    ($rust:ident, $raw:expr) => {{
        let mut h = $rust::Sha1::builder().use_ubc(false).safe_hash(!$raw).build();
        pieces(|piece| digest::Update::update(&mut h, piece));
        let result = h.try_finalize();
        let word = match &result {
            $rust::CollisionResult::Ok(_) => "ok",
            $rust::CollisionResult::Mitigated(_) => "mitigated",
            $rust::CollisionResult::Collision(_) => "collision",
        };
        (word, *result.hash())
    }};
}

fn main() {
    let (mut table, mut raw) = (None, false);
    for argument in std::env::args().skip(1) {
        match argument.strip_prefix("table=") {
            Some(file) if table.is_none() => table = Some(file.to_string()),
            None if argument == "raw" && !raw => raw = true,
            _ => stop("refused 16"),
        }
    }
    let bytes = table.map(|file| std::fs::read(file).unwrap_or_else(|_| stop("refused 16")));
    let (word, digest) = match bytes {
        None => {
            let mut h = plain::Plain::new();
            pieces(|piece| h.update(piece));
            ("ok", h.finish())
        }
        Some(bytes) => {
            let own = include_bytes!(env!("OWN_TABLE"));
            if bytes == own {
                checked!(sha1_real, raw)
            } else {
                assert!(bytes == own[..RECORD], "not a table that is compiled in");
                checked!(sha1_one, raw)
            }
        }
    };
    let hex: String = digest.iter().map(|b| format!("{b:02x}")).collect();
    writeln!(std::io::stdout(), "{word} {hex}").expect("cannot write the line");
}
