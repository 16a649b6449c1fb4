//! How fast the proved code is beside the Rust: the same bytes in pieces of 64 KiB, the sides taking turns in one run,
//! the best time of each kept. The bytes are written before the first round, so no side pays for fresh memory.
//!
//!   speed TABLE CONDITIONS [MIB ROUNDS]

mod plain;

/// Seconds of this thread's own work. Others may be busy on the computer; their turns are not counted.
fn now() -> f64 {
    #[repr(C)]
    struct Time(i64, i64);
    extern "C" {
        fn clock_gettime(clock: i32, time: *mut Time) -> i32;
    }
    const THREAD: i32 = 3; // CLOCK_THREAD_CPUTIME_ID of Linux
    let mut t = Time(0, 0);
    // SAFETY: `t` has the layout of the call's `timespec` on 64-bit Linux.
    assert_eq!(unsafe { clock_gettime(THREAD, &mut t) }, 0);
    t.0 as f64 + t.1 as f64 / 1e9
}

const PIECE: usize = 64 * 1024;
type Digest = [u8; 20];
type Side<'a> = (&'a str, Box<dyn Fn(&[u8]) -> Digest + 'a>);

/// The proved code, by the calls of ../../include/purserumble.h.
#[cfg(proved)]
mod proved {
    extern "C" {
        fn purserumble_update(
            words: *mut u32, five: usize, pending: *mut u8, sixty_four: usize, state: *mut u64, six: usize,
            bytes: *const u8, bytes_len: usize, table: *const u32, table_len: usize,
            conditions: *const u32, conditions_len: usize, masks: *const u32, masks_len: usize, answer: *mut u64, two: usize,
        ) -> u32;
        fn purserumble_finish(
            words: *const u32, five: usize, pending: *const u8, sixty_four: usize, state: *const u64, six: usize,
            digest: *mut u8, twenty: usize, table: *const u32, table_len: usize,
            conditions: *const u32, conditions_len: usize, masks: *const u32, masks_len: usize, answer: *mut u64, four: usize,
        ) -> u32;
    }

    /// The digest of the bytes; detection on where there is a table, selection by the conditions where there are any, else
    /// masks off.
    pub fn digest(bytes: &[u8], table: &[u32], conditions: &[u32]) -> super::Digest {
        let mut words = [0x67452301, 0xEFCDAB89, 0x98BADCFE, 0x10325476, 0xC3D2E1F0u32];
        let (mut pending, mut answer, mut digest) = ([0u8; 64], [0u64; 4], [0u8; 20]);
        let mut state = [0, 0, 0, if table.is_empty() { 0 } else { 1 | 2 }, 0, 0];
        state[3] |= if conditions.is_empty() { 0 } else { 16 };
        let none = [0u32; 0];
        for piece in bytes.chunks(super::PIECE) {
            // SAFETY: every pointer comes with the length of what it points to.
            let refusal = unsafe {
                purserumble_update(
                    words.as_mut_ptr(), 5, pending.as_mut_ptr(), 64, state.as_mut_ptr(), 6,
                    piece.as_ptr(), piece.len(), table.as_ptr(), table.len(),
                    conditions.as_ptr(), conditions.len(), none.as_ptr(), 0, answer.as_mut_ptr(), 2,
                )
            };
            assert_eq!(refusal, 0);
        }
        // SAFETY: as above.
        let refusal = unsafe {
            purserumble_finish(
                words.as_ptr(), 5, pending.as_ptr(), 64, state.as_ptr(), 6,
                digest.as_mut_ptr(), 20, table.as_ptr(), table.len(),
                conditions.as_ptr(), conditions.len(), none.as_ptr(), 0, answer.as_mut_ptr(), 4,
            )
        };
        assert_eq!((refusal, answer[0]), (0, 1), "not the verdict ok");
        digest
    }
}

fn plain(bytes: &[u8]) -> Digest {
    let mut h = plain::Plain::new();
    bytes.chunks(PIECE).for_each(|piece| h.update(piece));
    h.finish()
}

/// The Rust with detection, its own selection of vectors or masks off; the table is compiled in.
macro_rules! checked {
    ($rust:ident, $own:expr) => {
        |bytes: &[u8]| {
            let mut h = $rust::Sha1::builder().use_ubc($own).build();
            bytes.chunks(PIECE).for_each(|piece| digest::Update::update(&mut h, piece));
            let result = h.try_finalize();
            assert!(!result.has_collision());
            *result.hash()
        }
    };
}

fn measure(what: &str, bytes: &[u8], rounds: usize, sides: &[Side]) {
    let mut best = vec![f64::INFINITY; sides.len()];
    for _ in 0..rounds {
        let mut digests = vec![];
        for (i, (_, side)) in sides.iter().enumerate() {
            let start = now();
            digests.push(side(bytes));
            best[i] = best[i].min(now() - start);
        }
        assert!(digests.iter().all(|d| *d == digests[0]), "the digests differ");
    }
    println!("{what}");
    for (i, (name, _)) in sides.iter().enumerate() {
        let mib = bytes.len() as f64 / 1048576.0;
        println!("  {name:<8} {:8.3} s {:8.1} MiB/s   {:.2} of the Rust's time", best[i], mib / best[i], best[i] / best[0]);
    }
}

/// The big-endian words of a file.
fn words(name: &str) -> Vec<u32> {
    let bytes = std::fs::read(name).expect("cannot read a table");
    bytes.chunks(4).map(|w| u32::from_be_bytes(w.try_into().unwrap())).collect()
}

fn main() {
    let args: Vec<String> = std::env::args().collect();
    let [_, table, conditions, sizes @ ..] = &args[..] else { panic!("usage: speed TABLE CONDITIONS [MIB ROUNDS]") };
    let (table, conditions) = (words(table), words(conditions));
    let size = |i: usize, otherwise: usize| sizes.get(i).map_or(otherwise, |a| a.parse().expect("a number"));
    let (mib, rounds) = (size(0, 64), size(1, 7));
    let mut seed = 1u64;
    let bytes: Vec<u8> = (0..mib << 20)
        .map(|_| {
            seed = seed.wrapping_mul(6364136223846793005).wrapping_add(1442695040888963407);
            (seed >> 56) as u8
        })
        .collect();

    #[allow(unused_mut)]
    let mut sides: [Vec<Side>; 4] = [
        vec![("Rust", Box::new(plain))],
        vec![("Rust", Box::new(checked!(sha1_one, false)))],
        vec![("Rust", Box::new(checked!(sha1_real, true)))],
        vec![("Rust", Box::new(checked!(sha1_real, false)))],
    ];
    assert_eq!((table.len(), conditions.len()), (32 * 82, 156 * 6));
    #[cfg(proved)]
    for (side, (vectors, records)) in sides.iter_mut().zip([(0, 0), (1, 0), (32, 156), (32, 0)]) {
        let (table, conditions) = (&table[..82 * vectors], &conditions[..6 * records]);
        side.push(("proved", Box::new(move |bytes: &[u8]| proved::digest(bytes, table, conditions))));
    }
    println!("{mib} MiB in pieces of 64 KiB, best of {rounds}");
    if sides[0].len() == 1 {
        println!("(the Rust alone: there is no static library of the proved code)");
    }
    measure("detection off", &bytes, rounds, &sides[0]);
    measure("detection on, 1 vector, masks off", &bytes, rounds, &sides[1]);
    measure("detection on, 32 vectors, 156 conditions", &bytes, rounds, &sides[2]);
    measure("detection on, 32 vectors, masks off", &bytes, rounds.min(3), &sides[3]);
}
