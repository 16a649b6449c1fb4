//! Stands as `ubc_check` in the oracle's build of the Rust: the table, and the masks or the conditions, are lent by the
//! caller. compress.rs walks `&SHA1_DVS` and asks `ubc_check` for a mask, as it does in the original.

#[path = "open.rs"]
mod open;

extern crate std;
use crate::Sha1;
use core::sync::atomic::{AtomicBool, AtomicPtr, AtomicUsize, Ordering::Relaxed};
use shape::Block;
use std::{collections::HashMap, sync::Mutex, vec::Vec};

#[derive(Copy, Clone)]
pub enum Testt {
    T58,
    T65,
}

pub struct Info {
    pub testt: Testt,
    pub maskb: i32,
    pub dm: Dm,
}

/// The differences of one record. compress.rs asks for `iter` once for every record that it tries, so asking
/// counts it and notes its place; the Rust itself keeps neither number.
pub struct Dm {
    place: usize,
    words: [u32; 80],
}

impl Dm {
    #[inline]
    pub fn iter(&self) -> core::slice::Iter<'_, u32> {
        TRIED.store(TRIED.load(Relaxed) + 1, Relaxed);
        LAST.store(self.place, Relaxed);
        self.words.iter()
    }
}

static TRIED: AtomicUsize = AtomicUsize::new(0);
static LAST: AtomicUsize = AtomicUsize::new(0);
static TABLES: Mutex<Option<HashMap<u32, Vec<Info>>>> = Mutex::new(None);
static TABLE: AtomicPtr<Info> = AtomicPtr::new(core::ptr::null_mut());
static RECORDS: AtomicUsize = AtomicUsize::new(0);
static MASKS: AtomicPtr<u32> = AtomicPtr::new(core::ptr::null_mut());
static COUNT: AtomicUsize = AtomicUsize::new(0);
static TAKEN: AtomicUsize = AtomicUsize::new(0);
static CONDITIONS: Mutex<Vec<u32>> = Mutex::new(Vec::new());
static CONDITIONAL: AtomicBool = AtomicBool::new(false);

/// Stands for the constant table: a walk over the lent one.
pub struct Dvs;
pub static SHA1_DVS: Dvs = Dvs;

impl<'a> IntoIterator for &'a Dvs {
    type Item = &'a Info;
    type IntoIter = core::slice::Iter<'a, Info>;

    fn into_iter(self) -> Self::IntoIter {
        // SAFETY: `lend` stored the place and length of a table; it stands until its slot is set again.
        unsafe { core::slice::from_raw_parts(TABLE.load(Relaxed), RECORDS.load(Relaxed)) }.iter()
    }
}

/// The bits that survive: all conditions that name them hold.
fn surviving(w: &[u32; 80], conditions: &[u32]) -> u32 {
    let bit = |i: u32, p: u32| w[i as usize] >> p & 1;
    let holds = |c: &[u32]| bit(c[0], c[1]) ^ bit(c[2], c[3]) == c[4];
    let survives = |n: &u32| conditions.chunks_exact(6).all(|c| c[5] >> n & 1 == 0 || holds(c));
    (0..32).filter(survives).map(|n| 1 << n).sum()
}

/// What survives the lent conditions, else the next lent mask. Asking for more than there are gives 0, and shows in
/// `masks_taken`.
pub fn ubc_check(w: &[u32; 80]) -> u32 {
    if CONDITIONAL.load(Relaxed) {
        return surviving(w, &CONDITIONS.lock().unwrap());
    }
    let i = TAKEN.load(Relaxed);
    TAKEN.store(i + 1, Relaxed);
    if i >= COUNT.load(Relaxed) {
        return 0;
    }
    // SAFETY: `lend` stored so many masks, and they outlive the call that they are lent to.
    unsafe { *MASKS.load(Relaxed).add(i) }
}

impl Sha1 {
    /// Keeps a table under a number: mask number, test step and 80 differences a record, all of them good.
    pub fn set_table(slot: u32, words: &[u32]) {
        let record = |(place, r): (usize, &[u32])| Info {
            testt: if r[1] == 58 { Testt::T58 } else { Testt::T65 },
            maskb: r[0] as i32,
            dm: Dm { place, words: r[2..].try_into().unwrap() },
        };
        let table = words.chunks_exact(82).enumerate().map(record).collect();
        TABLES.lock().unwrap().get_or_insert_with(HashMap::new).insert(slot, table);
    }

    /// Lends a table and masks to the calls that follow.
    pub fn lend(slot: u32, masks: &[u32]) {
        let tables = TABLES.lock().unwrap();
        let table = tables.as_ref().and_then(|t| t.get(&slot)).map_or(&[][..], |t| &t[..]);
        TABLE.store(table.as_ptr() as *mut Info, Relaxed);
        RECORDS.store(table.len(), Relaxed);
        MASKS.store(masks.as_ptr() as *mut u32, Relaxed);
        COUNT.store(masks.len(), Relaxed);
        TAKEN.store(0, Relaxed);
    }

    /// Lends conditions in place of the masks, or none.
    pub fn lend_conditions(conditions: Option<&[u32]>) {
        CONDITIONAL.store(conditions.is_some(), Relaxed);
        *CONDITIONS.lock().unwrap() = conditions.unwrap_or(&[]).to_vec();
    }

    /// How many masks were asked for since they were lent.
    pub fn masks_taken() -> usize {
        TAKEN.load(Relaxed)
    }

    /// The place of the record that was tried last.
    pub fn last_tried(&self) -> usize {
        LAST.load(Relaxed)
    }

    /// compress.rs on one block, from any five words, with the lent table and the first lent mask.
    pub fn one_block(words: [u32; 5], block: &[u8; 64], mitigate: bool, reduced: bool) -> Block {
        let mut ctx = open::detection(true, mitigate, true, reduced).unwrap();
        let mut words = words;
        TRIED.store(0, Relaxed);
        crate::compress::compress(&mut words, &mut ctx, core::slice::from_ref(block));
        let mark = ctx.found_collision;
        Block {
            words,
            mark,
            place: if mark { LAST.load(Relaxed) } else { 0 },
            tried: TRIED.load(Relaxed),
        }
    }
}

/// Only in the build for ends.rs, in whose copy of compress.rs two functions are made visible.
#[cfg(ends)]
impl Sha1 {
    /// Where the sibling of a block starts and ends, by the Rust's own saved states and recompression.
    pub fn ends(words: [u32; 5], block: &[u32; 16], record: &[u32]) -> ([u32; 5], [u32; 5]) {
        let (mut after, mut w, mut s58, mut s65) = (words, [0; 80], [0; 5], [0; 5]);
        crate::compress::compression_states(&mut after, block, &mut w, &mut s58, &mut s65);
        let sibling: Vec<u32> = w.iter().zip(&record[2..]).map(|(w, dm)| w ^ dm).collect();
        let sibling = &sibling.try_into().unwrap();
        let (step, state) = if record[1] == 58 { (Testt::T58, s58) } else { (Testt::T65, s65) };
        let (mut start, mut end) = ([0; 5], [0; 5]);
        crate::compress::recompression_step(step, &mut start, &mut end, sibling, &state);
        (start, end)
    }
}
