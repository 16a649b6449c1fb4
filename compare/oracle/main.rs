//! The oracle: answers a request file by the unchanged Rust. The layout of both files is in ../format.h.
//!
//! Built with `sha1_whole` it is the Rust as it ships, which is asked only with its own table and its own conditions.
//!
//! The Rust refuses nothing. Where a request lies outside of what it can be asked (a block that is not 64 bytes, a
//! table that the Rust could not hold or that gives a bit two records, masks too few or too many, a hasher that no call
//! makes), the answer is `unknown`, and the hasher stays as it was. It has no checks of tables and conditions and no sheet either.

use digest::{FixedOutputReset, Reset, Update};
use rust::{CollisionResult, Sha1};
use shape::{First, State};
use std::collections::{HashMap, HashSet};
use std::io::Write;

struct In<'a>(&'a [u8]);

impl<'a> In<'a> {
    fn take(&mut self, n: usize) -> &'a [u8] {
        let (part, rest) = self.0.split_at(n);
        self.0 = rest;
        part
    }
    fn number(&mut self, bytes: usize) -> u64 {
        self.take(bytes).iter().fold(0, |x, b| x << 8 | *b as u64)
    }
    fn word(&mut self) -> u32 {
        self.number(4) as u32
    }
    fn bytes(&mut self) -> &'a [u8] {
        let n = self.word() as usize;
        self.take(n)
    }
    fn words(&mut self, n: usize) -> Vec<u32> {
        (0..n).map(|_| self.word()).collect()
    }
    fn masks(&mut self) -> Vec<u32> {
        let n = self.word() as usize;
        self.words(n)
    }
    fn five(&mut self) -> [u32; 5] {
        self.words(5).try_into().unwrap()
    }
}

#[derive(Default)]
struct Out(Vec<u8>);

impl Out {
    fn put(&mut self, x: u64, bytes: usize) {
        self.0.extend_from_slice(&x.to_be_bytes()[8 - bytes..]);
    }
    fn five(&mut self, words: [u32; 5]) {
        words.iter().for_each(|w| self.put(*w as u64, 4));
    }
    /// Known, and nothing refused: number 0 at place 0. Another number says that the Rust went astray.
    fn known(&mut self, astray: u64) {
        self.put(1, 1);
        self.put(astray, 4);
        self.put(0, 8);
    }
    fn hasher(&mut self, s: &State) {
        self.five(s.words);
        self.0.extend_from_slice(&s.pending);
        self.put(s.fill, 8);
        self.put(s.blocks, 8);
        self.put(s.mark as u64, 8);
        let flags = [s.detect, s.mitigate, s.lent, s.reduced, s.conditions];
        self.put(flags.iter().rev().fold(0, |n, flag| 2 * n + *flag as u64), 8);
        self.first(s.first);
    }
    fn first(&mut self, first: First) {
        self.put(first.block, 8);
        self.put(first.place, 8);
    }
    fn zeros(&mut self, n: usize) {
        self.0.resize(self.0.len() + n, 0);
    }
}

/// Which slots hold a table as the Rust has one, a bit of its own for each record, and which hold conditions.
#[derive(Default)]
struct Tables {
    tables: HashMap<u32, bool>,
    conditions: HashMap<u32, Option<Vec<u32>>>,
}

impl Tables {
    fn set(&mut self, slot: u32, words: &[u32]) {
        let good = !words.is_empty()
            && words.len() % 82 == 0
            && words.len() <= 32 * 82
            && words.chunks(82).all(|r| {
                let dm = &r[2..];
                let rule = |t: usize| dm[t] == (dm[t - 3] ^ dm[t - 8] ^ dm[t - 14] ^ dm[t - 16]).rotate_left(1);
                r[0] < 32 && (r[1] == 58 || r[1] == 65) && (16..80).all(rule)
            })
            && words.chunks(82).map(|r| r[0]).collect::<HashSet<_>>().len() == words.len() / 82;
        self.tables.insert(slot, good);
        let there = |c: &[u32]| c[0].max(c[2]) < 80 && c[1].max(c[3]) < 32 && c[4] < 2;
        let suit = words.len() % 6 == 0 && words.len() <= 6 * 512 && words.chunks(6).all(there);
        self.conditions.insert(slot, suit.then(|| words.to_vec()));
        Sha1::set_table(slot, if good { words } else { &[] });
    }
    fn good(&self, slot: u32) -> bool {
        *self.tables.get(&slot).expect("no such table")
    }
    fn conditions(&self, slot: u32) -> Option<&[u32]> {
        self.conditions.get(&slot).expect("no such conditions").as_deref()
    }
    /// Whether table, conditions and masks suit a call with these flags that compresses so many blocks. With no block the Rust
    /// comes to none of them, but for a mask too many there is a refusal still.
    fn suit(&self, s: &State, call: &Call, blocks: u64) -> bool {
        let there = || self.good(call.slot) && (!s.conditions || self.conditions(call.conditions).is_some());
        !s.detect || ((!s.lent || call.masks.len() as u64 == blocks) && (blocks == 0 || there()))
    }
}

fn one_block(mut body: In, tables: &Tables, o: &mut Out) {
    let (words, slot, mask, flags) = (body.five(), body.word(), body.word(), body.number(1));
    match <&[u8; 64]>::try_from(body.0) {
        Ok(block) if tables.good(slot) => {
            let masks = [mask];
            Sha1::lend(slot, &masks);
            Sha1::lend_conditions(None);
            let b = Sha1::one_block(words, block, flags & 2 != 0, flags & 8 != 0);
            o.known(astray(true, 1));
            o.put(b.mark as u64, 8);
            o.put(b.place as u64, 8);
            o.put(b.tried as u64, 8);
            o.five(b.words);
        }
        _ => o.zeros(1 + 4 + 8 + 24 + 20),
    }
}

/// 98 if the Rust took another number of masks than the paper says, though it can't refuse any.
fn astray(looked_at: bool, masks: usize) -> u64 {
    if looked_at && Sha1::masks_taken() != masks { 98 } else { 0 }
}

fn verdict(r: &CollisionResult) -> u64 {
    match r {
        CollisionResult::Ok(_) => 1,
        CollisionResult::Mitigated(_) => 2,
        CollisionResult::Collision(_) => 3,
    }
}

/// The hasher as asked for, or none where no call makes one like it.
fn hasher(body: &mut In) -> Option<State> {
    let words = body.five();
    let pending: [u8; 64] = body.take(64).try_into().unwrap();
    let (fill, blocks, mark, flags) = (body.number(8), body.number(8), body.number(8), body.number(8));
    let first = First { block: body.number(8), place: body.number(8) };
    let flag = |bit: u64| flags & bit != 0;
    let real = fill < 64
        && blocks < 1 << 55
        && pending[fill as usize..].iter().all(|b| *b == 0)
        && mark <= flags & 1
        && if mark == 1 { first.block < blocks && first.place < 32 } else { first == First::default() }
        && flags < 32
        && flags & 20 != 20;
    let state = State {
        words,
        pending,
        fill,
        blocks,
        mark: mark != 0,
        detect: flag(1),
        mitigate: flag(2),
        lent: flag(4),
        reduced: flag(8),
        conditions: flag(16),
        first,
    };
    real.then_some(state)
}

/// One call of a session, as the request has it.
struct Call<'a> {
    what: u64,
    slot: u32,
    conditions: u32,
    bytes: &'a [u8],
    masks: Vec<u32>,
    out_len: u32,
}

impl<'a> Call<'a> {
    fn read(body: &mut In<'a>) -> Call<'a> {
        let what = body.number(1);
        let (slot, conditions) = if what != 2 { (body.word(), body.word()) } else { (0, 0) };
        let bytes = if what == 1 { body.bytes() } else { &[] };
        let masks = if what != 2 { body.masks() } else { vec![] };
        let (out_len, _) = if what == 4 { (body.word(), body.number(1)) } else { (20, 0) };
        Call { what, slot, conditions, bytes, masks, out_len }
    }
    /// Whether the Rust can be asked: the paper has no refusal for it.
    fn suits(&self, s: &State, tables: &Tables) -> bool {
        let more = self.bytes.len() as u64;
        match self.what {
            1 => {
                more <= (1 << 61) - 1 - (s.blocks * 64 + s.fill)
                    && tables.suit(s, self, (s.fill + more) / 64)
            }
            2 => true,
            _ => self.out_len == 20 && tables.suit(s, self, if s.fill < 56 { 1 } else { 2 }),
        }
    }
    fn lend(&self) {
        Sha1::lend(self.slot, &self.masks)
    }
    /// The verdict's number, the output, and a number that no side refuses by where the Rust contradicts itself.
    fn make(&self, sha1: &mut Sha1) -> (u64, Vec<u8>, u64) {
        self.lend();
        match self.what {
            1 => Update::update(sha1, self.bytes),
            2 => Reset::reset(sha1),
            3 => {
                let r = sha1.clone().try_finalize();
                return (verdict(&r), r.hash().to_vec(), 0);
            }
            4 => {
                // This one gives no verdict, so a copy is asked for it.
                let r = sha1.clone().try_finalize();
                self.lend();
                let mut digest = [0; 20];
                FixedOutputReset::finalize_into_reset(sha1, &mut digest);
                // 99 if the two ways to finish differ.
                let wrong = if &digest == r.hash() { 0 } else { 99 };
                return (verdict(&r), digest.to_vec(), wrong);
            }
            _ => panic!("no such call"),
        }
        (0, vec![], 0)
    }
    /// The first mark that the call hands out, that of the hasher after it, and 97 where the Rust goes astray.
    fn firsts(&self, before: &State, after: &State, said: u64, out: &[u8]) -> (First, First, u64) {
        self.lend();
        let none = First::default();
        match self.what {
            1 => {
                let (first, wrong) = first_after(before, after.mark, self.bytes, after.words);
                (none, first, wrong)
            }
            2 => (none, none, 0),
            _ => {
                let padding = padding(before.blocks * 64 + before.fill);
                let (first, wrong) = first_after(before, said != 1, &padding, In(out).five());
                (first, if self.what == 3 { before.first } else { none }, wrong)
            }
        }
    }
}

/// What FIPS 180-4 has behind a message of so many bytes.
fn padding(len: u64) -> Vec<u8> {
    let mut bytes = vec![0x80];
    bytes.resize(1 + (119 - len % 64) as usize % 64, 0);
    bytes.extend_from_slice(&(len << 3).to_be_bytes());
    bytes
}

/// The first block that sets the mark, and the record tried last then: the Rust keeps neither, so it is fed the bytes again,
/// block by block, and asked after each. With them the words that it has come to.
fn first_mark(s: &State, bytes: &[u8]) -> (Option<First>, [u32; 5]) {
    let mut sha1 = Sha1::from_state(s);
    let (mut first, mut bytes) = (None, bytes);
    for block in s.blocks.. {
        let (piece, rest) = bytes.split_at(bytes.len().min(if block == s.blocks { 64 - s.fill as usize } else { 64 }));
        Update::update(&mut sha1, piece);
        if first.is_none() && sha1.state(s).mark {
            first = Some(First { block, place: sha1.last_tried() as u64 });
        }
        bytes = rest;
        if bytes.is_empty() {
            break;
        }
    }
    (first, sha1.state(s).words)
}

/// The first mark after a call, before which it was that of `s`: asked for block by block where the call has set the mark.
/// 97 where the Rust comes to another end then.
fn first_after(s: &State, marked: bool, bytes: &[u8], words: [u32; 5]) -> (First, u64) {
    if !marked || s.mark {
        return (if marked { s.first } else { First::default() }, 0);
    }
    match first_mark(s, bytes) {
        (Some(first), end) if end == words => (first, 0),
        _ => (First::default(), 97),
    }
}

fn session(mut body: In, tables: &Tables, o: &mut Out) {
    let mut held = hasher(&mut body).map(|s| (Sha1::from_state(&s), s));
    while !body.0.is_empty() {
        let call = Call::read(&mut body);
        let Some((sha1, s)) = held.as_mut().filter(|(_, s)| call.suits(s, tables)) else {
            o.zeros(1 + 4 + 32 + 132 + 4);
            continue;
        };
        let looked_at = s.detect && s.conditions && call.what != 2;
        Sha1::lend_conditions(if looked_at { tables.conditions(call.conditions) } else { None });
        let before = *s;
        let (said, out, wrong) = call.make(sha1);
        let wrong = wrong + astray(s.detect && s.lent && call.what != 2, call.masks.len());
        *s = sha1.state(s);
        let (handed_out, first, lost) = call.firsts(&before, s, said, &out);
        s.first = first;
        o.known(wrong + lost);
        o.put(said, 8);
        o.first(handed_out);
        o.hasher(s);
        o.put(out.len() as u64, 4);
        o.0.extend_from_slice(&out);
    }
}

/// A new hasher with the Rust's own defaults, whose masks are lent.
fn at_start() -> State {
    let flags = 1 | 2 | 4u64;
    let start = [0x67452301u32, 0xEFCDAB89, 0x98BADCFE, 0x10325476, 0xC3D2E1F0].map(u32::to_be_bytes).concat();
    hasher(&mut In(&[&start[..], &[0; 64 + 24], &flags.to_be_bytes(), &[0; 16]].concat())).unwrap()
}

fn one_shot(mut body: In, tables: &Tables, o: &mut Out) {
    let (slot, bytes, masks) = (body.word(), body.bytes(), body.masks());
    if tables.good(slot) && masks.len() == (bytes.len() + 8) / 64 + 1 {
        Sha1::lend(slot, &masks);
        Sha1::lend_conditions(None);
        let r = Sha1::try_digest(bytes);
        let wrong = astray(true, masks.len());
        Sha1::lend(slot, &masks);
        let padded = [bytes, &padding(bytes.len() as u64)].concat();
        let (first, lost) = first_after(&at_start(), verdict(&r) != 1, &padded, In(r.hash()).five());
        o.known(wrong + lost);
        o.put(verdict(&r), 8);
        o.first(first);
        o.0.extend_from_slice(r.hash());
    } else {
        o.zeros(1 + 4 + 32 + 20);
    }
}

fn main() {
    let args: Vec<String> = std::env::args().collect();
    let [_, requests, answers] = &args[..] else { panic!("usage: oracle REQUESTS ANSWERS") };
    let file = std::fs::read(requests).expect("cannot read the requests");
    let mut answers = std::io::BufWriter::new(std::fs::File::create(answers).expect("cannot write the answers"));
    let mut tables = Tables::default();
    let mut file = In(&file);
    while !file.0.is_empty() {
        let kind = file.number(1);
        let mut body = In(file.bytes());
        let mut o = Out::default();
        match kind {
            1 => {
                let slot = body.word();
                let words = body.words(body.0.len() / 4);
                tables.set(slot, &words);
                continue;
            }
            2 => one_block(body, &tables, &mut o),
            3 => session(body, &tables, &mut o),
            4 => one_shot(body, &tables, &mut o),
            5 | 8 => o.zeros(1 + 4 + 8),
            6 => o.zeros(1 + 4 + 16),
            7 => o.zeros(1 + 4 + 8),
            _ => panic!("no such request"),
        }
        answers.write_all(&[kind as u8]).unwrap();
        answers.write_all(&(o.0.len() as u32).to_be_bytes()).unwrap();
        answers.write_all(&o.0).unwrap();
    }
    answers.flush().unwrap();
}
