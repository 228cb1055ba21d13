//! SHA-1 and manufacturers' lines for `plain.rs`, in the library's form: a state by value, a message schedule of eighty words that
//! is filled anew for each block, twenty rounds to a loop, whole blocks from where they stand, and a zeroed block for the bytes
//! that wait; a trailer is made whole, and compared or written.

use crate::constants::{SHA1_ROUND_WORDS, SHA1_START};
use crate::kinds::RECORDS;
use crate::plain::{hex_digit, is_hex, read};
use crate::side::{Refusal, MISSING_TRAILER, SHORT_OUTPUT, WRONG_HASH};
use obscurlane::TRAILER;

/// Bytes in a block.
const BLOCK: usize = 64;

/// Five words: a hash value, or the working variables.
#[derive(Clone, Copy)]
struct Words {
    a: u32,
    b: u32,
    c: u32,
    d: u32,
    e: u32,
}

/// The bytes given so far.
#[derive(Clone, Copy)]
struct State {
    hash: Words,
    block: [u8; BLOCK],
    count: u64,
}

// ---- the functions of words

fn plus(x: u32, y: u32) -> u32 {
    x.wrapping_add(y)
}

/// The function of round t.
fn mixed(t: usize, x: u32, y: u32, z: u32) -> u32 {
    match t {
        ..20 => (x & y) ^ (!x & z),
        40..60 => (x & y) ^ (x & z) ^ (y & z),
        _ => x ^ y ^ z,
    }
}

/// The word of round t.
fn constant(t: usize) -> u32 {
    let [first, second, third, fourth] = SHA1_ROUND_WORDS;
    match t {
        ..20 => first,
        20..40 => second,
        40..60 => third,
        _ => fourth,
    }
}

// ---- blocks

fn word_at(block: &[u8], place: usize) -> u32 {
    u32::from_be_bytes(block[place..place + 4].try_into().expect("four bytes"))
}

fn first_words(block: &[u8]) -> [u32; 80] {
    let mut w = [0; 80];
    for (t, word) in w.iter_mut().take(16).enumerate() {
        *word = word_at(block, 4 * t);
    }
    w
}

fn schedule(block: &[u8]) -> [u32; 80] {
    let mut w = first_words(block);
    for n in 0..64 {
        w[n + 16] = (w[n + 13] ^ w[n + 8] ^ w[n + 2] ^ w[n]).rotate_left(1);
    }
    w
}

fn round(v: Words, t: usize, w: u32) -> Words {
    let added = plus(plus(v.a.rotate_left(5), mixed(t, v.b, v.c, v.d)), v.e);
    let a = plus(plus(added, constant(t)), w);
    Words { a, b: v.a, c: v.b.rotate_left(30), d: v.c, e: v.d }
}

/// Function and word are the same in all of them.
fn twenty_rounds(w: &[u32; 80], v: Words, from: usize) -> Words {
    (from..from + 20).fold(v, |u, t| round(u, t, w[t]))
}

fn rounds(w: &[u32; 80], v: Words) -> Words {
    let one = twenty_rounds(w, v, 0);
    let two = twenty_rounds(w, one, 20);
    let three = twenty_rounds(w, two, 40);
    twenty_rounds(w, three, 60)
}

fn sums(v: Words, u: Words) -> Words {
    Words {
        a: plus(v.a, u.a),
        b: plus(v.b, u.b),
        c: plus(v.c, u.c),
        d: plus(v.d, u.d),
        e: plus(v.e, u.e),
    }
}

/// After one block, from the hash value before it.
fn compress(v: Words, block: &[u8]) -> Words {
    sums(rounds(&schedule(block), v), v)
}

/// After the whole blocks of the bytes.
fn hash_blocks(v: Words, bytes: &[u8]) -> Words {
    bytes.chunks_exact(BLOCK).fold(v, compress)
}

// ---- the state

fn block_of(front: &[u8]) -> [u8; BLOCK] {
    let mut block = [0; BLOCK];
    block[..front.len()].copy_from_slice(front);
    block
}

/// The byte 80 hex, zeros, and the length in bits; how many bytes of it there are.
fn padding(count: u64) -> ([u8; 72], usize) {
    let zeros = ((119 - count % 64) % 64) as usize;
    let mut padding = [0; 72];
    padding[0] = 0x80;
    padding[zeros + 1..zeros + 9].copy_from_slice(&(count << 3).to_be_bytes());
    (padding, zeros + 9)
}

fn digest(v: Words) -> [u8; 20] {
    let mut digest = [0; 20];
    for (bytes, word) in digest.chunks_exact_mut(4).zip([v.a, v.b, v.c, v.d, v.e]) {
        bytes.copy_from_slice(&word.to_be_bytes());
    }
    digest
}

impl State {
    fn begin() -> State {
        let [a, b, c, d, e] = SHA1_START;
        State { hash: Words { a, b, c, d, e }, block: [0; BLOCK], count: 0 }
    }

    /// Not inlined, because the library's is a function by itself too.
    #[inline(never)]
    fn add(self, bytes: &[u8]) -> State {
        let used = (self.count % 64) as usize;
        let mut block = block_of(&self.block[..used]);
        let count = self.count.wrapping_add(bytes.len() as u64);
        let room = BLOCK - used;
        if bytes.len() < room {
            block[used..used + bytes.len()].copy_from_slice(bytes);
            return State { hash: self.hash, block, count };
        }
        block[used..].copy_from_slice(&bytes[..room]);
        let whole = room + (bytes.len() - room) / BLOCK * BLOCK;
        let hash = hash_blocks(compress(self.hash, &block), &bytes[room..whole]);
        State { hash, block: block_of(&bytes[whole..]), count }
    }

    fn end(self) -> [u8; 20] {
        let (padding, length) = padding(self.count);
        digest(self.add(&padding[..length]).hash)
    }
}

pub fn sha1_of(bytes: &[u8]) -> [u8; 20] {
    State::begin().add(bytes).end()
}

// ---- lines

fn trailer_of(record: &[u8]) -> [u8; TRAILER] {
    let hash = State::begin().add(record).add(b"\n").end();
    let mut trailer = [b'#'; TRAILER];
    for (pair, &byte) in trailer[1..].chunks_exact_mut(2).zip(&hash) {
        pair.copy_from_slice(&[hex_digit(u16::from(byte >> 4)), hex_digit(u16::from(byte))]);
    }
    trailer
}

/// The kind of the record in a line.
pub fn read_trailed(line: &[u8]) -> Result<usize, Refusal> {
    let end = line.len().checked_sub(TRAILER).ok_or(MISSING_TRAILER)?;
    let (record, trailer) = line.split_at(end);
    if trailer[0] != b'#' || !is_hex(TRAILER - 1, &trailer[1..]) {
        return Err(MISSING_TRAILER);
    }
    let (kind, _) = read(record, RECORDS)?;
    if trailer == trailer_of(record) {
        return Ok(kind as usize);
    }
    Err(WRONG_HASH)
}

pub fn write_trailed(record: &[u8], out: &mut [u8]) -> Result<usize, Refusal> {
    read(record, RECORDS)?;
    let total = record.len() + TRAILER;
    let out = out.get_mut(..total).ok_or(SHORT_OUTPUT)?;
    let (front, back) = out.split_at_mut(record.len());
    front.copy_from_slice(record);
    back.copy_from_slice(&trailer_of(record));
    Ok(total)
}
