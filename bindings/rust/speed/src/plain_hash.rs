//! SHA-384 and HMAC for `plain.rs`, in the library's form: a state by value, a message schedule of eighty words that is filled
//! anew for each block, four rounds to a turn, whole blocks from where they stand, and a zeroed block for the bytes that wait.

use crate::constants::{ROUND_WORDS, START};

/// Bytes in a block.
const BLOCK: usize = 128;

/// Eight words: a hash value, or the working variables.
#[derive(Clone, Copy)]
#[repr(C)]
struct Words {
    a: u64,
    b: u64,
    c: u64,
    d: u64,
    e: u64,
    f: u64,
    g: u64,
    h: u64,
}

/// The bytes given so far.
#[derive(Clone, Copy)]
#[repr(C)]
pub struct State {
    hash: Words,
    block: [u8; BLOCK],
    low: u64,
    high: u64,
}

// ---- the functions of words

fn plus(x: u64, y: u64) -> u64 {
    x.wrapping_add(y)
}

fn ch(x: u64, y: u64, z: u64) -> u64 {
    (x & y) ^ (!x & z)
}

fn maj(x: u64, y: u64, z: u64) -> u64 {
    (x & y) ^ (x & z) ^ (y & z)
}

fn sum0(x: u64) -> u64 {
    x.rotate_right(28) ^ x.rotate_right(34) ^ x.rotate_right(39)
}

fn sum1(x: u64) -> u64 {
    x.rotate_right(14) ^ x.rotate_right(18) ^ x.rotate_right(41)
}

fn sigma0(x: u64) -> u64 {
    x.rotate_right(1) ^ x.rotate_right(8) ^ (x >> 7)
}

fn sigma1(x: u64) -> u64 {
    x.rotate_right(19) ^ x.rotate_right(61) ^ (x >> 6)
}

// ---- blocks

fn word_at(block: &[u8], place: usize) -> u64 {
    u64::from_be_bytes(block[place..place + 8].try_into().expect("eight bytes"))
}

fn first_words(block: &[u8]) -> [u64; 80] {
    let mut w = [0; 80];
    for (t, word) in w.iter_mut().take(16).enumerate() {
        *word = word_at(block, 8 * t);
    }
    w
}

fn schedule(block: &[u8]) -> [u64; 80] {
    let mut w = first_words(block);
    for n in 0..64 {
        w[n + 16] = plus(plus(plus(sigma1(w[n + 14]), w[n + 9]), sigma0(w[n + 1])), w[n]);
    }
    w
}

fn round(v: Words, k: u64, w: u64) -> Words {
    let t1 = plus(plus(plus(plus(v.h, sum1(v.e)), ch(v.e, v.f, v.g)), k), w);
    let t2 = plus(sum0(v.a), maj(v.a, v.b, v.c));
    Words { a: plus(t1, t2), b: v.a, c: v.b, d: v.c, e: plus(v.d, t1), f: v.e, g: v.f, h: v.g }
}

fn rounds(w: &[u64; 80], v: Words) -> Words {
    let mut u = v;
    for t in (0..80).step_by(4) {
        let one = round(u, ROUND_WORDS[t], w[t]);
        let two = round(one, ROUND_WORDS[t + 1], w[t + 1]);
        let three = round(two, ROUND_WORDS[t + 2], w[t + 2]);
        u = round(three, ROUND_WORDS[t + 3], w[t + 3]);
    }
    u
}

fn sums(v: Words, u: Words) -> Words {
    Words {
        a: plus(v.a, u.a),
        b: plus(v.b, u.b),
        c: plus(v.c, u.c),
        d: plus(v.d, u.d),
        e: plus(v.e, u.e),
        f: plus(v.f, u.f),
        g: plus(v.g, u.g),
        h: plus(v.h, u.h),
    }
}

/// After one block, from the hash value before it.
fn compress(v: Words, block: &[u8]) -> Words {
    sums(rounds(&schedule(block), v), v)
}

/// After the whole blocks of the bytes.
fn hash_blocks(v: Words, bytes: &[u8]) -> Words {
    bytes.chunks_exact(BLOCK).fold(v, compress)
}

// ---- the state

fn block_of(front: &[u8]) -> [u8; BLOCK] {
    let mut block = [0; BLOCK];
    block[..front.len()].copy_from_slice(front);
    block
}

/// The byte 80 hex, zeros, and the length in bits; how many bytes of it there are.
fn padding(high: u64, low: u64) -> ([u8; 144], usize) {
    let zeros = ((239 - low % 128) % 128) as usize;
    let mut padding = [0; 144];
    padding[0] = 0x80;
    padding[zeros + 1..zeros + 9].copy_from_slice(&((high << 3) + (low >> 61)).to_be_bytes());
    padding[zeros + 9..zeros + 17].copy_from_slice(&(low << 3).to_be_bytes());
    (padding, zeros + 17)
}

/// The first six words.
fn digest(v: Words) -> [u8; 48] {
    let mut digest = [0; 48];
    for (bytes, word) in digest.chunks_exact_mut(8).zip([v.a, v.b, v.c, v.d, v.e, v.f]) {
        bytes.copy_from_slice(&word.to_be_bytes());
    }
    digest
}

impl State {
    pub fn begin() -> State {
        let [a, b, c, d, e, f, g, h] = START;
        let hash = Words { a, b, c, d, e, f, g, h };
        State { hash, block: [0; BLOCK], low: 0, high: 0 }
    }

    /// Not inlined, because the library's is a function by itself too.
    #[inline(never)]
    pub fn add(self, bytes: &[u8]) -> State {
        let used = (self.low % 128) as usize;
        let mut block = block_of(&self.block[..used]);
        let (low, is_carried) = self.low.overflowing_add(bytes.len() as u64);
        let high = plus(self.high, u64::from(is_carried));
        let room = BLOCK - used;
        if bytes.len() < room {
            block[used..used + bytes.len()].copy_from_slice(bytes);
            return State { hash: self.hash, block, low, high };
        }
        block[used..].copy_from_slice(&bytes[..room]);
        let whole = room + (bytes.len() - room) / BLOCK * BLOCK;
        let hash = hash_blocks(compress(self.hash, &block), &bytes[room..whole]);
        State { hash, block: block_of(&bytes[whole..]), low, high }
    }

    pub fn end(self) -> [u8; 48] {
        let (padding, length) = padding(self.high, self.low);
        digest(self.add(&padding[..length]).hash)
    }
}

pub fn sha384_of(bytes: &[u8]) -> [u8; 48] {
    State::begin().add(bytes).end()
}

// ---- HMAC

/// A hash of the key's block, every byte of it mixed with the same one.
fn keyed(key: &[u8], pad: u8) -> State {
    let mut block = if key.len() > BLOCK { block_of(&sha384_of(key)) } else { block_of(key) };
    block.iter_mut().for_each(|byte| *byte ^= pad);
    State::begin().add(&block)
}

/// The state before the first byte of the text.
pub fn hmac_begin(key: &[u8]) -> State {
    keyed(key, 0x36)
}

/// The tag of all bytes given, under the same key.
pub fn hmac_end(key: &[u8], given: State) -> [u8; 24] {
    let mac = keyed(key, 0x5C).add(&given.end()).end();
    *mac.first_chunk().expect("more bytes than are kept")
}

pub fn hmac_of(key: &[u8], text: &[u8]) -> [u8; 24] {
    hmac_end(key, hmac_begin(key).add(text))
}
