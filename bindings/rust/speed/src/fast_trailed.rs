//! SHA-1 and manufacturers' lines for `fast.rs`: the message schedule in sixteen words that are replaced as the rounds go, five
//! rounds to a turn with no word moved, a state that is changed where it stands, and digits that are compared as they are decoded.

use crate::constants::{SHA1_ROUND_WORDS, SHA1_START};
use crate::fast::{are_hexadecimal, read, value};
use crate::kinds::RECORDS;
use crate::side::{Refusal, MISSING_TRAILER, SHORT_OUTPUT, WRONG_HASH};
use obscurlane::TRAILER;

/// Bytes in a block.
const BLOCK: usize = 64;
/// Bytes at the end of the last block for the length in bits.
const COUNT: usize = 8;

/// The bytes given so far.
struct Sha1 {
    hash: [u32; 5],
    block: [u8; BLOCK],
    count: u64,
}

// ---- blocks

/// One round, which leaves each word in the place that the next round takes it from by another name.
macro_rules! round {
    ($a:ident $b:ident $c:ident $d:ident $e:ident, $mixed:ident, $k:expr, $word:expr) => {
        let sum = $a.rotate_left(5).wrapping_add($mixed($b, $c, $d)).wrapping_add($k);
        $e = $e.wrapping_add(sum).wrapping_add($word);
        $b = $b.rotate_left(30);
    };
}

/// Five rounds, after which every word is in its place again.
macro_rules! five_rounds {
    ($a:ident $b:ident $c:ident $d:ident $e:ident, $mixed:ident, $k:expr, $word:ident, $from:expr) => {
        round!($a $b $c $d $e, $mixed, $k, $word($from));
        round!($e $a $b $c $d, $mixed, $k, $word($from + 1));
        round!($d $e $a $b $c, $mixed, $k, $word($from + 2));
        round!($c $d $e $a $b, $mixed, $k, $word($from + 3));
        round!($b $c $d $e $a, $mixed, $k, $word($from + 4));
    };
}

/// Twenty rounds, whose function and word are the same.
macro_rules! twenty_rounds {
    ($a:ident $b:ident $c:ident $d:ident $e:ident, $mixed:ident, $word:ident, $number:literal) => {
        let k = SHA1_ROUND_WORDS[$number];
        five_rounds!($a $b $c $d $e, $mixed, k, $word, 20 * $number);
        five_rounds!($a $b $c $d $e, $mixed, k, $word, 20 * $number + 5);
        five_rounds!($a $b $c $d $e, $mixed, k, $word, 20 * $number + 10);
        five_rounds!($a $b $c $d $e, $mixed, k, $word, 20 * $number + 15);
    };
}

fn choice(x: u32, y: u32, z: u32) -> u32 {
    z ^ (x & (y ^ z))
}

fn parity(x: u32, y: u32, z: u32) -> u32 {
    x ^ y ^ z
}

fn majority(x: u32, y: u32, z: u32) -> u32 {
    (x & y) | (z & (x | y))
}

/// The word of round t: the block's, and from the sixteenth on one in the place of the one sixteen before it.
#[inline(always)]
fn word_of(w: &mut [u32; 16], t: usize) -> u32 {
    if t >= 16 {
        let mixed = w[(t + 13) % 16] ^ w[(t + 8) % 16] ^ w[(t + 2) % 16] ^ w[t % 16];
        w[t % 16] = mixed.rotate_left(1);
    }
    w[t % 16]
}

fn compress(hash: &mut [u32; 5], block: &[u8; BLOCK]) {
    let mut w = [0; 16];
    for (word, bytes) in w.iter_mut().zip(block.chunks_exact(4)) {
        *word = u32::from_be_bytes(bytes.try_into().expect("four bytes"));
    }
    let [mut a, mut b, mut c, mut d, mut e] = *hash;
    let mut word = |t: usize| word_of(&mut w, t);
    twenty_rounds!(a b c d e, choice, word, 0);
    twenty_rounds!(a b c d e, parity, word, 1);
    twenty_rounds!(a b c d e, majority, word, 2);
    twenty_rounds!(a b c d e, parity, word, 3);
    for (word, more) in hash.iter_mut().zip([a, b, c, d, e]) {
        *word = word.wrapping_add(more);
    }
}

// ---- the state

impl Sha1 {
    fn begin() -> Sha1 {
        Sha1 { hash: SHA1_START, block: [0; BLOCK], count: 0 }
    }

    /// How many bytes wait for a whole block.
    fn waiting(&self) -> usize {
        self.count as usize % BLOCK
    }

    fn add(&mut self, mut bytes: &[u8]) {
        let used = self.waiting();
        self.count += bytes.len() as u64;
        if used > 0 {
            let (first, rest) = bytes.split_at(bytes.len().min(BLOCK - used));
            self.block[used..used + first.len()].copy_from_slice(first);
            if used + first.len() < BLOCK {
                return;
            }
            compress(&mut self.hash, &self.block);
            bytes = rest;
        }
        while let Some((block, rest)) = bytes.split_first_chunk() {
            compress(&mut self.hash, block);
            bytes = rest;
        }
        self.block[..bytes.len()].copy_from_slice(bytes);
    }

    fn end(mut self) -> [u8; 20] {
        let used = self.waiting();
        self.block[used] = 0x80;
        self.block[used + 1..].fill(0);
        if used + 1 + COUNT > BLOCK {
            compress(&mut self.hash, &self.block);
            self.block.fill(0);
        }
        self.block[BLOCK - COUNT..].copy_from_slice(&(8 * self.count).to_be_bytes());
        compress(&mut self.hash, &self.block);
        let mut digest = [0; 20];
        for (bytes, word) in digest.chunks_exact_mut(4).zip(self.hash) {
            bytes.copy_from_slice(&word.to_be_bytes());
        }
        digest
    }
}

pub fn sha1_of(bytes: &[u8]) -> [u8; 20] {
    let mut sha1 = Sha1::begin();
    sha1.add(bytes);
    sha1.end()
}

// ---- lines

/// Of the record and one line feed.
fn hash_of(record: &[u8]) -> [u8; 20] {
    let mut sha1 = Sha1::begin();
    sha1.add(record);
    sha1.add(b"\n");
    sha1.end()
}

/// The kind of the record in a line.
pub fn read_trailed(line: &[u8]) -> Result<usize, Refusal> {
    let (record, trailer) = line.split_last_chunk::<TRAILER>().ok_or(MISSING_TRAILER)?;
    let [b'#', digits @ ..] = trailer else { return Err(MISSING_TRAILER) };
    if !are_hexadecimal(digits) {
        return Err(MISSING_TRAILER);
    }
    let (kind, _) = read(record, RECORDS)?;
    let said = digits.chunks_exact(2).map(|pair| 16 * value(pair[0]) + value(pair[1]));
    said.eq(hash_of(record)).then_some(kind as usize).ok_or(WRONG_HASH)
}

pub fn write_trailed(record: &[u8], out: &mut [u8]) -> Result<usize, Refusal> {
    const DIGITS: &[u8; 16] = b"0123456789ABCDEF";
    read(record, RECORDS)?;
    let total = record.len() + TRAILER;
    let (front, trailer) = out.get_mut(..total).ok_or(SHORT_OUTPUT)?.split_at_mut(record.len());
    front.copy_from_slice(record);
    trailer[0] = b'#';
    for (pair, byte) in trailer[1..].chunks_exact_mut(2).zip(hash_of(record)) {
        pair.copy_from_slice(&[DIGITS[usize::from(byte >> 4)], DIGITS[usize::from(byte & 15)]]);
    }
    Ok(total)
}
