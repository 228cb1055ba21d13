//! SHA-384 and HMAC for `fast.rs`: the message schedule in sixteen words that are replaced as the rounds go, sixteen rounds to a
//! turn with no word moved, and a state that is changed where it stands.

use crate::constants::{ROUND_WORDS, START};

/// Bytes in a block.
const BLOCK: usize = 128;
/// Bytes at the end of the last block for the length in bits.
const COUNT: usize = 16;

/// The bytes given so far.
pub struct Sha384 {
    hash: [u64; 8],
    block: [u8; BLOCK],
    count: u128,
}

/// One round, which leaves each word in the place that the next round takes it from by another name.
macro_rules! round {
    ($a:ident $b:ident $c:ident $d:ident $e:ident $f:ident $g:ident $h:ident, $word:expr) => {
        let sum1 = $e.rotate_right(14) ^ $e.rotate_right(18) ^ $e.rotate_right(41);
        let choice = $g ^ ($e & ($f ^ $g));
        $h = $h.wrapping_add(sum1).wrapping_add(choice).wrapping_add($word);
        $d = $d.wrapping_add($h);
        let sum0 = $a.rotate_right(28) ^ $a.rotate_right(34) ^ $a.rotate_right(39);
        let majority = ($a & $b) | ($c & ($a | $b));
        $h = $h.wrapping_add(sum0).wrapping_add(majority);
    };
}

/// Eight rounds, after which every word is in its place again.
macro_rules! eight_rounds {
    ($a:ident $b:ident $c:ident $d:ident $e:ident $f:ident $g:ident $h:ident, $word:expr, $from:literal) => {
        round!($a $b $c $d $e $f $g $h, $word($from));
        round!($h $a $b $c $d $e $f $g, $word($from + 1));
        round!($g $h $a $b $c $d $e $f, $word($from + 2));
        round!($f $g $h $a $b $c $d $e, $word($from + 3));
        round!($e $f $g $h $a $b $c $d, $word($from + 4));
        round!($d $e $f $g $h $a $b $c, $word($from + 5));
        round!($c $d $e $f $g $h $a $b, $word($from + 6));
        round!($b $c $d $e $f $g $h $a, $word($from + 7));
    };
}

/// The next word of the schedule in the place of the one sixteen before it.
#[inline(always)]
fn next_word(w: &mut [u64; 16], t: usize) -> u64 {
    let (near, far) = (w[(t + 1) % 16], w[(t + 14) % 16]);
    let sigma0 = near.rotate_right(1) ^ near.rotate_right(8) ^ (near >> 7);
    let sigma1 = far.rotate_right(19) ^ far.rotate_right(61) ^ (far >> 6);
    w[t] = w[t].wrapping_add(sigma0).wrapping_add(w[(t + 9) % 16]).wrapping_add(sigma1);
    w[t]
}

fn compress(hash: &mut [u64; 8], block: &[u8; BLOCK]) {
    let mut w = [0; 16];
    for (word, bytes) in w.iter_mut().zip(block.chunks_exact(8)) {
        *word = u64::from_be_bytes(bytes.try_into().expect("eight bytes"));
    }
    let [mut a, mut b, mut c, mut d, mut e, mut f, mut g, mut h] = *hash;
    let mut turns = ROUND_WORDS.chunks_exact(16);
    if let Some(k) = turns.next() {
        let word = |t: usize| w[t].wrapping_add(k[t]);
        eight_rounds!(a b c d e f g h, word, 0);
        eight_rounds!(a b c d e f g h, word, 8);
    }
    for k in turns {
        let mut word = |t: usize| next_word(&mut w, t).wrapping_add(k[t]);
        eight_rounds!(a b c d e f g h, word, 0);
        eight_rounds!(a b c d e f g h, word, 8);
    }
    for (word, more) in hash.iter_mut().zip([a, b, c, d, e, f, g, h]) {
        *word = word.wrapping_add(more);
    }
}

impl Sha384 {
    pub fn begin() -> Sha384 {
        Sha384 { hash: START, block: [0; BLOCK], count: 0 }
    }

    /// How many bytes wait for a whole block.
    fn waiting(&self) -> usize {
        self.count as usize % BLOCK
    }

    pub fn add(&mut self, mut bytes: &[u8]) {
        let used = self.waiting();
        self.count += bytes.len() as u128;
        if used > 0 {
            let (first, rest) = bytes.split_at(bytes.len().min(BLOCK - used));
            self.block[used..used + first.len()].copy_from_slice(first);
            if used + first.len() < BLOCK {
                return;
            }
            compress(&mut self.hash, &self.block);
            bytes = rest;
        }
        while let Some((block, rest)) = bytes.split_first_chunk() {
            compress(&mut self.hash, block);
            bytes = rest;
        }
        self.block[..bytes.len()].copy_from_slice(bytes);
    }

    pub fn end(mut self) -> [u8; 48] {
        let used = self.waiting();
        self.block[used] = 0x80;
        self.block[used + 1..].fill(0);
        if used + 1 + COUNT > BLOCK {
            compress(&mut self.hash, &self.block);
            self.block.fill(0);
        }
        self.block[BLOCK - COUNT..].copy_from_slice(&(8 * self.count).to_be_bytes());
        compress(&mut self.hash, &self.block);
        let mut digest = [0; 48];
        for (bytes, word) in digest.chunks_exact_mut(8).zip(self.hash) {
            bytes.copy_from_slice(&word.to_be_bytes());
        }
        digest
    }
}

pub fn sha384_of(bytes: &[u8]) -> [u8; 48] {
    let mut sha384 = Sha384::begin();
    sha384.add(bytes);
    sha384.end()
}

// ---- HMAC

/// A hash of the key's block, every byte of it mixed with the same one.
fn keyed(key: &[u8], pad: u8) -> Sha384 {
    let mut block = [pad; BLOCK];
    block.iter_mut().zip(key).for_each(|(byte, of_key)| *byte ^= of_key);
    let mut sha384 = Sha384::begin();
    sha384.add(&block);
    sha384
}

pub fn hmac_of(key: &[u8], text: &[u8]) -> [u8; 24] {
    let hash;
    let key = if key.len() > BLOCK {
        hash = sha384_of(key);
        &hash[..]
    } else {
        key
    };
    let (mut inner, mut outer) = (keyed(key, 0x36), keyed(key, 0x5C));
    inner.add(text);
    outer.add(&inner.end());
    *outer.end().first_chunk().expect("more bytes than are kept")
}
