//! SHA-1, as FIPS 180-4 defines it.
//!
//! The words of its rounds are computed from the roots that they come from, and not written down: a
//! slip in a table is one that another copy of the table may share.

use crate::padding::padded;
use std::sync::LazyLock;

/// The bytes of a hash.
pub const HASH_LENGTH: usize = 20;
/// The bytes of a block.
pub const BLOCK_LENGTH: usize = 64;
/// The words of a message schedule, one for each round.
const ROUNDS: usize = 80;
/// So many rounds in a row have the same function and the same word.
const ALIKE: usize = 20;

/// The words a to e of a hash that is being computed.
type State = [u32; 5];

/// The words before the first block. FIPS 180-4 states no rule that they come from.
const START: State = [0x6745_2301, 0xEFCD_AB89, 0x98BA_DCFE, 0x1032_5476, 0xC3D2_E1F0];

/// The words of the rounds, of the square roots of 2, 3, 5 and 10.
static ROUND_WORDS: LazyLock<[u32; ROUNDS / ALIKE]> =
    LazyLock::new(|| [2, 3, 5, 10].map(scaled_root));

/// The SHA-1 of a message.
pub fn sha1(message: &[u8]) -> [u8; HASH_LENGTH] {
    let state = padded(message, BLOCK_LENGTH).chunks(BLOCK_LENGTH).fold(START, with_block);
    let bytes: Vec<u8> = state.into_iter().flat_map(u32::to_be_bytes).collect();
    bytes.try_into().expect("five words of four bytes")
}

/// The state with one block more.
fn with_block(state: State, block: &[u8]) -> State {
    let [mut a, mut b, mut c, mut d, mut e] = state;
    for (round, word) in schedule(block).into_iter().enumerate() {
        let choice = (b & c) ^ (!b & d);
        let parity = b ^ c ^ d;
        let majority = (b & c) ^ (b & d) ^ (c & d);
        let quarter = round / ALIKE;
        let mixed = [choice, parity, majority, parity][quarter];
        let next = sum([a.rotate_left(5), mixed, e, ROUND_WORDS[quarter], word]);
        (e, d, c, b, a) = (d, c, b.rotate_left(30), a, next);
    }
    let after = [a, b, c, d, e];
    std::array::from_fn(|index| sum([state[index], after[index]]))
}

/// The message schedule: the words of the block, and those that are made of earlier ones.
fn schedule(block: &[u8]) -> Vec<u32> {
    let words = block.chunks(4).map(|word| word.try_into().expect("four bytes each"));
    let mut words: Vec<u32> = words.map(u32::from_be_bytes).collect();
    for t in words.len()..ROUNDS {
        let mixed = words[t - 3] ^ words[t - 8] ^ words[t - 14] ^ words[t - 16];
        words.push(mixed.rotate_left(1));
    }
    words
}

/// The sum modulo 2 to the 32nd.
fn sum<const COUNT: usize>(words: [u32; COUNT]) -> u32 {
    words.into_iter().fold(0, u32::wrapping_add)
}

/// 2 to the 30th times the square root of a number below 16, without what stands behind the point: the
/// greatest word whose square is not above the number with 60 zero bits behind it, found bit by bit.
fn scaled_root(number: u64) -> u32 {
    let with_bit = |root: u64, bit: u32| {
        let tried = root | 1 << bit;
        if tried * tried <= number << 60 {
            tried
        } else {
            root
        }
    };
    (0..32).rev().fold(0, with_bit) as u32
}

/// The examples that are published for it, each a message and its hash in hexadecimal characters: no
/// bytes, 24 bits, 448 bits, 896 bits, and a million letters.
pub fn published() -> [(Vec<u8>, &'static str); 5] {
    [
        (Vec::new(), "DA39A3EE5E6B4B0D3255BFEF95601890AFD80709"),
        (b"abc".to_vec(), "A9993E364706816ABA3E25717850C26C9CD0D89D"),
        (
            (b'a'..=b'n').flat_map(|first| first..first + 4).collect(),
            "84983E441C3BD26EBAAE4AA1F95129E5E54670F1",
        ),
        (
            (b'a'..=b'n').flat_map(|first| first..first + 8).collect(),
            "A49B2446A02C645BF419F995B67091253A04A259",
        ),
        (vec![b'a'; 1_000_000], "34AA973CD4C4DAA4F61EEB2BDBAD27316534016F"),
    ]
}

#[cfg(test)]
mod tests {
    use super::*;
    use crate::text::base16;

    #[test]
    fn published_examples() {
        for (message, expected) in published() {
            assert_eq!(base16(&sha1(&message)), expected, "{} bytes", message.len());
        }
    }

    /// The words of the rounds as FIPS 180-4 prints them.
    #[test]
    fn the_words_are_those_in_print() {
        assert_eq!(*ROUND_WORDS, [0x5A82_7999, 0x6ED9_EBA1, 0x8F1B_BCDC, 0xCA62_C1D6]);
    }

    /// Sixteen digits upwards and downwards, and then one of each in turn, by bytes with the lowest
    /// first: a slip of one digit in the first words would stand out.
    #[test]
    fn the_first_words_count_up_and_down() {
        let digits = (0..16).chain((0..16).rev()).chain([15, 0, 14, 1, 13, 2, 12, 3]);
        let digits: Vec<u8> = digits.collect();
        let bytes: Vec<u8> = digits.chunks(2).map(|pair| pair[0] << 4 | pair[1]).collect();
        let in_bytes: Vec<u8> = START.into_iter().flat_map(u32::to_le_bytes).collect();
        assert_eq!(in_bytes, bytes);
    }
}
