//! SHA-384, as FIPS 180-4 defines it.
//!
//! Its constants are computed by their definition, from the roots of primes, and not written down: a
//! slip in a table is one that another copy of the table may share.

use crate::padding::padded;
use std::sync::LazyLock;

/// The bytes of a hash.
pub const HASH_LENGTH: usize = 48;
/// The bytes of a block.
pub const BLOCK_LENGTH: usize = 128;
/// The words of a message schedule, one for each round.
const ROUNDS: usize = 80;

/// The words a to h of a hash that is being computed.
type State = [u64; 8];

/// The words before the first block: of the square roots of the ninth to the sixteenth prime.
static START: LazyLock<State> =
    LazyLock::new(|| std::array::from_fn(|index| root_fraction(prime(8 + index), 2)));

/// The words of the rounds: of the cube roots of the first eighty primes.
static ROUND_WORDS: LazyLock<[u64; ROUNDS]> =
    LazyLock::new(|| std::array::from_fn(|round| root_fraction(prime(round), 3)));

/// The SHA-384 of a message.
pub fn sha384(message: &[u8]) -> [u8; HASH_LENGTH] {
    let state = padded(message, BLOCK_LENGTH).chunks(BLOCK_LENGTH).fold(*START, with_block);
    let bytes: Vec<u8> = state.into_iter().flat_map(u64::to_be_bytes).collect();
    *bytes.first_chunk().expect("more bytes than are kept")
}

/// The state with one block more.
fn with_block(state: State, block: &[u8]) -> State {
    let [mut a, mut b, mut c, mut d, mut e, mut f, mut g, mut h] = state;
    for (word, round_word) in schedule(block).into_iter().zip(*ROUND_WORDS) {
        let large_sigma_1 = e.rotate_right(14) ^ e.rotate_right(18) ^ e.rotate_right(41);
        let choice = (e & f) ^ (!e & g);
        let first = sum([h, large_sigma_1, choice, round_word, word]);

        let large_sigma_0 = a.rotate_right(28) ^ a.rotate_right(34) ^ a.rotate_right(39);
        let majority = (a & b) ^ (a & c) ^ (b & c);
        let second = sum([large_sigma_0, majority]);

        (h, g, f, e) = (g, f, e, sum([d, first]));
        (d, c, b, a) = (c, b, a, sum([first, second]));
    }
    let after = [a, b, c, d, e, f, g, h];
    std::array::from_fn(|index| sum([state[index], after[index]]))
}

/// The message schedule: the words of the block, and those that are made of earlier ones.
fn schedule(block: &[u8]) -> Vec<u64> {
    let words = block.chunks(8).map(|word| word.try_into().expect("eight bytes each"));
    let mut words: Vec<u64> = words.map(u64::from_be_bytes).collect();
    for t in words.len()..ROUNDS {
        let (w2, w15) = (words[t - 2], words[t - 15]);
        let small_sigma_1 = w2.rotate_right(19) ^ w2.rotate_right(61) ^ (w2 >> 6);
        let small_sigma_0 = w15.rotate_right(1) ^ w15.rotate_right(8) ^ (w15 >> 7);
        words.push(sum([small_sigma_1, words[t - 7], small_sigma_0, words[t - 16]]));
    }
    words
}

/// The sum modulo 2 to the 64th.
fn sum<const COUNT: usize>(words: [u64; COUNT]) -> u64 {
    words.into_iter().fold(0, u64::wrapping_add)
}

/// The prime with this index, counted from 0.
fn prime(index: usize) -> u32 {
    let is_prime = |number: &u32| (2..*number).all(|divisor| number % divisor != 0);
    (2..).filter(is_prime).nth(index).expect("there are always more")
}

/// The first 64 bits behind the point of a root of this degree, 2 or 3.
fn root_fraction(number: u32, degree: usize) -> u64 {
    assert!(number < 1 << 10, "the root is below 2 to the 5th");
    // With 64 zero bits behind it for each degree, the number has a root that is 64 bits longer before
    // the point: the greatest whole number whose power is not above it, found bit by bit.
    let mut scaled = Wide::default();
    scaled[DIGITS - 1 - 2 * degree] = number;
    let with_bit = |root: u128, bit: u32| {
        let tried = root | 1u128 << bit;
        let power = (1..degree).fold(wide(tried), |power, _| product(&power, &wide(tried)));
        if power <= scaled {
            tried
        } else {
            root
        }
    };
    (0..64 + 5).rev().fold(0, with_bit) as u64
}

const DIGITS: usize = 8;

/// A number of 256 bits in digits of 32 bits. The highest stands first, so that the order of the arrays
/// is that of the numbers.
type Wide = [u32; DIGITS];

fn wide(number: u128) -> Wide {
    std::array::from_fn(|place| {
        number.checked_shr(32 * (DIGITS - 1 - place) as u32).unwrap_or(0) as u32
    })
}

/// The product of two numbers, if it has no more digits.
fn product(first: &Wide, second: &Wide) -> Wide {
    let mut product = Wide::default();
    for (shift, &digit) in first.iter().rev().enumerate() {
        let mut carry = 0;
        for place in (shift..DIGITS).rev() {
            let sum = u64::from(product[place - shift])
                + u64::from(digit) * u64::from(second[place])
                + carry;
            product[place - shift] = sum as u32;
            carry = sum >> 32;
        }
    }
    product
}

/// The examples that are published for it, each a message and its hash in hexadecimal characters: no bytes, 24 bits, 896 bits,
/// and a million letters.
pub fn published() -> [(Vec<u8>, &'static str); 4] {
    [
        (
            Vec::new(),
            "38B060A751AC96384CD9327EB1B1E36A21FDB71114BE07434C0CC7BF63F6E1DA\
             274EDEBFE76F65FBD51AD2F14898B95B",
        ),
        (
            b"abc".to_vec(),
            "CB00753F45A35E8BB5A03D699AC65007272C32AB0EDED1631A8B605A43FF5BED\
             8086072BA1E7CC2358BAECA134C825A7",
        ),
        (
            (b'a'..=b'n').flat_map(|first| first..first + 8).collect(),
            "09330C33F71147E83D192FC782CD1B4753111B173B3B05D22FA08086E3B0F712\
             FCC7C71A557E2DB966C3E9FA91746039",
        ),
        (
            vec![b'a'; 1_000_000],
            "9D0E1809716474CB086E834E310A4A1CED149E9C00F248527972CEC5704C2A5B\
             07B8B3DC38ECC4EBAE97DDD87F3D8985",
        ),
    ]
}

#[cfg(test)]
mod tests {
    use super::*;
    use crate::text::base16;

    #[test]
    fn published_examples() {
        for (message, expected) in published() {
            assert_eq!(base16(&sha384(&message)), expected, "{} bytes", message.len());
        }
    }

    /// The first and the last of the words as FIPS 180-4 prints them.
    #[test]
    fn the_words_are_those_in_print() {
        assert_eq!((START[0], START[7]), (0xCBBB_9D5D_C105_9ED8, 0x47B5_481D_BEFA_4FA4));
        let [first, .., last] = *ROUND_WORDS;
        assert_eq!((first, last), (0x428A_2F98_D728_AE22, 0x6C44_198C_4A47_5817));
    }
}
