//! SHA-384 and SHA-1, whole and by their states, held against those of `compare/` by the same checks.

use super::rounds;
use compare::random::Random;
use compare::text::base16;
use obscurlane::{Sha1, Sha384};
use std::fmt::Debug;

/// A hash by its state, and what it is held against.
pub trait Hash: Copy + Debug + Default + PartialEq {
    type Digest: AsRef<[u8]> + Debug + PartialEq;
    const NAME: &'static str;
    const BLOCK_LENGTH: usize;

    fn begin() -> Self;
    fn add(self, bytes: &[u8]) -> Self;
    fn end(self) -> Self::Digest;
    /// The crate's hash of all bytes at once.
    fn whole(bytes: &[u8]) -> Self::Digest;
    /// The hash that `compare/` has of the bytes.
    fn expected(bytes: &[u8]) -> Self::Digest;
    /// Messages, and the characters of their hashes.
    fn published() -> Vec<(Vec<u8>, &'static str)>;
}

macro_rules! held_against {
    ($state:ident, $whole:ident, $expected:ident) => {
        impl Hash for $state {
            type Digest = [u8; compare::$expected::HASH_LENGTH];
            const NAME: &'static str = stringify!($state);
            const BLOCK_LENGTH: usize = compare::$expected::BLOCK_LENGTH;

            fn begin() -> Self {
                $state::begin()
            }
            fn add(self, bytes: &[u8]) -> Self {
                $state::add(self, bytes)
            }
            fn end(self) -> Self::Digest {
                $state::end(self)
            }
            fn whole(bytes: &[u8]) -> Self::Digest {
                obscurlane::$whole(bytes)
            }
            fn expected(bytes: &[u8]) -> Self::Digest {
                compare::$expected::$expected(bytes)
            }
            fn published() -> Vec<(Vec<u8>, &'static str)> {
                compare::$expected::published().into()
            }
        }
    };
}
held_against!(Sha384, sha384_of, sha384);
held_against!(Sha1, sha1_of, sha1);

/// Longer than two blocks of either hash, and what the end of a message needs.
const LONG: usize = 300;

fn of_pieces<H: Hash>(pieces: &[&[u8]]) -> H {
    pieces.iter().fold(H::begin(), |state, piece| state.add(piece))
}

/// Each whole, and in pieces of each of these lengths.
pub fn published_examples<H: Hash>(lengths: &[usize]) {
    for (message, expected) in H::published() {
        assert_eq!(base16(H::whole(&message).as_ref()), expected, "{} bytes", message.len());
        for &length in lengths {
            let pieces: Vec<&[u8]> = message.chunks(length).collect();
            let hash = of_pieces::<H>(&pieces).end();
            assert_eq!(base16(hash.as_ref()), expected, "in pieces of {length}");
        }
    }
}

/// Every length, and every place that a message of this length can be cut at.
pub fn every_length_and_every_cut<H: Hash>(seed: u64) {
    let bytes = Random::with_seed(seed).bytes(LONG);
    for length in 0..=LONG {
        let message = &bytes[..length];
        assert_eq!(H::whole(message), H::expected(message), "{length} bytes");
        for cut in 0..=length {
            let (front, back) = message.split_at(cut);
            let state: H = of_pieces(&[front, back]);
            assert_eq!(state.end(), H::whole(message), "{length} bytes, cut at {cut}");
            assert_eq!(state, of_pieces(&[message]), "{length} bytes, cut at {cut}");
        }
    }
}

/// In pieces of every size, the last one shorter.
pub fn pieces_of_every_size<H: Hash>(seed: u64) {
    let bytes = Random::with_seed(seed).bytes(LONG);
    for size in 1..=LONG {
        let pieces: Vec<&[u8]> = bytes.chunks(size).collect();
        assert_eq!(of_pieces::<H>(&pieces).end(), H::expected(&bytes), "in pieces of {size}");
    }
}

/// A state that is ended after every piece and goes on.
pub fn random_cuts<H: Hash>(seed: u64) {
    let mut random = Random::with_seed(seed);
    for _ in 0..rounds() {
        let length = random.below(3 * LONG);
        let bytes = random.bytes(length);
        let (mut state, mut given) = (H::begin(), 0);
        while given < length {
            let most = random.one_of(&[1, 16, H::BLOCK_LENGTH + 1, 3 * H::BLOCK_LENGTH]);
            let next = length.min(given + random.below(most + 1));
            state = state.add(&bytes[given..next]);
            given = next;
            if random.once_in(8) {
                assert_eq!(state.end(), H::expected(&bytes[..given]), "{:?}", &bytes[..given]);
            }
        }
        assert_eq!(state.end(), H::expected(&bytes), "{bytes:?}");
        assert_eq!(state, H::begin().add(&bytes), "{bytes:?}");
    }
}

/// Bytes that are all alike, in each of these lengths.
pub fn every_byte_value<H: Hash>(lengths: &[usize]) {
    for byte in 0..=255 {
        for &length in lengths {
            let message = vec![byte; length];
            assert_eq!(H::whole(&message), H::expected(&message), "{length} bytes {byte}");
        }
    }
}

/// Two messages that begin alike, by copies of one state, which go on with so many bytes.
pub fn a_state_goes_on_in_two_ways<H: Hash>(seed: u64, lengths: [usize; 2]) {
    let mut random = Random::with_seed(seed);
    for length in 0..=LONG {
        let front = random.bytes(length);
        let [one, other] = lengths.map(|length| random.bytes(length));
        let begun = H::begin().add(&front);
        let (first, second) = (begun.add(&one), begun.add(&other));
        assert_eq!(begun.end(), H::expected(&front));
        assert_eq!(first.end(), H::expected(&[front.clone(), one].concat()));
        assert_eq!(second.end(), H::expected(&[front, other].concat()));
    }
    assert_eq!(H::default(), H::begin());
    assert_eq!(H::default().add(b""), H::begin());
}

/// Its name alone is shown.
pub fn a_state_does_not_show_what_it_was_given<H: Hash>() {
    let shown = format!("{:?}", H::begin().add(b"secret"));
    assert_eq!(shown, format!("{} {{ .. }}", H::NAME));
}
