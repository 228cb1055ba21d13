//! Damage to single bytes.

use super::HEX_DIGITS;
use crate::frame::CHECK_LENGTH;
use crate::kind::Kind;
use crate::random::Random;

/// Where damage falls.
#[derive(Clone, Copy, PartialEq, Eq)]
pub enum Place {
    Anywhere,
    Name,
    Marks,
    /// In the first field, which is an identity in the kinds that have identities inside.
    FirstField,
    Check,
    /// In the last mark, the byte before it, and the check.
    End,
}

impl Place {
    pub const ALL: [Place; 6] =
        [Place::Anywhere, Place::Name, Place::Marks, Place::FirstField, Place::Check, Place::End];

    /// The indices of these bytes in an accepted record.
    fn indices(self, kind: Kind, record: &[u8]) -> Vec<usize> {
        let marks = || (0..record.len()).filter(|&index| record[index] == kind.mark());
        let end = record.len();
        match self {
            Place::Anywhere => (0..end).collect(),
            Place::Name => (0..kind.name().len()).collect(),
            Place::Marks => marks().collect(),
            Place::FirstField => {
                let (first, second) = (marks().next(), marks().nth(1));
                (first.expect("a mark") + 1..second.expect("a second mark")).collect()
            }
            Place::Check => (end - CHECK_LENGTH..end).collect(),
            Place::End => (end - CHECK_LENGTH - 2..end).collect(),
        }
    }
}

/// The record with so many of its bytes at this place changed (all of them if there are fewer).
pub fn damaged(
    random: &mut Random,
    kind: Kind,
    record: &[u8],
    place: Place,
    changes: usize,
) -> Vec<u8> {
    changed(random, record, place.indices(kind, record), changes)
}

/// Any bytes with so many of them changed (all of them if there are fewer).
pub fn damaged_anywhere(random: &mut Random, bytes: &[u8], changes: usize) -> Vec<u8> {
    changed(random, bytes, (0..bytes.len()).collect(), changes)
}

fn changed(random: &mut Random, bytes: &[u8], mut indices: Vec<usize>, changes: usize) -> Vec<u8> {
    let mut result = bytes.to_vec();
    for _ in 0..changes.min(indices.len()) {
        let index = indices.swap_remove(random.below(indices.len()));
        result[index] = other_byte(random, bytes[index]);
    }
    result
}

/// A byte that differs from this one, often by little.
fn other_byte(random: &mut Random, byte: u8) -> u8 {
    loop {
        let other = match random.below(6) {
            0 => byte ^ (1 << random.below(8)),
            1 => byte ^ 0x20,
            2 => random.one_of(b":|;#\n\r\0 \x7F\x80\xFF"),
            3 => random.byte(),
            _ => random.one_of(HEX_DIGITS),
        };
        if other != byte {
            return other;
        }
    }
}

#[cfg(test)]
mod tests {
    use super::*;
    use crate::sample::record;

    #[test]
    fn damage_changes_so_many_bytes() {
        let mut random = Random::with_seed(2);
        for kind in Kind::ALL.repeat(5) {
            let record = record(&mut random, kind);
            for place in Place::ALL {
                for changes in 1..=3 {
                    let result = damaged(&mut random, kind, &record, place, changes);
                    let differ = record.iter().zip(&result).filter(|(old, new)| old != new).count();
                    let possible = place.indices(kind, &record).len();
                    assert_eq!(differ, changes.min(possible));
                }
            }
        }
    }
}
