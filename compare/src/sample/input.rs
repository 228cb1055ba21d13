//! What a call may be handed: bytes of any sort, lines, and files of them.

use super::{
    damaged, damaged_anywhere, faulty, ident, record, resealed, with_a_wrong_field, Fault, Place,
};
use crate::kind::Kind;
use crate::random::Random;
use crate::record::LONGEST_READ;

/// Anything that a reading call may be handed: bytes of no form, accepted records, damaged and faulty
/// ones. Nothing is allocated past the last byte, so that a reading past the end does not go unseen.
pub fn anything(random: &mut Random) -> Vec<u8> {
    let mut bytes = any_bytes(random);
    bytes.shrink_to_fit();
    bytes
}

fn any_bytes(random: &mut Random) -> Vec<u8> {
    let kind = random.one_of(&Kind::ALL);
    match random.below(12) {
        0 => {
            let length = random.below(LONGEST_READ + LONGEST_READ / 4);
            random.bytes(length)
        }
        1 => [kind.name().as_bytes(), &random.bytes(20)].concat(),
        2 | 3 => record(random, kind),
        4 | 5 => {
            let (record, changes) = (record(random, kind), random.between(1, 3));
            damaged_anywhere(random, &record, changes)
        }
        6 => {
            let record = record(random, kind);
            resealed(&damaged_anywhere(random, &record, 1))
        }
        7 => {
            let record = record(random, kind);
            record[..random.below(record.len())].to_vec()
        }
        8 | 9 => {
            let fault = random.one_of(Fault::of(kind));
            faulty(random, kind, &[fault])
        }
        _ => with_a_wrong_field(random, kind),
    }
}

/// A line of any sort.
pub fn line(random: &mut Random) -> Vec<u8> {
    let kind = random.one_of(&Kind::RECORDS);
    match random.below(9) {
        0 => Vec::new(),
        1 => {
            let kind = random.one_of(&Kind::IDENTITIES);
            record(random, kind)
        }
        2 => {
            let record = record(random, kind);
            damaged(random, kind, &record, Place::Anywhere, 1)
        }
        3 => {
            let record = record(random, kind);
            let damaged = damaged(random, kind, &record, Place::FirstField, 1);
            resealed(&damaged)
        }
        4 => [record(random, kind), b"\r".to_vec()].concat(),
        5 => ident(random, 20),
        _ => record(random, kind),
    }
}

/// A file of a few lines, some of them about as long as is read; the last has a line feed or not.
/// Nothing is allocated past the last byte.
pub fn file(random: &mut Random) -> Vec<u8> {
    let mut file = Vec::new();
    for _ in 0..random.below(8) {
        match random.below(6) {
            0 => {
                let length = random.between(LONGEST_READ - 1, LONGEST_READ + 2);
                file.extend(random.bytes_of(b"A|:", length));
            }
            1 => file.extend(anything(random)),
            2 | 3 => {
                let kind = random.one_of(&Kind::RECORDS);
                file.extend(record(random, kind));
            }
            _ => file.extend(line(random)),
        }
        file.extend_from_slice(random.one_of(&[&b"\n"[..], b"\n", b"\n", b"\r\n"]));
    }
    if random.once_in(2) {
        file.extend(record(random, Kind::VkloadResp));
    }
    file.shrink_to_fit();
    file
}
