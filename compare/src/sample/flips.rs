//! Flipped bits, as a serial bridge makes them, and other damage to whole lines (request E12).

use crate::frame::{body_of, CHECK_LENGTH};
use crate::random::Random;
use crate::trailed::trailer_of;
use crate::worked::{worked, RECORDS_OF_003};

/// Flips one bit, counted from the lowest of the first byte.
pub fn flip(bytes: &mut [u8], bit: usize) {
    bytes[bit / 8] ^= 1 << (bit % 8);
}

/// In how many bits two texts of one length differ.
pub fn flips_between(one: &[u8], other: &[u8]) -> usize {
    one.iter().zip(other).map(|(one, other)| (one ^ other).count_ones() as usize).sum()
}

/// The record with so many bits flipped before its last four bytes, each of them once, so that none of its
/// bytes is a line feed.
pub fn flipped(random: &mut Random, record: &[u8], count: usize) -> Vec<u8> {
    let body = body_of(record);
    loop {
        let mut result = record.to_vec();
        let mut left = count;
        while left > 0 {
            let bit = random.below(8 * body.len());
            let is_flipped = (result[bit / 8] ^ record[bit / 8]) >> (bit % 8) & 1 == 1;
            if !is_flipped {
                flip(&mut result, bit);
                left -= 1;
            }
        }
        if !result.contains(&b'\n') {
            return result;
        }
    }
}

/// An odd number of flips, mostly a small one, and now and then hundreds.
pub fn odd(random: &mut Random) -> usize {
    let most = if random.once_in(10) { 400 } else { 5 };
    2 * random.below(most) + 1
}

/// The line with other bytes within two neighbouring places, none of them a line feed.
pub fn with_other_neighbours(random: &mut Random, line: &[u8]) -> Vec<u8> {
    loop {
        let mut result = line.to_vec();
        let place = random.below(line.len());
        for byte in result[place..].iter_mut().take(2) {
            let any = random.byte();
            *byte = random.one_of(&[*byte, *byte ^ 1, any, b'0', b'F', b'#']);
        }
        if result != line && !result.contains(&b'\n') {
            return result;
        }
    }
}

/// Calls it with each record of document 003 in which one bit is flipped, and with the record's number.
pub fn for_every_flip(mut call: impl FnMut(usize, &[u8])) {
    for (n, record) in RECORDS_OF_003.map(worked).iter().enumerate() {
        for bit in 0..8 * record.len() {
            let mut damaged = record.clone();
            flip(&mut damaged, bit);
            call(n, &damaged);
        }
    }
}

/// Calls it with records of document 003, in each equally often so many bits flipped as are drawn, and with
/// the record's number.
pub fn for_drawn_flips(
    seed: u64,
    tries: usize,
    count: impl Fn(&mut Random) -> usize,
    mut call: impl FnMut(usize, &[u8]),
) {
    let mut random = Random::with_seed(seed);
    let records = RECORDS_OF_003.map(worked);
    for n in (0..records.len()).cycle().take(tries) {
        let count = count(&mut random);
        let damaged = flipped(&mut random, &records[n], count);
        assert_eq!(flips_between(&records[n], &damaged), count);
        call(n, &damaged);
    }
}

/// The line of a record damaged in a way that is caught: flips in the record, an odd number or two, or other
/// bytes in two neighbouring places of the line.
pub fn damaged_line(random: &mut Random, record: &[u8], line: &[u8]) -> Vec<u8> {
    let count = match random.below(3) {
        0 => odd(random),
        1 => 2,
        _ => return with_other_neighbours(random, line),
    };
    [&flipped(random, record, count), &line[record.len()..]].concat()
}

/// Another trailer, or what is none: with other neighbours, once or often, of no bytes, or right for the
/// record as it is now.
pub fn other_trailer(random: &mut Random, trailer: &[u8], record: &[u8]) -> Vec<u8> {
    match random.below(4) {
        0 => with_other_neighbours(random, trailer),
        1 => {
            let times = random.between(2, 20);
            (0..times).fold(trailer.to_vec(), |now, _| with_other_neighbours(random, &now))
        }
        2 => trailer_of(b""),
        _ => trailer_of(record),
    }
}

/// An accepted record, and one that bits flipped in it make, which is accepted too.
pub struct Unnoticed {
    pub before: Vec<u8>,
    pub after: Vec<u8>,
}

impl Unnoticed {
    fn of(before: &[u8], changes: &[(usize, u8)]) -> Self {
        let mut after = before.to_vec();
        for &(place, byte) in changes {
            after[place] = byte;
        }
        Unnoticed { before: before.to_vec(), after }
    }

    /// How many bits are flipped before the last four bytes, and how many in them.
    pub fn flips(&self) -> (usize, usize) {
        let check = self.before.len() - CHECK_LENGTH;
        let before_check = flips_between(&self.before[..check], &self.after[..check]);
        (before_check, flips_between(&self.before[check..], &self.after[check..]))
    }
}

/// Flips that the request leaves out, because the record stays an accepted one: of document 003's response
/// three and four, and two of that of ten minutes later.
pub fn unnoticed() -> [Unnoticed; 3] {
    let response = worked("VKLOADRESP");
    let text = String::from_utf8(response.clone()).expect("characters");
    let later = text.replace("T150000Z", "T151000Z").replace("|D743", "|6CE8").into_bytes();
    [
        Unnoticed::of(&response, &[(211, b'0'), (215, b'E'), (218, b'2')]),
        Unnoticed::of(&later, &[(186, b'F'), (216, b'B')]),
        Unnoticed::of(&response, &[(170, b'A'), (174, b'E'), (177, b'5'), (178, b'2')]),
    ]
}

#[cfg(test)]
mod tests {
    use super::*;

    #[test]
    fn each_bit_is_flipped_once_before_the_check() {
        let mut random = Random::with_seed(3);
        for name in RECORDS_OF_003 {
            let record = worked(name);
            for count in (1..=9).chain([99, 500, 801]) {
                let result = flipped(&mut random, &record, count);
                assert_eq!(flips_between(&record, &result), count, "{name}");
                assert_eq!(record[record.len() - 4..], result[result.len() - 4..], "{name}");
                assert!(!result.contains(&b'\n'), "{name}");
            }
        }
    }

    #[test]
    fn neighbours_are_two_places_at_the_most() {
        let mut random = Random::with_seed(4);
        let line = worked("PUBKEY_SM_FILELINE");
        for _ in 0..1000 {
            let result = with_other_neighbours(&mut random, &line);
            let differ = |&place: &usize| line[place] != result[place];
            let first = (0..line.len()).find(differ).expect("damage");
            let last = (0..line.len()).rev().find(differ).expect("damage");
            assert!(last <= first + 1 && !result.contains(&b'\n'));
        }
    }
}
