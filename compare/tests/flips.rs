//! The implementation held against request E12: a record in which bits are flipped before its last four
//! bytes, an odd number of them or two, is refused, in files of either form too, and the lines beside it
//! stay. And the limits of that: which flips are not noticed.

use compare::crc::crc16;
use compare::file::{self, Line};
use compare::kind::Kind;
use compare::random::Random;
use compare::record::read_record;
use compare::refusal::Refusal;
use compare::sample::{
    damaged_line, flip, flipped, flips_between, for_drawn_flips, for_every_flip, odd,
    other_trailer, unnoticed,
};
use compare::text::check_text;
use compare::trailed::{self, line_of, trailer_of, TRAILER_LENGTH};
use compare::worked::{worked, RECORDS_OF_003};

/// So many odd numbers of flips are tried, and so many double ones.
const TRIES: usize = 10_000;

fn records() -> [Vec<u8>; 7] {
    RECORDS_OF_003.map(worked)
}

// ---- files of either form

/// How the line of a record looks in a form of files, and how lines are read there.
#[derive(Clone, Copy)]
struct Form {
    line_of: fn(&[u8]) -> Vec<u8>,
    read: fn(&[u8]) -> Result<Kind, Refusal>,
    lines: fn(&[u8]) -> Vec<Line>,
    count: fn(&[u8]) -> (usize, usize),
}

const PLAIN: Form = Form {
    line_of: <[u8]>::to_vec,
    read: |line| read_record(line).map(|record| record.kind),
    lines: |bytes| file::lines(bytes).collect(),
    count: file::count,
};

const TRAILED: Form = Form {
    line_of,
    read: |line| trailed::read(line).map(|record| record.kind),
    lines: |bytes| trailed::lines(bytes).collect(),
    count: trailed::count,
};

/// A file of all records, and the answers to its lines.
struct File {
    form: Form,
    bytes: Vec<u8>,
    lines: Vec<Line>,
}

impl File {
    fn of_all_records(form: Form) -> Self {
        let bytes = records().map(|record| [&(form.line_of)(&record)[..], b"\n"].concat()).concat();
        let lines = (form.lines)(&bytes);
        assert_eq!((form.count)(&bytes), (7, 7));
        File { form, bytes, lines }
    }

    /// The bytes of a line.
    fn line(&self, n: usize) -> &[u8] {
        let Line { start, length, .. } = self.lines[n];
        &self.bytes[start as usize..(start + length) as usize]
    }

    /// With other bytes in the places of some lines: each of these is refused, alone and in the file, and
    /// every other line answers as before, all at the same places.
    fn expect_caught(&self, damaged: &[(usize, Vec<u8>)]) {
        let (mut bytes, mut expected) = (self.bytes.clone(), self.lines.clone());
        for (n, line) in damaged {
            assert_ne!(self.line(*n), line);
            let start = self.lines[*n].start as usize;
            bytes[start..start + line.len()].copy_from_slice(line);
            expected[*n].answer = (self.form.read)(line);
            assert!(expected[*n].answer.is_err(), "{}", line.escape_ascii());
        }
        assert_eq!((self.form.lines)(&bytes), expected, "{}", bytes.escape_ascii());
    }

    /// The same of one record, whose line has the rest of its line as it was.
    fn expect_caught_record(&self, n: usize, record: &[u8]) {
        let rest = &self.line(n)[record.len()..];
        self.expect_caught(&[(n, [record, rest].concat())]);
    }
}

/// A record that has changed is refused for its kind, its form or its check, and nothing is said of a field.
fn expect_refused(record: &[u8]) {
    let answer = read_record(record);
    let refusals = [Refusal::UnknownKind, Refusal::NoCheck, Refusal::CheckDiffers];
    let is_refused = answer.as_ref().is_err_and(|refusal| refusals.contains(refusal));
    assert!(is_refused, "{answer:?} {}", record.escape_ascii());
}

// ---- every flip

#[test]
fn every_single_flip_is_refused() {
    let mut flips = 0;
    for_every_flip(|_, damaged| {
        expect_refused(damaged);
        flips += 1;
    });
    assert_eq!(flips, 8 * (302 + 530 + 535 + 434 + 219 + 162 + 305));
}

/// None of these makes a line feed, which would make two lines of one: the records have no byte that is one
/// bit from it.
fn every_single_flip_in_a_file_of(form: Form) {
    let file = File::of_all_records(form);
    for_every_flip(|n, damaged| {
        assert!(!damaged.contains(&b'\n'));
        file.expect_caught_record(n, damaged);
    });
}

#[test]
fn every_single_flip_in_a_file() {
    every_single_flip_in_a_file_of(PLAIN);
}

#[test]
fn every_single_flip_in_a_manufacturers_file() {
    every_single_flip_in_a_file_of(TRAILED);
}

// ---- flips that are drawn

/// Refused alone, and in a file of either form.
fn expect_drawn_caught(seed: u64, count: impl Fn(&mut Random) -> usize) {
    let files = [PLAIN, TRAILED].map(File::of_all_records);
    for_drawn_flips(seed, TRIES, count, |n, damaged| {
        expect_refused(damaged);
        for file in &files {
            file.expect_caught_record(n, damaged);
        }
    });
}

#[test]
fn odd_numbers_of_flips() {
    expect_drawn_caught(30, odd);
}

#[test]
fn two_flips_anywhere() {
    expect_drawn_caught(31, |_| 2);
}

#[test]
fn several_lines_at_once_each_in_its_own_way() {
    let mut random = Random::with_seed(32);
    let records = records();
    for file in [PLAIN, TRAILED].map(File::of_all_records) {
        for _ in 0..TRIES / 10 {
            let chosen: Vec<usize> = (0..records.len()).filter(|_| random.once_in(2)).collect();
            let damaged = chosen.into_iter().map(|n| {
                let line = damaged_line(&mut random, &records[n], file.line(n));
                (n, line)
            });
            file.expect_caught(&damaged.collect::<Vec<_>>());
        }
    }
}

#[test]
fn whatever_becomes_of_the_trailer() {
    let mut random = Random::with_seed(33);
    let records = records();
    let file = File::of_all_records(TRAILED);
    let mut numbers = Vec::new();
    for n in (0..records.len()).cycle().take(TRIES / 5) {
        let count = if random.once_in(2) { odd(&mut random) } else { 2 };
        let damaged = flipped(&mut random, &records[n], count);
        let trailer = other_trailer(&mut random, &file.line(n)[damaged.len()..], &damaged);
        assert_eq!(trailer.len(), TRAILER_LENGTH);
        let line = [&damaged[..], &trailer].concat();
        numbers.extend(trailed::read(&line).err().map(Refusal::number));
        file.expect_caught(&[(n, line)]);
    }
    let often = |number| numbers.iter().filter(|&&other| other == number).count() > 20;
    assert!([2, 4, 19].into_iter().all(often));
    assert!(!numbers.contains(&20), "the record's own numbers come first");
}

// ---- limits

/// Two bits are told from none up to 32,766 bits apart, in a list that ends with the second; 32,767 apart
/// they are not.
#[test]
fn two_bits_as_far_apart_as_the_check_sees() {
    let zeros = [0; 4096];
    let of_zeros: Vec<u16> = (0..=zeros.len()).map(|length| crc16(&zeros[..length])).collect();
    let with_bits = |distance: usize| {
        let mut list = vec![0; distance / 8 + 1];
        flip(&mut list, 0);
        flip(&mut list, distance);
        list
    };
    for distance in 1..32_767 {
        let list = with_bits(distance);
        assert_ne!(crc16(&list), of_zeros[list.len()], "{distance}");
    }
    let list = with_bits(32_767);
    assert_eq!(list.len(), 4096);
    assert_eq!((list[0], list[4095]), (0x01, 0x80));
    assert_eq!(crc16(&list), of_zeros[4096]);
}

/// Flips of the last four bytes beside others, and four flips, may make another accepted record.
#[test]
fn flips_that_are_not_noticed() {
    let expected = [(1, 2), (1, 1), (4, 0)];
    for (flips, expected) in unnoticed().iter().zip(expected) {
        assert_eq!(flips.flips(), expected);
        let [before, after] = [&flips.before, &flips.after].map(|record| read_record(record));
        assert_eq!(before.as_ref().map(|record| record.kind), Ok(Kind::VkloadResp));
        assert_eq!(after.as_ref().map(|record| record.kind), Ok(Kind::VkloadResp));
        assert_ne!(before, after);
        let file = [&flips.before[..], b"\n", &flips.after, b"\n"].concat();
        assert_eq!(file::count(&file), (2, 2));
        // A manufacturer's line has its trailer against them.
        let line = [&flips.after[..], &trailer_of(&flips.before)].concat();
        assert_eq!(trailed::read(&line), Err(Refusal::HashDiffers));
    }
}

/// How many single flips before the last four bytes are made good by one flip in these, and by two, and how
/// many of the records that come out are accepted: the figures of docs/TRUST.md.
#[test]
fn flips_that_flips_in_the_check_make_good() {
    let (mut tried, mut made_good, mut accepted) = (0, [0; 2], [0; 2]);
    for record in records() {
        let (body, check) = record.split_at(record.len() - 4);
        for bit in 0..8 * body.len() {
            let mut damaged = body.to_vec();
            flip(&mut damaged, bit);
            let right = check_text(crc16(&damaged));
            let flips = flips_between(check, right.as_bytes());
            tried += 1;
            if flips <= 2 {
                made_good[flips - 1] += 1;
                damaged.extend(right.as_bytes());
                accepted[flips - 1] += usize::from(read_record(&damaged).is_ok());
            }
        }
    }
    assert_eq!((tried, made_good, accepted), (19_672, [2, 10], [0, 2]));
}

#[test]
fn every_other_check_is_refused() {
    let record = worked("VKLOADRESP");
    let (body, right) = record.split_at(record.len() - 4);
    let mut accepted = 0;
    for check in 0..=u16::MAX {
        let text = check_text(check);
        let answer = read_record(&[body, text.as_bytes()].concat()).map(|record| record.kind);
        let is_right = text.as_bytes() == right;
        let expected = if is_right { Ok(Kind::VkloadResp) } else { Err(Refusal::CheckDiffers) };
        assert_eq!(answer, expected, "{text}");
        accepted += usize::from(is_right);
    }
    assert_eq!(accepted, 1);
}
