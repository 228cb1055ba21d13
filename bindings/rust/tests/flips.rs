//! Bits flipped in 003's records: before the last four bytes an odd number of them or two, refused by both sides with the same
//! number, alone and in files of either form, where the lines beside stay. And the flips that are not noticed.

mod held;

use compare::random::Random;
use compare::sample::{
    damaged_line, flip, flipped, for_drawn_flips, for_every_flip, odd, other_trailer, unnoticed,
};
use compare::trailed::{line_of, trailer_of};
use compare::worked::{worked, RECORDS_OF_003};
use held::reading::{same_record, ReadNumbers};
use held::trailed::same_trailed;
use held::{line_numbers, numbers, rounds, LineNumbers, Numbers, Seen};
use obscurlane::{crc_of, record_field, Crc, Totals, TRAILER};

/// So many odd numbers of flips are tried, and so many double ones: 10,000 with the usual rounds.
fn tries() -> usize {
    10 * rounds() / 3
}

fn records() -> [Vec<u8>; 7] {
    RECORDS_OF_003.map(worked)
}

// ---- files of either form

/// How the line of a record looks in a form of files, and how lines are read there; alone, by both sides.
#[derive(Clone, Copy)]
struct Form {
    line_of: fn(&[u8]) -> Vec<u8>,
    read: fn(&[u8]) -> Result<ReadNumbers, Numbers>,
    lines: fn(&[u8]) -> Vec<LineNumbers>,
    count: fn(&[u8]) -> Totals,
}

const PLAIN: Form = Form {
    line_of: <[u8]>::to_vec,
    read: same_record,
    lines: |file| obscurlane::lines(file).map(|line| line_numbers(file, line)).collect(),
    count: obscurlane::count,
};

const TRAILED: Form = Form {
    line_of,
    read: same_trailed,
    lines: |file| obscurlane::trailed_lines(file).map(|line| line_numbers(file, line)).collect(),
    count: obscurlane::count_trailed,
};

/// A file of all records, and the answers to its lines.
struct File {
    form: Form,
    bytes: Vec<u8>,
    lines: Vec<LineNumbers>,
}

impl File {
    fn of_all_records(form: Form) -> Self {
        let bytes = records().map(|record| [&(form.line_of)(&record)[..], b"\n"].concat()).concat();
        let lines = (form.lines)(&bytes);
        assert_eq!((form.count)(&bytes), Totals { lines: 7, accepted: 7 });
        File { form, bytes, lines }
    }

    /// The bytes of a line.
    fn line(&self, n: usize) -> &[u8] {
        let (_, start, length, _) = self.lines[n];
        &self.bytes[start..start + length]
    }

    /// With other bytes in the places of some lines: each of these is refused, alone and in the file, and every other line
    /// answers as before, all at the same places.
    fn expect_caught(&self, damaged: &[(usize, Vec<u8>)]) {
        let (mut bytes, mut expected) = (self.bytes.clone(), self.lines.clone());
        for (n, line) in damaged {
            assert_ne!(self.line(*n), line);
            let start = self.lines[*n].1;
            bytes[start..start + line.len()].copy_from_slice(line);
            let refusal = (self.form.read)(line).expect_err("refused");
            assert_eq!(refusal.1, 0, "{}", line.escape_ascii());
            expected[*n].0 = Err(refusal);
        }
        assert_eq!((self.form.lines)(&bytes), expected, "{}", bytes.escape_ascii());
        let accepted = self.lines.len() - damaged.len();
        assert_eq!((self.form.count)(&bytes), Totals { lines: self.lines.len(), accepted });
    }

    /// The same of one record, whose line has the rest of its line as it was.
    fn expect_caught_record(&self, n: usize, record: &[u8]) {
        let rest = &self.line(n)[record.len()..];
        self.expect_caught(&[(n, [record, rest].concat())]);
    }
}

/// A record that has changed is refused for its kind, its form or its check, by both sides, and no field of it is handed back.
fn expect_refused(record: &[u8]) -> Numbers {
    let refusal = same_record(record).expect_err("refused");
    assert!([(2, 0), (3, 0), (4, 0)].contains(&refusal), "{refusal:?} {}", record.escape_ascii());
    assert_eq!(numbers(record_field(record, 1)), Err(refusal));
    refusal
}

// ---- every flip

#[test]
fn every_single_flip() {
    let mut seen = Seen::default();
    for_every_flip(|_, damaged| seen.add(&Err::<(), _>(expect_refused(damaged))));
    seen.expect([2, 3, 4], 60);
}

/// None of these makes a line feed: the records have no byte that is one bit from it.
fn every_single_flip_in_a_file_of(form: Form) {
    let file = File::of_all_records(form);
    for_every_flip(|n, damaged| {
        assert!(!damaged.contains(&b'\n'));
        file.expect_caught_record(n, damaged);
    });
}

#[test]
fn every_single_flip_in_a_file() {
    every_single_flip_in_a_file_of(PLAIN);
}

#[test]
fn every_single_flip_in_a_manufacturers_file() {
    every_single_flip_in_a_file_of(TRAILED);
}

// ---- flips that are drawn

/// Refused alone, and in a file of either form.
fn expect_drawn_caught(seed: u64, count: impl Fn(&mut Random) -> usize) {
    let files = [PLAIN, TRAILED].map(File::of_all_records);
    for_drawn_flips(seed, tries(), count, |n, damaged| {
        expect_refused(damaged);
        for file in &files {
            file.expect_caught_record(n, damaged);
        }
    });
}

#[test]
fn odd_numbers_of_flips() {
    expect_drawn_caught(241, odd);
}

#[test]
fn two_flips_anywhere() {
    expect_drawn_caught(242, |_| 2);
}

#[test]
fn several_lines_at_once_each_in_its_own_way() {
    let mut random = Random::with_seed(243);
    let records = records();
    for file in [PLAIN, TRAILED].map(File::of_all_records) {
        for _ in 0..tries().div_ceil(10) {
            let chosen: Vec<usize> = (0..records.len()).filter(|_| random.once_in(2)).collect();
            let damaged = chosen.into_iter().map(|n| {
                let line = damaged_line(&mut random, &records[n], file.line(n));
                (n, line)
            });
            file.expect_caught(&damaged.collect::<Vec<_>>());
        }
    }
}

/// 19 where the trailer is none, and else the record's own number, never 20.
#[test]
fn whatever_becomes_of_the_trailer() {
    let mut random = Random::with_seed(244);
    let records = records();
    let file = File::of_all_records(TRAILED);
    let mut seen = Seen::default();
    for n in (0..records.len()).cycle().take(tries().div_ceil(5)) {
        let count = if random.once_in(2) { odd(&mut random) } else { 2 };
        let damaged = flipped(&mut random, &records[n], count);
        let trailer = other_trailer(&mut random, &file.line(n)[damaged.len()..], &damaged);
        assert_eq!(trailer.len(), TRAILER);
        let line = [&damaged[..], &trailer].concat();
        let answer = same_trailed(&line);
        let own = expect_refused(&damaged);
        assert!([Err((19, 0)), Err(own)].contains(&answer), "{}", line.escape_ascii());
        seen.add(&answer);
        file.expect_caught(&[(n, line)]);
    }
    seen.expect([2, 4, 19], 60);
}

// ---- limits

/// The check tells two bits from none up to 32,766 bits apart, in a list that ends with the second; 32,767 apart, the first and
/// the last bit of 4,096 bytes, it does not.
#[test]
fn two_bits_as_far_apart_as_the_check_sees() {
    let (mut of_zeros, mut of_one) = (Crc::begin(), Crc::begin());
    for byte in 0..4096 {
        let first = u8::from(byte == 0);
        for bit in usize::from(first)..8 {
            let is_same = of_one.add(first | 1 << bit).end() == of_zeros.add(0).end();
            assert_eq!(is_same, 8 * byte + bit == 32_767, "{byte} {bit}");
        }
        (of_zeros, of_one) = (of_zeros.add(0), of_one.add(first));
    }
    let zeros = [0; 4096];
    for distance in (1..=32_767).rev().step_by(97) {
        let mut list = zeros;
        flip(&mut list, 0);
        flip(&mut list, distance);
        assert_eq!(crc_of(&list) == crc_of(&zeros), distance == 32_767, "{distance}");
        assert_eq!(crc_of(&list), compare::crc::crc16(&list), "{distance}");
    }
}

/// Flips of the last four bytes beside others, and four flips, may make another accepted record; a manufacturer's line has its
/// trailer against them.
#[test]
fn flips_that_are_not_noticed() {
    let expected = [(1, 2), (1, 1), (4, 0)];
    for (flips, expected) in unnoticed().iter().zip(expected) {
        assert_eq!(flips.flips(), expected);
        for record in [&flips.before, &flips.after] {
            assert_eq!(same_record(record).map(|(kind, _)| kind), Ok("VKLOAD.RESP.1"));
        }
        let file = [&flips.before[..], b"\n", &flips.after, b"\n"].concat();
        assert_eq!(obscurlane::count(&file), Totals { lines: 2, accepted: 2 });
        let line = [&flips.after[..], &trailer_of(&flips.before)].concat();
        assert_eq!(same_trailed(&line), Err((20, 0)));
    }
}

#[test]
fn every_other_check() {
    let record = worked("VKLOADRESP");
    let (body, right) = record.split_at(record.len() - 4);
    for check in 0..=u16::MAX {
        let text = format!("{check:04X}").into_bytes();
        let answer = same_record(&[body, &text].concat()).map(|(kind, _)| kind);
        let expected = if text == right { Ok("VKLOAD.RESP.1") } else { Err((4, 0)) };
        assert_eq!(answer, expected, "{check:04X}");
    }
}
