//! Request E9: a TIMESTAMP as a number of seconds.

use super::long::{Block, Part};
use super::Plan;
use crate::calls::Op;
use compare::moment::{moment_of, next_day};
use compare::sample;
use compare::text::days_of;

pub fn add(plan: &mut Plan) {
    named(plan);
    years(plan);
    months(plan);
    widths(plan);
    drawn(plan);
    lengths(plan);
    other_texts(plan);
    every_byte(plan);
    long(plan);
}

/// The TIMESTAMP with these parts, from the year to the second.
fn text_of([year, month, day, hour, minute, second]: [usize; 6]) -> String {
    format!("{year:04}{month:02}{day:02}T{hour:02}{minute:02}{second:02}Z")
}

/// The TIMESTAMP of a number, part by part: each is the last that is not beyond it.
pub(super) fn at(seconds: i64) -> String {
    let mut parts = [1, 1, 1, 0, 0, 0];
    for (index, most) in [9999, 12, 31, 23, 59, 59].into_iter().enumerate() {
        let with = |value| {
            let mut parts = parts;
            parts[index] = value;
            parts
        };
        let is_not_beyond = |parts: &[usize; 6]| {
            moment_of(text_of(*parts).as_bytes()).is_some_and(|number| number <= seconds)
        };
        let values = (parts[index]..=most).map(with).take_while(is_not_beyond);
        parts = values.last().expect("a number of the range");
    }
    text_of(parts)
}

/// The start and what stands beside it, both ends of the range, leap days on both sides, and days from which other
/// counts begin.
const NAMED: [&str; 44] = [
    "19930101T000000Z",
    "19930101T000001Z",
    "19930101T000009Z",
    "19930101T000010Z",
    "19930101T000059Z",
    "19930101T000100Z",
    "19930101T000959Z",
    "19930101T005959Z",
    "19930101T010000Z",
    "19930101T100000Z",
    "19930101T235959Z",
    "19930102T000000Z",
    "19921231T235959Z",
    "19921231T235958Z",
    "19921231T235900Z",
    "19921231T230000Z",
    "19921231T000000Z",
    "19921230T235959Z",
    "00010101T000000Z",
    "00010101T000001Z",
    "00010102T000000Z",
    "99991231T235959Z",
    "99991231T235958Z",
    "99991231T000000Z",
    "99991231T115959Z",
    "00040229T000000Z",
    "15821015T000000Z",
    "16000229T000000Z",
    "19000228T000000Z",
    "19000228T235959Z",
    "19000301T000000Z",
    "19200229T120000Z",
    "19691231T235959Z",
    "19700101T000000Z",
    "19920229T000000Z",
    "19920301T000000Z",
    "19960229T000000Z",
    "19991231T235959Z",
    "20000101T000000Z",
    "20000229T000000Z",
    "20380119T031407Z",
    "20380119T031408Z",
    "24000229T000000Z",
    "99960229T235959Z",
];

fn named(plan: &mut Plan) {
    for text in NAMED {
        plan.call(Op::MomentOf, text);
    }
}

/// The first and the last second of years: leap years and those beside them, by 4, by 100 and by 400.
fn years(plan: &mut Plan) {
    let first = [1, 2, 3, 4, 5, 99, 100, 101, 400, 401, 1600, 1700, 1800, 1899, 1900, 1901, 1970];
    let later = [2000, 2001, 2004, 2100, 2101, 2400, 4000, 9600, 9998, 9999];
    for year in first.into_iter().chain(1988..=1999).chain(later) {
        plan.call(Op::MomentOf, text_of([year, 1, 1, 0, 0, 0]));
        plan.call(Op::MomentOf, text_of([year, 12, 31, 23, 59, 59]));
    }
}

/// The last second of every month and the one behind it, in leap years and in others.
fn months(plan: &mut Plan) {
    for year in [1900, 1992, 1993, 2000, 2100] {
        for month in 1..=12 {
            let last = (year, month, days_of(year, month));
            let (next_year, next_month, first) = next_day(last);
            plan.call(Op::MomentOf, text_of([last.0, last.1, last.2, 23, 59, 59]));
            plan.call(Op::MomentOf, text_of([next_year, next_month, first, 0, 0, 0]));
        }
    }
}

/// Numbers that fill so many bits, and those beside them.
fn widths(plan: &mut Plan) {
    for bits in [8, 15, 16, 24, 31, 32, 35] {
        for number in [(1 << bits) - 1, 1 << bits, -(1 << bits), -(1 << bits) - 1] {
            plan.call(Op::MomentOf, at(number));
        }
    }
    for bits in [36, 37] {
        plan.call(Op::MomentOf, at((1 << bits) - 1));
        plan.call(Op::MomentOf, at(1 << bits));
    }
}

fn drawn(plan: &mut Plan) {
    for _ in 0..80 {
        let text = sample::timestamp(&mut plan.random);
        plan.call(Op::MomentOf, text);
    }
    for _ in 0..16 {
        let text = sample::missing_day(&mut plan.random);
        plan.call(Op::MomentOf, text);
    }
}

/// A TIMESTAMP that ends too early, begins too late, or has more before or behind it.
fn lengths(plan: &mut Plan) {
    let text = "20180120T090000Z";
    for length in 0..text.len() {
        plan.call(Op::MomentOf, &text[..length]);
    }
    for start in [1, 8, 15] {
        plan.call(Op::MomentOf, &text[start..]);
    }
    for (before, behind) in
        [("0", ""), (" ", ""), ("-", ""), ("+", ""), ("", "0"), ("", "Z"), ("", "\n"), ("", "\0")]
    {
        plan.call(Op::MomentOf, [before, text, behind].concat());
    }
    plan.call(Op::MomentOf, text.repeat(2));
}

/// A part outside its range, and forms that others write.
fn other_texts(plan: &mut Plan) {
    for text in [
        "00000101T000000Z",
        "00001231T235959Z",
        "19930001T000000Z",
        "19931301T000000Z",
        "19939901T000000Z",
        "19930100T000000Z",
        "19930132T000000Z",
        "19930199T000000Z",
        "19930229T000000Z",
        "19920230T000000Z",
        "19000229T000000Z",
        "21000229T000000Z",
        "20230431T000000Z",
        "19930101T240000Z",
        "19930101T990000Z",
        "19930101T006000Z",
        "19930101T009900Z",
        "19930101T000060Z",
        "19930101T000099Z",
        "19921231T235960Z",
        "20161231T235960Z",
        "19930101t000000Z",
        "19930101T000000z",
        "19930101 000000Z",
        "19930101T000000 ",
        "19930101T000000+",
        "1993-01-01T00:00",
        "-9930101T000000Z",
        "+9930101T000000Z",
        " 9930101T000000Z",
        "1993 101T000000Z",
        "1993010/T000000Z",
        "1993010:T000000Z",
        "19930101T:00000Z",
        "0x930101T000000Z",
        "YYYYMMDDThhmmssZ",
        "TTTTTTTTTTTTTTTZ",
        "0000000000000000",
        "TZ",
    ] {
        plan.call(Op::MomentOf, text);
    }
    for byte in [0, 0xFF] {
        plan.call(Op::MomentOf, [byte; 16]);
    }
}

/// Every byte value in every place, beside digits of the lowest and of the highest values, before and after the start.
fn every_byte(plan: &mut Plan) {
    for text in ["00010101T000000Z", "19921231T235959Z", "20000120T090000Z"] {
        for place in 0..text.len() {
            plan.every_byte(Op::MomentOf, 0, text.as_bytes(), place);
        }
    }
}

fn long(plan: &mut Plan) {
    for longer in Block::new().longer(Part::Timestamp) {
        plan.call(Op::MomentOf, longer);
    }
}

#[cfg(test)]
mod tests {
    use super::*;

    #[test]
    fn a_number_is_found_again() {
        for (number, text) in [
            (0, "19930101T000000Z"),
            (-1, "19921231T235959Z"),
            (1 << 31, "20610119T031408Z"),
            (1 << 32, "21290207T062816Z"),
            (-62_861_443_200, "00010101T000000Z"),
            (252_676_454_399, "99991231T235959Z"),
        ] {
            assert_eq!(at(number), text);
            assert_eq!(moment_of(text.as_bytes()), Some(number));
        }
    }
}
