//! What it takes to hold an answer of the crate against one of `compare/`.

#![allow(dead_code)] // each program takes what it needs

pub mod attributes;
pub mod cabinet;
pub mod confirm;
pub mod dates;
pub mod fingerprint;
pub mod hash;
pub mod keys;
pub mod mail;
pub mod reading;
pub mod trailed;

use compare::file::{self, Step};
use compare::refusal::Refusal as Expected;
use obscurlane::{Line, Refusal};
use std::fmt::Debug;
use std::ops::RangeInclusive;

const USUAL: usize = 3000;

/// How many inputs each call is given, one at least: `OBSCURLANE_ROUNDS`, and 3,000 where it is not set.
pub fn rounds() -> usize {
    let named = std::env::var("OBSCURLANE_ROUNDS").ok();
    let rounds = named.map(|rounds| rounds.parse().expect("OBSCURLANE_ROUNDS is a number"));
    rounds.unwrap_or(USUAL).max(1)
}

/// That so many of the rounds lie within a share, in percent; fewer rounds than the usual need not.
pub fn expect_share(percent: RangeInclusive<usize>, times: usize, what: &str) {
    let is_within = || percent.contains(&(100 * times / rounds()));
    assert!(rounds() < USUAL || is_within(), "{times} of {} {what}", rounds());
}

/// A refusal's number, and the number of the field that it is about, 0 where it is about none.
pub type Numbers = (u8, usize);

/// A refusal and the record that it is about: 1 or 2, 0 where it is about both or none.
pub type NamedNumbers = (u8, Numbers);

pub fn of_refusal(refusal: Refusal) -> Numbers {
    (refusal.reason.number(), refusal.field.unwrap_or(0))
}

/// The crate's answer.
pub fn numbers<T>(answer: Result<T, Refusal>) -> Result<T, Numbers> {
    answer.map_err(of_refusal)
}

/// The answer of `compare/`.
pub fn expected<T>(answer: Result<T, Expected>) -> Result<T, Numbers> {
    answer.map_err(|refusal| (refusal.number(), usize::from(refusal.field())))
}

/// An output of this room, with other bytes than zeros.
pub fn lent(room: usize) -> Vec<u8> {
    (0..room).map(|index| index as u8 ^ 0xA5).collect()
}

/// Lends both sides an output of this room: they give the same answer and leave the same bytes, and a refused call leaves its
/// output as it was. Gives back the answer.
pub fn same_output(
    room: usize,
    ours: impl FnOnce(&mut [u8]) -> Result<usize, Refusal>,
    theirs: impl FnOnce(&mut [u8]) -> Result<usize, Expected>,
    input: &impl Debug,
) -> Result<usize, Numbers> {
    let lent = lent(room);
    let (mut out, mut wanted) = (lent.clone(), lent.clone());
    let answer = numbers(ours(&mut out));
    assert_eq!(answer, expected(theirs(&mut wanted)), "{input:?}");
    assert_eq!(out, wanted, "{input:?}");
    assert!(answer.is_ok() || out == lent, "refused, and its output is written: {input:?}");
    answer
}

/// The same part of the same bytes, not only equal ones.
pub fn place(part: &[u8]) -> (*const u8, usize) {
    (part.as_ptr(), part.len())
}

/// Another digit in one place.
pub fn change_digit(digits: &mut [u8], place: usize) {
    digits[place] = if digits[place] == b'0' { b'1' } else { b'0' };
}

/// What is wrong that comes first, if anything is.
pub fn first<T, const COUNT: usize>(wrong: [(bool, T); COUNT]) -> Result<(), T> {
    wrong.into_iter().find(|(is_there, _)| *is_there).map_or(Ok(()), |(_, refusal)| Err(refusal))
}

/// A line of a file: the name of its kind or its refusal, its start, its length, and the next place.
pub type LineNumbers = (Result<&'static str, Numbers>, usize, usize, usize);

/// The crate's line; its bytes are those of the file.
pub fn line_numbers(file: &[u8], line: Line<'_>) -> LineNumbers {
    assert_eq!(line.bytes.as_ptr(), file[line.start..].as_ptr());
    let answer = numbers(line.answer.map(obscurlane::Kind::name));
    (answer, line.start, line.bytes.len(), line.next)
}

/// The line of `compare/`.
pub fn expected_line(line: file::Line) -> LineNumbers {
    let answer = expected(line.answer.map(compare::kind::Kind::name));
    (answer, line.start as usize, line.length as usize, line.next as usize)
}

/// What `compare/` finds at a place; none where the file is finished.
pub fn expected_step(step: Step) -> Option<LineNumbers> {
    match step {
        Step::Finished { .. } => None,
        Step::Read(line) => Some(expected_line(line)),
    }
}

/// The line that `compare/` finds at a place of a file; none where it is finished.
pub fn expected_at(file: &[u8], place: usize) -> Option<LineNumbers> {
    expected_step(file::line_at(file, place as u64))
}

/// How often each number was answered, 0 being accepted.
#[derive(Debug, Default)]
pub struct Seen([usize; 29]);

impl Seen {
    pub fn add<T>(&mut self, answer: &Result<T, Numbers>) {
        let number = answer.as_ref().err().map_or(0, |&(number, _)| number);
        self.0[usize::from(number)] += 1;
    }

    /// Each of these numbers was answered more than `least` times; fewer rounds than the usual need not meet them all.
    pub fn expect(&self, numbers: impl IntoIterator<Item = usize>, least: usize) {
        for number in numbers {
            let often = rounds() < USUAL || self.0[number] > least;
            assert!(often, "{number} was seen so often: {self:?}");
        }
    }
}
