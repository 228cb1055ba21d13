//! Cabinets in cases. A cabinet has 65,536 bytes, so a case has the steps that make it: calls with a part of a,
//! and writes of one. A history is steps alone, and its answer has that of each.

use crate::calls::Op;
use crate::cases::{digest, Answer, Case, LONGEST_OUTPUT};
use compare::cabinet::{self, SIZE};
use compare::crc::crc16;
use compare::refusal::Refusal;

/// The bytes of a step in c: the number of its call, or 0 for a write, one byte; where its part of a begins and
/// ends, three bytes each; and the place of a write, two bytes.
const LENGTH: usize = 1 + 3 + 3 + 2;

/// In a history the check of all bytes stands behind the answers of so many steps, and at the end.
const CHECKED: usize = 4;

/// The calls that a step can be.
pub const CALLS: [Op; 8] = [
    Op::MakeCabinet,
    Op::CheckCabinet,
    Op::CountKeys,
    Op::PutKey,
    Op::RemoveKey,
    Op::KeyPlace,
    Op::FindKey,
    Op::Admit,
];

/// A part of a.
#[derive(Clone, Copy, Debug, PartialEq, Eq)]
pub struct Part {
    pub start: usize,
    pub end: usize,
}

/// One step.
#[derive(Clone, Copy, Debug, PartialEq, Eq)]
pub enum Step {
    Call(Op, Part),
    /// The part is written at this place.
    Write(Part, usize),
}

impl Step {
    pub fn part(self) -> Part {
        match self {
            Step::Call(_, part) | Step::Write(part, _) => part,
        }
    }

    pub fn bytes(self) -> [u8; LENGTH] {
        let (number, place) = match self {
            Step::Call(op, _) => (op.number(), 0),
            Step::Write(_, place) => (0, place),
        };
        let Part { start, end } = self.part();
        let mut bytes = [number; LENGTH];
        for (from, length, value) in [(1, 3, start), (4, 3, end), (7, 2, place)] {
            let value = value.to_be_bytes();
            let (high, low) = value.split_at(value.len() - length);
            assert!(high.iter().all(|&byte| byte == 0), "a number of {length} bytes");
            bytes[from..from + length].copy_from_slice(low);
        }
        bytes
    }

    fn of(bytes: &[u8]) -> Step {
        let number =
            |bytes: &[u8]| bytes.iter().fold(0, |number, &byte| number << 8 | usize::from(byte));
        let part = Part { start: number(&bytes[1..4]), end: number(&bytes[4..7]) };
        match CALLS.into_iter().find(|op| op.number() == bytes[0]) {
            Some(op) => Step::Call(op, part),
            None => Step::Write(part, number(&bytes[7..])),
        }
    }
}

impl Case {
    fn steps(&self) -> impl Iterator<Item = Step> + '_ {
        self.c.chunks(LENGTH).map(Step::of)
    }

    /// One step on the lent bytes, and the numbers of its answer.
    fn step(&self, step: Step, lent: &mut [u8]) -> Vec<u64> {
        let Part { start, end } = step.part();
        let part = &self.a[start..end];
        match step {
            Step::Call(op, _) => call(op, lent, part),
            Step::Write(_, place) => {
                lent[place..place + part.len()].copy_from_slice(part);
                Vec::new()
            }
        }
    }

    /// The answer of a call on the first n bytes of what the steps made, which has zeros behind it: the numbers,
    /// and the check of all lent bytes afterwards.
    pub fn filed(&self) -> Answer {
        let mut lent = vec![0; SIZE];
        for step in self.steps() {
            self.step(step, &mut lent);
        }
        let room = self.n as usize;
        assert!(room <= LONGEST_OUTPUT, "{room} lent bytes");
        lent.resize(room, 0);
        let mut numbers = call(self.op, &mut lent, &self.b);
        let number = numbers[0] as u8;
        numbers.push(crc16(&lent).into());
        self.said(b"", &numbers, Some(number))
    }

    /// The answer of a call on a place that begins with a, when all other places are free. Where a is shorter, the
    /// place has the TVP of a first put.
    pub fn filed_place(&self) -> Answer {
        let mut lent = vec![0; SIZE];
        let place = &mut lent[self.n as usize * cabinet::WIDTH..][..cabinet::WIDTH];
        place[cabinet::TVP_AT..cabinet::NUMBER_AT].copy_from_slice(&cabinet::START);
        place[..self.a.len()].copy_from_slice(&self.a);
        let numbers = call(self.op, &mut lent, &self.b);
        self.said(b"", &numbers, Some(numbers[0] as u8))
    }

    /// The answer of a history: that of each step, and the check of the cabinet now and then.
    pub fn history(&self) -> Answer {
        let mut lent = vec![0; SIZE];
        let mut numbers = Vec::new();
        for (step, count) in self.steps().zip(1..) {
            numbers.extend(self.step(step, &mut lent));
            if count % CHECKED == 0 {
                numbers.push(crc16(&lent).into());
            }
        }
        numbers.push(crc16(&lent).into());
        self.values(&numbers)
    }

    /// The first number of each call in a history.
    #[cfg(test)]
    pub fn numbers_of_history(&self) -> Vec<(Op, u64)> {
        let mut lent = vec![0; SIZE];
        let said = self.steps().map(|step| (step, self.step(step, &mut lent)));
        said.filter_map(|(step, numbers)| match step {
            Step::Call(op, _) => Some((op, numbers[0])),
            Step::Write(..) => None,
        })
        .collect()
    }
}

/// The numbers of a call's answer.
fn call(op: Op, lent: &mut [u8], part: &[u8]) -> Vec<u64> {
    match op {
        Op::MakeCabinet => outcome(cabinet::make(lent)).to_vec(),
        Op::PutKey => outcome(cabinet::put(lent, part)).to_vec(),
        Op::RemoveKey => outcome(cabinet::remove(lent, part)).to_vec(),
        Op::Admit => outcome(cabinet::admit(lent, part)).to_vec(),
        Op::CheckCabinet => outcome(cabinet::check(lent)).to_vec(),
        Op::CountKeys => {
            let count = cabinet::count(lent);
            vec![outcome(count)[0], count.unwrap_or(0) as u64]
        }
        Op::KeyPlace => {
            let found = cabinet::find(lent, part);
            let start = found.map_or(0, |found| found.as_ptr() as usize - lent.as_ptr() as usize);
            let length = found.map_or(0, <[u8]>::len);
            [outcome(found), [start, length].map(|number| number as u64)].concat()
        }
        Op::FindKey => {
            let found = cabinet::find(lent, part);
            [outcome(found), digest(found.unwrap_or_default())].concat()
        }
        _ => unreachable!("a call of the cabinet"),
    }
}

/// The number, and the field's number.
fn outcome<T>(answer: Result<T, Refusal>) -> [u64; 2] {
    answer.map_or_else(|no| [no.number(), no.field()].map(u64::from), |_| [0, 0])
}

#[cfg(test)]
mod tests {
    use super::*;

    #[test]
    fn a_step_is_found_again_in_its_nine_bytes() {
        let part = Part { start: 0x01_02_03, end: 0x04_05_06 };
        let put = Step::Call(Op::PutKey, part);
        assert_eq!(put.bytes(), [50, 1, 2, 3, 4, 5, 6, 0, 0]);
        let admit = Step::Call(Op::Admit, part);
        assert_eq!(admit.bytes(), [57, 1, 2, 3, 4, 5, 6, 0, 0]);
        let write = Step::Write(part, 0xFF_FE);
        assert_eq!(write.bytes(), [0, 1, 2, 3, 4, 5, 6, 255, 254]);
        assert_eq!([put, admit, write].map(|step| Step::of(&step.bytes())), [put, admit, write]);
    }
}
