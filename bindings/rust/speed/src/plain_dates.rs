//! Dates as numbers for `plain.rs`, in the library's form: a text that is a TIMESTAMP has its days counted by formulas, without a table.

use crate::kinds::PUBLIC_KEYS;
use crate::plain::{is_leap, is_timestamp, read};
use crate::side::{Refusal, EXPIRY};

/// The seconds from the beginning of the year 1 to 19930101T000000Z.
const START: i64 = 62_861_443_200;

/// The days from the beginning of the year 1 to that of this one.
fn days_before_year(year: i64) -> i64 {
    let passed = year - 1;
    365 * passed + passed / 4 - passed / 100 + passed / 400
}

/// The days from the beginning of a year to that of this month: first as though February had 30.
fn days_before_month(year: i64, month: i64) -> i64 {
    let days = (367 * (month - 1) + 5) / 12;
    match month {
        1 | 2 => days,
        _ if is_leap(year as u16) => days - 1,
        _ => days - 2,
    }
}

pub fn moment_of(text: &[u8]) -> Option<i64> {
    if !is_timestamp(text) {
        return None;
    }
    let two = |at: usize| 10 * i64::from(text[at] - b'0') + i64::from(text[at + 1] - b'0');
    let year = 100 * two(0) + two(2);
    let days = days_before_year(year) + days_before_month(year, two(4)) + two(6) - 1;
    Some(86_400 * days + 3600 * two(9) + 60 * two(11) + two(13) - START)
}

/// The seconds of a TIMESTAMP that was read.
pub fn seconds_of(timestamp: &[u8]) -> i64 {
    moment_of(timestamp).expect("an accepted date")
}

pub fn expiry_of(record: &[u8]) -> Result<i64, Refusal> {
    read(record, PUBLIC_KEYS).map(|(_, fields)| seconds_of(fields.parts[EXPIRY]))
}
