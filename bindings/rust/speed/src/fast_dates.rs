//! Dates as numbers for `fast.rs`: the parts of a text come from two words, and a year begins in March, so that the leap day is its last
//! one and the months before it are a straight line.

use crate::fast::{read, timestamp, Timestamp};
use crate::kinds::PUBLIC_KEYS;
use crate::side::{Refusal, EXPIRY};

/// The seconds from 1 March of the year 0 to 19930101T000000Z.
const START: i64 = 62_861_443_200 + 306 * 86_400;

fn seconds(Timestamp { high, low, month, day, hour, minute, second }: Timestamp) -> i64 {
    let [high, low, month, day] = [high, low, month, day].map(u32::from);
    let is_early = u32::from(month < 3);
    let year = 100 * high + low - is_early;
    let century = year / 100;
    let days = 365 * year + year / 4 - century + century / 4;
    let days = days + (153 * (month + 12 * is_early) - 457) / 5 + day - 1;
    let time = 3600 * u32::from(hour) + 60 * u32::from(minute) + u32::from(second);
    86_400 * i64::from(days) + i64::from(time) - START
}

pub fn moment_of(text: &[u8]) -> Option<i64> {
    timestamp(text.try_into().ok()?).map(seconds)
}

/// The seconds of a TIMESTAMP that was read.
pub fn seconds_of(timestamp: &[u8]) -> i64 {
    moment_of(timestamp).expect("an accepted date")
}

pub fn expiry_of(record: &[u8]) -> Result<i64, Refusal> {
    read(record, PUBLIC_KEYS).map(|(_, fields)| seconds_of(fields[EXPIRY]))
}
