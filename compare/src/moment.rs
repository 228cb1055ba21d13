//! Request E9: a TIMESTAMP as a number of seconds, and when a public key expires.

use crate::kind::Kind;
use crate::record::{read, Record};
use crate::refusal::Refusal;
use crate::text::{days_of, timestamp, Timestamp};
use std::sync::LazyLock;

/// The count begins with this year: 19930101T000000Z is 0.
const START: usize = 1993;

/// The last year that a TIMESTAMP can have.
const LAST_YEAR: usize = 9999;

/// Every day has so many: there are no leap seconds.
const SECONDS_OF_A_DAY: i64 = 86_400;

/// The index of Expiry in a public key.
const EXPIRY: usize = 2;

/// Of every year, at its own number, the days from the first of all to its 1 January, counted up year by year.
static NEW_YEARS: LazyLock<Vec<i64>> = LazyLock::new(|| {
    let mut days = vec![0, 0];
    for year in 1..LAST_YEAR {
        days.push(days[year] + days_in(year, 1..=12));
    }
    days
});

/// The days of these months of a year.
fn days_in(year: usize, months: impl Iterator<Item = usize>) -> i64 {
    months.map(|month| days_of(year, month) as i64).sum()
}

/// The seconds from 19930101T000000Z to a TIMESTAMP, negative before it; none of any other text.
pub fn moment_of(text: &[u8]) -> Option<i64> {
    let Timestamp { year, month, day, hour, minute, second } = timestamp(text)?;
    let new_year = NEW_YEARS[year] - NEW_YEARS[START];
    let days = new_year + days_in(year, 1..month) + day as i64 - 1;
    let minutes = 60 * hour + minute;
    Some(days * SECONDS_OF_A_DAY + (60 * minutes + second) as i64)
}

/// The same of the Expiry of a public key.
pub fn expiry_of(record: &[u8]) -> Result<i64, Refusal> {
    read(record, &Kind::PUBLIC_KEYS).map(|key| expiry_in(&key))
}

/// The same of one that was accepted.
pub(crate) fn expiry_in(key: &Record) -> i64 {
    moment_of(key.fields[EXPIRY]).expect("an accepted key has an accepted Expiry")
}

/// The day after a day.
pub fn next_day((year, month, day): (usize, usize, usize)) -> (usize, usize, usize) {
    if day < days_of(year, month) {
        (year, month, day + 1)
    } else if month < 12 {
        (year, month + 1, 1)
    } else {
        (year + 1, 1, 1)
    }
}

#[cfg(test)]
mod tests {
    use super::*;
    use crate::random::Random;
    use crate::sample;
    use crate::worked::{worked, UNSIGNED};

    fn seconds(text: &str) -> i64 {
        moment_of(text.as_bytes()).expect("a TIMESTAMP")
    }

    /// The first second of a day.
    fn day((year, month, day): (usize, usize, usize)) -> i64 {
        seconds(&format!("{year:04}{month:02}{day:02}T000000Z"))
    }

    #[test]
    fn the_count_begins_with_1993() {
        for (text, number) in [
            ("19930101T000000Z", 0),
            ("19930101T000001Z", 1),
            ("19930101T000100Z", 60),
            ("19930101T010000Z", 3600),
            ("19930102T000000Z", 86_400),
            ("19930201T000000Z", 31 * 86_400),
            ("19940101T000000Z", 365 * 86_400),
            ("19921231T235959Z", -1),
            ("19921231T235900Z", -60),
            ("19921231T230000Z", -3600),
            ("19921231T000000Z", -86_400),
            ("19921201T000000Z", -31 * 86_400),
            ("19920101T000000Z", -366 * 86_400),
        ] {
            assert_eq!(seconds(text), number, "{text}");
        }
    }

    #[test]
    fn the_range_has_its_ends() {
        assert_eq!(seconds("00010101T000000Z"), -62_861_443_200);
        assert_eq!(seconds("99991231T235959Z"), 252_676_454_399);
    }

    #[test]
    fn leap_days_are_counted_on_both_sides() {
        for (text, number) in [
            ("00040229T000000Z", -62_861_443_200 + (3 * 365 + 31 + 28) * 86_400),
            ("16000229T000000Z", -12_396_844_800),
            ("19920229T000000Z", -26_524_800),
            ("19920301T000000Z", -26_438_400),
            ("19960229T000000Z", 99_705_600),
            ("19960301T000000Z", 99_705_600 + 86_400),
            ("20000229T000000Z", 225_936_000),
            ("24000229T000000Z", 12_848_716_800),
        ] {
            assert_eq!(seconds(text), number, "{text}");
        }
        // Years of a century are none, but by 400.
        assert_eq!(seconds("19000228T000000Z"), -2_929_824_000);
        assert_eq!(seconds("19000301T000000Z"), -2_929_737_600);
        for year in [1000, 1700, 1800, 1900, 2100, 2200, 2300, 9900] {
            assert_eq!(moment_of(format!("{year}0229T000000Z").as_bytes()), None);
            assert_eq!(day((year, 3, 1)) - day((year, 2, 28)), 86_400);
        }
        for year in [4, 400, 1600, 1992, 1996, 2000, 2400, 9996] {
            assert_eq!(day((year, 3, 1)) - day((year, 2, 28)), 2 * 86_400);
        }
    }

    /// Beside what other counts of time say: 1970 begins 8,401 days before, and 2000 2,556 days after.
    #[test]
    fn the_days_around_1970_and_2000_are_right() {
        for (text, number) in [
            ("19691231T000000Z", -8402 * 86_400),
            ("19691231T235959Z", -725_846_401),
            ("19700101T000000Z", -725_846_400),
            ("19700102T000000Z", -8400 * 86_400),
            ("19991231T000000Z", 2555 * 86_400),
            ("19991231T235959Z", 220_838_399),
            ("20000101T000000Z", 220_838_400),
            ("20000102T000000Z", 2557 * 86_400),
        ] {
            assert_eq!(seconds(text), number, "{text}");
        }
    }

    /// Each day has 86,400 seconds more than the one before it, and 400 years have as many days as they should.
    #[test]
    fn every_day_of_400_years_is_counted_once() {
        for first in [1, 1593, 1793, 1993, 9600] {
            let (mut date, mut days) = ((first, 1, 1), 0);
            let start = day(date);
            while date.0 < first + 400 {
                assert_eq!(day(date), start + days * SECONDS_OF_A_DAY, "{date:?}");
                (date, days) = (next_day(date), days + 1);
            }
            assert_eq!(days, 146_097);
        }
    }

    /// From the first of all days to the last.
    #[test]
    fn every_day_of_all_years_is_counted_once() {
        let (mut date, mut days) = ((1, 1, 1), 0);
        let start = -62_861_443_200;
        while date.0 <= LAST_YEAR {
            if date.2 == 1 || date.2 >= 28 {
                assert_eq!(day(date), start + days * SECONDS_OF_A_DAY, "{date:?}");
            }
            (date, days) = (next_day(date), days + 1);
        }
        assert_eq!(days, 3_652_059);
    }

    #[test]
    fn every_second_of_a_day_is_counted_once() {
        let mut number = seconds("19921231T000000Z");
        assert_eq!(number, -86_400);
        for (hour, minute) in (0..24).flat_map(|hour| (0..60).map(move |minute| (hour, minute))) {
            for second in 0..60 {
                let text = format!("19921231T{hour:02}{minute:02}{second:02}Z");
                assert_eq!(seconds(&text), number, "{text}");
                number += 1;
            }
        }
        assert_eq!(number, 0);
    }

    #[test]
    fn the_order_of_the_numbers_is_that_of_the_texts() {
        let mut random = Random::with_seed(11);
        for _ in 0..2000 {
            let [one, other] = [(); 2].map(|()| sample::timestamp(&mut random));
            let by_numbers = moment_of(&one).cmp(&moment_of(&other));
            assert_eq!(by_numbers, one.cmp(&other), "{one:?} {other:?}");
        }
    }

    #[test]
    fn other_texts_have_no_number() {
        for text in [
            "",
            "19930101T000000",
            "19930101T000000Z0",
            " 19930101T000000Z",
            "00000101T000000Z",
            "19930001T000000Z",
            "19931301T000000Z",
            "19930100T000000Z",
            "19930132T000000Z",
            "19930229T000000Z",
            "19930431T000000Z",
            "19930101T240000Z",
            "19930101T006000Z",
            "19930101T000060Z",
            "19930101t000000Z",
            "19930101T000000z",
            "1993010AT000000Z",
        ] {
            assert_eq!(moment_of(text.as_bytes()), None, "{text}");
        }
        let mut random = Random::with_seed(12);
        for _ in 0..200 {
            assert_eq!(moment_of(&sample::missing_day(&mut random)), None);
        }
    }

    #[test]
    fn expiry_is_that_of_the_third_field() {
        assert_eq!(expiry_of(&worked("PUBKEY_KMC")), Ok(884_433_600));
        assert_eq!(expiry_of(&worked("PUBKEY_MAN")), Ok(884_872_800));
        assert_eq!(expiry_of(&worked("PUBKEY_SM")), Ok(252_676_411_199));
        assert_eq!(expiry_of(&worked(UNSIGNED)), Err(Refusal::UnsignedModule));
        for name in ["VKLOADREQ", "VKLOADRESP", "KEY1_1", "ID_SM", "ID_KMC"] {
            assert_eq!(expiry_of(&worked(name)), Err(Refusal::UnknownKind), "{name}");
        }
    }
}
