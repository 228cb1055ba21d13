//! Every date there could be, held against `compare/`, with its seconds. Whether a day exists depends on its month and its year, so
//! that places tried one by one would not tell.

mod held;

use held::dates::same_moment;

fn same_date(year: usize, month: usize, day: usize) -> Option<i64> {
    same_moment(format!("{year:04}{month:02}{day:02}T000000Z").as_bytes())
}

/// All years with all their days, and what stands beside them. From 1 January 0001 to 31 December 9999 there are 3,652,059 days, and
/// each has 86,400 seconds more than the one before it.
#[test]
fn all_years() {
    const FIRST: i64 = -62_861_443_200;
    let mut days = 0;
    for year in 0..=9999 {
        for month in 0..=13 {
            for seconds in (0..=32).filter_map(|day| same_date(year, month, day)) {
                assert_eq!(seconds, FIRST + days * 86_400, "{year} {month}");
                days += 1;
            }
        }
    }
    assert_eq!(days, 3_652_059);
}

/// All that two digits can say of a month and of a day, in years by 4, by 100, by 400, and by none of them.
#[test]
fn all_months_and_days() {
    for year in [0, 1, 4, 100, 400, 1900, 1996, 2000, 2023, 2024, 2100, 2400, 9996, 9999] {
        for month in 0..=99 {
            for day in 0..=99 {
                same_date(year, month, day);
            }
        }
    }
}

/// All that two digits can say of an hour, a minute and a second: each second of a day has one more than the one before it.
#[test]
fn all_seconds() {
    for (date, first) in [("19930101", 0), ("19921231", -86_400), ("20000229", 225_936_000)] {
        let mut passed = 0;
        for time in (0..1_000_000).map(|time| format!("{date}T{time:06}Z")) {
            if let Some(seconds) = same_moment(time.as_bytes()) {
                assert_eq!(seconds, first + passed, "{time}");
                passed += 1;
            }
        }
        assert_eq!(passed, 86_400);
    }
}

/// What the request names, and the last and the first of what 32 bits can count.
#[test]
fn known_dates() {
    for (text, seconds) in [
        ("19930101T000000Z", 0),
        ("19921231T235959Z", -1),
        ("00010101T000000Z", -62_861_443_200),
        ("99991231T235959Z", 252_676_454_399),
        ("19920229T000000Z", -26_524_800),
        ("19960229T000000Z", 99_705_600),
        ("20000229T000000Z", 225_936_000),
        ("24000229T000000Z", 12_848_716_800),
        ("19000228T235959Z", -2_929_737_601),
        ("19000301T000000Z", -2_929_737_600),
        ("19691231T235959Z", -725_846_401),
        ("19700101T000000Z", -725_846_400),
        ("19991231T235959Z", 220_838_399),
        ("20000101T000000Z", 220_838_400),
        ("20610119T031407Z", i64::from(i32::MAX)),
        ("20610119T031408Z", i64::from(i32::MAX) + 1),
        ("19241213T204552Z", i64::from(i32::MIN)),
        ("19241213T204551Z", i64::from(i32::MIN) - 1),
        ("21290207T062816Z", 1 << 32),
    ] {
        assert_eq!(same_moment(text.as_bytes()), Some(seconds), "{text}");
    }
    for text in ["", "19930101T000000", "19930101T000000Z0", "19000229T000000Z", "00000101T000000Z"]
    {
        assert_eq!(same_moment(text.as_bytes()), None, "{text}");
    }
}
