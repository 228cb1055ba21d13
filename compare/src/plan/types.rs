//! Text types, and the check, whole and by its state.

use super::Plan;
use crate::calls::Op;
use compare::sample;
use compare::text::{LONGEST_IDENT, MAC_DIGITS, POINT_DIGITS, PRINT_DIGITS, SIG_DIGITS};
use compare::worked::{worked, IDENTITIES, RECORDS};

pub fn add(plan: &mut Plan) {
    idents(plan);
    timestamps(plan);
    hexadecimal(plan);
    fixed_lengths(plan);
    sums(plan);
    states(plan);
}

fn idents(plan: &mut Plan) {
    for byte in 0..=255 {
        plan.call(Op::Ident, [byte]);
    }
    for byte in (0..128).chain([128, 255]) {
        plan.call(Op::Ident, [b'A', byte]);
    }
    for text in ["", "Prism", "A", "TEST1", "06000001", "sts-KeyAgreement-1.2", "A_-.,", "a,.-_"] {
        plan.call(Op::Ident, text);
    }
    for name in ["HWID", "FWID", "TVP", "FINGERPRINT_SM", "ID_SM", "QE"] {
        plan.call(Op::Ident, worked(name));
    }
    for length in (1..=LONGEST_IDENT + 8).chain([64, 98, 99, 100, 255, 256, 257, 1024]) {
        let text = sample::ident(&mut plan.random, length);
        plan.call(Op::Ident, text);
    }
    for index in 0..LONGEST_IDENT {
        let mut text = sample::ident(&mut plan.random, LONGEST_IDENT);
        text[index] = plan.random.one_of(b" :|#\n\r\0/@[`{+*;'\"\x7F\x80\xAD\xFF");
        plan.call(Op::Ident, text);
    }
}

/// Nothing, a letter alone, and years from the first to the last.
const YEARS: &[&str] = &[
    "",
    "T",
    "00000101T000000Z",
    "00010101T000000Z",
    "00100101T000000Z",
    "01000101T000000Z",
    "10000101T000000Z",
    "99991231T115959Z",
    "99991231T235959Z",
];

/// Months and days, in their ranges and out of them.
const DATES: &[&str] = &[
    "20180001T000000Z",
    "20180101T000000Z",
    "20180901T000000Z",
    "20181001T000000Z",
    "20181201T000000Z",
    "20181301T000000Z",
    "20182001T000000Z",
    "20189901T000000Z",
    "20180100T000000Z",
    "20180109T000000Z",
    "20180110T000000Z",
    "20180120T000000Z",
    "20180129T000000Z",
    "20180130T000000Z",
    "20180131T000000Z",
    "20180132T000000Z",
    "20180139T000000Z",
    "20180140T000000Z",
    "20180228T000000Z",
    "20180230T000000Z",
    "20180231T000000Z",
    "20180431T000000Z",
];

/// Hours, minutes and seconds, in their ranges and out of them.
const TIMES: &[&str] = &[
    "20180101T090000Z",
    "20180101T100000Z",
    "20180101T190000Z",
    "20180101T200000Z",
    "20180101T230000Z",
    "20180101T235959Z",
    "20180101T240000Z",
    "20180101T290000Z",
    "20180101T300000Z",
    "20180101T005900Z",
    "20180101T006000Z",
    "20180101T009900Z",
    "20180101T000059Z",
    "20180101T000060Z",
    "20180101T000061Z",
    "20180101T000099Z",
];

/// Letters, lengths and separators that are not those of a TIMESTAMP.
const FORMS: &[&str] = &[
    "20180101t000000Z",
    "20180101T000000z",
    "20180101 000000Z",
    "20180101T000000",
    "20180101T00000Z",
    "20180101T0000000Z",
    "20180101T000000ZZ",
    "120180101T000000Z",
    "2018-01-01T00:00:00Z",
    "2018011T0000000Z",
    "2018010T1000000Z",
    "T20180101000000Z",
    "20180101T000000Z\n",
    "20180101T000000Z:",
];

fn timestamps(plan: &mut Plan) {
    for &text in [YEARS, DATES, TIMES, FORMS].into_iter().flatten() {
        plan.call(Op::Timestamp, text);
    }
    for name in ["TVP", "HWID", "FINGERPRINT_KMC"] {
        plan.call(Op::Timestamp, worked(name));
    }
    for _ in 0..25 {
        let text = sample::timestamp(&mut plan.random);
        plan.call(Op::Timestamp, text);
    }
    for index in 0..16 {
        for bytes in [&b"/:"[..], b"09TZtzA \x80\xB0\0\n+-.,"] {
            let mut text = sample::timestamp(&mut plan.random);
            text[index] = plan.random.one_of(bytes);
            plan.call(Op::Timestamp, text);
        }
    }
}

/// Up to two characters: digits, letters of both cases, and what stands beside them in ASCII.
const UP_TO_TWO: &[&str] = &[
    "", "0", "9", "A", "F", "G", "0A", "0a", "a0", "0F", "0f", "0G", "0g", "0/", "0:", "0@", "0`",
    "/0", ":0", "@0", "`0", " 0", "0 ", "+1", "-1", "0x", "09", "90", "AF", "FA", "00", "FF",
];

/// More than two.
const MORE_THAN_TWO: &[&str] =
    &["012", "0123", "ABCD", "ABCd", "4C31", "4c31", "0123456789ABCDEF", "0123456789abcdef"];

/// Texts with a number that is not their length; some are so in the low bits alone.
const OTHER_LENGTHS: &[(&str, u64)] = &[
    ("", 1),
    ("", 1 << 63),
    ("", u64::MAX),
    ("", 1 << 32),
    ("0A", 0),
    ("0A", 1),
    ("0A", 3),
    ("0A", 4),
    ("0A", (1 << 8) + 2),
    ("0A", (1 << 16) + 2),
    ("0A", (1 << 32) + 2),
    ("0A", (1 << 63) + 2),
    ("0A", u64::MAX),
    ("0a", 1),
    ("0123", 2),
    ("0123", 8),
];

fn hexadecimal(plan: &mut Plan) {
    for &text in [UP_TO_TWO, MORE_THAN_TWO].into_iter().flatten() {
        plan.numbered(Op::Hex, text.len() as u64, text);
    }
    for &(text, n) in OTHER_LENGTHS {
        plan.numbered(Op::Hex, n, text);
    }
    for _ in 0..30 {
        let length = plan.random.between(0, 40);
        let mut text = sample::hex(&mut plan.random, length);
        if length > 0 && plan.random.once_in(2) {
            let index = plan.random.below(length);
            text[index] = plan.random.byte();
        }
        plan.numbered(Op::Hex, length as u64, text);
    }
    for high in [0x80 | b'0', 0x80 | b'A', 0xFF, 0] {
        plan.numbered(Op::Hex, 2, [b'0', high]);
        plan.numbered(Op::Hex, 2, [high, b'0']);
    }
}

/// The types whose length is fixed.
const LENGTHS: [(Op, usize); 4] = [
    (Op::Point, POINT_DIGITS),
    (Op::Sig, SIG_DIGITS),
    (Op::Mac, MAC_DIGITS),
    (Op::Print, PRINT_DIGITS),
];

fn fixed_lengths(plan: &mut Plan) {
    for (op, length) in LENGTHS {
        for name in ["Q_KMC", "Q_MAN", "QE", "SIG_MAN", "SIG_SM", "MACTAG_SM", "FINGERPRINT_MAN"] {
            plan.call(op, worked(name));
        }
        let mut begun = |length: usize| {
            let mut text = sample::hex(&mut plan.random, length);
            if op == Op::Point && length > 1 {
                text[..2].copy_from_slice(b"04");
            }
            text
        };
        let mut texts: Vec<Vec<u8>> = [length; 3]
            .into_iter()
            .chain([0, 1, 2, length - 1, length + 1])
            .map(&mut begun)
            .collect();
        texts.push(begun(length).to_ascii_lowercase());
        let wrong = [(0, b'g'), (length - 1, b'a'), (length / 2, b':'), (length / 3, 0x80)];
        for (index, byte) in wrong.into_iter().chain([(length - 1, b'G'), (3, b'\n')]) {
            let mut text = begun(length);
            text[index] = byte;
            texts.push(text);
        }
        for text in texts {
            plan.call(op, text);
        }
    }
    for start in ["02", "03", "00", "05", "40", "44", "4", "0", "14", " 4", "0\u{14}", "04"] {
        let rest = sample::hex(&mut plan.random, POINT_DIGITS - start.len());
        plan.call(Op::Point, [start.as_bytes(), &rest].concat());
    }
}

fn sums(plan: &mut Plan) {
    for text in ["", "1", "12", "123456789", "123456788", "A", "AB", "BA", "\n", "\0", "\0\0"] {
        plan.call(Op::Crc, text);
    }
    for bit in 0..8 {
        plan.call(Op::Crc, [1u8 << bit]);
        plan.call(Op::Crc, [0xFFu8 >> bit]);
        plan.call(Op::Crc, [0u8, 1 << bit]);
    }
    for name in IDENTITIES.iter().chain(&RECORDS) {
        let record = worked(name);
        plan.call(Op::Crc, &record[..record.len() - 4]);
        plan.call(Op::Crc, record);
    }
    for name in ["SHAREDINFO", "MACDATA_SM", "MACDATA_KMC"] {
        plan.call(Op::Crc, worked(name));
    }
    for length in (1..40).chain([255, 256, 1024]) {
        let bytes = plan.random.bytes(length);
        plan.call(Op::Crc, bytes);
    }
}

fn states(plan: &mut Plan) {
    for bytes in [&b""[..], b"\0", b"\x01", b"\x80", b"\xFF", b"123456789", b"\0\0", b"\xFF\xFF"] {
        plan.call(Op::CrcState, bytes);
    }
    for name in IDENTITIES.iter().chain(&RECORDS) {
        let record = worked(name);
        plan.call(Op::CrcState, &record[..record.len() - 4]);
        plan.call(Op::CrcState, record);
    }
    for length in 1..=20 {
        let bytes = plan.random.bytes(length);
        plan.call(Op::CrcState, bytes);
    }
}
