//! Every byte value in one place of a text or record that is otherwise right.

use super::reading::reader;
use super::Plan;
use crate::calls::Op;
use crate::cases::{Case, Form};
use compare::agreement;
use compare::crc::crc16;
use compare::kind::Kind;
use compare::sample;
use compare::text::{
    check_text, LONGEST_IDENT, LONGEST_PROTECTED, MAC_DIGITS, NONCE_DIGITS, POINT_DIGITS,
    PRINT_DIGITS, SIG_DIGITS,
};
use compare::worked::worked;

pub fn add(plan: &mut Plan) {
    idents(plan);
    timestamps(plan);
    digits(plan);
    sums(plan);
    for kind in Kind::ALL.into_iter().filter(|&kind| kind != Kind::WrappedKey) {
        let fields = sample::longest_fields(&mut plan.random, kind);
        let record = sample::of_kind(kind, &fields);
        names_and_marks(plan, kind, &record);
        fields_of(plan, kind, &fields);
        checks(plan, kind, &record);
    }
    line_feeds(plan);
    items(plan);
    wrapped_key(plan);
}

/// The longest text that `crates/cases` puts together around a byte.
const LONGEST_TEXT: usize = 1024;

impl Plan {
    /// A call for every byte value in one place of a text.
    pub(super) fn every_byte(&mut self, op: Op, n: u64, text: &[u8], place: usize) {
        assert!(text.len() <= LONGEST_TEXT, "a text of {} bytes", text.len());
        let (a, b) = (text[..place].to_vec(), text[place + 1..].to_vec());
        self.cases.push(Case { op, form: Form::EveryByte, n, a, b, c: Vec::new() });
    }

    /// The same in a record before its check, which is made right again for each.
    pub(super) fn every_byte_checked(&mut self, op: Op, n: u64, record: &[u8], place: usize) {
        assert!(record.len() <= LONGEST_TEXT, "a record of {} bytes", record.len());
        let mut body = record[..record.len() - 4].to_vec();
        let (a, b) = (body[..place].to_vec(), body[place + 1..].to_vec());
        let mut c = Vec::new();
        for byte in 0..=255 {
            body[place] = byte;
            c.extend(check_text(crc16(&body)).into_bytes());
        }
        self.cases.push(Case { op, form: Form::EveryByte, n, a, b, c });
    }
}

/// The first place alone and before others, and the later ones up to the last that there can be.
fn idents(plan: &mut Plan) {
    let longest = sample::ident(&mut plan.random, LONGEST_IDENT);
    let places = [0, 1, LONGEST_IDENT / 2, LONGEST_IDENT - 1];
    for (text, places) in [(&b"A"[..], &[0][..]), (b"Ab", &[0, 1]), (&longest, &places)] {
        for &place in places {
            plan.every_byte(Op::Ident, 0, text, place);
        }
    }
}

/// Every place, beside digits of the lowest and of the highest values and of some between them.
fn timestamps(plan: &mut Plan) {
    for text in ["00010101T000000Z", "20180120T090000Z", "19991231T235959Z"] {
        for place in 0..text.len() {
            plan.every_byte(Op::Timestamp, 0, text.as_bytes(), place);
        }
    }
}

/// First, middle and last place of HEX(n) and of the types whose length is fixed; of a POINT the
/// first three.
fn digits(plan: &mut Plan) {
    for length in [1, 2, 4, 17, 255, 1000] {
        let text = sample::hex(&mut plan.random, length);
        for place in first_middle_last(length) {
            plan.every_byte(Op::Hex, length as u64, &text, place);
        }
    }
    let types = [(Op::Sig, SIG_DIGITS), (Op::Mac, MAC_DIGITS), (Op::Print, PRINT_DIGITS)];
    for (op, length) in types {
        let text = sample::hex(&mut plan.random, length);
        for place in first_middle_last(length) {
            plan.every_byte(op, 0, &text, place);
        }
    }
    let point = sample::point(&mut plan.random);
    for place in [0, 1, 2, POINT_DIGITS / 2, POINT_DIGITS - 1] {
        plan.every_byte(Op::Point, 0, &point, place);
    }
}

fn first_middle_last(length: usize) -> Vec<usize> {
    let mut places = vec![0, length / 2, length - 1];
    places.dedup();
    places
}

fn sums(plan: &mut Plan) {
    plan.every_byte(Op::Crc, 0, b"0", 0);
    plan.every_byte(Op::Crc, 0, b"123456789", 8);
}

/// The first and the last character of the name, and the first and the last mark.
fn names_and_marks(plan: &mut Plan, kind: Kind, record: &[u8]) {
    let name = kind.name().len();
    for place in [0, name - 1, name, record.len() - 5] {
        plan.every_byte_checked(reader(kind), 0, record, place);
    }
}

/// The middle of every field, which is a digit in a TIMESTAMP.
fn fields_of(plan: &mut Plan, kind: Kind, fields: &[Vec<u8>]) {
    let record = sample::of_kind(kind, fields);
    let mut start = kind.name().len() + 1;
    for field in fields {
        plan.every_byte_checked(reader(kind), 0, &record, start + (field.len() - 1) / 2);
        start += field.len() + 1;
    }
}

/// Every place of the check.
fn checks(plan: &mut Plan, kind: Kind, record: &[u8]) {
    for place in record.len() - 4..record.len() {
        plan.every_byte(reader(kind), 0, record, place);
    }
}

/// In place of a line feed between two accepted lines, and of the last one.
fn line_feeds(plan: &mut Plan) {
    let line = [&worked("VKLOADRESP")[..], b"\n"].concat();
    let file = line.repeat(2);
    for place in [line.len() - 1, file.len() - 1] {
        plan.every_byte(Op::Count, 0, &file, place);
    }
}

/// In place of the number of items, of each item's length, and of a byte of an item.
fn items(plan: &mut Plan) {
    let text = agreement::join(&[b"U_2", b"", &[0xE9; 97]]);
    for place in [0, 1, 2, 5, 6, 50] {
        plan.every_byte(Op::ItemPlace, 3, &text, place);
    }
}

/// Cards of document 003's second key, and places in them: of names, of what ends a card, and of every
/// sort of value.
const IN_CARDS: [(&str, &[usize]); 11] = [
    ("ACT20140101T000000Z;", &[0, 2, 3]),
    ("BDT20140101T000000Z;", &[12]),
    ("CLM5368D4A5;", &[0, 1, 2, 3, 11]),
    ("DKG04;", &[4]),
    ("IUT20990101T000000Z;", &[7]),
    ("KEN255;", &[3, 4, 5]),
    ("KRN4;", &[3]),
    ("KTC2;", &[3]),
    ("SGC0000123457;", &[3, 12]),
    ("SGNCTS 123457,4 VUDK BDT14 DKG04 AB.94.0-7;", &[2, 6]),
    ("ULM1000000;", &[0, 10]),
];

/// The name, the marks and the check; both ends of the nonce and of the protected key; and places of the
/// list, there by the number of the last attribute too.
fn wrapped_key(plan: &mut Plan) {
    let key = worked("KEY1_2");
    names_and_marks(plan, Kind::WrappedKey, &key);
    checks(plan, Kind::WrappedKey, &key);
    let nonce = Kind::WrappedKey.name().len() + 1;
    let list = nonce + NONCE_DIGITS + 1;
    // Its protected key has as many digits as there can be.
    let last_mark = key.len() - 5;
    let protected_key = last_mark - LONGEST_PROTECTED;
    for place in [nonce, list - 2, list - 1, protected_key - 1, protected_key, last_mark - 1] {
        plan.every_byte_checked(Op::Record, 0, &key, place);
    }
    for (card, places) in IN_CARDS {
        let start = key.windows(card.len()).position(|part| part == card.as_bytes());
        let start = start.expect("a card of the key");
        for place in places {
            plan.every_byte_checked(Op::Record, 0, &key, start + place);
            plan.every_byte_checked(Op::AttributePlace, 14, &key, start + place);
        }
    }
}
