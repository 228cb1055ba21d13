//! The identity call and the record call.

use super::Plan;
use crate::calls::Op;
use compare::crc::crc16;
use compare::kind::{FieldType, Kind};
use compare::record::LONGEST_READ;
use compare::sample::{self, Fault, Place, Signed};
use compare::text::{check_text, LONGEST_IDENT, SIG_DIGITS};
use compare::worked::{worked, IDENTITIES, RECORDS};

pub fn add(plan: &mut Plan) {
    worked_records(plan);
    accepted(plan);
    ident_lengths(plan);
    longest(plan);
    shortest(plan);
    damaged(plan);
    damaged_inside(plan);
    wrong_types(plan);
    records_inside(plan);
    half_signed(plan);
    field_counts(plan);
    marks(plan);
    checks(plan);
    strange_bytes(plan);
    faults(plan);
}

/// The call that reads this kind.
pub fn reader(kind: Kind) -> Op {
    if Kind::IDENTITIES.contains(&kind) {
        Op::Identity
    } else {
        Op::Record
    }
}

impl Plan {
    /// Both reading calls with the same bytes.
    fn read_both(&mut self, bytes: impl Into<Vec<u8>>) {
        let bytes = bytes.into();
        self.call(Op::Identity, bytes.clone());
        self.call(Op::Record, bytes);
    }
}

fn worked_records(plan: &mut Plan) {
    for name in IDENTITIES.iter().chain(&RECORDS) {
        plan.read_both(worked(name));
    }
}

fn accepted(plan: &mut Plan) {
    for kind in Kind::ALL {
        for _ in 0..15 {
            let record = sample::record(&mut plan.random, kind);
            plan.call(reader(kind), record);
        }
        for &signed in Signed::forms(kind) {
            let fields = sample::short_fields(&mut plan.random, kind, signed);
            plan.read_both(sample::of_kind(kind, &fields));
        }
    }
}

fn ident_lengths(plan: &mut Plan) {
    const MOST: usize = LONGEST_IDENT;
    const MORE: usize = LONGEST_IDENT + 1;
    for lengths in [
        [1, 1],
        [1, MOST],
        [MOST, 1],
        [MOST, MOST],
        [MORE, 1],
        [1, MORE],
        [MORE, MORE],
        [MOST - 1, 3 * MORE],
    ] {
        for kind in Kind::IDENTITIES {
            let identity = sample::with_idents(&mut plan.random, kind, [0, 1], lengths);
            plan.call(Op::Identity, identity);
        }
        let request = sample::with_idents(&mut plan.random, Kind::VkloadReq, [3, 4], lengths);
        plan.call(Op::Record, request);
    }
    // The longest public key, and one with a character too many deep inside.
    for last in [MOST, MORE] {
        let subject = sample::with_idents(&mut plan.random, Kind::Smman, [0, 1], [MOST, last]);
        let mut fields = sample::fields(&mut plan.random, Kind::PkEcdsa, Signed::Yes);
        (fields[0], fields[3]) = (subject.clone(), subject);
        plan.call(Op::Record, sample::of_kind(Kind::PkEcdsa, &fields));
    }
}

/// Around the longest bytes that are read: wrong in one field, in the number of fields, in the
/// kind; without a mark.
fn longest(plan: &mut Plan) {
    for length in [LONGEST_READ - 1, LONGEST_READ, LONGEST_READ + 1] {
        for kind in Kind::ALL {
            let field = plan.random.below(kind.fields().len());
            let record = sample::padded(&mut plan.random, kind, field, length);
            plan.call(reader(kind), record);
        }
        for kind in [Kind::Kmcid, Kind::PkEcdh] {
            let head = [kind.name().as_bytes(), &[kind.mark()]].concat();
            let padding = sample::hex(&mut plan.random, length - head.len() - 5);
            let body = [head, padding, vec![kind.mark()]].concat();
            plan.call(reader(kind), sample::sealed(&body));
        }
        plan.read_both(vec![b'0'; length]);
        let record = sample::padded(&mut plan.random, Kind::VkloadResp, 3, length);
        plan.call(Op::Identity, record);
    }
    plan.call(Op::Record, vec![b'|'; 4096]);
}

fn shortest(plan: &mut Plan) {
    few_bytes(plan);
    for kind in Kind::ALL {
        names_and_marks(plan, kind);
    }
}

/// Up to 12 bytes, and names that are no kind's.
fn few_bytes(plan: &mut Plan) {
    for length in 0..=12 {
        let bytes = plan.random.bytes(length);
        plan.read_both(bytes);
        let bytes = plan.random.bytes_of(b":|SMID.1", length);
        plan.call(Op::Identity, bytes);
        let bytes = plan.random.bytes_of(b"0123456789ABCDEF:|", length);
        plan.call(Op::Record, bytes);
    }
    for name in
        ["", ":", "|", "::", "||", ":|", "|:", "SMID", "smid.1", "SMID.2", "SMID.10", "KMC.1"]
    {
        plan.read_both(name);
        for (op, mark) in [(Op::Identity, ":"), (Op::Record, "|")] {
            plan.call(op, sample::sealed([name, mark].concat().as_bytes()));
        }
    }
}

/// A kind's name with its own mark and the other one, with nothing or little after it, and names
/// that are nearly its own.
fn names_and_marks(plan: &mut Plan, kind: Kind) {
    let name = kind.name();
    let (own, other) = match kind.mark() {
        b':' => (":", "|"),
        _ => ("|", ":"),
    };
    for end in ["", own, other] {
        plan.read_both([name, end].concat());
    }
    for end in ["x", "0", "AB", "ABC", "ABCD", "0000", "abcd", "ABCDE"] {
        plan.call(reader(kind), [name, own, end].concat());
    }
    plan.call(reader(kind), [name, other, "x"].concat());
    for marks in [own, other, &own.repeat(2), &[own, other].concat(), &[other, own].concat()] {
        plan.call(reader(kind), sample::sealed([name, marks].concat().as_bytes()));
    }
    for name in [&name[1..], &name[..name.len() - 1], &name.to_lowercase(), &[" ", name].concat()] {
        let fields = sample::fields(&mut plan.random, kind, Signed::No);
        plan.call(reader(kind), sample::join(name.as_bytes(), kind.mark(), &fields));
    }
}

fn damaged(plan: &mut Plan) {
    let again = [Place::Anywhere, Place::Anywhere, Place::FirstField];
    for kind in Kind::ALL {
        for place in Place::ALL.into_iter().chain(again) {
            for bytes in 1..=3 {
                let record = sample::record(&mut plan.random, kind);
                let damaged = sample::damaged(&mut plan.random, kind, &record, place, bytes);
                plan.call(reader(kind), sample::resealed(&damaged));
                plan.call(reader(kind), damaged);
            }
        }
    }
}

/// Damage in an identity whose own check, and the record's, are made right again.
fn damaged_inside(plan: &mut Plan) {
    for kind in Kind::RECORDS {
        for (index, entry) in kind.fields().iter().enumerate() {
            let FieldType::Identity(permitted) = entry.field_type else {
                continue;
            };
            for bytes in 1..=3 {
                for place in [Place::Anywhere, Place::Marks] {
                    let inner = plan.random.one_of(permitted);
                    let identity = sample::record(&mut plan.random, inner);
                    let identity =
                        sample::damaged(&mut plan.random, inner, &identity, place, bytes);
                    let signed = Signed::to_fill(kind, index);
                    let mut fields = sample::fields(&mut plan.random, kind, signed);
                    fields[index] = sample::resealed(&identity);
                    plan.call(Op::Record, sample::of_kind(kind, &fields));
                }
            }
        }
    }
}

/// Every type of text, and none, in the place of every field.
fn wrong_types(plan: &mut Plan) {
    let types = [
        FieldType::Ident,
        FieldType::Timestamp,
        FieldType::Print,
        FieldType::Point,
        FieldType::Sig,
        FieldType::Mac,
        FieldType::Identity(&[Kind::Smman]),
        FieldType::Identity(&[Kind::Smid]),
        FieldType::Identity(&[Kind::Kmcid]),
    ];
    for kind in Kind::ALL {
        for index in 0..kind.fields().len() {
            for field_type in types {
                let signed = Signed::any(&mut plan.random);
                let mut fields = sample::short_fields(&mut plan.random, kind, signed);
                fields[index] = sample::of_type(&mut plan.random, field_type);
                plan.call(reader(kind), sample::of_kind(kind, &fields));
            }
            let signed = Signed::to_fill(kind, index);
            let mut fields = sample::short_fields(&mut plan.random, kind, signed);
            fields[index].clear();
            plan.call(reader(kind), sample::of_kind(kind, &fields));
        }
        let empty = vec![Vec::new(); kind.fields().len()];
        plan.call(reader(kind), sample::of_kind(kind, &empty));
    }
}

/// A whole record is no identity, with its own marks or an identity's.
fn records_inside(plan: &mut Plan) {
    for (kind, inner) in [(Kind::PkEcdh, Kind::VkloadResp), (Kind::VkloadResp, Kind::PkEcdh)] {
        let mut fields = sample::fields(&mut plan.random, kind, Signed::No);
        fields[0] = sample::record(&mut plan.random, inner);
        plan.call(Op::Record, sample::of_kind(kind, &fields));
        for byte in &mut fields[0] {
            if *byte == b'|' {
                *byte = b':';
            }
        }
        plan.call(Op::Record, sample::of_kind(kind, &fields));
    }
}

/// Issuer alone, of every kind, and Signature alone, whole and a character short.
fn half_signed(plan: &mut Plan) {
    for kind in Kind::PUBLIC_KEYS {
        for issuer in Kind::IDENTITIES {
            let mut fields = sample::fields(&mut plan.random, kind, Signed::No);
            fields[3] = sample::record(&mut plan.random, issuer);
            plan.call(Op::Record, sample::of_kind(kind, &fields));
        }
        for length in [SIG_DIGITS - 1, SIG_DIGITS, SIG_DIGITS + 1] {
            let mut fields = sample::fields(&mut plan.random, kind, Signed::No);
            fields[4] = sample::hex(&mut plan.random, length);
            plan.call(Op::Record, sample::of_kind(kind, &fields));
        }
    }
}

fn field_counts(plan: &mut Plan) {
    for kind in Kind::ALL {
        let count = kind.fields().len();
        for index in 0..count {
            let mut fewer = sample::fields(&mut plan.random, kind, Signed::No);
            fewer.remove(index);
            plan.call(reader(kind), sample::of_kind(kind, &fewer));

            let mut more = sample::fields(&mut plan.random, kind, Signed::No);
            more.insert(index, more[index].clone());
            plan.call(reader(kind), sample::of_kind(kind, &more));
        }
        for index in [0, count] {
            let mut more = sample::fields(&mut plan.random, kind, Signed::No);
            more.insert(index, Vec::new());
            plan.call(reader(kind), sample::of_kind(kind, &more));
        }
        for times in [1, 2, count - 1, count + 1, 255, 256 + count] {
            plan.call(reader(kind), sample::of_kind(kind, &vec![Vec::new(); times]));
        }
    }
}

/// The other mark: everywhere, first, last and between.
fn marks(plan: &mut Plan) {
    for kind in Kind::ALL {
        let fields = sample::fields(&mut plan.random, kind, Signed::No);
        let record = sample::of_kind(kind, &fields);
        let other = if kind.mark() == b':' { b'|' } else { b':' };
        plan.read_both(sample::join(kind.name().as_bytes(), other, &fields));

        let marks = (0..record.len()).filter(|&index| record[index] == kind.mark());
        for index in marks {
            let mut changed = record.clone();
            changed[index] = other;
            plan.call(reader(kind), sample::resealed(&changed));
        }
        // The other mark inside a field never ends it.
        for index in 0..fields.len() {
            let mut fields = fields.clone();
            let place = plan.random.between(0, fields[index].len());
            fields[index].insert(place, other);
            plan.call(reader(kind), sample::of_kind(kind, &fields));
        }
    }
}

/// Checks that are not the record's.
fn checks(plan: &mut Plan) {
    for kind in Kind::ALL {
        let record = with_a_letter_in_its_check(plan, kind);
        let (body, check) = record.split_at(record.len() - 4);
        for sum in mistaken_sums(kind, &record) {
            plan.call(reader(kind), [body, check_text(sum).as_bytes()].concat());
        }
        for check in changed_checks(plan, check) {
            plan.call(reader(kind), [body, &check].concat());
        }
    }
}

/// A record whose check is another one in lower case.
fn with_a_letter_in_its_check(plan: &mut Plan, kind: Kind) -> Vec<u8> {
    loop {
        let fields = sample::short_fields(&mut plan.random, kind, Signed::No);
        let record = sample::of_kind(kind, &fields);
        if record[record.len() - 4..].iter().any(u8::is_ascii_uppercase) {
            return record;
        }
    }
}

/// Sums that a plausible error would take for the record's.
fn mistaken_sums(kind: Kind, record: &[u8]) -> [u16; 10] {
    let body = &record[..record.len() - 4];
    let sum = crc16(body);
    let name = kind.name().len();
    let without_marks = |bytes: &[u8]| -> Vec<u8> {
        bytes.iter().copied().filter(|&byte| byte != kind.mark()).collect()
    };
    [
        sum.swap_bytes(),
        sum.reverse_bits(),
        sum ^ 0xFFFF,
        crc16(&without_marks(&body[name..])),
        crc16(&without_marks(body)),
        crc16(&body[name..]),
        crc16(&body[name + 1..]),
        crc16(&body[..body.len() - 1]),
        crc16(record),
        0,
    ]
}

/// The check with a wrong character, in lower case, backwards, too short, and too long.
fn changed_checks(plan: &mut Plan, check: &[u8]) -> Vec<Vec<u8>> {
    let mut changed = Vec::new();
    for index in 0..4 {
        let mut wrong = check.to_vec();
        wrong[index] = plan.random.one_of(b"gG:|@/` \n\0\x80");
        changed.push(wrong);
    }
    changed.push(check.to_ascii_lowercase());
    changed.push(check.iter().rev().copied().collect());
    changed.push(check[1..].to_vec());
    changed.push(Vec::new());
    changed.push([check, check].concat());
    changed.push([b"0", check].concat());
    for end in ["\n", "\r", "\0", "0", "|"] {
        changed.push([check, end.as_bytes()].concat());
    }
    changed
}

/// Bytes of 128 and up, line feeds, NULs and the like in every field, under a right check.
fn strange_bytes(plan: &mut Plan) {
    for kind in Kind::ALL {
        for index in 0..kind.fields().len() {
            for bytes in [&b"\x80\xC3\xE9\xFF"[..], b"\n\0\r", b" #:|/@\x7F"] {
                let signed = Signed::to_fill(kind, index);
                let mut fields = sample::short_fields(&mut plan.random, kind, signed);
                let byte = plan.random.one_of(bytes);
                let place = plan.random.below(fields[index].len());
                fields[index][place] = byte;
                plan.call(reader(kind), sample::of_kind(kind, &fields));
            }
        }
        let name = kind.name().as_bytes();
        for byte in *b"\0\n\x80" {
            let fields = sample::fields(&mut plan.random, kind, Signed::No);
            let name = [name, &[byte]].concat();
            plan.call(reader(kind), sample::join(&name, kind.mark(), &fields));
        }
    }
}

/// Each fault alone and every two together: which is found first. Being too long is joined to the
/// others in two kinds only.
fn faults(plan: &mut Plan) {
    for kind in Kind::ALL {
        let faults = Fault::of(kind);
        let joined = [Kind::Smid, Kind::PkEcdh].contains(&kind);
        for (index, &first) in faults.iter().enumerate() {
            let seconds = if joined || first != Fault::Long { faults.len() } else { index + 1 };
            for &second in &faults[index..seconds] {
                let record = sample::faulty(&mut plan.random, kind, &[first, second]);
                plan.call(reader(kind), record);
            }
        }
        let record = sample::faulty(&mut plan.random, kind, faults);
        plan.call(reader(kind), record);
    }
}
