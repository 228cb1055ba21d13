//! The two field calls.

use super::Plan;
use crate::calls::Op;
use compare::kind::Kind;
use compare::record::read;
use compare::sample::{self, Fault, Place, Signed};
use compare::worked::{worked, IDENTITIES, RECORDS};

pub fn add(plan: &mut Plan) {
    for name in IDENTITIES.iter().chain(&RECORDS) {
        let record = worked(name);
        let kind = read(&record, &Kind::ALL).expect("worked records are accepted").kind;
        for number in 0..=kind.fields().len() as u64 + 1 {
            plan.numbered(caller(kind), number, record.clone());
        }
    }
    for kind in Kind::ALL {
        let op = caller(kind);
        for &signed in Signed::forms(kind) {
            let fields = sample::short_fields(&mut plan.random, kind, signed);
            every_number(plan, op, fields.len() as u64, &sample::of_kind(kind, &fields));
        }
        for _ in 0..6 {
            let record = sample::record(&mut plan.random, kind);
            let number = plan.random.between(1, kind.fields().len()) as u64;
            plan.numbered(op, number, record.clone());
            plan.numbered(other(op), number, record);
        }
    }
    refused(plan);
}

fn caller(kind: Kind) -> Op {
    if Kind::IDENTITIES.contains(&kind) {
        Op::IdentityField
    } else {
        Op::RecordField
    }
}

fn other(op: Op) -> Op {
    match op {
        Op::IdentityField => Op::RecordField,
        _ => Op::IdentityField,
    }
}

/// All numbers that the kind has, and those around and far beyond them.
fn every_number(plan: &mut Plan, op: Op, count: u64, record: &[u8]) {
    let beyond = [count + 1, 255, 256, 257, (1 << 32) + 1, 1 << 63, u64::MAX];
    for number in (0..=count).chain(beyond) {
        plan.numbered(op, number, record);
    }
}

/// Refused records: whatever the number, the record's own refusal comes first.
fn refused(plan: &mut Plan) {
    for kind in Kind::ALL {
        let op = caller(kind);
        let count = kind.fields().len() as u64;
        for (index, &fault) in Fault::of(kind).iter().enumerate() {
            let record = sample::faulty(&mut plan.random, kind, &[fault]);
            let number = [0, 1, count, count + 1, u64::MAX][index % 5];
            plan.numbered(op, number, record);
        }
        for number in 0..=count + 1 {
            let record = sample::record(&mut plan.random, kind);
            let record = sample::damaged(&mut plan.random, kind, &record, Place::Anywhere, 2);
            plan.numbered(op, number, sample::resealed(&record));
        }
        for bytes in [&b""[..], b":", b"|", kind.name().as_bytes()] {
            plan.numbered(op, 1, bytes);
        }
    }
}
