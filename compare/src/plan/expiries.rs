//! Request E9: when a public key expires, as a number of seconds.

use super::fingerprints::{change_last, WRONG_PARTS};
use super::long::{Block, Part};
use super::moments::at;
use super::Plan;
use crate::calls::Op;
use compare::kind::Kind;
use compare::record::LONGEST_READ;
use compare::sample::{self, Fault, PublicKey, Signed, Subject};
use compare::text::TIMESTAMP_LENGTH;
use compare::worked::{worked, IDENTITIES, RECORDS, UNSIGNED};

/// The public keys of document 003.
const KEYS: [&str; 4] = ["PUBKEY_KMC", "PUBKEY_MAN", UNSIGNED, "PUBKEY_SM"];

pub fn add(plan: &mut Plan) {
    worked_keys(plan);
    times(plan);
    drawn(plan);
    wrong_times(plan);
    wrong_parts(plan);
    faults(plan);
    other_kinds(plan);
    few_bytes(plan);
    long(plan);
    sweeps(plan);
}

fn worked_keys(plan: &mut Plan) {
    for name in KEYS {
        plan.call(Op::ExpiryOf, worked(name));
    }
}

/// Times at both ends, around the start and far from it.
pub(super) fn ends() -> Vec<String> {
    let texts = [
        "00010101T000000Z",
        "00010101T000001Z",
        "19000301T000000Z",
        "19691231T235959Z",
        "19700101T000000Z",
        "19920229T000000Z",
        "19921231T235959Z",
        "19930101T000000Z",
        "19930101T000001Z",
        "19960229T235959Z",
        "20000229T000000Z",
        "20380119T031408Z",
        "99991231T235958Z",
        "99991231T235959Z",
    ];
    let numbers = [255, 256, -256, -257, 1 << 31, 1 << 32, -(1 << 31) - 1, -(1 << 32)];
    texts.map(str::to_owned).into_iter().chain(numbers.map(at)).collect()
}

/// Each of these as the Expiry of a key, and as the GNT of one that expires at another time.
fn times(plan: &mut Plan) {
    let mut kinds = Kind::IDENTITIES.into_iter().cycle();
    for (index, time) in ends().into_iter().enumerate() {
        let forms = [[Signed::No, Signed::Yes], [Signed::No, Signed::No]][index % 2];
        for (signed, kind) in forms.into_iter().zip(&mut kinds) {
            let subject = Subject { kind, ..Subject::any(&mut plan.random) };
            let mut key = PublicKey::of(&mut plan.random, subject, signed);
            key.expiry = time.clone().into_bytes();
            plan.call(Op::ExpiryOf, key.record());
        }
        let subject = Subject { gnt: time.into_bytes(), ..Subject::any(&mut plan.random) };
        let key = PublicKey::of(&mut plan.random, subject, Signed::No);
        plan.call(Op::ExpiryOf, key.record());
    }
}

/// Keys of all Subjects, with the right Fingerprint and with any.
fn drawn(plan: &mut Plan) {
    for _ in 0..12 {
        let signed = Signed::any(&mut plan.random);
        let subject = Subject::any(&mut plan.random);
        let key = PublicKey::of(&mut plan.random, subject, signed);
        plan.call(Op::ExpiryOf, key.record());
    }
    for kind in Kind::PUBLIC_KEYS.repeat(12) {
        let record = sample::record(&mut plan.random, kind);
        plan.call(Op::ExpiryOf, record);
    }
}

/// An Expiry that is none, in a record that is right otherwise: 6 of field 3.
fn wrong_times(plan: &mut Plan) {
    for (turn, text) in [
        "",
        "19930101T000000",
        "19930101T000000Z0",
        "19930229T000000Z",
        "00000101T000000Z",
        "20180101T240000Z",
        "20180132T000000Z",
        "20180101T000060Z",
        "19930001T000000Z",
        "-9930101T000000Z",
        " 9930101T000000Z",
        "19930101t000000Z",
        "0000000000000000",
    ]
    .into_iter()
    .enumerate()
    {
        let mut key = PublicKey::of_record(&worked(KEYS[turn % 4]));
        key.expiry = text.into();
        plan.call(Op::ExpiryOf, key.record());
    }
    // A time in another field, and Expiry in none.
    let mut key = PublicKey::of_record(&worked("PUBKEY_KMC"));
    std::mem::swap(&mut key.q, &mut key.expiry);
    plan.call(Op::ExpiryOf, key.record());
}

/// What else can be wrong with a part, at times that have and have not the number 0.
fn wrong_parts(plan: &mut Plan) {
    for (name, time) in [("PUBKEY_MAN", "19930101T000000Z"), ("PUBKEY_SM", "20180120T090000Z")] {
        for spoil in WRONG_PARTS {
            let mut key = PublicKey::of_record(&worked(name));
            key.expiry = time.into();
            spoil(&mut key);
            plan.call(Op::ExpiryOf, key.record());
        }
        let mut record = worked(name);
        change_last(&mut record);
        plan.call(Op::ExpiryOf, record);
    }
}

/// Each fault alone and with the next one.
fn faults(plan: &mut Plan) {
    for kind in Kind::PUBLIC_KEYS {
        for pair in Fault::of(kind).windows(2) {
            for faults in [&pair[..1], pair] {
                let record = sample::faulty(&mut plan.random, kind, faults);
                plan.call(Op::ExpiryOf, record);
            }
        }
        let record = sample::faulty(&mut plan.random, kind, &[Fault::Half]);
        plan.call(Op::ExpiryOf, record);
    }
}

/// No other kind has an Expiry, though a field or an attribute of it is a time, and its check does not count.
fn other_kinds(plan: &mut Plan) {
    for name in IDENTITIES.iter().chain(&RECORDS[3..]) {
        plan.call(Op::ExpiryOf, worked(name));
    }
    for kind in Kind::ALL.into_iter().filter(|kind| !Kind::PUBLIC_KEYS.contains(kind)) {
        let record = sample::record(&mut plan.random, kind);
        plan.call(Op::ExpiryOf, record);
        let record = sample::faulty(&mut plan.random, kind, &[Fault::Check]);
        plan.call(Op::ExpiryOf, record);
    }
}

fn few_bytes(plan: &mut Plan) {
    for bytes in ["", "PK.ECDH.1", "PK.ECDH.1|", "PK.ECDH.1:x", "PK.ECDSA.1|x", "19930101T000000Z"]
    {
        plan.call(Op::ExpiryOf, bytes);
    }
    for body in ["PK.ECDH.1|", "PK.ECDSA.1|||||", "PK.ECDH.1|||20180120T090000Z|||"] {
        plan.call(Op::ExpiryOf, sample::sealed(body.as_bytes()));
    }
}

/// Keys as long as there can be, and longer ones.
fn long(plan: &mut Plan) {
    for kind in Kind::PUBLIC_KEYS {
        let record = sample::longest_record(&mut plan.random, kind);
        plan.call(Op::ExpiryOf, record);
        for length in [LONGEST_READ, LONGEST_READ + 1] {
            let padded = sample::padded(&mut plan.random, kind, 4, length);
            plan.call(Op::ExpiryOf, padded);
        }
    }
    for longer in Block::new().longer(Part::Key) {
        plan.call(Op::ExpiryOf, longer);
    }
}

/// Every byte value: in the name, in the mark before Expiry, in each place of it and behind it, and in the check.
fn sweeps(plan: &mut Plan) {
    let record = worked("PUBKEY_KMC");
    let end = record.len() - 4 - "|||".len();
    for place in [0, 9].into_iter().chain(end - TIMESTAMP_LENGTH - 1..=end) {
        plan.every_byte_checked(Op::ExpiryOf, 0, &record, place);
    }
    for place in record.len() - 4..record.len() {
        plan.every_byte(Op::ExpiryOf, 0, &record, place);
    }
}
