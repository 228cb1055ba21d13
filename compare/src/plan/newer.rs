//! The choice of the newer key.

use super::Plan;
use crate::calls::Op;
use compare::kind::Kind;
use compare::sample::{self, Fault, Signed, Subject};
use compare::text::LONGEST_IDENT;
use compare::worked::{worked, IDENTITIES, RECORDS, UNSIGNED};

pub fn add(plan: &mut Plan) {
    worked_keys(plan);
    times(plan);
    equal_times(plan);
    other_subjects(plan);
    refusals(plan);
    other_kinds(plan);
}

impl Plan {
    /// The chooser with keys of two Subjects, in this order.
    fn choose(&mut self, first: &Subject, second: &Subject) {
        let first = first.key(&mut self.random);
        let second = second.key(&mut self.random);
        self.pair(Op::Newer, first, second);
    }
}

/// Pairs of worked keys, with the same Subject and with another; one of them is refused.
const WORKED: [(&str, &str); 9] = [
    ("PUBKEY_KMC", "PUBKEY_KMC"),
    ("PUBKEY_MAN", "PUBKEY_MAN"),
    ("PUBKEY_SM", "PUBKEY_SM"),
    ("PUBKEY_SM", UNSIGNED),
    (UNSIGNED, "PUBKEY_SM"),
    ("PUBKEY_KMC", "PUBKEY_SM"),
    ("PUBKEY_MAN", "PUBKEY_SM"),
    ("PUBKEY_MAN", UNSIGNED),
    ("PUBKEY_KMC", "PUBKEY_MAN"),
];

fn worked_keys(plan: &mut Plan) {
    for (first, second) in WORKED {
        plan.pair(Op::Newer, worked(first), worked(second));
    }
}

/// Which of the two: the worked keys, an earlier and a later one in both orders; and which is refused,
/// the first before the second.
pub fn which(plan: &mut Plan) {
    for (first, second) in WORKED {
        plan.pair(Op::NewerOf, worked(first), worked(second));
    }
    for (first, second) in
        [("20180110T120000Z", "20180110T120001Z"), ("20171231T235959Z", "20180101T000000Z")]
    {
        let subject = Subject::any(&mut plan.random);
        let [first, second] = [first, second]
            .map(|gnt| Subject { gnt: gnt.into(), ..subject.clone() }.key(&mut plan.random));
        plan.pair(Op::NewerOf, first.clone(), second.clone());
        plan.pair(Op::NewerOf, second, first);
    }
    let key = worked("PUBKEY_KMC");
    for &fault in Fault::of(Kind::PkEcdh) {
        let bad = sample::faulty(&mut plan.random, Kind::PkEcdh, &[fault]);
        let other = sample::faulty(&mut plan.random, Kind::PkEcdsa, &[Fault::Check]);
        plan.pair(Op::NewerOf, bad.clone(), other);
        plan.pair(Op::NewerOf, bad.clone(), key.clone());
        plan.pair(Op::NewerOf, key.clone(), bad);
    }
    for bytes in ["", "PK.ECDH.1", "PK.ECDH.1|", "PK.ECDH.1:x"] {
        plan.pair(Op::NewerOf, bytes, key.clone());
        plan.pair(Op::NewerOf, key.clone(), bytes);
    }
}

/// Two times that differ in one digit alone, in both orders; and any two times.
fn times(plan: &mut Plan) {
    for index in (0..8).chain(9..15) {
        let mut early = Subject::any(&mut plan.random);
        early.gnt = b"20180110T120000Z".to_vec();
        let mut late = early.clone();
        late.gnt[index] += 1;
        plan.choose(&early, &late);
        plan.choose(&late, &early);
    }
    for (first, second) in [
        ("20180131T235959Z", "20180201T000000Z"),
        ("20171231T235959Z", "20180101T000000Z"),
        ("00010101T000000Z", "99991231T235959Z"),
        ("20180110T095959Z", "20180110T100000Z"),
    ] {
        let subject = Subject::any(&mut plan.random);
        let [first, second] =
            [first, second].map(|gnt| Subject { gnt: gnt.into(), ..subject.clone() });
        plan.choose(&first, &second);
        plan.choose(&second, &first);
    }
    for _ in 0..8 {
        let first = Subject::any(&mut plan.random);
        let gnt = sample::timestamp(&mut plan.random);
        plan.choose(&first, &Subject { gnt, ..first.clone() });
    }
}

/// Equal times: the first, though the keys differ.
fn equal_times(plan: &mut Plan) {
    for kind in Kind::IDENTITIES.repeat(3) {
        let subject = Subject { kind, ..Subject::any(&mut plan.random) };
        plan.choose(&subject, &subject);
    }
    let key = Subject::any(&mut plan.random).key(&mut plan.random);
    plan.pair(Op::Newer, key.clone(), key);
}

/// Subjects that differ in kind, Manufacturer or MID, at equal and other times.
fn other_subjects(plan: &mut Plan) {
    for later in [false, true] {
        for kind in Kind::IDENTITIES {
            let mut subject = Subject::any(&mut plan.random);
            subject.kind = kind;
            subject.gnt = b"20180110T120000Z".to_vec();
            let mut others = Vec::new();
            for other in Kind::IDENTITIES.into_iter().filter(|&other| other != kind) {
                others.push(Subject { kind: other, ..subject.clone() });
            }
            let mut longer = subject.clone();
            longer.manufacturer.resize(subject.manufacturer.len().min(LONGEST_IDENT - 1) + 1, b'a');
            others.push(longer);
            let mut changed = subject.clone();
            changed.mid[0] = if changed.mid[0] == b'x' { b'X' } else { b'x' };
            others.push(changed);
            let (mid, manufacturer) = (subject.manufacturer.clone(), subject.mid.clone());
            others.push(Subject { manufacturer, mid, ..subject.clone() });
            for mut other in others {
                if later {
                    other.gnt = b"20180110T120001Z".to_vec();
                }
                plan.choose(&subject, &other);
            }
        }
    }
    // The same characters, cut in another place or in another case.
    let cut = |manufacturer: &str, mid: &str| Subject {
        kind: Kind::Smid,
        manufacturer: manufacturer.into(),
        mid: mid.into(),
        gnt: b"20180110T120000Z".to_vec(),
    };
    plan.choose(&cut("AB", "C"), &cut("A", "BC"));
    plan.choose(&cut("aB", "C"), &cut("AB", "C"));
    plan.choose(&cut("AB", "c"), &cut("AB", "C"));
    plan.choose(&cut("AB", "C"), &cut("AB", "C"));
}

/// Refusals of the first record hide those of the second, and both hide 13.
fn refusals(plan: &mut Plan) {
    for kind in Kind::PUBLIC_KEYS {
        let faults = Fault::of(kind);
        for (index, &fault) in faults.iter().enumerate() {
            let bad = sample::faulty(&mut plan.random, kind, &[fault]);
            let good = sample::short_fields(&mut plan.random, kind, Signed::No);
            let good = sample::of_kind(kind, &good);
            let other = faults[(index + 3) % faults.len()];
            let other = sample::faulty(&mut plan.random, kind, &[other]);
            plan.pair(Op::Newer, bad.clone(), good.clone());
            plan.pair(Op::Newer, good, bad.clone());
            plan.pair(Op::Newer, bad, other);
        }
    }
}

fn other_kinds(plan: &mut Plan) {
    let key = worked("PUBKEY_KMC");
    for name in IDENTITIES.iter().chain(&RECORDS[3..]) {
        plan.pair(Op::Newer, key.clone(), worked(name));
        plan.pair(Op::Newer, worked(name), key.clone());
    }
    // Their checks do not count.
    for kind in [Kind::VkloadReq, Kind::VkloadResp] {
        let bad = sample::faulty(&mut plan.random, kind, &[Fault::Check]);
        plan.pair(Op::Newer, bad.clone(), key.clone());
        plan.pair(Op::Newer, key.clone(), bad);
    }
    for bytes in ["", "PK.ECDH.1", "PK.ECDH.1|", "PK.ECDH.1:x", "PK.ECDSA.1|0000"] {
        plan.pair(Op::Newer, bytes, key.clone());
        plan.pair(Op::Newer, key.clone(), bytes);
        plan.pair(Op::Newer, bytes, "");
    }
}
