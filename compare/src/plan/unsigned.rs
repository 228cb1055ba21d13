//! Request E11: a module's key for key agreement that nobody signed, in every call that reads or builds. What lies in
//! cabinets is in `old.rs`.

use super::fingerprints::change_last;
use super::mail::{title_of, worked_block, AMPLE};
use super::Plan;
use crate::calls::Op;
use compare::kind::Kind;
use compare::mail::block_of;
use compare::sample::{self, Fault, PublicKey, Signed, Subject};
use compare::trailed::{line_of, TRAILER_LENGTH};
use compare::worked::{worked, UNSIGNED};

pub fn add(plan: &mut Plan) {
    worked_keys(plan);
    forms(plan);
    misleading_names(plan);
    wrong_parts(plan);
    faults(plan);
    rooms(plan);
    choices(plan);
    files(plan);
    lines_with_trailers(plan);
    blocks(plan);
    drawn(plan);
    sweeps(plan);
}

/// The line with its line feed.
fn ended(line: &[u8]) -> Vec<u8> {
    [line, b"\n"].concat()
}

/// The worked key without Issuer and Signature.
fn bare(name: &str) -> PublicKey {
    PublicKey::of_record(&worked(name)).unsigned()
}

/// The worked key with Issuer and Signature of the module's.
fn signed(name: &str) -> PublicKey {
    let PublicKey { issuer, signature, .. } = PublicKey::of_record(&worked("PUBKEY_SM"));
    PublicKey { issuer, signature, ..PublicKey::of_record(&worked(name)) }
}

impl Plan {
    /// A key in every call that takes a public key or a record, each in the form that it takes.
    fn in_every_call(&mut self, key: &PublicKey) {
        let record = key.record();
        for op in [Op::Identity, Op::Record, Op::ExpiryOf, Op::CheckFingerprint] {
            self.call(op, &record[..]);
        }
        for number in [1, 5, 6] {
            self.numbered(Op::RecordField, number, &record[..]);
            self.numbered(Op::RecordPlace, number, &record[..]);
        }
        self.numbered(Op::WriteFingerprint, AMPLE, &record[..]);
        for op in [Op::Newer, Op::NewerOf] {
            self.pair(op, &record[..], &record[..]);
        }
        let file = ended(&record);
        for op in [Op::Line, Op::StepFrom, Op::Reader, Op::Count] {
            self.call(op, &file[..]);
        }
        let line = line_of(&record);
        self.call(Op::Trailed, &line[..]);
        for op in [Op::TrailedLine, Op::CountTrailed] {
            self.call(op, ended(&line));
        }
        self.numbered(Op::WriteTrailed, AMPLE, &record[..]);
        self.mailed(&record);
        self.build(AMPLE as usize, key.kind.name(), &key.fields());
        self.file(&b"", Op::PutKey, &[], &record);
    }
}

/// The keys of document 003, signed and not, and the module's with another Fingerprint, which is looked at afterwards.
fn worked_keys(plan: &mut Plan) {
    for name in ["PUBKEY_SM", "PUBKEY_KMC", "PUBKEY_MAN"] {
        plan.in_every_call(&bare(name));
        plan.in_every_call(&signed(name));
    }
    let mut other = bare("PUBKEY_SM");
    change_last(&mut other.print);
    plan.in_every_call(&other);
    for op in [Op::SharedInfo, Op::ModuleText, Op::CentreText] {
        plan.numbered(op, AMPLE, worked(UNSIGNED));
    }
    for op in [Op::Attribute, Op::AttributePlace] {
        plan.numbered(op, 1, worked(UNSIGNED));
    }
    let request = worked("VKLOADREQ");
    plan.case(Op::ConfirmResponse, 0, worked("Z"), request, worked(UNSIGNED));
    plan.file(&b"", Op::Admit, &[], &worked(UNSIGNED));
}

/// Every kind of Subject in both kinds of keys, with Issuer and Signature, neither, and one of them, right or wrong.
fn forms(plan: &mut Plan) {
    let identities = ["ID_MAN", "ID_SM", "ID_KMC"].map(worked);
    let signature = worked("SIG_SM");
    let ends: [[&[u8]; 2]; 8] = [
        [b"", b""],
        [&identities[0], &signature],
        [&identities[0], b""],
        [b"", &signature],
        [&identities[1], b""],
        [b"", &signature[1..]],
        [&identities[2], &signature],
        [&identities[0][1..], b""],
    ];
    for kind in Kind::PUBLIC_KEYS {
        for subject in &identities {
            for [issuer, signature] in ends {
                let fields = [subject, &worked("Q_SM")[..], b"99991231T115959Z", issuer, signature];
                let fields = fields.map(<[u8]>::to_vec);
                plan.call(Op::Record, sample::of_kind(kind, &fields));
                plan.build(AMPLE as usize, kind.name(), &fields);
            }
        }
    }
}

/// Unsigned keys of Subjects whose names are those of kinds.
fn misleading_names(plan: &mut Plan) {
    for kind in Kind::IDENTITIES {
        for (manufacturer, mid) in
            [("SMID.1", "SMID.1"), ("KMCID.1", "SMID.1"), ("SMMAN.1", "KMCID.1"), ("S", "D.1")]
        {
            let (manufacturer, mid) = (manufacturer.into(), mid.into());
            let subject = Subject { kind, manufacturer, mid, ..Subject::any(&mut plan.random) };
            let key = PublicKey::of(&mut plan.random, subject, Signed::No).unsigned();
            plan.call(Op::Record, key.record());
            plan.call(Op::CheckFingerprint, key.record());
            plan.build(AMPLE as usize, key.kind.name(), &key.fields());
        }
    }
}

/// What can be wrong with a part of an unsigned key: 6, 7, 9 and 8 come first; the last is a centre's.
const WRONG_PARTS: [fn(&mut PublicKey); 13] = [
    |key| key.q[0] = b'1',
    |key| key.q.push(b'0'),
    |key| key.q.clear(),
    |key| key.expiry = b"20230431T000000Z".to_vec(),
    |key| key.expiry.clear(),
    |key| key.subject.gnt = b"20230431T000000Z".to_vec(),
    |key| key.subject.manufacturer.insert(0, b'_'),
    |key| key.subject.mid.clear(),
    |key| key.subject.kind = Kind::Smman,
    |key| key.issuer = worked("ID_SM"),
    |key| key.issuer = worked("ID_MAN"),
    |key| key.signature = worked("SIG_SM"),
    |key| key.subject.kind = Kind::Kmcid,
];

fn wrong_parts(plan: &mut Plan) {
    for spoil in WRONG_PARTS {
        let mut key = bare("PUBKEY_SM");
        spoil(&mut key);
        let record = key.record();
        for op in [Op::Record, Op::ExpiryOf, Op::CheckFingerprint] {
            plan.call(op, &record[..]);
        }
        plan.pair(Op::NewerOf, &record[..], worked(UNSIGNED));
        plan.numbered(Op::Line, 0, ended(&record));
        plan.file(&b"", Op::PutKey, &[], &record);
        for room in [0, AMPLE as usize] {
            plan.build(room, key.kind.name(), &key.fields());
        }
    }
}

/// Each fault with this one, of a record that is read alone, in a line with its trailer, and by mail.
fn faults(plan: &mut Plan) {
    for &fault in Fault::of(Kind::PkEcdh) {
        let mut faulty =
            || sample::faulty(&mut plan.random, Kind::PkEcdh, &[fault, Fault::Unsigned]);
        let [record, other, third] = [(); 3].map(|()| faulty());
        plan.call(Op::ExpiryOf, &record[..]);
        plan.file(&b"", Op::PutKey, &[], &record);
        plan.call(Op::Trailed, line_of(&other));
        plan.read_mail(block_of(title_of(&third), &third));
    }
}

/// 28 comes before 10, however little room there is; a key that is accepted needs the room.
fn rooms(plan: &mut Plan) {
    for key in [bare("PUBKEY_SM"), bare("PUBKEY_KMC"), signed("PUBKEY_SM")] {
        let record = key.record();
        let needed = record.len();
        for room in [0, 1, needed - 1, needed, needed + 1] {
            plan.build(room, key.kind.name(), &key.fields());
        }
        for room in [0, needed + TRAILER_LENGTH - 1, needed + TRAILER_LENGTH] {
            plan.numbered(Op::WriteTrailed, room as u64, &record[..]);
        }
        let block = block_of(title_of(&record), &record);
        for room in [0, block.len() - 1, block.len()] {
            plan.numbered(Op::WriteMail, room as u64, &record[..]);
        }
        for room in [0, needed - 1, needed] {
            plan.numbered(Op::ReadMail, room as u64, &block[..]);
        }
        for room in [0, 15, 16] {
            plan.numbered(Op::WriteFingerprint, room, &record[..]);
        }
    }
}

/// The first that is refused decides, and both before 13, whatever the GNTs are.
fn choices(plan: &mut Plan) {
    let late = |key: PublicKey| {
        let subject = Subject { gnt: b"20190120T090000Z".to_vec(), ..key.subject.clone() };
        PublicKey { subject, ..key }
    };
    let unsigned = bare("PUBKEY_SM");
    let mut wrong = worked("PUBKEY_SM");
    change_last(&mut wrong);
    let others = [
        worked("PUBKEY_SM"),
        late(signed("PUBKEY_SM")).record(),
        worked("PUBKEY_KMC"),
        worked("PUBKEY_MAN"),
        bare("PUBKEY_MAN").record(),
        worked("VKLOADREQ"),
        wrong,
        late(unsigned.clone()).record(),
    ];
    for key in [unsigned.record(), late(unsigned.clone()).record()] {
        for other in &others {
            for op in [Op::Newer, Op::NewerOf] {
                plan.pair(op, &key[..], &other[..]);
                plan.pair(op, &other[..], &key[..]);
            }
        }
    }
    // Signed and unsigned keys of a centre are chosen between as before.
    let keys = [bare("PUBKEY_KMC"), late(bare("PUBKEY_KMC")), signed("PUBKEY_KMC")];
    for first in &keys {
        for second in &keys {
            plan.pair(Op::NewerOf, first.record(), second.record());
        }
    }
}

/// A file that was accepted before: the unsigned key counts as a line, and no more.
fn files(plan: &mut Plan) {
    let [unsigned, key, centre] = [UNSIGNED, "PUBKEY_SM", "PUBKEY_KMC"].map(worked);
    for lines in [
        &[&unsigned, &key][..],
        &[&key, &unsigned],
        &[&centre, &unsigned, &key],
        &[&unsigned, &unsigned],
    ] {
        let file: Vec<u8> = lines.iter().flat_map(|line| ended(line)).collect();
        plan.walk(&file);
        // 11 comes before it.
        plan.walk(&file[..file.len() - 1]);
    }
    plan.walk(&[&unsigned[..], b"\r\n", &unsigned, b"\n"].concat());
}

/// 19 comes before 28, and 28 before 20.
fn lines_with_trailers(plan: &mut Plan) {
    let unsigned = worked(UNSIGNED);
    let line = line_of(&unsigned);
    let mut wrong = line.clone();
    change_last(&mut wrong);
    let right = line_of(&worked("PUBKEY_SM"));
    for line in [&line, &wrong, &unsigned, &right] {
        plan.call(Op::Trailed, &line[..]);
    }
    let file: Vec<u8> = [&right, &line, &wrong, &unsigned, &right]
        .into_iter()
        .flat_map(|line| ended(line))
        .collect();
    plan.walk_trailed(&file);
    plan.walk_trailed(&[ended(&right), line].concat());
}

/// Blocks by mail in other rows, with text around them, and between the guards of another kind.
fn blocks(plan: &mut Plan) {
    let block = worked_block(UNSIGNED);
    plan.read_mail([b"Dear colleague,\n\n", &block[..], b"\nRegards\n"].concat());
    plan.read_mail(&block[..block.len() - 1]);
    plan.read_mail([&block[..], &worked_block("PUBKEY_SM")].concat());
    plan.read_mail([worked_block("PUBKEY_SM"), block].concat());
    plan.read_mail(block_of(b"PK.ECDSA.1", &worked(UNSIGNED)));
    for name in [UNSIGNED, "PUBKEY_SM", "PUBKEY_KMC"] {
        for _ in 0..3 {
            let folded = sample::folded(&mut plan.random, b"PK.ECDH.1", &worked(name));
            plan.read_mail(folded);
        }
    }
}

/// Keys of all Subjects, unsigned and signed, with the right Fingerprint and with any.
fn drawn(plan: &mut Plan) {
    let calls = [Op::Record, Op::ExpiryOf, Op::CheckFingerprint];
    for (index, kind) in Kind::IDENTITIES.repeat(12).into_iter().enumerate() {
        let subject = Subject { kind, ..Subject::any(&mut plan.random) };
        let signed = Signed::any(&mut plan.random);
        let mut key = PublicKey::of(&mut plan.random, subject, signed);
        if index % 4 != 0 {
            key = key.unsigned();
        }
        if index % 2 == 0 {
            change_last(&mut key.print);
        }
        plan.call(calls[index / 3 % 3], key.record());
        plan.build(AMPLE as usize, key.kind.name(), &key.fields());
    }
}

/// Every byte value in the marks of an unsigned key, in its fields, and where Issuer and Signature would stand.
fn sweeps(plan: &mut Plan) {
    let record = worked(UNSIGNED);
    let end = record.len() - 4;
    let subject = "PK.ECDH.1|".len();
    let q = subject + worked("ID_SM").len() + 1;
    for place in [subject, subject + 6, q - 1, end - 4, end - 3, end - 2, end - 1] {
        plan.every_byte_checked(Op::Record, 0, &record, place);
    }
    for place in end..record.len() {
        plan.every_byte(Op::Record, 0, &record, place);
    }
}

#[cfg(test)]
mod tests {
    use crate::calls::Op;
    use crate::plan;
    use compare::refusal::Refusal;

    /// The calls that read or build a public key, and no others. Files and histories say no number of their own.
    #[test]
    fn every_call_that_takes_a_key_refuses_it() {
        let number = Refusal::UnsignedModule.number();
        let plan = plan::all();
        let refused = plan.iter().filter(|case| case.answer().number == Some(number));
        let mut ops: Vec<Op> = refused.map(|case| case.op).collect();
        ops.sort_by_key(|op| op.number());
        ops.dedup();
        let expected = [
            Op::Record,
            Op::RecordField,
            Op::Newer,
            Op::RecordPlace,
            Op::NewerOf,
            Op::Line,
            Op::StepFrom,
            Op::Reader,
            Op::Build,
            Op::CheckFingerprint,
            Op::WriteFingerprint,
            Op::Trailed,
            Op::TrailedLine,
            Op::WriteTrailed,
            Op::WriteMail,
            Op::ReadMail,
            Op::PutKey,
            Op::ExpiryOf,
        ];
        assert_eq!(ops, expected);
    }
}
