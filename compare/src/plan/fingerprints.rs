//! Request E3: the Fingerprint in the Subject of a public key, checked and written.

use super::long::{Block, Part, MORE};
use super::Plan;
use crate::calls::Op;
use compare::fingerprint::hash_input;
use compare::kind::Kind;
use compare::record::LONGEST_READ;
use compare::sample::{self, Fault, PublicKey, Signed, Subject};
use compare::sha384::sha384;
use compare::text::{
    base16, base16_decode, LONGEST_IDENT, POINT_DIGITS, PRINT_DIGITS, TIMESTAMP_LENGTH,
};
use compare::worked::{worked, IDENTITIES, RECORDS, UNSIGNED};

/// Room for any Fingerprint.
const AMPLE: u64 = 64;

/// The public keys of document 003.
const KEYS: [&str; 4] = ["PUBKEY_KMC", "PUBKEY_MAN", UNSIGNED, "PUBKEY_SM"];

pub fn add(plan: &mut Plan) {
    worked_keys(plan);
    drawn_keys(plan);
    input_lengths(plan);
    changed_prints(plan);
    changed_pieces(plan);
    every_place(plan);
    mistaken_prints(plan);
    refused_parts(plan);
    refused_records(plan);
    faults(plan);
    other_kinds(plan);
    few_bytes(plan);
    long(plan);
    sweeps(plan);
}

impl Plan {
    /// Both calls with the same record.
    fn fingerprint(&mut self, room: u64, record: &[u8]) {
        self.call(Op::CheckFingerprint, record);
        self.numbered(Op::WriteFingerprint, room, record);
    }

    /// A key with the right Fingerprint.
    fn key(&mut self, subject: Kind, signed: Signed) -> PublicKey {
        let subject = Subject { kind: subject, ..Subject::any(&mut self.random) };
        PublicKey::of(&mut self.random, subject, signed)
    }
}

/// Another byte; in place of a letter or digit one that is permitted there too.
fn other(character: u8) -> u8 {
    match character {
        b'9' | b'F' | b'Z' | b'z' => character - 1,
        _ => character + 1,
    }
}

/// Another character in one place.
pub(super) fn change(text: &mut [u8], place: usize) {
    text[place] = other(text[place]);
}

pub(super) fn change_last(text: &mut [u8]) {
    change(text, text.len() - 1);
}

/// The worked keys, into every sort of room.
fn worked_keys(plan: &mut Plan) {
    const NEEDED: u64 = PRINT_DIGITS as u64;
    for name in KEYS {
        plan.call(Op::CheckFingerprint, worked(name));
        for room in [0, 1, NEEDED / 2, NEEDED - 1, NEEDED, NEEDED + 1, 2 * NEEDED, 1024] {
            plan.numbered(Op::WriteFingerprint, room, worked(name));
        }
    }
}

/// Keys of all Subjects, signed or not, with the right Fingerprint and with any.
fn drawn_keys(plan: &mut Plan) {
    for subject in Kind::IDENTITIES.repeat(3) {
        for signed in [Signed::Yes, Signed::No] {
            let mut key = plan.key(subject, signed);
            let room = plan.random.between(PRINT_DIGITS - 1, PRINT_DIGITS + 1) as u64;
            plan.fingerprint(room, &key.record());
            key.print = sample::hex(&mut plan.random, PRINT_DIGITS);
            plan.fingerprint(AMPLE, &key.record());
        }
    }
}

/// What is hashed in every length that it can have: some need two blocks and some three.
fn input_lengths(plan: &mut Plan) {
    const IDENTS: std::ops::RangeInclusive<usize> = 2..=2 * LONGEST_IDENT;
    let others = 5 + TIMESTAMP_LENGTH + POINT_DIGITS;
    let [shortest, longest] = [Kind::Smid, Kind::Kmcid].map(|kind| others + kind.name().len());
    let mut kinds = Kind::IDENTITIES.into_iter().cycle();
    for length in shortest + IDENTS.start()..=longest + IDENTS.end() {
        let idents = |kind: &Kind| length - others - kind.name().len();
        let kind = kinds.find(|kind| IDENTS.contains(&idents(kind))).expect("one that fits");
        let idents = idents(&kind);
        let least = idents.saturating_sub(LONGEST_IDENT).max(1);
        let first = plan.random.between(least, idents - least);
        let mut key = plan.key(kind, Signed::No);
        key.subject.manufacturer = sample::ident(&mut plan.random, first);
        key.subject.mid = sample::ident(&mut plan.random, idents - first);
        key.print = key.right_print();
        plan.call(Op::CheckFingerprint, key.record());
        if length % 4 == 0 {
            plan.numbered(Op::WriteFingerprint, AMPLE, key.record());
        }
    }
}

/// Each character of a Fingerprint changed, and all of them; and zeros.
fn changed_prints(plan: &mut Plan) {
    for name in ["PUBKEY_KMC", "PUBKEY_MAN"] {
        let right = PublicKey::of_record(&worked(name));
        for place in 0..PRINT_DIGITS {
            let mut key = right.clone();
            change(&mut key.print, place);
            plan.call(Op::CheckFingerprint, key.record());
        }
        let all = right.print.iter().map(|&digit| other(digit)).collect();
        for print in [all, vec![b'0'; PRINT_DIGITS]] {
            let key = PublicKey { print, ..right.clone() };
            plan.fingerprint(AMPLE, &key.record());
        }
    }
}

/// Changes to the pieces that are hashed, to others that are permitted: of the characters that can be
/// changed the first and the last of each; and one that goes from the end of a piece to the next.
const CHANGES: [fn(&mut PublicKey); 10] = [
    |key| change(&mut key.subject.manufacturer, 0),
    |key| change_last(&mut key.subject.manufacturer),
    |key| change(&mut key.subject.mid, 0),
    |key| change_last(&mut key.subject.mid),
    |key| change(&mut key.subject.gnt, 3),
    |key| change(&mut key.subject.gnt, 14),
    |key| change(&mut key.q, 2),
    |key| change(&mut key.q, 97),
    |key| change_last(&mut key.q),
    |key| {
        let moved = key.subject.manufacturer.pop().expect("a character");
        key.subject.mid.insert(0, moved);
    },
];

/// One piece of what is hashed changed, and the Fingerprint not.
fn changed_pieces(plan: &mut Plan) {
    for name in ["PUBKEY_KMC", "PUBKEY_MAN"] {
        for change in CHANGES {
            let mut key = PublicKey::of_record(&worked(name));
            change(&mut key);
            plan.fingerprint(AMPLE, &key.record());
        }
    }
    for (name, kind) in [("PUBKEY_KMC", Kind::Smid), ("PUBKEY_SM", Kind::Kmcid)] {
        let mut key = PublicKey::of_record(&worked(name));
        key.subject.kind = kind;
        plan.fingerprint(AMPLE, &key.record());
        key.print = key.right_print();
        plan.fingerprint(AMPLE, &key.record());
    }
}

/// A record with each of its bytes before the check changed, and every check right that covers the byte.
fn every_place(plan: &mut Plan) {
    let record = worked("PUBKEY_KMC");
    let start = Kind::PkEcdh.name().len() + 1;
    let subject = start..start + worked("ID_KMC").len();
    for place in 0..record.len() - 4 {
        let mut changed = record.clone();
        change(&mut changed, place);
        if place + 4 < subject.end && subject.contains(&place) {
            let identity = sample::resealed(&changed[subject.clone()]);
            changed.splice(subject.clone(), identity);
        }
        plan.call(Op::CheckFingerprint, sample::resealed(&changed));
    }
}

/// Fingerprints that a plausible error would take for the right one.
fn mistaken_prints(plan: &mut Plan) {
    for name in ["PUBKEY_MAN", "PUBKEY_SM"] {
        let key = PublicKey::of_record(&worked(name));
        for print in mistaken(&key) {
            let key = PublicKey { print, ..key.clone() };
            plan.call(Op::CheckFingerprint, key.record());
        }
    }
}

/// Of a wrong text, or from a wrong place of the hash.
fn mistaken(key: &PublicKey) -> Vec<Vec<u8>> {
    let Subject { kind, manufacturer, mid, gnt } = &key.subject;
    let (name, q) = (kind.name().as_bytes(), &key.q[..]);
    let input = hash_input([name, manufacturer, mid, gnt], q);
    let digits = |message: &[u8]| base16(&sha384(message)).into_bytes();
    let hash = digits(&input);
    let with_marks: Vec<u8> =
        input.iter().map(|&byte| if byte == b':' { b'|' } else { byte }).collect();
    let without_marks: Vec<u8> = input.iter().copied().filter(|&byte| byte != b':').collect();
    let of_input = [
        // The point as bytes, and in small letters.
        hash_input([name, manufacturer, mid, gnt], &base16_decode(q).expect("a point")),
        hash_input([name, manufacturer, mid, gnt], &q.to_ascii_lowercase()),
        hash_input([key.kind.name().as_bytes(), manufacturer, mid, gnt], q),
        hash_input([name, mid, manufacturer, gnt], q),
        hash_input([name, manufacturer, mid, &key.expiry], q),
        input[name.len() + 1..].to_vec(),
        input[..input.len() - 1].to_vec(),
        [&input[..], b":"].concat(),
        with_marks,
        without_marks,
        key.fields()[0].clone(),
        key.record(),
    ];
    let starts = of_input.iter().map(|input| digits(input)[..PRINT_DIGITS].to_vec());
    let ends = [&hash[PRINT_DIGITS..2 * PRINT_DIGITS], &hash[hash.len() - PRINT_DIGITS..]];
    let backwards = hash[..PRINT_DIGITS].iter().rev().copied().collect();
    starts.chain(ends.map(<[u8]>::to_vec)).chain([backwards]).collect()
}

/// What can be wrong with the parts of a signed key before its Fingerprint is looked at: 6 of Q, Expiry
/// and Signature, 7 of Subject and Issuer, 8 for either that is empty, and 9 of the Issuer.
pub(super) const WRONG_PARTS: [fn(&mut PublicKey); 11] = [
    |key| key.q[0] = b'1',
    |key| *key.q.last_mut().expect("a digit") = b'g',
    |key| key.expiry = b"20230431T000000Z".to_vec(),
    |key| key.signature[0] = b'a',
    |key| key.subject.gnt = b"20230431T000000Z".to_vec(),
    |key| key.subject.manufacturer.insert(0, b'_'),
    |key| key.subject.mid.clear(),
    |key| change_last(&mut key.issuer),
    |key| key.issuer.clear(),
    |key| key.signature.clear(),
    |key| key.issuer = worked("ID_SM"),
];

/// Refused for one of its parts, with a Fingerprint that is right all the same, and with a wrong one.
fn refused_parts(plan: &mut Plan) {
    for (name, other_kind) in [("PUBKEY_MAN", Kind::Smid), ("PUBKEY_SM", Kind::Smman)] {
        let right = PublicKey::of_record(&worked(name));
        // 9 of the Subject.
        let mut keys = vec![right.clone()];
        keys[0].subject.kind = other_kind;
        for spoil in WRONG_PARTS {
            let mut key = right.clone();
            spoil(&mut key);
            keys.push(key);
        }
        for mut key in keys {
            key.print = key.right_print();
            plan.call(Op::CheckFingerprint, key.record());
            change_last(&mut key.print);
            let room = plan.random.one_of(&[0, 15, 16]);
            plan.fingerprint(room, &key.record());
        }
    }
}

/// Refused as a whole, with the right Fingerprint and with a wrong one: 1 to 5; and 7 for the Subject's
/// own check.
fn refused_records(plan: &mut Plan) {
    let whole = [Fault::Long, Fault::Name, Fault::CheckText, Fault::Check, Fault::Count];
    for subject in [Kind::Smman, Kind::Smid] {
        for fault in whole {
            let mut key = plan.key(subject, Signed::No);
            for room in [AMPLE, 0] {
                let fields = key.fields();
                let record = sample::finished(&mut plan.random, key.kind, fields, &[fault]);
                plan.fingerprint(room, &record);
                change_last(&mut key.print);
            }
        }
        let mut key = plan.key(subject, Signed::Yes);
        for room in [AMPLE, 0] {
            let mut fields = key.fields();
            change_last(&mut fields[0]);
            plan.fingerprint(room, &sample::of_kind(key.kind, &fields));
            change_last(&mut key.print);
        }
    }
}

/// Each fault alone and with the next one.
fn faults(plan: &mut Plan) {
    for kind in Kind::PUBLIC_KEYS {
        for pair in Fault::of(kind).windows(2) {
            let record = sample::faulty(&mut plan.random, kind, &pair[..1]);
            let room = plan.random.one_of(&[0, AMPLE]);
            plan.fingerprint(room, &record);
            let record = sample::faulty(&mut plan.random, kind, pair);
            plan.call(Op::CheckFingerprint, record);
        }
    }
}

/// No other kind has a point with a Fingerprint, and its check does not count.
fn other_kinds(plan: &mut Plan) {
    for name in IDENTITIES.iter().chain(&RECORDS[3..]) {
        plan.fingerprint(AMPLE, &worked(name));
    }
    for kind in Kind::ALL.into_iter().filter(|kind| !Kind::PUBLIC_KEYS.contains(kind)) {
        for fault in [Fault::CheckText, Fault::Check] {
            let record = sample::faulty(&mut plan.random, kind, &[fault]);
            plan.fingerprint(0, &record);
        }
    }
}

fn few_bytes(plan: &mut Plan) {
    for bytes in ["", "PK.ECDH.1", "PK.ECDH.1|", "PK.ECDH.1:x", "PK.ECDSA.1|x", "PK.ECDSA.1|0000"] {
        plan.fingerprint(AMPLE, bytes.as_bytes());
    }
    for body in ["PK.ECDH.1|", "PK.ECDSA.1|||||", "PK.ECDH.1||||||"] {
        plan.fingerprint(AMPLE, &sample::sealed(body.as_bytes()));
    }
}

/// Keys as long as there can be; longer ones, and outputs that are short only modulo [`MORE`].
fn long(plan: &mut Plan) {
    for kind in Kind::PUBLIC_KEYS {
        let record = sample::longest_record(&mut plan.random, kind);
        let mut key = PublicKey::of_record(&record);
        plan.fingerprint(AMPLE, &record);
        key.print = key.right_print();
        plan.fingerprint(AMPLE, &key.record());
        for length in [LONGEST_READ, LONGEST_READ + 1] {
            let padded = sample::padded(&mut plan.random, kind, 4, length);
            plan.fingerprint(AMPLE, &padded);
        }
    }
    for longer in Block::new().longer(Part::Key) {
        plan.fingerprint(AMPLE, &longer);
    }
    for room in [MORE, MORE + PRINT_DIGITS - 1, MORE + PRINT_DIGITS] {
        plan.numbered(Op::WriteFingerprint, room as u64, worked("PUBKEY_KMC"));
    }
}

/// Every byte value: in the name, the marks and the fields of a signed key, of which Q has more places
/// than the others, and in its check.
fn sweeps(plan: &mut Plan) {
    let record = worked("PUBKEY_SM");
    let key = PublicKey::of_record(&record);
    let subject = key.kind.name().len() + 1;
    let (mut places, mut start) = (vec![0, subject - 1], subject);
    for field in key.fields() {
        places.extend([start, start + field.len() / 2, start + field.len()]);
        start += field.len() + 1;
    }
    let q = subject + worked("ID_SM").len() + 1;
    places.extend([q + 1, q + 2, q + key.q.len() - 1]);
    for place in places {
        plan.every_byte_checked(Op::CheckFingerprint, 0, &record, place);
    }
    for place in record.len() - 4..record.len() {
        plan.every_byte(Op::CheckFingerprint, 0, &record, place);
    }
}
