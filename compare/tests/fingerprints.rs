//! The implementation held against request E3: where number 15 stands, and what is written.

mod lent;

use compare::fingerprint::{check, write};
use compare::kind::Kind;
use compare::random::Random;
use compare::record::read_record;
use compare::refusal::Refusal;
use compare::sample::{self, Fault, PublicKey, Signed, Subject};
use compare::worked::{worked, IDENTITIES, RECORDS};

const KEYS: [&str; 3] = ["PUBKEY_KMC", "PUBKEY_MAN", "PUBKEY_SM"];

fn written(record: &[u8], room: usize) -> Result<Vec<u8>, Refusal> {
    lent::written(room, |output| write(record, output))
}

#[test]
fn one_character_of_the_fingerprint_makes_15() {
    for name in KEYS {
        let right = PublicKey::of_record(&worked(name));
        for place in 0..16 {
            let mut key = right.clone();
            key.print[place] = if key.print[place] == b'0' { b'1' } else { b'0' };
            let record = key.record();
            assert_eq!(check(&record), Err(Refusal::FingerprintDiffers), "{name} {place}");
            assert!(read_record(&record).is_ok(), "the record call keeps its answers");
            assert_eq!(written(&record, 16), Ok(right.print.clone()), "{name} {place}");
        }
    }
    assert_eq!(Refusal::FingerprintDiffers.number(), 15);
    assert_eq!(Refusal::FingerprintDiffers.field(), 0);
}

#[test]
fn each_piece_that_is_hashed_counts_and_no_other() {
    let right = PublicKey::of_record(&worked("PUBKEY_SM"));
    let changed = |change: fn(&mut PublicKey)| {
        let mut key = right.clone();
        change(&mut key);
        check(&key.record())
    };
    let differs = Err(Refusal::FingerprintDiffers);
    assert_eq!(changed(|key| key.subject.kind = Kind::Kmcid), differs);
    assert_eq!(changed(|key| key.subject.manufacturer[4] = b'n'), differs);
    assert_eq!(changed(|key| key.subject.mid[7] = b'2'), differs);
    assert_eq!(changed(|key| key.subject.gnt[14] = b'1'), differs);
    assert_eq!(changed(|key| key.q[193] = b'0'), differs);
    assert_eq!(changed(|key| key.expiry[14] = b'1'), Ok(()));
    let other_issuer = |key: &mut PublicKey| {
        let subject = Subject { kind: Kind::Smman, ..key.subject.clone() };
        key.issuer = subject.identity(key.print.clone());
    };
    assert_eq!(changed(other_issuer), Ok(()));
    assert_eq!(changed(|key| key.signature[0] = b'0'), Ok(()));
}

#[test]
fn the_records_own_numbers_come_first() {
    let mut random = Random::with_seed(15);
    for kind in Kind::PUBLIC_KEYS.repeat(10) {
        for &fault in Fault::of(kind) {
            let record = sample::faulty(&mut random, kind, &[fault]);
            let own = read_record(&record).map(|_| ());
            assert!(own.is_err(), "{fault:?}");
            assert_eq!(check(&record), own, "{fault:?}");
            assert_eq!(written(&record, 0).map(|_| ()), own, "{fault:?}");
        }
    }
}

#[test]
fn other_kinds_are_unknown_whatever_their_checks() {
    for name in IDENTITIES.iter().chain(&RECORDS).filter(|name| !KEYS.contains(name)) {
        let mut record = worked(name);
        for _ in 0..2 {
            assert_eq!(check(&record), Err(Refusal::UnknownKind), "{name}");
            assert_eq!(written(&record, 16), Err(Refusal::UnknownKind), "{name}");
            let last = record.len() - 1;
            record[last] = b'g';
        }
    }
}

#[test]
fn sixteen_bytes_are_room_enough_and_fifteen_are_not() {
    let mut random = Random::with_seed(16);
    for kind in Kind::IDENTITIES {
        let subject = Subject { kind, ..Subject::any(&mut random) };
        let mut key = PublicKey::of(&mut random, subject, Signed::No);
        let right = key.print.clone();
        // Room is asked for whether the Fingerprint is right or not.
        for _ in 0..2 {
            for room in [16, 17, 1024] {
                assert_eq!(written(&key.record(), room).as_ref(), Ok(&right), "{room}");
            }
            for room in [0, 1, 15] {
                assert_eq!(written(&key.record(), room), Err(Refusal::ShortOutput), "{room}");
            }
            key.print.reverse();
        }
    }
}
