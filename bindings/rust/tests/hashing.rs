//! SHA-384, whole and by its state, and the Fingerprint of a public key, held against `compare/` on inputs with a fixed seed.

mod held;

use compare::kind::Kind;
use compare::random::Random;
use compare::sample::{self, Fault, PublicKey, Subject};
use compare::text::{LONGEST_IDENT, PRINT_DIGITS};
use held::fingerprint::same_fingerprint;
use held::{change_digit, expect_share, hash, keys, rounds, Seen};
use obscurlane::Sha384;

// ---- the hash

#[test]
fn published_examples() {
    hash::published_examples::<Sha384>(&[1, 127, 128, 129, 1000]);
}

#[test]
fn every_length_and_every_cut() {
    hash::every_length_and_every_cut::<Sha384>(81);
}

#[test]
fn pieces_of_every_size() {
    hash::pieces_of_every_size::<Sha384>(89);
}

#[test]
fn random_cuts() {
    hash::random_cuts::<Sha384>(82);
}

/// On each side of the ends of blocks.
#[test]
fn every_byte_value() {
    hash::every_byte_value::<Sha384>(&[1, 111, 112, 127, 128, 129, 239, 240, 256]);
}

#[test]
fn a_state_goes_on_in_two_ways() {
    hash::a_state_goes_on_in_two_ways::<Sha384>(83, [130, 131]);
}

#[test]
fn a_state_does_not_show_what_it_was_given() {
    hash::a_state_does_not_show_what_it_was_given::<Sha384>();
}

// ---- the Fingerprint

/// A key with the right Fingerprint.
fn right_key(random: &mut Random) -> PublicKey {
    let subject = Subject::any(random);
    keys::any_key(random, &subject)
}

/// Another digit in one place of the Fingerprint.
fn misprint(random: &mut Random, key: &mut PublicKey) {
    change_digit(&mut key.print, random.below(PRINT_DIGITS));
}

/// Another text in one of the parts that are hashed.
fn change_a_piece(random: &mut Random, key: &mut PublicKey) {
    match random.below(5) {
        0 => key.subject.manufacturer = sample::any_ident(random),
        1 => key.subject.mid = sample::any_ident(random),
        2 => key.subject.gnt = sample::timestamp(random),
        3 => key.q = sample::point(random),
        _ => key.subject.kind = random.one_of(&Kind::IDENTITIES),
    }
}

/// A public key with the right Fingerprint or a wrong one, whole or refused for something else, or anything that may be read.
fn any_key(random: &mut Random) -> Vec<u8> {
    let mut key = right_key(random);
    if random.once_in(2) {
        misprint(random, &mut key);
    }
    match random.below(6) {
        0 => key.record(),
        1 => {
            change_a_piece(random, &mut key);
            key.record()
        }
        2 => {
            let fault = random.one_of(Fault::of(key.kind));
            sample::faulty(random, key.kind, &[fault])
        }
        3 => {
            let whole = [Fault::Long, Fault::Name, Fault::CheckText, Fault::Check, Fault::Count];
            let fault = random.one_of(&whole);
            sample::finished(random, key.kind, key.fields(), &[fault])
        }
        4 => sample::resealed(&sample::damaged_anywhere(random, &key.record(), 1)),
        _ => sample::anything(random),
    }
}

#[test]
fn fingerprints() {
    let mut random = Random::with_seed(84);
    let mut seen = Seen::default();
    for _ in 0..rounds() {
        let room = random.one_of(&[0, PRINT_DIGITS - 1, PRINT_DIGITS, PRINT_DIGITS + 1, 64]);
        seen.add(&same_fingerprint(&any_key(&mut random), room));
    }
    seen.expect(0..=9, 9);
    seen.expect([0, 15], 200);
}

/// The right one is accepted, and no other.
#[test]
fn right_and_wrong_fingerprints() {
    let mut random = Random::with_seed(85);
    let mut signed = 0;
    for _ in 0..rounds() {
        let mut key = right_key(&mut random);
        let mut out = [0; PRINT_DIGITS];
        assert_eq!(same_fingerprint(&key.record(), 64), Ok(()));
        assert_eq!(obscurlane::write_fingerprint(&key.record(), &mut out), Ok(out.len()));
        assert_eq!(out, key.print[..]);
        signed += usize::from(!key.signature.is_empty());

        misprint(&mut random, &mut key);
        assert_eq!(same_fingerprint(&key.record(), 64), Err((15, 0)));
        let before = std::mem::replace(&mut out, [0; PRINT_DIGITS]);
        assert_eq!(obscurlane::write_fingerprint(&key.record(), &mut out), Ok(out.len()));
        assert_eq!(out, before);
    }
    expect_share(20..=80, signed, "were signed");
}

/// What is hashed ends in every place that it can end in, of the second block and of the third.
#[test]
fn names_of_every_length() {
    let mut random = Random::with_seed(86);
    for kind in Kind::IDENTITIES {
        for lengths in 2..=2 * LONGEST_IDENT {
            let subject = Subject { kind, ..Subject::any(&mut random) };
            let mut key = keys::any_key(&mut random, &subject);
            let first = lengths.div_ceil(2);
            key.subject.manufacturer = sample::ident(&mut random, first);
            key.subject.mid = sample::ident(&mut random, lengths - first);
            assert_eq!(same_fingerprint(&key.record(), PRINT_DIGITS), Err((15, 0)));
            key.print = key.right_print();
            assert_eq!(same_fingerprint(&key.record(), PRINT_DIGITS), Ok(()));
        }
    }
}

#[test]
fn fingerprints_with_every_room() {
    let mut random = Random::with_seed(87);
    for _ in 0..rounds().div_ceil(300) {
        let mut key = right_key(&mut random);
        for room in 0..=3 * PRINT_DIGITS {
            assert_eq!(same_fingerprint(&key.record(), room), Ok(()));
        }
        misprint(&mut random, &mut key);
        for room in 0..=3 * PRINT_DIGITS {
            assert_eq!(same_fingerprint(&key.record(), room), Err((15, 0)));
        }
    }
}

/// Refused as of another kind, whatever else is wrong with it but its length.
#[test]
fn fingerprints_of_other_kinds() {
    let mut random = Random::with_seed(88);
    for kind in Kind::ALL.into_iter().filter(|kind| !Kind::PUBLIC_KEYS.contains(kind)) {
        assert_eq!(same_fingerprint(&sample::record(&mut random, kind), 0), Err((2, 0)));
        for fault in [Fault::CheckText, Fault::Check, Fault::Count] {
            let record = sample::faulty(&mut random, kind, &[fault]);
            assert_eq!(same_fingerprint(&record, PRINT_DIGITS), Err((2, 0)));
        }
    }
}
