//! Subjects, and keys, identities and requests of them.

use super::cabinet::Both;
use compare::kind::Kind;
use compare::random::Random;
use compare::sample::{self, PublicKey, Signed, Subject};
use compare::text::PRINT_DIGITS;

/// A Subject of this kind, Manufacturer and MID.
pub fn subject(kind: Kind, manufacturer: &[u8], mid: &[u8], gnt: &[u8]) -> Subject {
    let [manufacturer, mid, gnt] = [manufacturer, mid, gnt].map(<[u8]>::to_vec);
    Subject { kind, manufacturer, mid, gnt }
}

/// Subjects that differ in their kind alone, in Manufacturer or in MID.
pub fn nth(number: usize) -> Subject {
    let kind = Kind::IDENTITIES[number % 3];
    let manufacturer: &[u8] = if number % 2 == 0 { b"Prism" } else { b"Prism0" };
    subject(kind, manufacturer, format!("{:08}", number / 6).as_bytes(), b"20180120T090000Z")
}

pub fn at(mut subject: Subject, gnt: &[u8]) -> Subject {
    subject.gnt = gnt.to_vec();
    subject
}

/// A permitted key of this Subject: a module's is signed, any other by chance.
pub fn any_key(random: &mut Random, subject: &Subject) -> PublicKey {
    let is_signed = subject.kind == Kind::Smid || random.once_in(4);
    let signed = if is_signed { Signed::Yes } else { Signed::No };
    PublicKey::of(random, subject.clone(), signed)
}

/// Its record.
pub fn key(random: &mut Random, subject: &Subject) -> Vec<u8> {
    any_key(random, subject).record()
}

/// One with this Expiry.
pub fn key_until(random: &mut Random, subject: &Subject, expiry: &str) -> Vec<u8> {
    PublicKey { expiry: expiry.into(), ..any_key(random, subject) }.record()
}

/// A key of this Subject without Issuer and Signature, which of a module is refused.
pub fn unsigned_key(random: &mut Random, subject: &Subject) -> Vec<u8> {
    let (issuer, signature) = (Vec::new(), Vec::new());
    PublicKey { issuer, signature, ..any_key(random, subject) }.record()
}

/// The identity of these names, with another GNT and another Fingerprint.
pub fn identity(random: &mut Random, subject: &Subject) -> Vec<u8> {
    let gnt = sample::timestamp(random);
    at(subject.clone(), &gnt).identity(sample::hex(random, PRINT_DIGITS))
}

/// The module among these Subjects that has this number.
pub fn nth_module(number: usize) -> Subject {
    nth(3 * number + 1)
}

/// A permitted request of this module, with another GNT and another Fingerprint.
pub fn request(random: &mut Random, module: &Subject, tvp: &[u8]) -> Vec<u8> {
    let mut fields = sample::fields(random, Kind::VkloadReq, Signed::No);
    fields[0] = identity(random, module);
    fields[2] = tvp.to_vec();
    sample::of_kind(Kind::VkloadReq, &fields)
}

/// A cabinet with the first so many Subjects.
pub fn filled(random: &mut Random, count: usize) -> Both {
    let mut both = Both::new();
    for number in 0..count {
        assert_eq!(both.put(&key(random, &nth(number))), Ok(()));
    }
    both
}

pub const EARLIER: &[u8] = b"20180120T085959Z";
pub const EQUAL: &[u8] = b"20180120T090000Z";
pub const LATER: &[u8] = b"20180120T090001Z";
