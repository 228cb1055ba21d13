//! Public keys by their parts.

use super::{fields, of_kind, Signed, Subject};
use crate::fingerprint::fingerprint;
use crate::kind::Kind;
use crate::random::Random;
use crate::record::{read_identity, read_up_to_e10};

/// A public key by its parts, permitted or not.
#[derive(Clone)]
pub struct PublicKey {
    pub kind: Kind,
    pub subject: Subject,
    /// The Fingerprint of the Subject.
    pub print: Vec<u8>,
    pub q: Vec<u8>,
    pub expiry: Vec<u8>,
    pub issuer: Vec<u8>,
    pub signature: Vec<u8>,
}

impl PublicKey {
    /// A permitted key of this Subject, with the right Fingerprint; all else in it is random.
    pub fn of(random: &mut Random, subject: Subject, signed: Signed) -> PublicKey {
        let kind = subject.key_kind();
        let fields = fields(random, kind, subject.signed(signed));
        let [_subject, q, expiry, issuer, signature] = Self::five(fields);
        let mut key = PublicKey { kind, subject, print: vec![], q, expiry, issuer, signature };
        key.print = key.right_print();
        key
    }

    /// The parts of a key that is accepted, or was before request E11.
    ///
    /// # Panics
    ///
    /// When it is none.
    pub fn of_record(record: &[u8]) -> PublicKey {
        let key = read_up_to_e10(record, &Kind::PUBLIC_KEYS).expect("an accepted key");
        let identity = read_identity(key.fields[0]).expect("an accepted Subject");
        let owned = |fields: &[&[u8]]| fields.iter().map(|field| field.to_vec()).collect();
        let [_subject, q, expiry, issuer, signature] = Self::five(owned(&key.fields));
        let mut parts: Vec<Vec<u8>> = owned(&identity.fields);
        let print = parts.pop().expect("a Fingerprint");
        let [manufacturer, mid, gnt] = parts.try_into().expect("three fields before it");
        let subject = Subject { kind: identity.kind, manufacturer, mid, gnt };
        PublicKey { kind: key.kind, subject, print, q, expiry, issuer, signature }
    }

    fn five(fields: Vec<Vec<u8>>) -> [Vec<u8>; 5] {
        fields.try_into().expect("a public key has five fields")
    }

    /// The same key without Issuer and Signature.
    pub fn unsigned(self) -> PublicKey {
        PublicKey { issuer: Vec::new(), signature: Vec::new(), ..self }
    }

    /// The Fingerprint that is right for the Subject and Q, whatever they are.
    pub fn right_print(&self) -> Vec<u8> {
        let Subject { kind, manufacturer, mid, gnt } = &self.subject;
        fingerprint([kind.name().as_bytes(), manufacturer, mid, gnt], &self.q)
    }

    pub fn fields(&self) -> Vec<Vec<u8>> {
        let subject = self.subject.identity(self.print.clone());
        let [q, expiry] = [&self.q, &self.expiry].map(Clone::clone);
        vec![subject, q, expiry, self.issuer.clone(), self.signature.clone()]
    }

    /// The record of these parts; its check is right, and the Subject's too.
    pub fn record(&self) -> Vec<u8> {
        of_kind(self.kind, &self.fields())
    }
}

#[cfg(test)]
mod tests {
    use super::*;
    use crate::fingerprint::check;
    use crate::refusal::Refusal;
    use crate::worked::{worked, UNSIGNED};

    #[test]
    fn a_key_has_the_right_fingerprint_until_another_is_put_in() {
        let mut random = Random::with_seed(9);
        for _ in 0..100 {
            let (subject, signed) = (Subject::any(&mut random), Signed::any(&mut random));
            let mut key = PublicKey::of(&mut random, subject, signed);
            assert_eq!(check(&key.record()), Ok(()));
            key.print.rotate_left(1);
            assert_eq!(check(&key.record()), Err(Refusal::FingerprintDiffers));
        }
    }

    #[test]
    fn the_parts_of_a_key_make_it_again() {
        for name in ["PUBKEY_KMC", "PUBKEY_MAN", UNSIGNED, "PUBKEY_SM"] {
            assert_eq!(PublicKey::of_record(&worked(name)).record(), worked(name), "{name}");
        }
        let signed = PublicKey::of_record(&worked("PUBKEY_SM"));
        assert_eq!(signed.unsigned().record(), worked(UNSIGNED));
    }
}
