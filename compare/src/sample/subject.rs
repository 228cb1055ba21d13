//! Subjects of public keys.

use super::{any_ident, fields, hex, of_kind, timestamp, Signed};
use crate::kind::Kind;
use crate::random::Random;
use crate::text::PRINT_DIGITS;

/// A Subject by its parts.
#[derive(Clone)]
pub struct Subject {
    pub kind: Kind,
    pub manufacturer: Vec<u8>,
    pub mid: Vec<u8>,
    pub gnt: Vec<u8>,
}

impl Subject {
    pub fn any(random: &mut Random) -> Subject {
        Subject {
            kind: random.one_of(&Kind::IDENTITIES),
            manufacturer: any_ident(random),
            mid: any_ident(random),
            gnt: timestamp(random),
        }
    }

    /// A public key of this Subject; all else in it is random.
    pub fn key(&self, random: &mut Random) -> Vec<u8> {
        let kind = self.key_kind();
        let signed = if random.once_in(8) { Signed::Yes } else { Signed::No };
        let mut fields = fields(random, kind, self.signed(signed));
        fields[0] = self.identity(hex(random, PRINT_DIGITS));
        of_kind(kind, &fields)
    }

    /// The kind of a public key that permits this Subject.
    pub fn key_kind(&self) -> Kind {
        match self.kind {
            Kind::Smman => Kind::PkEcdsa,
            _ => Kind::PkEcdh,
        }
    }

    /// Whether a permitted key of this Subject is signed: a module's is, whatever is asked for.
    pub(super) fn signed(&self, asked: Signed) -> Signed {
        match self.kind {
            Kind::Smid => Signed::Yes,
            _ => asked,
        }
    }

    /// The identity with this Fingerprint.
    pub fn identity(&self, print: Vec<u8>) -> Vec<u8> {
        let (manufacturer, mid) = (self.manufacturer.clone(), self.mid.clone());
        of_kind(self.kind, &[manufacturer, mid, self.gnt.clone(), print])
    }
}
