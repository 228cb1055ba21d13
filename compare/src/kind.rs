//! The table of the eight kinds: names, marks, and fields in order.

use self::FieldType::{
    Attributes, Ident, Identity, Mac, Nonce, Point, Print, Protected, Sig, Timestamp,
};
use self::Kind::{Kmcid, PkEcdh, PkEcdsa, Smid, Smman, VkloadReq, VkloadResp, WrappedKey};
use crate::frame::CHECK_LENGTH;
use crate::record::LONGEST_READ;
use crate::text;

/// A kind of record.
#[derive(Clone, Copy, Debug, PartialEq, Eq)]
pub enum Kind {
    /// `SMMAN.1`, the identity of a manufacturer.
    Smman,
    /// `SMID.1`, the identity of a security module.
    Smid,
    /// `KMCID.1`, the identity of a key management centre.
    Kmcid,
    /// `PK.ECDSA.1`, a public key for signatures.
    PkEcdsa,
    /// `PK.ECDH.1`, a public key for key agreement.
    PkEcdh,
    /// `VKLOAD.REQ.1`, a load request.
    VkloadReq,
    /// `VKLOAD.RESP.1`, a load response.
    VkloadResp,
    /// `KEY.1`, a wrapped vending key.
    WrappedKey,
}

/// The number of no kind. A kind's own is the place of its row in document 01's table, from 0; request
/// E1's row is behind them.
pub const NONE: u64 = 255;

/// No kind has more fields.
pub const MOST_FIELDS: usize = 7;

/// What the text of a field must be.
#[derive(Clone, Copy, Debug, PartialEq, Eq)]
pub enum FieldType {
    Ident,
    Timestamp,
    Print,
    Point,
    Sig,
    Mac,
    Nonce,
    /// An attribute list: by itself a printable text, and then one that is permitted.
    Attributes,
    Protected,
    /// A finished identity of one of these kinds.
    Identity(&'static [Kind]),
}

/// One field of a kind.
#[derive(Clone, Copy, Debug, PartialEq, Eq)]
pub struct Field {
    pub name: &'static str,
    pub field_type: FieldType,
    pub may_be_empty: bool,
}

const fn full(name: &'static str, field_type: FieldType) -> Field {
    Field { name, field_type, may_be_empty: false }
}

const fn or_empty(name: &'static str, field_type: FieldType) -> Field {
    Field { name, field_type, may_be_empty: true }
}

const IDENTITY_FIELDS: &[Field] = &[
    full("Manufacturer", Ident),
    full("MID", Ident),
    full("GNT", Timestamp),
    full("Fingerprint", Print),
];

const PK_ECDSA_FIELDS: &[Field] = &[
    full("Subject", Identity(&[Smman])),
    full("Q", Point),
    full("Expiry", Timestamp),
    or_empty("Issuer", Identity(&[Smman])),
    or_empty("Signature", Sig),
];

const PK_ECDH_FIELDS: &[Field] = &[
    full("Subject", Identity(&[Smid, Kmcid])),
    full("Q", Point),
    full("Expiry", Timestamp),
    or_empty("Issuer", Identity(&[Smman])),
    or_empty("Signature", Sig),
];

const VKLOAD_REQ_FIELDS: &[Field] = &[
    full("ID_SM", Identity(&[Smid])),
    full("ID_KMC", Identity(&[Kmcid])),
    full("TVP", Timestamp),
    full("HWID", Ident),
    full("FWID", Ident),
    full("QE", Point),
    full("MacTag", Mac),
];

const VKLOAD_RESP_FIELDS: &[Field] = &[
    full("ID_KMC", Identity(&[Kmcid])),
    full("ID_SM", Identity(&[Smid])),
    full("TVP", Timestamp),
    full("MacTag", Mac),
];

const WRAPPED_KEY_FIELDS: &[Field] =
    &[full("Nonce", Nonce), full("Attributes", Attributes), full("ProtectedKey", Protected)];

impl FieldType {
    /// The most bytes of a field of this type; none where only the record's own length is limited.
    pub fn longest(self) -> Option<usize> {
        match self {
            Ident => Some(text::LONGEST_IDENT),
            Timestamp => Some(text::TIMESTAMP_LENGTH),
            Print => Some(text::PRINT_DIGITS),
            Point => Some(text::POINT_DIGITS),
            Sig => Some(text::SIG_DIGITS),
            Mac => Some(text::MAC_DIGITS),
            Nonce => Some(text::NONCE_DIGITS),
            Attributes => None,
            Protected => Some(text::LONGEST_PROTECTED),
            Identity(kinds) => Some(Kind::longest_of(kinds)),
        }
    }
}

impl Kind {
    /// All kinds, in the order of their numbers.
    pub const ALL: [Kind; 8] =
        [Smman, Smid, Kmcid, PkEcdsa, PkEcdh, VkloadReq, VkloadResp, WrappedKey];
    /// The kinds that the identity call reads.
    pub const IDENTITIES: [Kind; 3] = [Smman, Smid, Kmcid];
    /// The kinds that the record call reads.
    pub const RECORDS: [Kind; 5] = [PkEcdsa, PkEcdh, VkloadReq, VkloadResp, WrappedKey];
    /// The kinds that the chooser reads.
    pub const PUBLIC_KEYS: [Kind; 2] = [PkEcdsa, PkEcdh];

    /// The kind with this name.
    pub fn from_name(name: &[u8]) -> Option<Kind> {
        Kind::ALL.into_iter().find(|kind| kind.name().as_bytes() == name)
    }

    /// The kind name.
    pub fn name(self) -> &'static str {
        match self {
            Smman => "SMMAN.1",
            Smid => "SMID.1",
            Kmcid => "KMCID.1",
            PkEcdsa => "PK.ECDSA.1",
            PkEcdh => "PK.ECDH.1",
            VkloadReq => "VKLOAD.REQ.1",
            VkloadResp => "VKLOAD.RESP.1",
            WrappedKey => "KEY.1",
        }
    }

    /// The byte that ends the kind name and each field.
    pub fn mark(self) -> u8 {
        match self {
            Smman | Smid | Kmcid => b':',
            PkEcdsa | PkEcdh | VkloadReq | VkloadResp | WrappedKey => b'|',
        }
    }

    /// The fields, in order.
    pub fn fields(self) -> &'static [Field] {
        match self {
            Smman | Smid | Kmcid => IDENTITY_FIELDS,
            PkEcdsa => PK_ECDSA_FIELDS,
            PkEcdh => PK_ECDH_FIELDS,
            VkloadReq => VKLOAD_REQ_FIELDS,
            VkloadResp => VKLOAD_RESP_FIELDS,
            WrappedKey => WRAPPED_KEY_FIELDS,
        }
    }

    /// The most bytes of a record of this kind: its name and its longest fields, each with its mark,
    /// and the check; where a field has no limit of its own, as many as are read and built.
    pub fn longest(self) -> usize {
        let fields = self.fields();
        let bytes: Option<usize> = fields.iter().map(|entry| entry.field_type.longest()).sum();
        let around = self.name().len() + 1 + fields.len() + CHECK_LENGTH;
        bytes.map_or(LONGEST_READ, |bytes| around + bytes)
    }

    /// The most bytes of a record of one of these kinds.
    pub fn longest_of(kinds: &[Kind]) -> usize {
        kinds.iter().map(|kind| kind.longest()).max().unwrap_or_default()
    }
}
