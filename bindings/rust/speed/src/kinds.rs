//! The table of kinds, for both programs of plain Rust.

use crate::side::{Refusal, MODULE_UNSIGNED};

/// A kind of record, in the order of the table.
#[derive(Clone, Copy, PartialEq, Eq)]
pub enum Kind {
    Smman,
    Smid,
    Kmcid,
    Ecdsa,
    Ecdh,
    Request,
    Response,
    Key,
}

pub const IDENTITIES: &[Kind] = &[Kind::Smman, Kind::Smid, Kind::Kmcid];
pub const RECORDS: &[Kind] = &[Kind::Ecdsa, Kind::Ecdh, Kind::Request, Kind::Response, Kind::Key];

pub const PUBLIC_KEYS: &[Kind] = &[Kind::Ecdsa, Kind::Ecdh];

/// What the text of a field must be.
#[derive(Clone, Copy)]
pub enum Type {
    Ident,
    Timestamp,
    Print,
    Point,
    Mac,
    SigOrEmpty,
    Identity(&'static [Kind]),
    IssuerOrEmpty,
    Nonce,
    Printable,
    Protected,
}

const IDENTITY: &[Type] = &[Type::Ident, Type::Ident, Type::Timestamp, Type::Print];
const ECDSA: &[Type] = &[
    Type::Identity(&[Kind::Smman]),
    Type::Point,
    Type::Timestamp,
    Type::IssuerOrEmpty,
    Type::SigOrEmpty,
];
const ECDH: &[Type] = &[
    Type::Identity(&[Kind::Smid, Kind::Kmcid]),
    Type::Point,
    Type::Timestamp,
    Type::IssuerOrEmpty,
    Type::SigOrEmpty,
];
const REQUEST: &[Type] = &[
    Type::Identity(&[Kind::Smid]),
    Type::Identity(&[Kind::Kmcid]),
    Type::Timestamp,
    Type::Ident,
    Type::Ident,
    Type::Point,
    Type::Mac,
];
const RESPONSE: &[Type] =
    &[Type::Identity(&[Kind::Kmcid]), Type::Identity(&[Kind::Smid]), Type::Timestamp, Type::Mac];
const KEY: &[Type] = &[Type::Nonce, Type::Printable, Type::Protected];

impl Kind {
    pub fn types(self) -> &'static [Type] {
        match self {
            Kind::Smman | Kind::Smid | Kind::Kmcid => IDENTITY,
            Kind::Ecdsa => ECDSA,
            Kind::Ecdh => ECDH,
            Kind::Request => REQUEST,
            Kind::Response => RESPONSE,
            Kind::Key => KEY,
        }
    }

    pub fn mark(self) -> u8 {
        match self {
            Kind::Smman | Kind::Smid | Kind::Kmcid => b':',
            _ => b'|',
        }
    }

    pub fn named(name: &[u8]) -> Option<Kind> {
        Some(match name {
            b"SMMAN.1" => Kind::Smman,
            b"SMID.1" => Kind::Smid,
            b"KMCID.1" => Kind::Kmcid,
            b"PK.ECDSA.1" => Kind::Ecdsa,
            b"PK.ECDH.1" => Kind::Ecdh,
            b"VKLOAD.REQ.1" => Kind::Request,
            b"VKLOAD.RESP.1" => Kind::Response,
            b"KEY.1" => Kind::Key,
            _ => return None,
        })
    }

    /// Issuer and Signature are its last two fields.
    pub fn is_public_key(self) -> bool {
        matches!(self, Kind::Ecdsa | Kind::Ecdh)
    }
}

/// Refuses fields that are permitted otherwise, where they are those of a module's key without its signature.
pub fn check_signed(kind: Kind, fields: &[&[u8]]) -> Result<(), Refusal> {
    if kind == Kind::Ecdh && fields[4].is_empty() && fields[0].starts_with(b"SMID.1:") {
        return Err(MODULE_UNSIGNED);
    }
    Ok(())
}

/// Which number a field is refused with.
pub const WRONG_TEXT: u8 = 6;
pub const WRONG_IDENTITY: u8 = 7;
pub const WRONG_KIND: u8 = 9;
