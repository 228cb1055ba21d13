//! The kinds of record.

use core::fmt;

/// A kind of record, in the order of the table of kinds.
///
/// ```
/// use obscurlane::Kind;
///
/// assert_eq!(Kind::Response.name(), "VKLOAD.RESP.1");
/// assert_eq!(Kind::Response.fields(), ["ID_KMC", "ID_SM", "TVP", "MacTag"]);
/// ```
#[derive(Clone, Copy, Debug, PartialEq, Eq, PartialOrd, Ord, Hash)]
#[non_exhaustive]
pub enum Kind {
    /// `SMMAN.1`, the identity of a manufacturer.
    Smman,
    /// `SMID.1`, the identity of a security module.
    Smid,
    /// `KMCID.1`, the identity of a key management centre.
    Kmcid,
    /// `PK.ECDSA.1`, a public key for signatures.
    Ecdsa,
    /// `PK.ECDH.1`, a public key for key agreement.
    Ecdh,
    /// `VKLOAD.REQ.1`, a load request.
    Request,
    /// `VKLOAD.RESP.1`, a load response.
    Response,
    /// `KEY.1`, a wrapped vending key.
    Key,
}

impl Kind {
    /// All kinds, each at the index that is its number in the C interface.
    pub const ALL: &'static [Kind] = &[
        Kind::Smman,
        Kind::Smid,
        Kind::Kmcid,
        Kind::Ecdsa,
        Kind::Ecdh,
        Kind::Request,
        Kind::Response,
        Kind::Key,
    ];

    /// The name that stands at the front of a record.
    #[must_use]
    pub const fn name(self) -> &'static str {
        match self {
            Kind::Smman => "SMMAN.1",
            Kind::Smid => "SMID.1",
            Kind::Kmcid => "KMCID.1",
            Kind::Ecdsa => "PK.ECDSA.1",
            Kind::Ecdh => "PK.ECDH.1",
            Kind::Request => "VKLOAD.REQ.1",
            Kind::Response => "VKLOAD.RESP.1",
            Kind::Key => "KEY.1",
        }
    }

    /// The names of the fields, in order: the first is field 1.
    #[must_use]
    pub const fn fields(self) -> &'static [&'static str] {
        match self {
            Kind::Smman | Kind::Smid | Kind::Kmcid => {
                &["Manufacturer", "MID", "GNT", "Fingerprint"]
            }
            Kind::Ecdsa | Kind::Ecdh => &["Subject", "Q", "Expiry", "Issuer", "Signature"],
            Kind::Request => &["ID_SM", "ID_KMC", "TVP", "HWID", "FWID", "QE", "MacTag"],
            Kind::Response => &["ID_KMC", "ID_SM", "TVP", "MacTag"],
            Kind::Key => &["Nonce", "Attributes", "ProtectedKey"],
        }
    }

    /// The kind of this number of the C interface; none for a number that is no kind's.
    #[inline]
    pub(crate) fn from_number(number: usize) -> Option<Kind> {
        Kind::ALL.get(number).copied()
    }
}

impl fmt::Display for Kind {
    fn fmt(&self, f: &mut fmt::Formatter<'_>) -> fmt::Result {
        f.write_str(self.name())
    }
}
