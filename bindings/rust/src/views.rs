//! The fields of a record by name, one struct for each list of fields.

use crate::field::{identity, key, public_key, request, response};
use crate::show::Text;
use crate::{Cards, Kind, Record, Refusal};
use core::fmt;

/// The fields of a record by name: [`Record::view`].
///
/// ```
/// use obscurlane::{Record, View};
///
/// fn module_of(record: &[u8]) -> Option<&[u8]> {
///     match Record::read(record).ok()?.view() {
///         View::Request(request) => Some(request.id_sm.bytes),
///         View::Response(response) => Some(response.id_sm.bytes),
///         _ => None,
///     }
/// }
/// assert_eq!(module_of(b""), None);
/// ```
#[derive(Clone, Copy, Debug, PartialEq, Eq, Hash)]
#[non_exhaustive]
pub enum View<'a> {
    /// What [`Record::read_identity`] reads.
    Identity(Identity<'a>),
    /// `PK.ECDSA.1` or `PK.ECDH.1`.
    PublicKey(PublicKey<'a>),
    /// `VKLOAD.REQ.1`.
    Request(Request<'a>),
    /// `VKLOAD.RESP.1`.
    Response(Response<'a>),
    /// `KEY.1`.
    WrappedKey(WrappedKey<'a>),
}

/// An identity by its fields.
#[derive(Clone, Copy, PartialEq, Eq, Hash)]
pub struct Identity<'a> {
    /// `SMMAN.1`, `SMID.1` or `KMCID.1`.
    pub kind: Kind,
    /// Manufacturer, an IDENT.
    pub manufacturer: &'a [u8],
    /// MID, an IDENT.
    pub mid: &'a [u8],
    /// GNT, the time at which the key pair was generated, a TIMESTAMP.
    pub gnt: &'a [u8],
    /// Fingerprint, a PRINT.
    pub fingerprint: &'a [u8],
}

impl<'a> Identity<'a> {
    /// Reads an identity.
    ///
    /// ```
    /// use obscurlane::{Identity, Kind};
    ///
    /// let id_sm = b"SMID.1:Prism:06000001:20180120T090000Z:320C265FDC769D3E:8EFF";
    /// let Identity { kind, manufacturer, mid, .. } = Identity::read(id_sm)?;
    /// assert_eq!((kind, manufacturer, mid), (Kind::Smid, &b"Prism"[..], &b"06000001"[..]));
    /// # Ok::<(), obscurlane::Refusal>(())
    /// ```
    ///
    /// # Errors
    ///
    /// Reasons 1 to 6.
    #[inline]
    pub fn read(bytes: &'a [u8]) -> Result<Identity<'a>, Refusal> {
        Record::read_identity(bytes).map(|record| Identity::of(&record))
    }

    #[inline]
    pub(crate) fn of(record: &Record<'a>) -> Identity<'a> {
        Identity {
            kind: record.kind(),
            manufacturer: record.at(identity::MANUFACTURER),
            mid: record.at(identity::MID),
            gnt: record.at(identity::GNT),
            fingerprint: record.at(identity::FINGERPRINT),
        }
    }
}

/// An identity that is a field of a record: accepted with it, and of this kind. [`Identity::read`] gives its own fields.
#[derive(Clone, Copy, PartialEq, Eq, Hash)]
pub struct InnerIdentity<'a> {
    /// Its kind.
    pub kind: Kind,
    /// Its bytes, as the record has them.
    pub bytes: &'a [u8],
}

impl<'a> InnerIdentity<'a> {
    /// The identity that this field is, if it is one; an empty Issuer is none.
    #[inline]
    fn at(record: &Record<'a>, number: usize) -> Option<InnerIdentity<'a>> {
        let kind = record.identity_at(number)?;
        Some(InnerIdentity { kind, bytes: record.at(number) })
    }

    /// The identity in a field that has to be one.
    #[inline]
    fn in_every(record: &Record<'a>, number: usize) -> InnerIdentity<'a> {
        InnerIdentity::at(record, number).expect("this field of an accepted record is an identity")
    }
}

/// A public key by its fields. Issuer and Signature are there both or not at all, and always where the Subject is an `SMID.1`.
#[derive(Clone, Copy, PartialEq, Eq, Hash)]
pub struct PublicKey<'a> {
    /// `PK.ECDSA.1` or `PK.ECDH.1`.
    pub kind: Kind,
    /// Subject, whose key it is: of kind `SMMAN.1` with an ECDSA key, `SMID.1` or `KMCID.1` with an ECDH key.
    pub subject: InnerIdentity<'a>,
    /// Q, a POINT.
    pub q: &'a [u8],
    /// Expiry, a TIMESTAMP.
    pub expiry: &'a [u8],
    /// Issuer, who signed: of kind `SMMAN.1`.
    pub issuer: Option<InnerIdentity<'a>>,
    /// Signature, a SIG.
    pub signature: Option<&'a [u8]>,
}

impl<'a> PublicKey<'a> {
    #[inline]
    pub(crate) fn of(record: &Record<'a>) -> PublicKey<'a> {
        PublicKey {
            kind: record.kind(),
            subject: InnerIdentity::in_every(record, public_key::SUBJECT),
            q: record.at(public_key::Q),
            expiry: record.at(public_key::EXPIRY),
            issuer: InnerIdentity::at(record, public_key::ISSUER),
            signature: Some(record.at(public_key::SIGNATURE)).filter(|text| !text.is_empty()),
        }
    }
}

/// A load request by its fields.
#[derive(Clone, Copy, PartialEq, Eq, Hash)]
pub struct Request<'a> {
    /// ID_SM, of kind `SMID.1`.
    pub id_sm: InnerIdentity<'a>,
    /// ID_KMC, of kind `KMCID.1`.
    pub id_kmc: InnerIdentity<'a>,
    /// TVP, the time variant parameter, a TIMESTAMP.
    pub tvp: &'a [u8],
    /// HWID, model and revision of the hardware, an IDENT.
    pub hwid: &'a [u8],
    /// FWID, name and version of the firmware, an IDENT.
    pub fwid: &'a [u8],
    /// QE, a POINT.
    pub qe: &'a [u8],
    /// MacTag, a MAC.
    pub mac_tag: &'a [u8],
}

impl<'a> Request<'a> {
    #[inline]
    pub(crate) fn of(record: &Record<'a>) -> Request<'a> {
        Request {
            id_sm: InnerIdentity::in_every(record, request::ID_SM),
            id_kmc: InnerIdentity::in_every(record, request::ID_KMC),
            tvp: record.at(request::TVP),
            hwid: record.at(request::HWID),
            fwid: record.at(request::FWID),
            qe: record.at(request::QE),
            mac_tag: record.at(request::MAC_TAG),
        }
    }
}

/// A load response by its fields.
#[derive(Clone, Copy, PartialEq, Eq, Hash)]
pub struct Response<'a> {
    /// ID_KMC, of kind `KMCID.1`.
    pub id_kmc: InnerIdentity<'a>,
    /// ID_SM, of kind `SMID.1`.
    pub id_sm: InnerIdentity<'a>,
    /// TVP, copied from the request, a TIMESTAMP.
    pub tvp: &'a [u8],
    /// MacTag, a MAC.
    pub mac_tag: &'a [u8],
}

impl<'a> Response<'a> {
    #[inline]
    pub(crate) fn of(record: &Record<'a>) -> Response<'a> {
        Response {
            id_kmc: InnerIdentity::in_every(record, response::ID_KMC),
            id_sm: InnerIdentity::in_every(record, response::ID_SM),
            tvp: record.at(response::TVP),
            mac_tag: record.at(response::MAC_TAG),
        }
    }
}

/// A wrapped vending key by its fields.
///
/// ```
/// use obscurlane::{Record, View};
///
/// let key = b"KEY.1|000000000000000000000001|ACT19930101T000000Z;BDT19930101T000000Z;DKG02;KEN255;KRN1;KTC2;\
///     SGC0000123456;|D80D0BA61492E51E2AFE96FC69633DB5BE92932DEAECEA6C|4726";
/// let View::WrappedKey(key) = Record::read(key)?.view() else { panic!("no wrapped key") };
/// assert_eq!(key.nonce, b"000000000000000000000001");
/// for card in key.cards() {
///     println!("{} = {}", card.name.escape_ascii(), card.value.escape_ascii());
/// }
/// let group = key.cards().find(|card| card.name == b"SGC").map(|card| card.value);
/// assert_eq!(group, Some(&b"0000123456"[..]));
/// # Ok::<(), obscurlane::Refusal>(())
/// ```
#[derive(Clone, Copy, PartialEq, Eq, Hash)]
pub struct WrappedKey<'a> {
    /// Nonce, HEX(24).
    pub nonce: &'a [u8],
    /// Attributes, the whole list with every `;`: the bytes that go to the cipher. [`cards`](WrappedKey::cards) has them one
    /// by one.
    pub attributes: &'a [u8],
    /// ProtectedKey, an even number of HEX characters from 32 to 72.
    pub protected_key: &'a [u8],
}

impl<'a> WrappedKey<'a> {
    #[inline]
    pub(crate) fn of(record: &Record<'a>) -> WrappedKey<'a> {
        WrappedKey {
            nonce: record.at(key::NONCE),
            attributes: record.at(key::ATTRIBUTES),
            protected_key: record.at(key::PROTECTED_KEY),
        }
    }

    /// The attributes one by one, in the order of their names, as parts of the bytes that were read. The list was accepted
    /// with the record and is only cut at each `;`.
    #[inline]
    pub fn cards(&self) -> Cards<'a> {
        Cards::of(self.attributes)
    }
}

// ---- shown as text

impl fmt::Debug for Identity<'_> {
    fn fmt(&self, f: &mut fmt::Formatter<'_>) -> fmt::Result {
        f.debug_struct("Identity")
            .field("kind", &self.kind)
            .field("manufacturer", &Text(self.manufacturer))
            .field("mid", &Text(self.mid))
            .field("gnt", &Text(self.gnt))
            .field("fingerprint", &Text(self.fingerprint))
            .finish()
    }
}

impl fmt::Debug for InnerIdentity<'_> {
    fn fmt(&self, f: &mut fmt::Formatter<'_>) -> fmt::Result {
        f.debug_struct("InnerIdentity")
            .field("kind", &self.kind)
            .field("bytes", &Text(self.bytes))
            .finish()
    }
}

impl fmt::Debug for PublicKey<'_> {
    fn fmt(&self, f: &mut fmt::Formatter<'_>) -> fmt::Result {
        f.debug_struct("PublicKey")
            .field("kind", &self.kind)
            .field("subject", &self.subject)
            .field("q", &Text(self.q))
            .field("expiry", &Text(self.expiry))
            .field("issuer", &self.issuer)
            .field("signature", &self.signature.map(Text))
            .finish()
    }
}

impl fmt::Debug for Request<'_> {
    fn fmt(&self, f: &mut fmt::Formatter<'_>) -> fmt::Result {
        f.debug_struct("Request")
            .field("id_sm", &self.id_sm)
            .field("id_kmc", &self.id_kmc)
            .field("tvp", &Text(self.tvp))
            .field("hwid", &Text(self.hwid))
            .field("fwid", &Text(self.fwid))
            .field("qe", &Text(self.qe))
            .field("mac_tag", &Text(self.mac_tag))
            .finish()
    }
}

impl fmt::Debug for Response<'_> {
    fn fmt(&self, f: &mut fmt::Formatter<'_>) -> fmt::Result {
        f.debug_struct("Response")
            .field("id_kmc", &self.id_kmc)
            .field("id_sm", &self.id_sm)
            .field("tvp", &Text(self.tvp))
            .field("mac_tag", &Text(self.mac_tag))
            .finish()
    }
}

impl fmt::Debug for WrappedKey<'_> {
    fn fmt(&self, f: &mut fmt::Formatter<'_>) -> fmt::Result {
        f.debug_struct("WrappedKey")
            .field("nonce", &Text(self.nonce))
            .field("attributes", &Text(self.attributes))
            .field("protected_key", &Text(self.protected_key))
            .finish()
    }
}
