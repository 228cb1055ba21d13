//! What is read: a record or identity with all its fields, from one reading; and single fields.

use crate::show::Text;
use crate::{
    read_mail, sys, Identity, Kind, PublicKey, Refusal, Request, Response, View, WrappedKey,
    TRAILER,
};
use core::fmt;
use core::hash::{Hash, Hasher};
use core::iter::FusedIterator;
use core::ops::Range;

/// A record or identity that was read: its bytes, its kind, and the place of every field.
///
/// All of it comes from one reading. Fields are parts of the bytes that were read.
///
/// ```
/// use obscurlane::{field, Kind, Record, View};
///
/// let response = b"VKLOAD.RESP.1|KMCID.1:sts-KeyAgreement-1.2:TEST1:20180110T120000Z:4712CFF444570C8A:4C31|\
///     SMID.1:Prism:06000001:20180120T090000Z:320C265FDC769D3E:8EFF|20180125T150000Z|\
///     7E6DEC39AFE13B846C59B26EB059186BC521BCAD63718467|D743";
/// let record = Record::read(response)?;
/// assert_eq!(record.kind(), Kind::Response);
///
/// // by number
/// assert_eq!(record.field(field::response::TVP), Some(&b"20180125T150000Z"[..]));
/// assert_eq!(record.field(5), None);
///
/// // all of them
/// for field in &record {
///     println!("{} {}: {}", field.number, field.name, field.bytes.escape_ascii());
/// }
///
/// // by name
/// let View::Response(response) = record.view() else { panic!("a {}", record.kind()) };
/// assert_eq!(response.tvp, b"20180125T150000Z");
/// assert_eq!(response.id_sm.kind, Kind::Smid);
/// # Ok::<(), obscurlane::Refusal>(())
/// ```
#[derive(Clone, Copy)]
pub struct Record<'a> {
    bytes: &'a [u8],
    kind: Kind,
    answer: sys::Answer,
}

impl<'a> Record<'a> {
    /// Reads a record: kinds `PK.ECDSA.1`, `PK.ECDH.1`, `VKLOAD.REQ.1`, `VKLOAD.RESP.1` and `KEY.1`.
    ///
    /// ```
    /// use obscurlane::{Reason, Record};
    ///
    /// assert_eq!(Record::read(b"PK.ECDH.2|x").unwrap_err().reason, Reason::UnknownKind);
    /// ```
    ///
    /// # Errors
    ///
    /// Reasons 1 to 9, 14, and 28.
    #[inline]
    pub fn read(bytes: &'a [u8]) -> Result<Record<'a>, Refusal> {
        Record::of(bytes, sys::read_record(bytes))
    }

    /// Reads an identity: kinds `SMMAN.1`, `SMID.1` and `KMCID.1`. [`Identity::read`] gives its fields by name at once.
    ///
    /// ```
    /// use obscurlane::{field, Kind, Record};
    ///
    /// let id_sm = b"SMID.1:Prism:06000001:20180120T090000Z:320C265FDC769D3E:8EFF";
    /// let identity = Record::read_identity(id_sm)?;
    /// assert_eq!(identity.kind(), Kind::Smid);
    /// assert_eq!(identity.field(field::identity::MID), Some(&b"06000001"[..]));
    /// # Ok::<(), obscurlane::Refusal>(())
    /// ```
    ///
    /// # Errors
    ///
    /// Reasons 1 to 6.
    #[inline]
    pub fn read_identity(bytes: &'a [u8]) -> Result<Record<'a>, Refusal> {
        Record::of(bytes, sys::read_identity(bytes))
    }

    /// Reads a line of a manufacturer's record file, without its line feed: a record and its trailer, which is `#` and, as
    /// HEX(40), the SHA-1 of the record and of one line feed. What is handed back is the record in front of the trailer, at
    /// its place in the line. [`trailed_lines`](crate::trailed_lines) goes through a file of such lines.
    ///
    /// ```
    /// use obscurlane::{field, Reason, Record};
    ///
    /// let line = b"KEY.1|000000000000000000000001|ACT19930101T000000Z;BDT19930101T000000Z;DKG02;KEN255;KRN1;KTC2;\
    ///     SGC0000123456;|D80D0BA61492E51E2AFE96FC69633DB5BE92932DEAECEA6C|4726\
    ///     #2A9BF21D1CFD6EA0C4B78073DB4CFB6BDD139C64";
    /// let record = Record::read_trailed(line)?;
    /// assert_eq!(record, Record::read(&line[..line.len() - obscurlane::TRAILER])?);
    /// assert_eq!(record.field(field::key::NONCE), Some(&b"000000000000000000000001"[..]));
    ///
    /// // the record alone, and the line with another digit at its end
    /// let refusal = Record::read_trailed(record.bytes()).unwrap_err();
    /// assert_eq!(refusal.reason, Reason::MissingTrailer);
    /// let mut other = line.to_vec();
    /// *other.last_mut().unwrap() = b'0';
    /// assert_eq!(Record::read_trailed(&other).unwrap_err().reason, Reason::WrongHash);
    /// # Ok::<(), obscurlane::Refusal>(())
    /// ```
    ///
    /// # Errors
    ///
    /// Reason 19, then what [`Record::read`] refuses the record with (reasons 1 to 9, 14, and 28), then reason 20. Reason 1
    /// counts the record in front of the trailer.
    #[inline]
    pub fn read_trailed(line: &'a [u8]) -> Result<Record<'a>, Refusal> {
        let answer = sys::read_trailed(line);
        Record::of(&line[..line.len().saturating_sub(TRAILER)], answer)
    }

    /// Reads the record that stands in a text, as [`read_mail`](crate::read_mail) finds it, writes it from the front of `out`, and
    /// reads it there.
    ///
    /// ```
    /// use obscurlane::{field, Kind, Record, LONGEST_RECORD};
    ///
    /// let letter = b"Dear vendor,\n\n--STS:KEY.1 BEGINS--\n\
    ///     KEY.1|000000000000000000000001|ACT19930101T000000Z;BDT19930101T0\n\
    ///     00000Z;DKG02;KEN255;KRN1;KTC2;SGC0000123456;|D80D0BA61492E51E2AF\n\
    ///     E96FC69633DB5BE92932DEAECEA6C|4726\n\
    ///     --STS:KEY.1 ENDS--\n\nThe centre\n";
    /// let mut out = [0; LONGEST_RECORD];
    /// let record = Record::read_mail(letter, &mut out)?;
    /// assert_eq!(record.kind(), Kind::Key);
    /// assert_eq!(record.bytes().len(), 162);
    /// assert_eq!(record.field(field::key::NONCE), Some(&b"000000000000000000000001"[..]));
    /// # Ok::<(), obscurlane::Refusal>(())
    /// ```
    ///
    /// # Errors
    ///
    /// As [`read_mail`](crate::read_mail); `out` is as it was then, every byte.
    #[inline]
    pub fn read_mail(text: &[u8], out: &'a mut [u8]) -> Result<Record<'a>, Refusal> {
        let len = read_mail(text, out)?;
        Record::read(&out[..len])
    }

    #[inline]
    fn of(bytes: &'a [u8], answer: sys::Answer) -> Result<Record<'a>, Refusal> {
        Refusal::check(answer.no, answer.field)?;
        let kind = Kind::from_number(answer.kind).expect("what is accepted has a kind");
        Ok(Record { bytes, kind, answer })
    }

    /// The bytes that were read, without a trailer.
    #[must_use]
    #[inline]
    pub fn bytes(&self) -> &'a [u8] {
        self.bytes
    }

    /// The kind.
    #[must_use]
    #[inline]
    pub fn kind(&self) -> Kind {
        self.kind
    }

    /// The field of this number, counted from 1; none for a number that the kind has not. Issuer and Signature of an unsigned
    /// key are there and empty.
    #[must_use]
    #[inline]
    pub fn field(&self, number: usize) -> Option<&'a [u8]> {
        (1..=self.kind.fields().len()).contains(&number).then(|| self.at(number))
    }

    /// All fields, in order.
    ///
    /// ```
    /// use obscurlane::{Kind, Record};
    ///
    /// let key = b"PK.ECDH.1|KMCID.1:sts-KeyAgreement-1.2:TEST1:20180110T120000Z:4712CFF444570C8A:4C31|\
    ///     044DED24DCA96783C3B240CEEBBB1D69EA36F96F15ACCB13D2EA68B698DDA34443A465E85531904F36F387F5C8908\
    ///     F7DFA4EF8CE0065F6EA5CEC23578EC1C96E4662F2B74184F91A552F9AFB96F99F3EEAFC8C1B5A800857E5B2AC3F0C\
    ///     B2197BD5|20210110T120000Z|||B8F9";
    /// let record = Record::read(key)?;
    /// let lengths: Vec<_> = record.fields().map(|field| (field.name, field.bytes.len())).collect();
    /// assert_eq!(lengths, [("Subject", 73), ("Q", 194), ("Expiry", 16), ("Issuer", 0), ("Signature", 0)]);
    /// assert_eq!(record.fields().next().unwrap().identity, Some(Kind::Kmcid));
    /// # Ok::<(), obscurlane::Refusal>(())
    /// ```
    #[inline]
    pub fn fields(&self) -> Fields<'a> {
        Fields { record: *self, numbers: 1..self.kind.fields().len() + 1 }
    }

    /// The fields by name, as the kind has them.
    #[must_use]
    #[inline]
    pub fn view(&self) -> View<'a> {
        match self.kind {
            Kind::Smman | Kind::Smid | Kind::Kmcid => View::Identity(Identity::of(self)),
            Kind::Ecdsa | Kind::Ecdh => View::PublicKey(PublicKey::of(self)),
            Kind::Request => View::Request(Request::of(self)),
            Kind::Response => View::Response(Response::of(self)),
            Kind::Key => View::WrappedKey(WrappedKey::of(self)),
        }
    }

    /// The field of a number that the kind has.
    #[inline]
    pub(crate) fn at(&self, number: usize) -> &'a [u8] {
        let (start, len) = (self.answer.starts[number - 1], self.answer.lens[number - 1]);
        &self.bytes[start..start + len]
    }

    /// The kind of the identity that this field is; none where it is not one.
    #[inline]
    pub(crate) fn identity_at(&self, number: usize) -> Option<Kind> {
        Kind::from_number(self.answer.kinds[number - 1])
    }
}

/// The kind and the fields by name.
impl fmt::Debug for Record<'_> {
    fn fmt(&self, f: &mut fmt::Formatter<'_>) -> fmt::Result {
        let mut shown = f.debug_struct("Record");
        shown.field("kind", &self.kind);
        for field in self {
            shown.field(field.name, &Text(field.bytes));
        }
        shown.finish()
    }
}

/// Two records are equal where their bytes are, which determine all the rest.
impl PartialEq for Record<'_> {
    fn eq(&self, other: &Self) -> bool {
        self.bytes == other.bytes
    }
}

impl Eq for Record<'_> {}

impl Hash for Record<'_> {
    fn hash<H: Hasher>(&self, state: &mut H) {
        self.bytes.hash(state);
    }
}

impl<'a> IntoIterator for &Record<'a> {
    type Item = Field<'a>;
    type IntoIter = Fields<'a>;

    #[inline]
    fn into_iter(self) -> Fields<'a> {
        self.fields()
    }
}

/// A field of a record, as [`Record::fields`] gives it.
#[derive(Clone, Copy, PartialEq, Eq, Hash)]
#[non_exhaustive]
pub struct Field<'a> {
    /// Its number, counted from 1.
    pub number: usize,
    /// Its name.
    pub name: &'static str,
    /// Its bytes, a part of those that were read.
    pub bytes: &'a [u8],
    /// Where it is an identity, that identity's kind.
    pub identity: Option<Kind>,
}

impl fmt::Debug for Field<'_> {
    fn fmt(&self, f: &mut fmt::Formatter<'_>) -> fmt::Result {
        let Field { number, name, bytes, identity } = self;
        f.debug_struct("Field")
            .field("number", number)
            .field("name", name)
            .field("bytes", &Text(bytes))
            .field("identity", identity)
            .finish()
    }
}

/// An iterator over the fields of a record: [`Record::fields`].
#[derive(Clone, Debug)]
pub struct Fields<'a> {
    record: Record<'a>,
    numbers: Range<usize>,
}

impl<'a> Fields<'a> {
    #[inline]
    fn field(&self, number: usize) -> Field<'a> {
        Field {
            number,
            name: self.record.kind.fields()[number - 1],
            bytes: self.record.at(number),
            identity: self.record.identity_at(number),
        }
    }
}

impl<'a> Iterator for Fields<'a> {
    type Item = Field<'a>;

    #[inline]
    fn next(&mut self) -> Option<Field<'a>> {
        self.numbers.next().map(|number| self.field(number))
    }

    #[inline]
    fn size_hint(&self) -> (usize, Option<usize>) {
        self.numbers.size_hint()
    }
}

impl DoubleEndedIterator for Fields<'_> {
    #[inline]
    fn next_back(&mut self) -> Option<Self::Item> {
        self.numbers.next_back().map(|number| self.field(number))
    }
}

impl ExactSizeIterator for Fields<'_> {}
impl FusedIterator for Fields<'_> {}

/// One field of a record, counted from 1, by a reading of its own; [`Record`] has all fields from one.
///
/// ```
/// use obscurlane::{field, record_field};
///
/// let response = b"VKLOAD.RESP.1|KMCID.1:sts-KeyAgreement-1.2:TEST1:20180110T120000Z:4712CFF444570C8A:4C31|\
///     SMID.1:Prism:06000001:20180120T090000Z:320C265FDC769D3E:8EFF|20180125T150000Z|\
///     7E6DEC39AFE13B846C59B26EB059186BC521BCAD63718467|D743";
/// assert_eq!(record_field(response, field::response::TVP), Ok(&b"20180125T150000Z"[..]));
/// assert_eq!(record_field(response, 5).unwrap_err().reason.number(), 12);
/// ```
///
/// # Errors
///
/// The record's own refusal, then reason 12 for a field that it has not.
#[inline]
pub fn record_field(record: &[u8], wanted: usize) -> Result<&[u8], Refusal> {
    part(record, &sys::record_field(record, wanted))
}

/// One field of an identity, counted from 1, by a reading of its own; [`Identity`] has all fields from one.
///
/// ```
/// use obscurlane::{field, identity_field};
///
/// let identity = b"SMID.1:Prism:06000001:20180120T090000Z:320C265FDC769D3E:8EFF";
/// assert_eq!(identity_field(identity, field::identity::MID), Ok(&b"06000001"[..]));
/// assert_eq!(identity_field(identity, 5).unwrap_err().reason.number(), 12);
/// ```
///
/// # Errors
///
/// The identity's own refusal, then reason 12 for a field that it has not.
#[inline]
pub fn identity_field(identity: &[u8], wanted: usize) -> Result<&[u8], Refusal> {
    part(identity, &sys::identity_field(identity, wanted))
}

/// The part of the bytes that stands at a place.
#[inline]
pub(crate) fn part<'a>(bytes: &'a [u8], place: &sys::Place) -> Result<&'a [u8], Refusal> {
    Refusal::check(place.no, place.field)?;
    Ok(&bytes[place.start..place.start + place.len])
}
