//! Why a call refuses.

use core::error::Error;
use core::fmt;

/// Why a call refuses: the numbers of the record layer, from 1.
///
/// ```
/// use obscurlane::Reason;
///
/// assert_eq!(Reason::WrongCheck.number(), 4);
/// assert_eq!(Reason::WrongCheck.to_string(), "the check differs");
/// assert_eq!(Reason::from_number(4), Some(Reason::WrongCheck));
/// ```
#[derive(Clone, Copy, Debug, PartialEq, Eq, PartialOrd, Ord, Hash)]
#[repr(u8)]
#[non_exhaustive]
pub enum Reason {
    /// 1: the record or identity to read is longer than 1,024 bytes, which by mail are counted after unfolding. Building: or
    /// the record would be.
    TooLong = 1,
    /// 2: what stands before the first mark is no kind that this call reads, or the mark is not its kind's, or there is
    /// none. By mail: or it is not the kind that the BEGINS line names. Building: the kind name is not in the table.
    UnknownKind = 2,
    /// 3: the last four bytes are not HEX(4), or the byte before them is not the kind's mark.
    MissingCheck = 3,
    /// 4: the check differs.
    WrongCheck = 4,
    /// 5: the number of fields is wrong. Building: or the lengths do not add up to the bytes lent.
    WrongCount = 5,
    /// 6: a field is not of its text type; its number comes too.
    WrongText = 6,
    /// 7: an identity field is not an accepted identity; its number comes too.
    WrongIdentity = 7,
    /// 8: one of Issuer and Signature is empty and the other is not.
    Unpaired = 8,
    /// 9: an identity field is of a kind not permitted there; its number comes too.
    WrongKind = 9,
    /// 10: the lent output is shorter than the record, text, key, line or block needs.
    ShortOutput = 10,
    /// 11: the last line of a file has bytes and no line feed.
    Unfinished = 11,
    /// 12: the bytes are no key agreement text, or it has no such item; or the record has no field of that number, or no
    /// attribute of that number or name.
    MissingItem = 12,
    /// 13: choosing: kind, Manufacturer or MID of the two Subjects differ.
    NotAlike = 13,
    /// 14: the attribute list is not one that clause 7.5.1 or Appendix B permits.
    WrongAttributes = 14,
    /// 15: the Fingerprint in the Subject is not the right one.
    WrongFingerprint = 15,
    /// 16: Z is not 96 bytes.
    WrongZ = 16,
    /// 17: the response's identities or TVP differ from the request's.
    OtherRequest = 17,
    /// 18: the tag differs.
    WrongTag = 18,
    /// 19: no `#` in the forty-first place from the end of a manufacturer's line, or no HEX(40) after it.
    MissingTrailer = 19,
    /// 20: the SHA-1 differs.
    WrongHash = 20,
    /// 21: the text has no BEGINS line.
    MissingBegins = 21,
    /// 22: no later ENDS line matches the first BEGINS line.
    MissingEnds = 22,
    /// 23: the lent bytes are no cabinet, also where the number in a place is not that of the record's Expiry, or its TVP is
    /// none. Making one: they are of another length.
    NotCabinet = 23,
    /// 24: the GNT of the key to put is not later than that of the key in the cabinet that it would replace.
    NotLater = 24,
    /// 25: no place of the cabinet is free: 64 other Subjects are present.
    NoPlace = 25,
    /// 26: the cabinet has no key of the identity's kind, Manufacturer and MID, to find or to remove; or of a request's ID_SM. To
    /// find, and of ID_SM: or it is old.
    NotThere = 26,
    /// 27: the TVP of the request is not later than the last one that was accepted for its module.
    TvpNotLater = 27,
    /// 28: the key of a module is unsigned: the Subject of a `PK.ECDH.1` is an `SMID.1`, and Issuer and Signature are empty.
    ModuleUnsigned = 28,
}

impl Reason {
    /// All reasons, in the order of their numbers.
    pub const ALL: &'static [Reason] = &[
        Reason::TooLong,
        Reason::UnknownKind,
        Reason::MissingCheck,
        Reason::WrongCheck,
        Reason::WrongCount,
        Reason::WrongText,
        Reason::WrongIdentity,
        Reason::Unpaired,
        Reason::WrongKind,
        Reason::ShortOutput,
        Reason::Unfinished,
        Reason::MissingItem,
        Reason::NotAlike,
        Reason::WrongAttributes,
        Reason::WrongFingerprint,
        Reason::WrongZ,
        Reason::OtherRequest,
        Reason::WrongTag,
        Reason::MissingTrailer,
        Reason::WrongHash,
        Reason::MissingBegins,
        Reason::MissingEnds,
        Reason::NotCabinet,
        Reason::NotLater,
        Reason::NoPlace,
        Reason::NotThere,
        Reason::TvpNotLater,
        Reason::ModuleUnsigned,
    ];

    /// The number, from 1.
    #[must_use]
    pub const fn number(self) -> u8 {
        self as u8
    }

    /// The reason of this number; none for 0, which is accepted, and for a number that no reason has.
    #[must_use]
    pub fn from_number(number: u8) -> Option<Reason> {
        let index = usize::from(number).checked_sub(1)?;
        Reason::ALL.get(index).copied()
    }

    /// What is wrong, as a sentence without its point.
    #[must_use]
    pub const fn sentence(self) -> &'static str {
        match self {
            Reason::TooLong => "the record is longer than 1,024 bytes, or would be",
            Reason::UnknownKind => "it is of no kind that is read or built here",
            Reason::MissingCheck => {
                "it does not end in its mark and a check of four HEX characters"
            }
            Reason::WrongCheck => "the check differs",
            Reason::WrongCount => "the number of fields is wrong, or their lengths do not add up",
            Reason::WrongText => "a field is not of its text type",
            Reason::WrongIdentity => "an identity field is not an accepted identity",
            Reason::Unpaired => "one of Issuer and Signature is empty and the other is not",
            Reason::WrongKind => "an identity field is of a kind not permitted there",
            Reason::ShortOutput => "the output is too short",
            Reason::Unfinished => "the last line of the file has no line feed",
            Reason::MissingItem => {
                "there is no such field, attribute or item, or the bytes are no key agreement text"
            }
            Reason::NotAlike => "the Subjects of the two keys differ in kind, Manufacturer or MID",
            Reason::WrongAttributes => {
                "the attribute list is not one that clause 7.5.1 or Appendix B permits"
            }
            Reason::WrongFingerprint => "the Fingerprint in the Subject is not the right one",
            Reason::WrongZ => "Z is not 96 bytes",
            Reason::OtherRequest => "the response's identities or TVP differ from the request's",
            Reason::WrongTag => "the tag differs",
            Reason::MissingTrailer => {
                "no '#' in the forty-first place from the end of the line, or no HEX(40) after it"
            }
            Reason::WrongHash => "the SHA-1 differs",
            Reason::MissingBegins => "the text has no BEGINS line",
            Reason::MissingEnds => "no later ENDS line matches the first BEGINS line",
            Reason::NotCabinet => "the bytes are no cabinet",
            Reason::NotLater => "the GNT is not later than that of the key in the cabinet",
            Reason::NoPlace => "no place of the cabinet is free",
            Reason::NotThere => "the cabinet has no key of this kind, Manufacturer and MID",
            Reason::TvpNotLater => "the TVP is not later than the last one accepted for the module",
            Reason::ModuleUnsigned => "the key of a module is unsigned",
        }
    }
}

impl fmt::Display for Reason {
    fn fmt(&self, f: &mut fmt::Formatter<'_>) -> fmt::Result {
        f.write_str(self.sentence())
    }
}

/// A refusal: its reason, and the field that it is about where it is about one.
///
/// ```
/// use obscurlane::{field, Reason, Record, Refusal};
///
/// let refusal = Record::read(b"PK.ECDH.1|0000").unwrap_err();
/// assert_eq!(refusal, Refusal { reason: Reason::WrongCheck, field: None });
/// assert_eq!(refusal.to_string(), "4: the check differs");
///
/// let fields = b"PrismSerial 720180120T090000Z320C265FDC769D3E";
/// let refusal = obscurlane::build(b"SMID.1", fields, &[5, 8, 16, 16], &mut [0; 64]).unwrap_err();
/// assert_eq!(refusal.field, Some(field::identity::MID));
/// assert_eq!(refusal.to_string(), "6: a field is not of its text type (field 2)");
/// ```
#[derive(Clone, Copy, Debug, PartialEq, Eq, Hash)]
pub struct Refusal {
    /// Why the call refuses.
    pub reason: Reason,
    /// The number of the field, counted from 1: [`field`](crate::field) has the names.
    pub field: Option<usize>,
}

impl Refusal {
    /// The answer of a call by its number: nothing to say for 0.
    #[inline]
    pub(crate) fn check(number: u8, field: u8) -> Result<(), Refusal> {
        match number {
            0 => Ok(()),
            _ => Err(Refusal::new(number, field)),
        }
    }

    #[cold]
    pub(crate) fn new(number: u8, field: u8) -> Refusal {
        let reason = Reason::from_number(number).expect("the library gives the numbers of Reason");
        Refusal { reason, field: (field != 0).then_some(usize::from(field)) }
    }
}

impl fmt::Display for Refusal {
    fn fmt(&self, f: &mut fmt::Formatter<'_>) -> fmt::Result {
        write!(f, "{}: {}", self.reason.number(), self.reason)?;
        match self.field {
            Some(field) => write!(f, " (field {field})"),
            None => Ok(()),
        }
    }
}

impl Error for Refusal {}
