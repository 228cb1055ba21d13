//! The Fingerprint in the Subject of a public key.

use crate::building::length;
use crate::{sys, Refusal};

/// Whether the Fingerprint in the Subject of a public key is the right one: the first eight bytes, as HEX(16), of the SHA-384 of
/// the Subject's kind name, Manufacturer, MID and GNT and of Q's 194 characters, each followed by `:`.
///
/// ```
/// use obscurlane::{check_fingerprint, Reason};
///
/// let key = b"PK.ECDH.1|KMCID.1:sts-KeyAgreement-1.2:TEST1:20180110T120000Z:4712CFF444570C8A:4C31|\
///     044DED24DCA96783C3B240CEEBBB1D69EA36F96F15ACCB13D2EA68B698DDA34443A465E85531904F36F387F5C8908\
///     F7DFA4EF8CE0065F6EA5CEC23578EC1C96E4662F2B74184F91A552F9AFB96F99F3EEAFC8C1B5A800857E5B2AC3F0C\
///     B2197BD5|20210110T120000Z|||B8F9";
/// assert_eq!(check_fingerprint(key), Ok(()));
///
/// // another Fingerprint, and the checks that go with it
/// let key = b"PK.ECDH.1|KMCID.1:sts-KeyAgreement-1.2:TEST1:20180110T120000Z:4712CFF444570C8B:BC31|\
///     044DED24DCA96783C3B240CEEBBB1D69EA36F96F15ACCB13D2EA68B698DDA34443A465E85531904F36F387F5C8908\
///     F7DFA4EF8CE0065F6EA5CEC23578EC1C96E4662F2B74184F91A552F9AFB96F99F3EEAFC8C1B5A800857E5B2AC3F0C\
///     B2197BD5|20210110T120000Z|||E8E6";
/// assert_eq!(check_fingerprint(key).unwrap_err().reason, Reason::WrongFingerprint);
/// ```
///
/// # Errors
///
/// The record's own refusal (reasons 1 to 9, and 28), reason 2 for a record of another kind; reason 15, which is about no field,
/// after every other.
#[inline]
pub fn check_fingerprint(record: &[u8]) -> Result<(), Refusal> {
    let checked = sys::check_fingerprint(record);
    Refusal::check(checked.no, checked.field)
}

/// Writes the Fingerprint that is right for a public key from the front of `out`, whatever stands in its Subject, and gives
/// back its length, which is always [`LONGEST_FINGERPRINT`](crate::LONGEST_FINGERPRINT). A refusal leaves `out` as it was.
///
/// ```
/// use obscurlane::{write_fingerprint, Reason, LONGEST_FINGERPRINT};
///
/// let key = b"PK.ECDH.1|KMCID.1:sts-KeyAgreement-1.2:TEST1:20180110T120000Z:4712CFF444570C8A:4C31|\
///     044DED24DCA96783C3B240CEEBBB1D69EA36F96F15ACCB13D2EA68B698DDA34443A465E85531904F36F387F5C8908\
///     F7DFA4EF8CE0065F6EA5CEC23578EC1C96E4662F2B74184F91A552F9AFB96F99F3EEAFC8C1B5A800857E5B2AC3F0C\
///     B2197BD5|20210110T120000Z|||B8F9";
/// let mut out = [0; LONGEST_FINGERPRINT];
/// assert_eq!(write_fingerprint(key, &mut out), Ok(16));
/// assert_eq!(out, *b"4712CFF444570C8A");
/// assert_eq!(write_fingerprint(key, &mut out[..15]).unwrap_err().reason, Reason::ShortOutput);
/// ```
///
/// # Errors
///
/// As [`check_fingerprint`], but reason 10 in the place of 15.
#[inline]
pub fn write_fingerprint(record: &[u8], out: &mut [u8]) -> Result<usize, Refusal> {
    length(&sys::write_fingerprint(record, out))
}
