//! Dates as numbers: the seconds since 19930101T000000Z.

use crate::{sys, Refusal};

/// The seconds from 19930101T000000Z to a TIMESTAMP, negative before it; none where [`is_timestamp`](crate::is_timestamp) says
/// that the text is no TIMESTAMP.
///
/// They are counted by the Gregorian calendar, before 1993 too, and every day has 86,400 of them: there are no leap seconds. The
/// later of two dates has the greater number.
///
/// ```
/// use obscurlane::moment_of;
///
/// assert_eq!(moment_of(b"19930101T000000Z"), Some(0));
/// assert_eq!(moment_of(b"19921231T235959Z"), Some(-1));
/// assert_eq!(moment_of(b"20000229T000000Z"), Some(225_936_000));
/// assert_eq!(moment_of(b"20230229T000000Z"), None);
/// ```
///
/// A clock that counts from 1970, as most do, is told what its beginning is here:
///
/// ```
/// use obscurlane::moment_of;
/// use std::time::{SystemTime, UNIX_EPOCH};
///
/// let since_1970 = SystemTime::now().duration_since(UNIX_EPOCH)?.as_secs() as i64;
/// let now = since_1970 + moment_of(b"19700101T000000Z").unwrap();
/// assert!(Some(now) > moment_of(b"20180125T150000Z"));
/// # Ok::<(), std::time::SystemTimeError>(())
/// ```
#[must_use]
#[inline]
pub fn moment_of(text: &[u8]) -> Option<i64> {
    let moment = sys::moment_of(text);
    moment.valid.then_some(moment.seconds)
}

/// The seconds from 19930101T000000Z to the Expiry of a public key: what [`moment_of`] says of its field
/// [`EXPIRY`](crate::field::public_key::EXPIRY).
///
/// ```
/// use obscurlane::{expiry_of, moment_of, Reason};
///
/// let key = b"PK.ECDH.1|KMCID.1:sts-KeyAgreement-1.2:TEST1:20180110T120000Z:4712CFF444570C8A:4C31|044DED24\
///     DCA96783C3B240CEEBBB1D69EA36F96F15ACCB13D2EA68B698DDA34443A465E85531904F36F387F5C8908F7DFA4EF8CE\
///     0065F6EA5CEC23578EC1C96E4662F2B74184F91A552F9AFB96F99F3EEAFC8C1B5A800857E5B2AC3F0CB2197BD5|\
///     20210110T120000Z|||B8F9";
/// let expiry = expiry_of(key)?;
/// assert_eq!(Some(expiry), moment_of(b"20210110T120000Z"));
///
/// // how many whole days it has left; on the day after its last one, -1
/// let days_left = |now: i64| (expiry - now).div_euclid(86_400);
/// assert_eq!(moment_of(b"20201231T120000Z").map(days_left), Some(10));
/// assert_eq!(moment_of(b"20210110T120001Z").map(days_left), Some(-1));
///
/// assert_eq!(expiry_of(b"KEY.1|0000").unwrap_err().reason, Reason::UnknownKind);
/// # Ok::<(), obscurlane::Refusal>(())
/// ```
///
/// Of the keys in a cabinet [`Cabinet::keys`](crate::Cabinet::keys) has them all.
///
/// # Errors
///
/// The record's own refusal (reasons 1 to 9, and 28), reason 2 for a record of another kind.
#[inline]
pub fn expiry_of(record: &[u8]) -> Result<i64, Refusal> {
    let expiry = sys::expiry_of(record);
    Refusal::check(expiry.no, expiry.field).map(|()| expiry.seconds)
}
