//! The text types.

use crate::sys;

/// IDENT: 1 to [`LONGEST_IDENT`](crate::LONGEST_IDENT) characters, the first alphanumeric, the others alphanumeric or one of
/// `_ - . ,`.
///
/// ```
/// assert!(obscurlane::is_ident(b"sts-KeyAgreement-1.2"));
/// assert!(!obscurlane::is_ident(b"_A"));
/// ```
#[must_use]
#[inline]
pub fn is_ident(text: &[u8]) -> bool {
    sys::is_ident(text)
}

/// TIMESTAMP: `YYYYMMDDThhmmssZ`, every part in its range, and the day one that exists in its month by the Gregorian calendar.
///
/// ```
/// assert!(obscurlane::is_timestamp(b"20180120T235959Z"));
/// assert!(!obscurlane::is_timestamp(b"20180120T240000Z"));
/// assert!(!obscurlane::is_timestamp(b"20230431T000000Z"));
/// ```
#[must_use]
#[inline]
pub fn is_timestamp(text: &[u8]) -> bool {
    sys::is_timestamp(text)
}

/// POINT: HEX(194) that begins with `04`.
///
/// ```
/// let digits = "0".repeat(192);
/// assert!(obscurlane::is_point(format!("04{digits}").as_bytes()));
/// assert!(!obscurlane::is_point(format!("02{digits}").as_bytes()));
/// ```
#[must_use]
#[inline]
pub fn is_point(text: &[u8]) -> bool {
    sys::is_point(text)
}

/// SIG: HEX(192).
///
/// ```
/// assert!(obscurlane::is_sig(&[b'F'; 192]));
/// assert!(!obscurlane::is_sig(&[b'f'; 192]));
/// ```
#[must_use]
#[inline]
pub fn is_sig(text: &[u8]) -> bool {
    sys::is_sig(text)
}

/// MAC: HEX(48).
///
/// ```
/// assert!(obscurlane::is_mac(&[b'F'; 48]));
/// assert!(!obscurlane::is_mac(&[b'f'; 48]));
/// ```
#[must_use]
#[inline]
pub fn is_mac(text: &[u8]) -> bool {
    sys::is_mac(text)
}

/// PRINT: HEX(16).
///
/// ```
/// assert!(obscurlane::is_print(&[b'F'; 16]));
/// assert!(!obscurlane::is_print(&[b'f'; 16]));
/// ```
#[must_use]
#[inline]
pub fn is_print(text: &[u8]) -> bool {
    sys::is_print(text)
}

/// HEX(n): exactly n characters `0`-`9` and `A`-`F`.
///
/// ```
/// assert!(obscurlane::is_hex(2, b"0A"));
/// assert!(!obscurlane::is_hex(2, b"0a"));
/// ```
#[must_use]
#[inline]
pub fn is_hex(n: usize, text: &[u8]) -> bool {
    sys::is_hex(n, text)
}
