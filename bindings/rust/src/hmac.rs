//! HMAC-SHA-384-192.

use crate::sys;

/// The tag of a text under a key: the leftmost 24 bytes of HMAC with SHA-384, as FIPS 198-1 defines it. Both may be of any
/// length, and a key longer than 128 bytes is hashed first.
///
/// ```
/// let tag = obscurlane::hmac_of(b"Jefe", b"what do ya want for nothing?");
/// assert_eq!(tag[..8], [0xAF, 0x45, 0xD2, 0xE3, 0x76, 0x48, 0x40, 0x31]);
/// ```
#[must_use]
#[inline]
pub fn hmac_of(key: &[u8], text: &[u8]) -> [u8; 24] {
    sys::hmac_of(key, text).bytes
}
