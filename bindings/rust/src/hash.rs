//! SHA-384 and SHA-1, whole and piece by piece.

use crate::sys;
use core::fmt;

/// The SHA-384 of the bytes, as FIPS 180-4 defines it.
///
/// ```
/// let hash = obscurlane::sha384_of(b"abc");
/// assert_eq!(hash[..8], [0xCB, 0x00, 0x75, 0x3F, 0x45, 0xA3, 0x5E, 0x8B]);
/// ```
#[must_use]
#[inline]
pub fn sha384_of(bytes: &[u8]) -> [u8; 48] {
    sys::sha384_of(bytes).bytes
}

/// The same hash piece by piece: a state that is begun, given one slice after another, and ended. It is a plain value of 208
/// bytes, and a copy of it goes on by itself.
///
/// ```
/// use obscurlane::{sha384_of, Sha384};
///
/// let begun = Sha384::begin().add(b"SMID.1").add(b":");
/// assert_eq!(begun.add(b"Prism").end(), sha384_of(b"SMID.1:Prism"));
/// assert_eq!(begun.add(b"STS").end(), sha384_of(b"SMID.1:STS"));
/// ```
#[derive(Clone, Copy, PartialEq, Eq, Hash)]
pub struct Sha384 {
    state: sys::Sha384State,
}

impl Sha384 {
    /// The state before the first byte.
    ///
    /// ```
    /// assert_eq!(obscurlane::Sha384::begin().end()[..2], [0x38, 0xB0]);
    /// ```
    #[must_use]
    #[inline]
    pub fn begin() -> Sha384 {
        Sha384 { state: sys::sha384_begin() }
    }

    /// The state with these bytes too.
    ///
    /// ```
    /// use obscurlane::Sha384;
    ///
    /// assert_eq!(Sha384::begin().add(b"a").add(b"").add(b"bc"), Sha384::begin().add(b"abc"));
    /// ```
    #[allow(clippy::should_implement_trait)] // the library's name, and no sum
    #[must_use]
    #[inline]
    pub fn add(self, bytes: &[u8]) -> Sha384 {
        Sha384 { state: sys::sha384_add(self.state, bytes) }
    }

    /// The hash of all bytes given.
    ///
    /// ```
    /// let sha384 = obscurlane::Sha384::begin().add(b"1");
    /// assert_eq!(sha384.end(), obscurlane::sha384_of(b"1"));
    /// assert_eq!(sha384.add(b"2").end(), obscurlane::sha384_of(b"12"));
    /// ```
    #[must_use]
    #[inline]
    pub fn end(self) -> [u8; 48] {
        sys::sha384_end(self.state).bytes
    }
}

/// The state before the first byte.
impl Default for Sha384 {
    #[inline]
    fn default() -> Sha384 {
        Sha384::begin()
    }
}

/// What is hashed may be secret, and a state has some of it: it is not shown.
impl fmt::Debug for Sha384 {
    fn fmt(&self, f: &mut fmt::Formatter<'_>) -> fmt::Result {
        f.debug_struct("Sha384").finish_non_exhaustive()
    }
}

/// The SHA-1 of the bytes, as FIPS 180-4 defines it: what a manufacturer's line has of its record
/// ([`Record::read_trailed`](crate::Record::read_trailed)).
///
/// ```
/// let hash = obscurlane::sha1_of(b"abc");
/// assert_eq!(hash[..8], [0xA9, 0x99, 0x3E, 0x36, 0x47, 0x06, 0x81, 0x6A]);
/// ```
#[must_use]
#[inline]
pub fn sha1_of(bytes: &[u8]) -> [u8; 20] {
    sys::sha1_of(bytes).bytes
}

/// The same hash piece by piece: a state that is begun, given one slice after another, and ended. It is a plain value of 96
/// bytes, and a copy of it goes on by itself.
///
/// ```
/// use obscurlane::{sha1_of, Sha1};
///
/// let begun = Sha1::begin().add(b"KEY.1").add(b"|");
/// assert_eq!(begun.add(b"4726").add(b"\n").end(), sha1_of(b"KEY.1|4726\n"));
/// assert_eq!(begun.add(b"5AF9").end(), sha1_of(b"KEY.1|5AF9"));
/// ```
#[derive(Clone, Copy, PartialEq, Eq, Hash)]
pub struct Sha1 {
    state: sys::Sha1State,
}

impl Sha1 {
    /// The state before the first byte.
    ///
    /// ```
    /// assert_eq!(obscurlane::Sha1::begin().end()[..2], [0xDA, 0x39]);
    /// ```
    #[must_use]
    #[inline]
    pub fn begin() -> Sha1 {
        Sha1 { state: sys::sha1_begin() }
    }

    /// The state with these bytes too.
    ///
    /// ```
    /// use obscurlane::Sha1;
    ///
    /// assert_eq!(Sha1::begin().add(b"a").add(b"").add(b"bc"), Sha1::begin().add(b"abc"));
    /// ```
    #[allow(clippy::should_implement_trait)] // the library's name, and no sum
    #[must_use]
    #[inline]
    pub fn add(self, bytes: &[u8]) -> Sha1 {
        Sha1 { state: sys::sha1_add(self.state, bytes) }
    }

    /// The hash of all bytes given.
    ///
    /// ```
    /// let sha1 = obscurlane::Sha1::begin().add(b"1");
    /// assert_eq!(sha1.end(), obscurlane::sha1_of(b"1"));
    /// assert_eq!(sha1.add(b"2").end(), obscurlane::sha1_of(b"12"));
    /// ```
    #[must_use]
    #[inline]
    pub fn end(self) -> [u8; 20] {
        sys::sha1_end(self.state).bytes
    }
}

/// The state before the first byte.
impl Default for Sha1 {
    #[inline]
    fn default() -> Sha1 {
        Sha1::begin()
    }
}

/// As with [`Sha384`], what is hashed is not shown.
impl fmt::Debug for Sha1 {
    fn fmt(&self, f: &mut fmt::Formatter<'_>) -> fmt::Result {
        f.debug_struct("Sha1").finish_non_exhaustive()
    }
}
