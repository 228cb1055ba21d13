//! The check of a record, whole and byte by byte.

use crate::sys;

/// The CRC16-MODBUS of the bytes. A record has it as four HEX characters, the higher byte first.
///
/// ```
/// assert_eq!(obscurlane::crc_of(b"123456789"), 0x4B37);
/// ```
#[must_use]
#[inline]
pub fn crc_of(bytes: &[u8]) -> u16 {
    sys::crc_of(bytes)
}

/// The same check byte by byte: a small state that is begun, given one byte after another, and ended.
///
/// ```
/// use obscurlane::{crc_of, Crc};
///
/// let crc = b"123456789".iter().fold(Crc::begin(), |crc, &byte| crc.add(byte));
/// assert_eq!(crc.end(), crc_of(b"123456789"));
/// ```
#[derive(Clone, Copy, Debug, PartialEq, Eq, Hash)]
pub struct Crc {
    state: u16,
}

impl Crc {
    /// The state before the first byte.
    ///
    /// ```
    /// assert_eq!(obscurlane::Crc::begin().end(), 0xFFFF);
    /// ```
    #[must_use]
    #[inline]
    pub fn begin() -> Crc {
        Crc { state: sys::crc_begin() }
    }

    /// The state with one byte more.
    ///
    /// ```
    /// assert_eq!(obscurlane::Crc::begin().add(0).end(), 0x40BF);
    /// ```
    #[allow(clippy::should_implement_trait)] // the library's name, and no sum
    #[must_use]
    #[inline]
    pub fn add(self, byte: u8) -> Crc {
        Crc { state: sys::crc_add(self.state, byte) }
    }

    /// The check of all bytes given.
    ///
    /// ```
    /// let crc = obscurlane::Crc::begin().add(b'1');
    /// assert_eq!(crc.end(), obscurlane::crc_of(b"1"));
    /// assert_eq!(crc.add(b'2').end(), obscurlane::crc_of(b"12"));
    /// ```
    #[must_use]
    #[inline]
    pub fn end(self) -> u16 {
        sys::crc_end(self.state)
    }
}

/// The state before the first byte.
impl Default for Crc {
    #[inline]
    fn default() -> Crc {
        Crc::begin()
    }
}
