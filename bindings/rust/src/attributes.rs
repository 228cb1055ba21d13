//! The attributes of a wrapped key: single ones by a reading of their own, and all of them cut from an accepted list.

use crate::record::part;
use crate::show::Text;
use crate::{sys, Refusal};
use core::fmt;
use core::iter::FusedIterator;

/// One attribute of a wrapped key, counted from 1, by a reading of its own: its whole card, a name of three characters and
/// then the value, without the `;` behind it. [`WrappedKey::cards`](crate::WrappedKey::cards) has all of them from one reading.
///
/// ```
/// use obscurlane::attribute;
///
/// let key = b"KEY.1|000000000000000000000001|ACT19930101T000000Z;BDT19930101T000000Z;DKG02;KEN255;KRN1;KTC2;\
///     SGC0000123456;|D80D0BA61492E51E2AFE96FC69633DB5BE92932DEAECEA6C|4726";
/// assert_eq!(attribute(key, 1), Ok(&b"ACT19930101T000000Z"[..]));
/// assert_eq!(attribute(key, 7), Ok(&b"SGC0000123456"[..]));
/// assert_eq!(attribute(key, 8).unwrap_err().reason.number(), 12);
/// ```
///
/// # Errors
///
/// The record's own refusal (reasons 1 to 6, and 14), reason 2 for a record of another kind; then reason 12 for an attribute
/// that it has not.
#[inline]
pub fn attribute(record: &[u8], wanted: usize) -> Result<&[u8], Refusal> {
    part(record, &sys::attribute(record, wanted))
}

/// The same for the attribute that has exactly this name; a name that is not of three bytes is no attribute's.
///
/// ```
/// use obscurlane::{attribute_named, Reason};
///
/// let key = b"KEY.1|000000000000000000000001|ACT19930101T000000Z;BDT19930101T000000Z;DKG02;KEN255;KRN1;KTC2;\
///     SGC0000123456;|D80D0BA61492E51E2AFE96FC69633DB5BE92932DEAECEA6C|4726";
/// assert_eq!(attribute_named(key, b"SGC"), Ok(&b"SGC0000123456"[..]));
/// assert_eq!(attribute_named(key, b"SGN").unwrap_err().reason, Reason::MissingItem);
/// assert_eq!(attribute_named(b"PK.ECDH.1|0000", b"SGC").unwrap_err().reason, Reason::UnknownKind);
/// ```
///
/// # Errors
///
/// As [`attribute`].
#[inline]
pub fn attribute_named<'a>(record: &'a [u8], name: &[u8]) -> Result<&'a [u8], Refusal> {
    part(record, &sys::attribute_named(record, name))
}

/// An attribute of a wrapped key, as [`WrappedKey::cards`](crate::WrappedKey::cards) gives it.
#[derive(Clone, Copy, PartialEq, Eq, Hash)]
pub struct Card<'a> {
    /// Its name, three letters or digits.
    pub name: &'a [u8; 3],
    /// Its value.
    pub value: &'a [u8],
}

impl fmt::Debug for Card<'_> {
    fn fmt(&self, f: &mut fmt::Formatter<'_>) -> fmt::Result {
        f.debug_struct("Card")
            .field("name", &Text(self.name))
            .field("value", &Text(self.value))
            .finish()
    }
}

/// An iterator over the attributes of a wrapped key: [`WrappedKey::cards`](crate::WrappedKey::cards). It ends with the list; a
/// list that was never accepted ends it before the first part that is no card.
#[derive(Clone)]
pub struct Cards<'a> {
    rest: &'a [u8],
}

impl<'a> Cards<'a> {
    #[inline]
    pub(crate) fn of(list: &'a [u8]) -> Cards<'a> {
        Cards { rest: list }
    }
}

impl<'a> Iterator for Cards<'a> {
    type Item = Card<'a>;

    #[inline]
    fn next(&mut self) -> Option<Card<'a>> {
        let end = self.rest.iter().position(|&byte| byte == b';')?;
        let (name, value) = self.rest[..end].split_first_chunk()?;
        self.rest = &self.rest[end + 1..];
        Some(Card { name, value })
    }
}

impl FusedIterator for Cards<'_> {}

impl fmt::Debug for Cards<'_> {
    fn fmt(&self, f: &mut fmt::Formatter<'_>) -> fmt::Result {
        f.debug_struct("Cards").field("rest", &Text(self.rest)).finish()
    }
}
