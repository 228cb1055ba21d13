//! The newer of two public keys.

use crate::{sys, Reason, Refusal};
use core::error::Error;
use core::fmt;

/// Why neither of two public keys is chosen.
#[derive(Clone, Copy, Debug, PartialEq, Eq, Hash)]
#[non_exhaustive]
pub enum NewerRefusal {
    /// The first record is refused.
    First(Refusal),
    /// The second record is refused, and the first is a public key.
    Second(Refusal),
    /// Both are public keys, and kind, Manufacturer or MID of their Subjects differ.
    NotAlike,
}

impl NewerRefusal {
    /// The reason; 13 where the Subjects differ.
    #[must_use]
    pub const fn reason(self) -> Reason {
        match self {
            NewerRefusal::First(refusal) | NewerRefusal::Second(refusal) => refusal.reason,
            NewerRefusal::NotAlike => Reason::NotAlike,
        }
    }
}

impl fmt::Display for NewerRefusal {
    fn fmt(&self, f: &mut fmt::Formatter<'_>) -> fmt::Result {
        match self {
            NewerRefusal::First(refusal) => write!(f, "the first record: {refusal}"),
            NewerRefusal::Second(refusal) => write!(f, "the second record: {refusal}"),
            NewerRefusal::NotAlike => Refusal { reason: self.reason(), field: None }.fmt(f),
        }
    }
}

impl Error for NewerRefusal {}

/// Of two public keys the one whose Subject has the later GNT, the first when equal.
///
/// ```
/// use obscurlane::{build, newer, NewerRefusal, LONGEST_IDENTITY, LONGEST_RECORD};
///
/// // a key of the centre whose Subject has this GNT
/// fn key(gnt: &str) -> Vec<u8> {
///     let (mut subject, mut key) = ([0; LONGEST_IDENTITY], [0; LONGEST_RECORD]);
///     let fields = format!("STSTEST1{gnt}4712CFF444570C8A");
///     let len = build(b"KMCID.1", fields.as_bytes(), &[3, 5, 16, 16], &mut subject).unwrap();
///     let fields = [&subject[..len], b"04", &[b'A'; 192], b"20310110T120000Z"].concat();
///     let len = build(b"PK.ECDH.1", &fields, &[len, 194, 16, 0, 0], &mut key).unwrap();
///     key[..len].to_vec()
/// }
///
/// let (old, new) = (key("20180110T120000Z"), key("20190110T120000Z"));
/// assert_eq!(newer(&old, &new), Ok(&new[..]));
///
/// let refusal = newer(&old, b"PK.ECDH.1|0000").unwrap_err();
/// assert!(matches!(refusal, NewerRefusal::Second(_)));
/// assert_eq!(refusal.to_string(), "the second record: 4: the check differs");
/// ```
///
/// # Errors
///
/// The first record's refusal, then the second's (reasons 1 to 9, and 28, of which 2 is for a record that is no public key), then
/// that the Subjects differ.
#[inline]
pub fn newer<'a>(first: &'a [u8], second: &'a [u8]) -> Result<&'a [u8], NewerRefusal> {
    let choice = sys::newer(first, second);
    match (choice.no, choice.which) {
        (0, 1) => Ok(first),
        (0, 2) => Ok(second),
        _ => Err(refusal(&choice)),
    }
}

#[cold]
fn refusal(choice: &sys::Choice) -> NewerRefusal {
    let refusal = Refusal::new(choice.no, choice.field);
    match choice.which {
        0 if refusal.reason == Reason::NotAlike => NewerRefusal::NotAlike,
        1 => NewerRefusal::First(refusal),
        2 => NewerRefusal::Second(refusal),
        which => unreachable!("the library names the first or the second record, not {which}"),
    }
}
