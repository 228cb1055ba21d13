//! Building records and identities.

use crate::{sys, Refusal};
#[cfg(feature = "alloc")]
use {crate::Kind, alloc::vec::Vec};

/// How many bytes were written from the front of an output.
#[inline]
pub(crate) fn length(written: &sys::Written) -> Result<usize, Refusal> {
    Refusal::check(written.no, written.field)?;
    Ok(written.len)
}

/// Builds a record or identity from the front of `out` and gives back its length.
///
/// `kind` is the kind's name. `bytes` are the bytes of all fields one after another, without marks and with identities as
/// finished text; `lens` are the fields' lengths. A refused build leaves `out` as it was, every byte, and an accepted one
/// leaves what stands past the record.
///
/// ```
/// use obscurlane::{build, LONGEST_IDENTITY};
///
/// let mut out = [0; LONGEST_IDENTITY];
/// let fields = b"Prism0600000120180120T090000Z320C265FDC769D3E";
/// let len = build(b"SMID.1", fields, &[5, 8, 16, 16], &mut out)?;
/// assert_eq!(out[..len], *b"SMID.1:Prism:06000001:20180120T090000Z:320C265FDC769D3E:8EFF");
/// # Ok::<(), obscurlane::Refusal>(())
/// ```
///
/// # Errors
///
/// Reasons 1, 2, 5 to 10, 14, and 28, which comes before 1 and 10. Reason 1 is for a `KEY.1` that would be longer than
/// [`LONGEST_RECORD`](crate::LONGEST_RECORD), just before 10 and whatever the room.
#[inline]
pub fn build(kind: &[u8], bytes: &[u8], lens: &[usize], out: &mut [u8]) -> Result<usize, Refusal> {
    length(&sys::build(kind, bytes, lens, out))
}

/// Builds as [`build`], from the fields one by one. It joins them on the heap: it is there with the feature `alloc`.
///
/// ```
/// use obscurlane::{build_parts, Kind, LONGEST_IDENTITY};
///
/// let mut out = [0; LONGEST_IDENTITY];
/// let len = build_parts(
///     Kind::Smid,
///     &[b"Prism", b"06000001", b"20180120T090000Z", b"320C265FDC769D3E"],
///     &mut out,
/// )?;
/// assert_eq!(out[..len], *b"SMID.1:Prism:06000001:20180120T090000Z:320C265FDC769D3E:8EFF");
/// # Ok::<(), obscurlane::Refusal>(())
/// ```
///
/// A wrapped key, with its attributes as the cipher was given them:
///
/// ```
/// use obscurlane::{build_parts, Kind, Reason, LONGEST_RECORD};
///
/// let mut out = [0; LONGEST_RECORD];
/// let nonce = b"000000000000000000000001";
/// let list = b"ACT19930101T000000Z;BDT19930101T000000Z;DKG02;KEN255;KRN1;KTC2;SGC0000123456;";
/// let protected_key = b"D80D0BA61492E51E2AFE96FC69633DB5BE92932DEAECEA6C";
/// let len = build_parts(Kind::Key, &[nonce, list, protected_key], &mut out)?;
/// assert!(out[..len].ends_with(b"|4726"));
///
/// // the required names begin with ACT
/// let refusal = build_parts(Kind::Key, &[nonce, &list[20..], protected_key], &mut out).unwrap_err();
/// assert_eq!(refusal.reason, Reason::WrongAttributes);
/// # Ok::<(), obscurlane::Refusal>(())
/// ```
///
/// # Errors
///
/// As [`build`], but never reason 2.
#[cfg(feature = "alloc")]
pub fn build_parts(kind: Kind, fields: &[&[u8]], out: &mut [u8]) -> Result<usize, Refusal> {
    let lens: Vec<usize> = fields.iter().map(|field| field.len()).collect();
    build(kind.name().as_bytes(), &fields.concat(), &lens, out)
}
