//! Records by mail: a record in a block, and the block in a text.

use crate::building::length;
use crate::{sys, Refusal};

/// Writes the block of a record from the front of `out` and gives back its length: a BEGINS line, the record in rows of 64
/// characters, the last of which has the rest, and an ENDS line, each with a line feed behind it. A refusal leaves `out` as it was,
/// every byte.
///
/// ```
/// use obscurlane::{write_mail, Reason, LONGEST_MAIL};
///
/// let record = b"KEY.1|000000000000000000000001|ACT19930101T000000Z;BDT19930101T000000Z;DKG02;KEN255;KRN1;KTC2;\
///     SGC0000123456;|D80D0BA61492E51E2AFE96FC69633DB5BE92932DEAECEA6C|4726";
/// let mut out = [0; LONGEST_MAIL];
/// let len = write_mail(record, &mut out)?;
/// assert_eq!(
///     out[..len],
///     *b"--STS:KEY.1 BEGINS--\n\
///         KEY.1|000000000000000000000001|ACT19930101T000000Z;BDT19930101T0\n\
///         00000Z;DKG02;KEN255;KRN1;KTC2;SGC0000123456;|D80D0BA61492E51E2AF\n\
///         E96FC69633DB5BE92932DEAECEA6C|4726\n\
///         --STS:KEY.1 ENDS--\n"
/// );
/// assert_eq!(write_mail(record, &mut out[..len - 1]).unwrap_err().reason, Reason::ShortOutput);
/// # Ok::<(), obscurlane::Refusal>(())
/// ```
///
/// # Errors
///
/// The refusal of [`Record::read`](crate::Record::read) (reasons 1 to 9, 14, and 28), then reason 10 for an output that is shorter
/// than the block. That of a record of `n` bytes has `30 + 2 * k + n + n.div_ceil(64)` bytes, where `k` is the length of its kind's
/// name; [`LONGEST_MAIL`](crate::LONGEST_MAIL) bytes are always enough.
#[inline]
pub fn write_mail(record: &[u8], out: &mut [u8]) -> Result<usize, Refusal> {
    length(&sys::write_mail(record, out))
}

/// Writes the record that stands in a text from the front of `out`, unfolded, and gives back its length.
/// [`Record::read_mail`](crate::Record::read_mail) gives its fields at once. A refusal leaves `out` as it was, every byte.
///
/// The first BEGINS line of the text decides, whatever it names, and the first ENDS line of the same name after it. Both are whole
/// lines, so that one with a blank or a carriage return in front or behind is neither; the bytes behind the last line feed are a
/// line too. What stands between them, without its line feeds, is the record: rows may have any length. Nothing else is dropped,
/// and what stands before and behind is passed over.
///
/// ```
/// use obscurlane::{read_mail, Reason, LONGEST_RECORD};
///
/// let letter = b"Dear vendor,\n\n--STS:KEY.1 BEGINS--\n\
///     KEY.1|000000000000000000000001|ACT19930101T000000Z;BDT19930101T0\n\
///     00000Z;DKG02;KEN255;KRN1;KTC2;SGC0000123456;|D80D0BA61492E51E2AF\n\
///     E96FC69633DB5BE92932DEAECEA6C|4726\n\
///     --STS:KEY.1 ENDS--\n\nThe centre\n";
/// let mut out = [0; LONGEST_RECORD];
/// let len = read_mail(letter, &mut out)?;
/// assert_eq!(len, 162);
/// assert!(out.starts_with(b"KEY.1|000000000000000000000001|ACT19930101T000000Z;BDT19930101T000000Z;DKG02"));
///
/// // a line is lost
/// let reason = |text| read_mail(text, &mut [0; LONGEST_RECORD]).unwrap_err().reason;
/// assert_eq!(reason(&letter[16..]), Reason::MissingBegins);
/// assert_eq!(reason(&letter[..200]), Reason::MissingEnds);
/// # Ok::<(), obscurlane::Refusal>(())
/// ```
///
/// # Errors
///
/// Reason 21, then reason 22, then what [`Record::read`](crate::Record::read) refuses the record with (reasons 1 to 9, 14, and
/// 28), but reason 2 for a record of another kind than the BEGINS line names; then reason 10 for an output that is shorter than the
/// record. [`LONGEST_RECORD`](crate::LONGEST_RECORD) bytes are always enough. Reason 1 counts the bytes after unfolding: the text
/// may have any length.
#[inline]
pub fn read_mail(text: &[u8], out: &mut [u8]) -> Result<usize, Refusal> {
    length(&sys::read_mail(text, out))
}
