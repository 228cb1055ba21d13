//! Manufacturers' record files, whose lines have a trailer.

use crate::building::length;
use crate::show::Text;
use crate::{sys, Line, Refusal, Totals};
use core::fmt;
use core::iter::FusedIterator;

/// All lines of a manufacturer's record file, each once, in order. A line is a record and its trailer, as
/// [`Record::read_trailed`](crate::Record::read_trailed) reads it.
///
/// ```
/// use obscurlane::{trailed_lines, Kind, Record};
///
/// let file = b"KEY.1|000000000000000000000001|ACT19930101T000000Z;BDT19930101T000000Z;DKG02;KEN255;KRN1;KTC2;\
///     SGC0000123456;|D80D0BA61492E51E2AFE96FC69633DB5BE92932DEAECEA6C|4726\
///     #2A9BF21D1CFD6EA0C4B78073DB4CFB6BDD139C64\n\
///     # a comment\n";
/// let mut lines = trailed_lines(file);
/// let line = lines.next().unwrap();
/// assert_eq!(line.answer, Ok(Kind::Key));
/// assert!(Record::read_trailed(line.bytes)?.bytes().ends_with(b"|4726"));
/// assert_eq!(lines.next().unwrap().answer.unwrap_err().reason.number(), 19);
/// assert_eq!(lines.next(), None);
/// # Ok::<(), obscurlane::Refusal>(())
/// ```
#[must_use]
#[inline]
pub fn trailed_lines(file: &[u8]) -> TrailedLines<'_> {
    TrailedLines { file, place: 0 }
}

/// A reader of a manufacturer's record file, which iterates over its lines: [`trailed_lines`].
#[derive(Clone)]
pub struct TrailedLines<'a> {
    file: &'a [u8],
    place: usize,
}

impl TrailedLines<'_> {
    /// Where the next line begins.
    ///
    /// ```
    /// let mut lines = obscurlane::trailed_lines(b"abc\ndef");
    /// lines.next();
    /// assert_eq!(lines.place(), 4);
    /// ```
    #[must_use]
    #[inline]
    pub fn place(&self) -> usize {
        self.place
    }
}

impl<'a> Iterator for TrailedLines<'a> {
    type Item = Line<'a>;

    #[inline]
    fn next(&mut self) -> Option<Line<'a>> {
        let line = trailed_at(self.file, self.place)?;
        self.place = line.next;
        Some(line)
    }
}

impl FusedIterator for TrailedLines<'_> {}

impl fmt::Debug for TrailedLines<'_> {
    fn fmt(&self, f: &mut fmt::Formatter<'_>) -> fmt::Result {
        f.debug_struct("TrailedLines")
            .field("file", &Text(self.file))
            .field("place", &self.place)
            .finish()
    }
}

/// The line that begins at this place of a manufacturer's record file; none where the place is at or past the end. Start and
/// bytes are those of the whole line with its trailer.
///
/// ```
/// use obscurlane::{trailed_at, Reason};
///
/// let line = trailed_at(b"abc\ndef", 0).unwrap();
/// assert_eq!((line.bytes, line.next), (&b"abc"[..], 4));
/// assert_eq!(line.answer.unwrap_err().reason, Reason::MissingTrailer);
/// let last = trailed_at(b"abc\ndef", 4).unwrap();
/// assert_eq!(last.answer.unwrap_err().reason, Reason::Unfinished);
/// assert_eq!(trailed_at(b"abc\ndef", 7), None);
/// ```
#[must_use]
#[inline]
pub fn trailed_at(file: &[u8], place: usize) -> Option<Line<'_>> {
    Line::of(file, &sys::trailed_at(file, place))
}

/// Counts the lines of a manufacturer's record file, and those that are accepted.
///
/// ```
/// use obscurlane::{count_trailed, Totals};
///
/// assert_eq!(count_trailed(b"\nPK.ECDH.2|x\nabc"), Totals { lines: 3, accepted: 0 });
/// ```
#[must_use]
#[inline]
pub fn count_trailed(file: &[u8]) -> Totals {
    Totals::of(&sys::count_trailed(file))
}

/// Writes the line of a record from the front of `out` and gives back its length: the record and its trailer, without a line
/// feed, which whoever writes a file adds. A refusal leaves `out` as it was, every byte.
///
/// ```
/// use obscurlane::{write_trailed, Reason, Record, LONGEST_TRAILED, TRAILER};
///
/// let record = b"KEY.1|000000000000000000000001|ACT19930101T000000Z;BDT19930101T000000Z;DKG02;KEN255;KRN1;KTC2;\
///     SGC0000123456;|D80D0BA61492E51E2AFE96FC69633DB5BE92932DEAECEA6C|4726";
/// let mut out = [0; LONGEST_TRAILED];
/// let len = write_trailed(record, &mut out)?;
/// assert_eq!(len, record.len() + TRAILER);
/// assert_eq!(out[record.len()..len], *b"#2A9BF21D1CFD6EA0C4B78073DB4CFB6BDD139C64");
/// assert_eq!(Record::read_trailed(&out[..len])?.bytes(), record);
///
/// let refusal = write_trailed(record, &mut out[..len - 1]).unwrap_err();
/// assert_eq!(refusal.reason, Reason::ShortOutput);
/// # Ok::<(), obscurlane::Refusal>(())
/// ```
///
/// # Errors
///
/// The refusal of [`Record::read`](crate::Record::read) (reasons 1 to 9, 14, and 28), then reason 10 for an output that is shorter
/// than the record and [`TRAILER`](crate::TRAILER) bytes. [`LONGEST_TRAILED`](crate::LONGEST_TRAILED) bytes are always enough.
#[inline]
pub fn write_trailed(record: &[u8], out: &mut [u8]) -> Result<usize, Refusal> {
    length(&sys::write_trailed(record, out))
}
