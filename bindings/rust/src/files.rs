//! Files of records.

use crate::show::Text;
use crate::{sys, Kind, Refusal};
use core::fmt;
use core::iter::FusedIterator;

/// A line of a file.
#[derive(Clone, Copy, PartialEq, Eq, Hash)]
pub struct Line<'a> {
    /// Where the line begins.
    pub start: usize,
    /// The line, without its line feed; in a manufacturer's file with its trailer.
    pub bytes: &'a [u8],
    /// Where the next line begins.
    pub next: usize,
    /// The kind of an accepted line, or the refusal of [`Record::read`](crate::Record::read), in a manufacturer's file that of
    /// [`Record::read_trailed`](crate::Record::read_trailed); reason 11 for a last line without line feed.
    pub answer: Result<Kind, Refusal>,
}

impl<'a> Line<'a> {
    /// What was found in the file; none where it is finished.
    #[inline]
    pub(crate) fn of(file: &'a [u8], found: &sys::Line) -> Option<Line<'a>> {
        if !found.line {
            return None;
        }
        let kind = || Kind::from_number(found.kind).expect("an accepted line has a kind");
        let answer = Refusal::check(found.no, found.field).map(|()| kind());
        let bytes = &file[found.start..found.start + found.len];
        Some(Line { start: found.start, bytes, next: found.next, answer })
    }
}

impl fmt::Debug for Line<'_> {
    fn fmt(&self, f: &mut fmt::Formatter<'_>) -> fmt::Result {
        f.debug_struct("Line")
            .field("start", &self.start)
            .field("bytes", &Text(self.bytes))
            .field("next", &self.next)
            .field("answer", &self.answer)
            .finish()
    }
}

/// All lines of a file, each once, in order.
///
/// ```
/// use obscurlane::lines;
///
/// let numbers: Vec<_> = lines(b"\nPK.ECDH.2|x\nabc")
///     .map(|line| (line.start, line.answer.unwrap_err().reason.number()))
///     .collect();
/// assert_eq!(numbers, [(0, 2), (1, 2), (13, 11)]);
/// ```
#[must_use]
#[inline]
pub fn lines(file: &[u8]) -> Lines<'_> {
    Lines { file, place: sys::reader_new(file) }
}

/// A reader of a file, which iterates over its lines: [`lines`].
#[derive(Clone)]
pub struct Lines<'a> {
    file: &'a [u8],
    place: usize,
}

impl Lines<'_> {
    /// Where the next line begins.
    ///
    /// ```
    /// let mut lines = obscurlane::lines(b"abc\ndef");
    /// lines.next();
    /// assert_eq!(lines.place(), 4);
    /// ```
    #[must_use]
    #[inline]
    pub fn place(&self) -> usize {
        self.place
    }
}

impl<'a> Iterator for Lines<'a> {
    type Item = Line<'a>;

    #[inline]
    fn next(&mut self) -> Option<Line<'a>> {
        let found = sys::reader_step(self.file, &mut self.place);
        Line::of(self.file, &found)
    }
}

impl FusedIterator for Lines<'_> {}

impl fmt::Debug for Lines<'_> {
    fn fmt(&self, f: &mut fmt::Formatter<'_>) -> fmt::Result {
        f.debug_struct("Lines").field("file", &Text(self.file)).field("place", &self.place).finish()
    }
}

/// The line that begins at this place of a file; none where the place is at or past the end.
///
/// ```
/// use obscurlane::{line_at, Reason};
///
/// let line = line_at(b"abc\ndef", 4).unwrap();
/// assert_eq!((line.bytes, line.next), (&b"def"[..], 7));
/// assert_eq!(line.answer.unwrap_err().reason, Reason::Unfinished);
/// assert_eq!(line_at(b"abc\ndef", 7), None);
/// ```
#[must_use]
#[inline]
pub fn line_at(file: &[u8], place: usize) -> Option<Line<'_>> {
    Line::of(file, &sys::line_at(file, place))
}

/// How many lines a file has: [`count`], [`count_trailed`](crate::count_trailed).
#[derive(Clone, Copy, Debug, PartialEq, Eq, Hash)]
pub struct Totals {
    /// All lines, an unfinished last one too.
    pub lines: usize,
    /// Those that are accepted.
    pub accepted: usize,
}

impl Totals {
    #[inline]
    pub(crate) fn of(totals: &sys::Totals) -> Totals {
        Totals { lines: totals.lines, accepted: totals.accepted }
    }
}

/// Counts the lines of a file, and those that are accepted.
///
/// ```
/// use obscurlane::{count, Totals};
///
/// assert_eq!(count(b"\nPK.ECDH.2|x\nabc"), Totals { lines: 3, accepted: 0 });
/// ```
#[must_use]
#[inline]
pub fn count(file: &[u8]) -> Totals {
    Totals::of(&sys::count(file))
}
