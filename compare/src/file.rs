//! Files of records.
//!
//! A file is walked over by a call for one line, so that files whose lines are of another form are
//! walked over in the same way.

use crate::kind::Kind;
use crate::record::read_record;
use crate::refusal::Refusal;

/// What the file call answers.
#[derive(Clone, Copy, Debug, PartialEq, Eq)]
pub enum Step {
    /// There is no line at this place: it is the end, or past it.
    Finished { place: u64 },
    /// The line that begins at the place.
    Read(Line),
}

/// A line of a file.
#[derive(Clone, Copy, Debug, PartialEq, Eq)]
pub struct Line {
    pub answer: Result<Kind, Refusal>,
    pub start: u64,
    /// Without the line feed.
    pub length: u64,
    /// The place after the line feed.
    pub next: u64,
}

/// A call for a line without its line feed: the kind of the record in it.
pub(crate) type LineCall = fn(&[u8]) -> Result<Kind, Refusal>;

/// The call for a line of a plain file.
const PLAIN: LineCall = |line| read_record(line).map(|record| record.kind);

/// The file call: reads the line that begins at this place.
pub fn line_at(file: &[u8], place: u64) -> Step {
    line_by(PLAIN, file, place)
}

/// All lines of a file, in order.
pub fn lines(file: &[u8]) -> impl Iterator<Item = Line> + '_ {
    lines_by(PLAIN, file)
}

/// The number of lines, and of accepted lines.
pub fn count(file: &[u8]) -> (usize, usize) {
    count_by(PLAIN, file)
}

/// The line that begins at this place, read by this call.
pub(crate) fn line_by(read: LineCall, file: &[u8], place: u64) -> Step {
    let rest = usize::try_from(place).ok().and_then(|place| file.get(place..)).unwrap_or_default();
    if rest.is_empty() {
        return Step::Finished { place };
    }
    let (answer, length, taken) = match rest.iter().position(|&byte| byte == b'\n') {
        Some(end) => (read(&rest[..end]), end, end + 1),
        None => (Err(Refusal::Unfinished), rest.len(), rest.len()),
    };
    let (length, taken) = (length as u64, taken as u64);
    Step::Read(Line { answer, start: place, length, next: place + taken })
}

/// All lines of a file, in order, read by this call.
pub(crate) fn lines_by(read: LineCall, file: &[u8]) -> impl Iterator<Item = Line> + '_ {
    let mut place = 0;
    std::iter::from_fn(move || match line_by(read, file, place) {
        Step::Finished { .. } => None,
        Step::Read(line) => {
            place = line.next;
            Some(line)
        }
    })
}

/// The number of lines, and of those that this call accepts.
pub(crate) fn count_by(read: LineCall, file: &[u8]) -> (usize, usize) {
    let accepted = lines_by(read, file).filter(|line| line.answer.is_ok()).count();
    (lines_by(read, file).count(), accepted)
}
