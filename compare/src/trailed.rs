//! Request E6: manufacturers' record files, in which each line is a record and its trailer.
//!
//! A trailer is `#` and the SHA-1 in hexadecimal characters. The hash covers the record and one line
//! feed, as only that gives the one in print in document 003. Each line covers its own record.

use crate::build::put;
use crate::file::{count_by, line_by, lines_by, Line, LineCall, Step};
use crate::record::{read_record, Record};
use crate::refusal::Refusal;
use crate::sha1::{sha1, HASH_LENGTH};
use crate::text::{base16, is_hex};

/// What stands between a record and its hash.
pub const TRAILER_MARK: u8 = b'#';
/// The characters of a trailer: its mark and those of the hash.
pub const TRAILER_LENGTH: usize = 1 + 2 * HASH_LENGTH;

/// The trailer that is right for a record, whatever the record is.
pub fn trailer_of(record: &[u8]) -> Vec<u8> {
    let hash = sha1(&[record, b"\n"].concat());
    [&[TRAILER_MARK], base16(&hash).as_bytes()].concat()
}

/// The line of a record, whatever the record is: itself and the right trailer.
pub fn line_of(record: &[u8]) -> Vec<u8> {
    [record, &trailer_of(record)].concat()
}

/// Reads a line without its line feed. The fields are parts of the line.
pub fn read(line: &[u8]) -> Result<Record<'_>, Refusal> {
    let (record, trailer) = cut(line).ok_or(Refusal::NoTrailer)?;
    let read = read_record(record)?;
    if trailer == trailer_of(record) {
        Ok(read)
    } else {
        Err(Refusal::HashDiffers)
    }
}

/// The record and the trailer of a line, if a trailer stands at its end, right or not.
fn cut(line: &[u8]) -> Option<(&[u8], &[u8])> {
    let (record, trailer) = line.split_last_chunk::<TRAILER_LENGTH>()?;
    let (&mark, hash) = trailer.split_first()?;
    let is_trailer = mark == TRAILER_MARK && is_hex(hash, hash.len() as u64);
    is_trailer.then_some((record, trailer))
}

/// The call for a line of such a file.
const TRAILED: LineCall = |line| read(line).map(|record| record.kind);

/// Reads the line that begins at this place of a file.
pub fn line_at(file: &[u8], place: u64) -> Step {
    line_by(TRAILED, file, place)
}

/// All lines of a file, in order.
pub fn lines(file: &[u8]) -> impl Iterator<Item = Line> + '_ {
    lines_by(TRAILED, file)
}

/// The number of lines, and of accepted lines.
pub fn count(file: &[u8]) -> (usize, usize) {
    count_by(TRAILED, file)
}

/// Writes the line of an accepted record, without a line feed, to the start of `output` and gives back
/// its length. A refusal leaves the whole output as it was.
pub fn write(record: &[u8], output: &mut [u8]) -> Result<usize, Refusal> {
    read_record(record)?;
    put(&line_of(record), output)
}
