//! Request E7: one record by mail, in the form of document 000's Appendix C.
//!
//! A block is a BEGINS line that names the record's kind, the record in rows of 64 characters, and an
//! ENDS line of the same name; a line feed ends every line. It is read from a longer text, in any
//! folding.

use crate::build::put;
use crate::kind::Kind;
use crate::record::{read as read_kinds, read_record};
use crate::refusal::Refusal;
use crate::text::is_ident;

/// The characters of a row; the last has the rest.
pub const ROW: usize = 64;

/// What ends a line.
const LINE_FEED: u8 = b'\n';
/// What stands before the name in both guards.
const GUARD: &[u8] = b"--STS:";
/// What stands behind the name in a BEGINS line.
const BEGINS: &[u8] = b" BEGINS--";
/// What stands behind the name in an ENDS line.
const ENDS: &[u8] = b" ENDS--";

/// The block of a record, whatever the record and the name are.
pub fn block_of(name: &[u8], record: &[u8]) -> Vec<u8> {
    block_in_rows(name, &record.chunks(ROW).collect::<Vec<_>>())
}

/// The block with these rows in it.
pub fn block_in_rows(name: &[u8], rows: &[&[u8]]) -> Vec<u8> {
    let [begins, ends] = [begins_line(name), ends_line(name)];
    let lines = [&[&begins[..]], rows, &[&ends[..]]].concat();
    lines.iter().flat_map(|line| [*line, &[LINE_FEED]].concat()).collect()
}

/// The BEGINS line of a name, without its line feed.
pub fn begins_line(name: &[u8]) -> Vec<u8> {
    [GUARD, name, BEGINS].concat()
}

/// The ENDS line of a name, without its line feed.
pub fn ends_line(name: &[u8]) -> Vec<u8> {
    [GUARD, name, ENDS].concat()
}

/// Writes the block of an accepted record to the start of `output` and gives back its length. A refusal
/// leaves the whole output as it was.
pub fn write(record: &[u8], output: &mut [u8]) -> Result<usize, Refusal> {
    let kind = read_record(record)?.kind;
    put(&block_of(kind.name().as_bytes(), record), output)
}

/// Writes the record of the first block in a text to the start of `output` and gives back its length. A
/// refusal leaves the whole output as it was.
pub fn read(text: &[u8], output: &mut [u8]) -> Result<usize, Refusal> {
    let (name, record) = unfold(text)?;
    // The record is read as if there were no kind but the one that is named.
    let named: Vec<Kind> =
        Kind::from_name(name).filter(|kind| Kind::RECORDS.contains(kind)).into_iter().collect();
    read_kinds(&record, &named)?;
    put(&record, output)
}

/// The name in the first BEGINS line, and the lines from there to the first ENDS line of that name,
/// joined.
fn unfold(text: &[u8]) -> Result<(&[u8], Vec<u8>), Refusal> {
    let mut lines = text.split(|&byte| byte == LINE_FEED);
    let name = lines.find_map(named_in).ok_or(Refusal::NoBegins)?;
    let rest: Vec<&[u8]> = lines.collect();
    let end = rest.iter().position(|line| *line == ends_line(name)).ok_or(Refusal::NoEnds)?;
    Ok((name, rest[..end].concat()))
}

/// The name in a line, if it is a BEGINS line.
fn named_in(line: &[u8]) -> Option<&[u8]> {
    line.strip_prefix(GUARD)?.strip_suffix(BEGINS).filter(|name| is_ident(name))
}

#[cfg(test)]
mod tests {
    use super::*;

    const RECORD: &[u8] = b"KEY.1|as it stands|0000";

    #[test]
    fn guards_are_the_bytes_of_appendix_c() {
        let begins = b"\x2D\x2D\x53\x54\x53\x3AKEY.1\x20\x42\x45\x47\x49\x4E\x53\x2D\x2D";
        let ends = b"\x2D\x2D\x53\x54\x53\x3AKEY.1\x20\x45\x4E\x44\x53\x2D\x2D";
        assert_eq!(begins_line(b"KEY.1"), begins);
        assert_eq!(ends_line(b"KEY.1"), ends);
    }

    #[test]
    fn rows_have_64_characters_and_none_is_empty() {
        for length in [0, 1, 63, 64, 65, 127, 128, 129, 1024] {
            let record = vec![b'0'; length];
            let block = block_of(b"KEY.1", &record);
            assert_eq!(block.len(), 30 + 2 * 5 + length + length.div_ceil(ROW));
            let lines: Vec<&[u8]> = block.split_inclusive(|&byte| byte == b'\n').collect();
            let rows = &lines[1..lines.len() - 1];
            assert_eq!(rows.len(), length.div_ceil(ROW));
            for (index, row) in rows.iter().enumerate() {
                assert_eq!(row.len() - 1, ROW.min(length - index * ROW));
                assert_eq!(row.last(), Some(&b'\n'));
            }
        }
    }

    #[test]
    fn a_block_is_unfolded_after_any_text_without_a_begins_line() {
        let block = block_of(b"KEY.1", RECORD);
        for before in
            ["", "\n", "Dear vendor\n\n", "--STS:KEY.1 ENDS--\n", " --STS:KEY.1 BEGINS--\n"]
        {
            for after in ["", "x", "\n", "--STS:KEY.1 ENDS--"] {
                let text = [before.as_bytes(), &block, after.as_bytes()].concat();
                assert_eq!(unfold(&text), Ok((&b"KEY.1"[..], RECORD.to_vec())));
            }
        }
        let hidden = [b"x", &block[..]].concat();
        assert_eq!(unfold(&hidden), Err(Refusal::NoBegins));
    }

    #[test]
    fn the_first_begins_line_and_the_first_ends_line_of_its_name_decide() {
        let text = b"--STS:KEY.1 BEGINS--\na\n\n--STS:KEY.2 ENDS--\nb\n--STS:KEY.1 ENDS--\nc";
        assert_eq!(unfold(text), Ok((&b"KEY.1"[..], b"a--STS:KEY.2 ENDS--b".to_vec())));
        assert_eq!(unfold(b""), Err(Refusal::NoBegins));
        assert_eq!(unfold(b"--STS:KEY.1 ENDS--\n"), Err(Refusal::NoBegins));
        assert_eq!(unfold(b"--STS:KEY.1 BEGINS--"), Err(Refusal::NoEnds));
        assert_eq!(unfold(b"--STS:KEY.1 BEGINS--\r\n--STS:KEY.1 ENDS--"), Err(Refusal::NoBegins));
        assert_eq!(unfold(b"--STS:KEY.1 BEGINS--\n--STS:KEY.1 ENDS--\r\n"), Err(Refusal::NoEnds));
        let empty = unfold(b"--STS:KEY.1 BEGINS--\n--STS:KEY.1 ENDS--");
        assert_eq!(empty, Ok((&b"KEY.1"[..], Vec::new())));
    }

    #[test]
    fn a_name_is_an_ident() {
        let [most, more] = [32, 33].map(|length| "A".repeat(length));
        for name in ["A", "0", "pk.ecdh.1", "SMID.1", "A-_.,", "A--", &most] {
            assert_eq!(named_in(&begins_line(name.as_bytes())), Some(name.as_bytes()));
        }
        for name in ["", " ", "A B", "-A", ".1", "A:", "A BEGINS--", &more] {
            assert_eq!(named_in(&begins_line(name.as_bytes())), None, "{name}");
        }
        assert_eq!(named_in(b"--STS: BEGINS--"), None);
        assert_eq!(named_in(b"--STS:BEGINS--"), None);
    }
}
