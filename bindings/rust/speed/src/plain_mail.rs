//! Records by mail for `plain.rs`, in the library's form: both guards are looked for line by line, then the rows are joined byte by
//! byte in an array, because the record is read before anything of it is written.

use crate::constants::{BEGINS, ENDS, GUARD, ROW};
use crate::kinds::{Kind, RECORDS};
use crate::plain::{is_ident, read, Writer};
use crate::side::{Refusal, MISSING_BEGINS, MISSING_ENDS, SHORT_OUTPUT, TOO_LONG};
use obscurlane::LONGEST_READ;

// ---- writing

fn put_guard(writer: &mut Writer<'_>, name: &[u8], word: &[u8]) {
    [GUARD, name, word, b"\n"].iter().for_each(|piece| writer.put(piece));
}

pub fn write_mail(record: &[u8], out: &mut [u8]) -> Result<usize, Refusal> {
    read(record, RECORDS)?;
    let name = record.split(|&byte| byte == b'|').next().unwrap_or_default();
    let guards = 2 * (GUARD.len() + name.len() + 1) + BEGINS.len() + ENDS.len();
    let total = guards + record.len() + record.len().div_ceil(ROW);
    let out = out.get_mut(..total).ok_or(SHORT_OUTPUT)?;
    let mut writer = Writer { out, at: 0 };
    put_guard(&mut writer, name, BEGINS);
    for row in record.chunks(ROW) {
        writer.put(row);
        writer.put(b"\n");
    }
    put_guard(&mut writer, name, ENDS);
    Ok(total)
}

// ---- reading

/// The first line that is so, and where it starts.
fn find_line(text: &[u8], is_so: impl Fn(&[u8]) -> bool) -> Option<(usize, &[u8])> {
    let mut at = 0;
    while at < text.len() {
        let rest = &text[at..];
        let line = &rest[..rest.iter().position(|&byte| byte == b'\n').unwrap_or(rest.len())];
        if is_so(line) {
            return Some((at, line));
        }
        at += line.len() + 1;
    }
    None
}

/// What stands between both in a guard of this word.
fn name_in<'a>(line: &'a [u8], word: &[u8]) -> Option<&'a [u8]> {
    line.strip_prefix(GUARD)?.strip_suffix(word).filter(|name| is_ident(name))
}

/// Joins the rows, if they have no more bytes than are read.
fn unfold(rows: &[u8], joined: &mut [u8; LONGEST_READ]) -> Option<usize> {
    let mut at = 0;
    for &byte in rows {
        if byte != b'\n' {
            *joined.get_mut(at)? = byte;
            at += 1;
        }
    }
    Some(at)
}

pub fn read_mail(text: &[u8], out: &mut [u8]) -> Result<usize, Refusal> {
    let begins = find_line(text, |line| name_in(line, BEGINS).is_some());
    let (start, line) = begins.ok_or(MISSING_BEGINS)?;
    let name = name_in(line, BEGINS).ok_or(MISSING_BEGINS)?;
    let rest = text.get(start + line.len() + 1..).ok_or(MISSING_ENDS)?;
    let ends = find_line(rest, |line| name_in(line, ENDS) == Some(name));
    let (end, _) = ends.ok_or(MISSING_ENDS)?;
    let mut joined = [0; LONGEST_READ];
    let length = unfold(&rest[..end], &mut joined).ok_or(TOO_LONG)?;
    let record = &joined[..length];
    let named = Kind::named(name).filter(|kind| RECORDS.contains(kind));
    read(record, named.as_slice())?;
    out.get_mut(..length).ok_or(SHORT_OUTPUT)?.copy_from_slice(record);
    Ok(length)
}
