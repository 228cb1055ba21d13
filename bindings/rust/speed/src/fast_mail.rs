//! Records by mail for `fast.rs`: line feeds are looked for eight bytes at a time, and rows are copied whole while the ENDS line is
//! looked for.

use crate::constants::{BEGINS, ENDS, GUARD, ROW};
use crate::fast::{find, ident_length, read, Writer};
use crate::kinds::{Kind, RECORDS};
use crate::side::{Refusal, MISSING_BEGINS, MISSING_ENDS, SHORT_OUTPUT, TOO_LONG};
use obscurlane::LONGEST_READ;

pub fn write_mail(record: &[u8], out: &mut [u8]) -> Result<usize, Refusal> {
    read(record, RECORDS)?;
    let name = &record[..find(b'|', record).unwrap_or_default()];
    let guards = 2 * (GUARD.len() + name.len() + 1) + BEGINS.len() + ENDS.len();
    let total = guards + record.len() + record.len().div_ceil(ROW);
    let mut writer = Writer { out: out.get_mut(..total).ok_or(SHORT_OUTPUT)?, at: 0 };
    [GUARD, name, BEGINS, b"\n"].iter().for_each(|piece| writer.put(piece));
    for row in record.chunks(ROW) {
        writer.put(row);
        writer.put(b"\n");
    }
    [GUARD, name, ENDS, b"\n"].iter().for_each(|piece| writer.put(piece));
    Ok(total)
}

/// The line at the front, and what stands behind its line feed, if it has one.
fn line_of(text: &[u8]) -> (&[u8], Option<&[u8]>) {
    find(b'\n', text).map_or((text, None), |end| (&text[..end], Some(&text[end + 1..])))
}

/// The name in a line, if it is a BEGINS line.
fn begun(line: &[u8]) -> Option<&[u8]> {
    let name = line.strip_prefix(GUARD)?.strip_suffix(BEGINS)?;
    (ident_length(name)? == name.len()).then_some(name)
}

fn is_end(line: &[u8], name: &[u8]) -> bool {
    line.strip_prefix(GUARD).and_then(|rest| rest.strip_suffix(ENDS)) == Some(name)
}

pub fn read_mail(text: &[u8], out: &mut [u8]) -> Result<usize, Refusal> {
    let (mut line, mut rest) = line_of(text);
    let name = loop {
        if let Some(name) = begun(line) {
            break name;
        }
        (line, rest) = line_of(rest.ok_or(MISSING_BEGINS)?);
    };
    let (mut joined, mut length) = ([0; LONGEST_READ], 0);
    loop {
        (line, rest) = line_of(rest.ok_or(MISSING_ENDS)?);
        if is_end(line, name) {
            break;
        }
        let end = length + line.len();
        if let Some(row) = joined.get_mut(length..end) {
            row.copy_from_slice(line);
        }
        length = end;
    }
    let record = joined.get(..length).ok_or(TOO_LONG)?;
    let named = Kind::named(name).filter(|kind| RECORDS.contains(kind));
    read(record, named.as_slice())?;
    out.get_mut(..length).ok_or(SHORT_OUTPUT)?.copy_from_slice(record);
    Ok(length)
}
