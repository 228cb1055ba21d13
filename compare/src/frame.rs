//! What every record has whatever its kind: its first mark, and the check.

use crate::crc::crc16;
use crate::refusal::Refusal;
use crate::text;

/// The characters of a check.
pub const CHECK_LENGTH: usize = 4;

/// The place of the first mark of either sort.
fn first_mark(bytes: &[u8]) -> Option<usize> {
    bytes.iter().position(|byte| b":|".contains(byte))
}

/// What stands before the first mark; all if there is none.
pub fn title_of(bytes: &[u8]) -> &[u8] {
    &bytes[..first_mark(bytes).unwrap_or(bytes.len())]
}

/// The first mark, 0 if there is none.
pub fn mark_after(bytes: &[u8]) -> u8 {
    first_mark(bytes).map_or(0, |place| bytes[place])
}

/// All but the last four bytes, and nothing if there are fewer.
pub fn body_of(bytes: &[u8]) -> &[u8] {
    bytes.split_last_chunk::<CHECK_LENGTH>().map_or(&[], |(body, _)| body)
}

/// Numbers 3 and 4 of a record with this mark.
pub fn check_no(mark: u8, bytes: &[u8]) -> Result<(), Refusal> {
    let (body, check) = bytes.split_last_chunk::<CHECK_LENGTH>().ok_or(Refusal::NoCheck)?;
    if !text::is_hex(check, CHECK_LENGTH as u64) || body.last() != Some(&mark) {
        return Err(Refusal::NoCheck);
    }
    if check != text::check_text(crc16(body)).as_bytes() {
        return Err(Refusal::CheckDiffers);
    }
    Ok(())
}

#[cfg(test)]
mod tests {
    use super::*;

    #[test]
    fn the_title_stands_before_the_first_mark() {
        assert_eq!((title_of(b"A|b:c"), mark_after(b"A|b:c")), (&b"A"[..], b'|'));
        assert_eq!((title_of(b"Ab"), mark_after(b"Ab")), (&b"Ab"[..], 0));
    }
}
