//! Building.

use crate::crc::crc16;
use crate::kind::Kind;
use crate::record::{check_fields, check_signed, LONGEST_READ};
use crate::refusal::Refusal;
use crate::text::check_text;

/// Builds a record or identity at the start of `output` and gives back its length.
///
/// `bytes` are all fields one after another without marks, `lengths` their lengths. A refusal
/// leaves the whole output as it was; bytes past the record stay in any case.
pub fn build(
    kind_name: &[u8],
    bytes: &[u8],
    lengths: &[u64],
    output: &mut [u8],
) -> Result<usize, Refusal> {
    let kind = Kind::from_name(kind_name).ok_or(Refusal::UnknownKind)?;
    let fields = cut(bytes, lengths)
        .filter(|fields| fields.len() == kind.fields().len())
        .ok_or(Refusal::FieldCount)?;
    check_fields(kind, &fields)?;
    check_signed(kind, &fields)?;

    let mut record = Vec::new();
    for part in [kind_name].iter().chain(&fields) {
        record.extend_from_slice(part);
        record.push(kind.mark());
    }
    let check = check_text(crc16(&record));
    record.extend_from_slice(check.as_bytes());

    // What would not be read again is not built, whatever the room.
    if record.len() > LONGEST_READ {
        return Err(Refusal::TooLong);
    }
    put(&record, output)
}

/// Cuts `bytes` into parts of these lengths, if they come out exactly.
fn cut<'a>(mut bytes: &'a [u8], lengths: &[u64]) -> Option<Vec<&'a [u8]>> {
    let mut parts = Vec::new();
    for &length in lengths {
        let (part, rest) = bytes.split_at_checked(usize::try_from(length).ok()?)?;
        parts.push(part);
        bytes = rest;
    }
    bytes.is_empty().then_some(parts)
}

/// Copies what was made to the start of the output, if there is room.
pub fn put(made: &[u8], output: &mut [u8]) -> Result<usize, Refusal> {
    let room = output.get_mut(..made.len()).ok_or(Refusal::ShortOutput)?;
    room.copy_from_slice(made);
    Ok(made.len())
}
