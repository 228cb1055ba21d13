//! The calls for records by mail held against those of `compare/`.

use super::reading::read_numbers;
use super::{lent, numbers, place, same_output, Numbers};
use compare::mail;
use obscurlane::Record;

/// Both sides write the same into an output of this room. Gives back the answer.
pub fn same_block(record: &[u8], room: usize) -> Result<usize, Numbers> {
    same_output(
        room,
        |out| obscurlane::write_mail(record, out),
        |out| mail::write(record, out),
        &record,
    )
}

/// Both sides find the same record in a text, and write it into an output of this room; there it is read with its fields. Gives
/// back the answer.
pub fn same_mail(text: &[u8], room: usize) -> Result<usize, Numbers> {
    let answer = same_output(
        room,
        |out| obscurlane::read_mail(text, out),
        |out| mail::read(text, out),
        &text,
    );
    let mut out = lent(room);
    let start = out.as_ptr();
    let read = Record::read_mail(text, &mut out).map(|record| {
        read_numbers(&record);
        assert_eq!(Record::read(record.bytes()), Ok(record), "{text:?}");
        place(record.bytes())
    });
    assert_eq!(numbers(read), answer.map(|len| (start, len)), "{text:?}");
    answer
}
