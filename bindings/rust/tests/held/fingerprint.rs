//! The calls for the Fingerprint of a public key held against those of `compare/`.

use super::{expected, numbers, same_output, Numbers};
use compare::fingerprint;
use compare::text::PRINT_DIGITS;

/// Both sides check the same, and write the same into an output of this room, where only 15 is no refusal and only the room can be
/// one more. Gives back what the check answers.
pub fn same_fingerprint(record: &[u8], room: usize) -> Result<(), Numbers> {
    let checked = numbers(obscurlane::check_fingerprint(record));
    assert_eq!(checked, expected(fingerprint::check(record)), "{record:?}");
    let written = same_output(
        room,
        |out| obscurlane::write_fingerprint(record, out),
        |out| fingerprint::write(record, out),
        &record,
    );
    let fits = if room < PRINT_DIGITS { Err((10, 0)) } else { Ok(PRINT_DIGITS) };
    match checked {
        Ok(()) | Err((15, 0)) => assert_eq!(written, fits, "{record:?}"),
        Err(refusal) => assert_eq!(written, Err(refusal), "{record:?}"),
    }
    checked
}
