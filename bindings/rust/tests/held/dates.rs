//! Dates as numbers, held against those of `compare/`.

use super::{expected, numbers, Numbers};
use compare::moment;
use obscurlane::field::public_key::EXPIRY;

/// Both sides have the same seconds of a text, and some where it is a TIMESTAMP. Gives them back.
pub fn same_moment(text: &[u8]) -> Option<i64> {
    let seconds = obscurlane::moment_of(text);
    assert_eq!(seconds, moment::moment_of(text), "{text:?}");
    assert_eq!(seconds.is_some(), obscurlane::is_timestamp(text), "{text:?}");
    seconds
}

/// Both sides have the same seconds of a record's Expiry, which are those of its field, or the same refusal. Gives back the answer.
pub fn same_expiry(record: &[u8]) -> Result<i64, Numbers> {
    let seconds = numbers(obscurlane::expiry_of(record));
    assert_eq!(seconds, expected(moment::expiry_of(record)), "{record:?}");
    if let Ok(seconds) = seconds {
        let field = obscurlane::record_field(record, EXPIRY).expect("accepted");
        assert_eq!(obscurlane::moment_of(field), Some(seconds), "{record:?}");
    }
    seconds
}
