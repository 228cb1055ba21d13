//! Attributes held against those of `compare/`: one by its number, one by its name, and all of a list.

use super::{expected, numbers, place, Numbers};
use compare::attributes;
use obscurlane::{Record, View};

/// The call for one attribute by its number: both sides answer the same. Gives back the answer.
pub fn same_attribute(record: &[u8], wanted: usize) -> Result<&[u8], Numbers> {
    let ours = numbers(obscurlane::attribute(record, wanted));
    let theirs = expected(attributes::attribute(record, wanted as u64));
    assert_eq!(ours.map(place), theirs.map(place), "attribute {wanted} of {record:?}");
    ours
}

/// The same for the call by name.
pub fn same_named<'a>(record: &'a [u8], name: &[u8]) -> Result<&'a [u8], Numbers> {
    let ours = numbers(obscurlane::attribute_named(record, name));
    let theirs = expected(attributes::attribute_named(record, name));
    assert_eq!(ours.map(place), theirs.map(place), "attribute {name:?} of {record:?}");
    ours
}

/// Whatever was read: its attributes by number, from the one before the first to the one behind the last, and by name; and where it
/// is a wrapped key, the same cards from its list, in order. Gives back the answer for the first.
pub fn same_attributes(record: &[u8]) -> Result<&[u8], Numbers> {
    let first = same_attribute(record, 1);
    assert_eq!(same_attribute(record, 0).err(), Some(first.err().unwrap_or((12, 0))));
    let read = Record::read(record).map(|record| record.view());
    let Ok(View::WrappedKey(key)) = read else {
        assert!(first.is_err(), "{record:?}");
        assert_eq!(same_named(record, b"ACT").err(), first.err());
        return first;
    };
    let mut list = Vec::new();
    let mut count = 0;
    for card in key.cards() {
        count += 1;
        let whole = same_attribute(record, count).expect("a card of the list");
        assert_eq!(place(card.name), place(&whole[..3]));
        assert_eq!(place(card.value), place(&whole[3..]));
        assert_eq!(same_named(record, card.name).map(place), Ok(place(whole)));
        list.extend([whole, b";"].concat());
    }
    assert_eq!(list, key.attributes);
    assert_eq!(same_attribute(record, count + 1), Err((12, 0)));
    first
}
