//! The attributes of a wrapped key: which lists are permitted, and single ones of them.
//!
//! A list is made of cards, each a name and its value, and each ended by `;`.

use crate::kind::Kind;
use crate::record::read;
use crate::refusal::Refusal;
use crate::text;

/// The byte that ends a card.
pub const CARD_END: u8 = b';';
/// The characters of a name.
pub const NAME_LENGTH: usize = 3;
/// The most characters of a value, whatever its name.
pub const LONGEST_VALUE: usize = 252;

/// The name of an attribute.
pub type Name = [u8; NAME_LENGTH];

/// What the value of a known name must be.
#[derive(Clone, Copy, Debug, PartialEq, Eq)]
pub enum Content {
    Timestamp,
    /// So many decimal digits.
    Digits(usize),
    /// So many decimal digits that write a number up to this one.
    Number {
        digits: usize,
        most: u32,
    },
    /// Any characters of a value, at least and at most so many.
    Characters {
        least: usize,
        most: usize,
    },
}

/// A name that Appendix B defines.
#[derive(Clone, Copy, Debug, PartialEq, Eq)]
pub struct Known {
    pub name: &'static Name,
    pub content: Content,
    pub required: bool,
}

const fn required(name: &'static Name, content: Content) -> Known {
    Known { name, content, required: true }
}

const fn optional(name: &'static Name, content: Content) -> Known {
    Known { name, content, required: false }
}

/// Appendix B's table, in its order. Other names may stand in a list too.
pub const KNOWN: [Known; 9] = [
    required(b"ACT", Content::Timestamp),
    required(b"BDT", Content::Timestamp),
    required(b"DKG", Content::Digits(2)),
    optional(b"IUT", Content::Timestamp),
    required(b"KEN", Content::Number { digits: 3, most: 255 }),
    required(b"KRN", Content::Digits(1)),
    required(b"KTC", Content::Digits(1)),
    required(b"SGC", Content::Digits(10)),
    optional(b"SGN", Content::Characters { least: 1, most: 99 }),
];

/// What the value of a name must be.
fn content_of(name: &Name) -> Content {
    let known = KNOWN.iter().find(|known| known.name == name);
    known.map_or(Content::ANY, |known| known.content)
}

impl Content {
    /// What the value of a name must be that Appendix B does not define.
    pub const ANY: Content = Content::Characters { least: 0, most: LONGEST_VALUE };

    /// Whether these characters are such a value. That they are characters of a value at all is said by
    /// the list's own type and by how it is cut.
    pub fn permits(self, value: &[u8]) -> bool {
        match self {
            Content::Timestamp => text::is_timestamp(value),
            Content::Digits(digits) => text::is_decimal(value, digits),
            Content::Number { digits, most } => {
                text::is_decimal(value, digits)
                    && text::decimal(value).is_some_and(|number| number <= most)
            }
            Content::Characters { least, most } => (least..=most).contains(&value.len()),
        }
    }
}

/// The cards of a list, each without the byte that ends it; none where the last one is not ended.
fn cards(list: &[u8]) -> Option<Vec<&[u8]>> {
    let (&end, ended) = list.split_last()?;
    (end == CARD_END).then(|| ended.split(|&byte| byte == CARD_END).collect())
}

/// The name and the value of a card, if it begins with a name.
fn name_and_value(card: &[u8]) -> Option<(&Name, &[u8])> {
    card.split_first_chunk().filter(|(name, _)| name.iter().all(u8::is_ascii_alphanumeric))
}

/// Whether clause 7.5.1 and Appendix B permit this printable text as an attribute list.
pub fn is_permitted(list: &[u8]) -> bool {
    let Some(cards) = cards(list) else {
        return false;
    };
    let Some(attributes) = cards.into_iter().map(name_and_value).collect::<Option<Vec<_>>>() else {
        return false;
    };
    let has = |name| attributes.iter().any(|&(other, _)| other == name);
    attributes.windows(2).all(|pair| pair[0].0 < pair[1].0)
        && KNOWN.iter().all(|known| !known.required || has(known.name))
        && attributes.iter().all(|&(name, value)| content_of(name).permits(value))
}

/// The cards of a wrapped key; all other kinds are unknown here.
fn cards_of(record: &[u8]) -> Result<Vec<&[u8]>, Refusal> {
    let key = read(record, &[Kind::WrappedKey])?;
    let [_nonce, list, _protected_key] = key.fields[..] else {
        unreachable!("an accepted wrapped key has three fields");
    };
    Ok(cards(list).expect("an accepted list has cards"))
}

/// The attribute call: the card with this number, counted from 1.
pub fn attribute(record: &[u8], number: u64) -> Result<&[u8], Refusal> {
    let cards = cards_of(record)?;
    let index = number.checked_sub(1).and_then(|index| usize::try_from(index).ok());
    index.and_then(|index| cards.get(index).copied()).ok_or(Refusal::NoPart)
}

/// The attribute call by name: the card of exactly this name.
pub fn attribute_named<'a>(record: &'a [u8], name: &[u8]) -> Result<&'a [u8], Refusal> {
    let mut cards = cards_of(record)?.into_iter();
    cards.find(|card| card[..NAME_LENGTH] == *name).ok_or(Refusal::NoPart)
}
