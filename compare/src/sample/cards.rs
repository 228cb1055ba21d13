//! Attribute lists by their cards.

use super::{hex, of_kind, protected, timestamp, LETTERS_AND_DIGITS};
use crate::attributes::{Content, Name, CARD_END, KNOWN, LONGEST_VALUE, NAME_LENGTH};
use crate::kind::Kind;
use crate::random::Random;
use crate::text::{NONCE_DIGITS, SHORTEST_PROTECTED};
use std::collections::BTreeMap;

/// A card without a value, with the byte that ends it.
const SHORTEST_CARD: usize = NAME_LENGTH + 1;
const LONGEST_CARD: usize = SHORTEST_CARD + LONGEST_VALUE;

/// Names that the documents' examples have and Appendix B does not define.
const OF_EXAMPLES: [Name; 6] = [*b"CLM", *b"CLU", *b"EXP", *b"KCV", *b"SBM", *b"ULM"];

/// The cards of a list, in the order of their names: whatever is put in, no name stands twice.
#[derive(Clone)]
pub struct Cards(BTreeMap<Name, Vec<u8>>);

impl Cards {
    /// The required names alone, each with a value that is permitted for it.
    pub fn required(random: &mut Random) -> Cards {
        let required = KNOWN.iter().filter(|known| known.required);
        Cards(required.map(|known| (*known.name, value(random, known.content))).collect())
    }

    /// A permitted list: the required names, and often optional and unknown ones.
    pub fn any(random: &mut Random) -> Cards {
        let mut cards = Cards::required(random);
        for known in KNOWN.iter().filter(|known| !known.required) {
            if random.once_in(3) {
                cards.0.insert(*known.name, value(random, known.content));
            }
        }
        for _ in 0..random.below(3) {
            let name = unknown_name(random);
            cards.0.insert(name, value(random, Content::ANY));
        }
        cards
    }

    /// The same with one card more, or with another value of a name.
    pub fn with(mut self, name: &Name, value: impl Into<Vec<u8>>) -> Cards {
        self.0.insert(*name, value.into());
        self
    }

    /// The same without this name.
    pub fn without(mut self, name: &Name) -> Cards {
        self.0.remove(name);
        self
    }

    /// The same with so many bytes more, none or at least a card's, of unknown names.
    pub fn longer_by(mut self, random: &mut Random, mut missing: usize) -> Cards {
        while missing > 0 {
            let name = unknown_name(random);
            if self.0.contains_key(&name) {
                continue;
            }
            let mut card = missing.min(LONGEST_CARD);
            if (1..SHORTEST_CARD).contains(&(missing - card)) {
                card -= SHORTEST_CARD;
            }
            self.0.insert(name, printable(random, card - SHORTEST_CARD));
            missing -= card;
        }
        self
    }

    /// Each card with the byte that ends it.
    pub fn ended(&self) -> Vec<Vec<u8>> {
        let cards = self.0.iter();
        cards.map(|(name, value)| [name, &value[..], &[CARD_END]].concat()).collect()
    }

    /// The list.
    pub fn list(&self) -> Vec<u8> {
        self.ended().concat()
    }
}

/// A value of this content, at its limits now and then.
fn value(random: &mut Random, content: Content) -> Vec<u8> {
    match content {
        Content::Timestamp => timestamp(random),
        Content::Digits(digits) => decimal(random, digits),
        Content::Number { digits, most } => {
            let most = most as usize;
            let number = match random.below(4) {
                0 => 0,
                1 => most,
                _ => random.between(0, most),
            };
            format!("{number:0digits$}").into()
        }
        Content::Characters { least, most } => {
            let length = match random.below(16) {
                0 => most,
                1 | 2 => least,
                _ => random.between(least, 12.min(most)),
            };
            printable(random, length)
        }
    }
}

/// So many decimal digits.
pub fn decimal(random: &mut Random, digits: usize) -> Vec<u8> {
    random.bytes_of(b"0123456789", digits)
}

/// So many characters of a value.
pub fn printable(random: &mut Random, length: usize) -> Vec<u8> {
    let characters: Vec<u8> = (b' '..=b'~').filter(|byte| !b"|;".contains(byte)).collect();
    random.bytes_of(&characters, length)
}

/// A name that Appendix B does not define; often one that is nearly defined, or an example's.
pub fn unknown_name(random: &mut Random) -> Name {
    loop {
        let mut name = match random.below(4) {
            0 => random.one_of(&OF_EXAMPLES),
            1 => *random.one_of(&KNOWN).name,
            _ => std::array::from_fn(|_| random.one_of(LETTERS_AND_DIGITS)),
        };
        if random.once_in(2) {
            name[random.below(NAME_LENGTH)] = random.one_of(LETTERS_AND_DIGITS);
        }
        if KNOWN.iter().all(|known| *known.name != name) {
            return name;
        }
    }
}

/// A wrapped key with this list, whatever it is, and the shortest key.
pub fn wrapped_key(random: &mut Random, list: &[u8]) -> Vec<u8> {
    let (nonce, key) = (hex(random, NONCE_DIGITS), hex(random, SHORTEST_PROTECTED));
    of_kind(Kind::WrappedKey, &[nonce, list.to_vec(), key])
}

/// Permitted fields of a wrapped key whose record has exactly so many bytes, though more than are
/// read.
pub fn wrapped_key_fields(random: &mut Random, length: usize) -> Vec<Vec<u8>> {
    let (nonce, key) = (hex(random, NONCE_DIGITS), protected(random));
    let cards = Cards::required(random);
    let mut fields = vec![nonce, cards.list(), key];
    let missing = length - of_kind(Kind::WrappedKey, &fields).len();
    fields[1] = cards.longer_by(random, missing).list();
    fields
}

#[cfg(test)]
mod tests {
    use super::*;
    use crate::attributes::is_permitted;

    #[test]
    fn lists_are_permitted() {
        let mut random = Random::with_seed(5);
        for _ in 0..500 {
            let cards = Cards::any(&mut random);
            assert!(is_permitted(&cards.list()), "{:?}", cards.0);
        }
    }

    #[test]
    fn a_wrapped_key_has_the_length_that_is_asked_for() {
        let mut random = Random::with_seed(6);
        for length in [200, 201, 202, 203, 512, 1023, 1024, 1025, 2000] {
            let fields = wrapped_key_fields(&mut random, length);
            assert_eq!(of_kind(Kind::WrappedKey, &fields).len(), length);
            assert!(is_permitted(&fields[1]));
        }
    }
}
