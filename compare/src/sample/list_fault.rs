//! Attribute lists that are not permitted, though every byte in them is.

use super::cards::{decimal, printable, unknown_name, Cards};
use super::missing_day;
use crate::attributes::{Content, CARD_END, KNOWN, LONGEST_VALUE, NAME_LENGTH};
use crate::random::Random;

/// The one rule of clause 7.5.1 or Appendix B that a list breaks.
#[derive(Clone, Copy, Debug, PartialEq, Eq)]
pub enum ListFault {
    /// The last card is not ended.
    NotEnded,
    /// A card of no characters.
    EmptyCard,
    /// A card with too few characters for a name.
    ShortName,
    /// A name with a character that is no letter and no digit.
    NameCharacter,
    /// A name that stands twice.
    Twice,
    /// Two neighbours in the wrong order.
    Exchanged,
    /// A required name that is not there.
    Missing,
    /// A value that its known name does not permit.
    KnownValue,
    /// A value of an unknown name that is too long.
    LongValue,
}

impl ListFault {
    pub const ALL: [ListFault; 9] = [
        ListFault::NotEnded,
        ListFault::EmptyCard,
        ListFault::ShortName,
        ListFault::NameCharacter,
        ListFault::Twice,
        ListFault::Exchanged,
        ListFault::Missing,
        ListFault::KnownValue,
        ListFault::LongValue,
    ];
}

/// A list with this fault and no other.
pub fn faulty_list(random: &mut Random, fault: ListFault) -> Vec<u8> {
    match fault {
        ListFault::NameCharacter | ListFault::Missing => with_other_names(random, fault).list(),
        ListFault::KnownValue | ListFault::LongValue => with_other_values(random, fault).list(),
        _ => with_other_cards(random, fault),
    }
}

fn with_other_names(random: &mut Random, fault: ListFault) -> Cards {
    let cards = Cards::required(random);
    if fault == ListFault::Missing {
        let required: Vec<_> = KNOWN.iter().filter(|known| known.required).collect();
        return cards.without(random.one_of(&required).name);
    }
    let mut name = unknown_name(random);
    name[random.below(NAME_LENGTH)] = random.one_of(b" -_.,/:@[`{~");
    cards.with(&name, printable(random, 4))
}

fn with_other_values(random: &mut Random, fault: ListFault) -> Cards {
    let cards = Cards::required(random);
    if fault == ListFault::KnownValue {
        let known = random.one_of(&KNOWN);
        return cards.with(known.name, wrong_value(random, known.content));
    }
    let length = random.one_of(&[LONGEST_VALUE + 1, LONGEST_VALUE + 4, 300]);
    cards.with(&unknown_name(random), printable(random, length))
}

fn with_other_cards(random: &mut Random, fault: ListFault) -> Vec<u8> {
    let mut cards = Cards::any(random).ended();
    let place = random.below(cards.len());
    match fault {
        ListFault::NotEnded => {
            let last = cards.last_mut().expect("required cards");
            last.pop();
        }
        ListFault::EmptyCard => cards.insert(place, vec![CARD_END]),
        ListFault::ShortName => {
            // It begins as the card behind it does, so that it stands in its order.
            let mut short = cards[place].clone();
            short.truncate(random.between(1, NAME_LENGTH - 1));
            short.push(CARD_END);
            cards.insert(place, short);
        }
        ListFault::Twice => cards.insert(place, cards[place].clone()),
        _ => {
            let place = place.max(1);
            cards.swap(place - 1, place);
        }
    }
    cards.concat()
}

/// A value that is nearly of this content.
fn wrong_value(random: &mut Random, content: Content) -> Vec<u8> {
    match content {
        Content::Timestamp if random.once_in(4) => missing_day(random),
        Content::Timestamp => {
            let nearly = ["", "20180101T240000Z", "20180132T000000Z", "20180101T000000"];
            random.one_of(&nearly).into()
        }
        Content::Number { most, .. } if random.once_in(2) => {
            random.between(most as usize + 1, 999).to_string().into()
        }
        Content::Digits(digits) | Content::Number { digits, .. } => match random.below(3) {
            0 => decimal(random, digits - 1),
            1 => decimal(random, digits + 1),
            _ => {
                let mut value = decimal(random, digits);
                value[random.below(digits)] = random.one_of(b" -.AFa/:");
                value
            }
        },
        Content::Characters { least, most } => {
            let length = random.one_of(&[least - 1, most + 1]);
            printable(random, length)
        }
    }
}

#[cfg(test)]
mod tests {
    use super::*;
    use crate::attributes::is_permitted;
    use crate::text::is_printable;

    #[test]
    fn a_list_with_a_fault_is_printable_and_not_permitted() {
        let mut random = Random::with_seed(7);
        for fault in ListFault::ALL.repeat(50) {
            let list = faulty_list(&mut random, fault);
            assert!(is_printable(&list), "{fault:?}");
            assert!(!is_permitted(&list), "{fault:?}");
        }
    }
}
