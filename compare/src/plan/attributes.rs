//! The attribute calls, by number and by name.

use super::Plan;
use crate::calls::Op;
use compare::attributes::{attribute, LONGEST_VALUE, NAME_LENGTH};
use compare::kind::Kind;
use compare::record::LONGEST_READ;
use compare::sample::{self, Cards, Fault, ListFault, Place};
use compare::text::{LONGEST_PROTECTED, NONCE_DIGITS, SHORTEST_PROTECTED};
use compare::worked::{worked, IDENTITIES, RECORDS, WRAPPED_KEYS};

pub fn add(plan: &mut Plan) {
    worked_keys(plan);
    numbers_beyond(plan);
    names_that_are_not_there(plan);
    drawn_keys(plan);
    many_cards(plan);
    longest_values(plan);
    other_kinds(plan);
    few_bytes(plan);
    refused_keys(plan);
}

impl Plan {
    /// The two calls that take a number.
    fn attribute(&mut self, number: u64, record: &[u8]) {
        self.numbered(Op::Attribute, number, record);
        self.numbered(Op::AttributePlace, number, record);
    }

    /// The two calls that take a name.
    fn attribute_named(&mut self, name: &[u8], record: &[u8]) {
        self.pair(Op::AttributeNamed, record, name);
        self.pair(Op::AttributeNamedPlace, record, name);
    }

    /// All four, with a number and a name that are there or not.
    fn attributes(&mut self, number: u64, name: &[u8], record: &[u8]) {
        self.attribute(number, record);
        self.attribute_named(name, record);
    }
}

/// The cards of an accepted key.
fn cards_of(key: &[u8]) -> Vec<&[u8]> {
    (1..).map_while(|number| attribute(key, number).ok()).collect()
}

/// Every attribute of the worked keys, and the numbers around them; of three as places too.
fn worked_keys(plan: &mut Plan) {
    for name in WRAPPED_KEYS {
        let key = worked(name);
        let cards = cards_of(&key);
        let with_places = ["KEY1_1", "KEY1_2", "APPA_KEY1_4"].contains(&name);
        for number in 0..=cards.len() as u64 + 1 {
            plan.numbered(Op::Attribute, number, &key[..]);
            if with_places {
                plan.numbered(Op::AttributePlace, number, &key[..]);
            }
        }
        for card in cards {
            plan.pair(Op::AttributeNamed, &key[..], &card[..NAME_LENGTH]);
            if with_places {
                plan.pair(Op::AttributeNamedPlace, &key[..], &card[..NAME_LENGTH]);
            }
        }
    }
    plan.attributes(1, b"ACT", &worked("APPA_KEY1_4_AS_PRINTED"));
}

fn numbers_beyond(plan: &mut Plan) {
    let key = worked("KEY1_1");
    for number in [255, 256, 257, 263, (1 << 32) + 1, (1 << 32) + 7, 1 << 63, u64::MAX] {
        plan.attribute(number, &key);
    }
}

/// Shorter and longer names, pieces of cards, other cases, neighbours, and bytes that no list has.
fn names_that_are_not_there(plan: &mut Plan) {
    let key = worked("KEY1_2");
    let pieces = [
        "",
        "A",
        "AC",
        "ACT2",
        "ACT;",
        ";BD",
        "Z;B",
        "CT2",
        "T20",
        "M53",
        "ULM1",
        "ULM1000000",
        "ULM1000000;",
        "IU",
        "000",
        ";",
        ";;;",
    ];
    let others = ["act", "Act", "ACS", "ACU", "BCT", "KCV", "SGM", "SGO", "ZZZ", "KEY", "5AF"];
    let strange = ["|AC", "ACT\0", "\0\0\0", "\nAC", " AC", "AC\u{d4}", "\u{c1}C"];
    for name in pieces.iter().chain(&others).chain(&strange) {
        plan.attribute_named(name.as_bytes(), &key);
    }
    plan.attribute_named(b"\xC1CT", &key);
    let list = compare::record::record_field(&key, 2).expect("an accepted key");
    plan.attribute_named(list, &key);
    plan.attribute_named(&key, &key);
}

/// Permitted keys, one of their attributes, and one of another key.
fn drawn_keys(plan: &mut Plan) {
    for _ in 0..12 {
        let key = sample::record(&mut plan.random, Kind::WrappedKey);
        let cards = cards_of(&key);
        let index = plan.random.below(cards.len());
        plan.attributes(index as u64 + 1, &cards[index][..NAME_LENGTH], &key);
        let number = plan.random.between(0, 2 * cards.len()) as u64;
        let other = Cards::any(&mut plan.random).list();
        plan.attributes(number, &other[..NAME_LENGTH], &key);
    }
}

/// As many cards as there can be in a key: most of them have no value.
fn many_cards(plan: &mut Plan) {
    let mut cards = Cards::required(&mut plan.random);
    let room = LONGEST_READ - sample::wrapped_key(&mut plan.random, &cards.list()).len();
    let names = (b'0'..=b'9').flat_map(|second| (b'a'..=b'z').map(move |third| [second, third]));
    for [second, third] in names.take(room / (NAME_LENGTH + 1)) {
        cards = cards.with(&[b'K', second, third], "");
    }
    let key = sample::wrapped_key(&mut plan.random, &cards.list());
    let all = cards_of(&key);
    let count = all.len() as u64;
    for number in [1, 3, 4, 99, 100, 127, 128, 200, count - 1, count, count + 1, count + 256] {
        plan.attribute(number, &key);
    }
    for index in [0, 3, 100, all.len() - 1] {
        plan.attribute_named(&all[index][..NAME_LENGTH], &key);
    }
    plan.attribute_named(b"K9z", &key);
}

/// Cards of the longest value, first, between others and last, and around them; and protected keys at
/// their limits.
fn longest_values(plan: &mut Plan) {
    let longest = sample::printable(&mut plan.random, LONGEST_VALUE);
    let required = Cards::required(&mut plan.random);
    for name in [b"0Aa", b"EXP", b"zZ9"] {
        let list = required.clone().with(name, &longest[..]).list();
        let key = sample::wrapped_key(&mut plan.random, &list);
        for number in [1, 2, 4, 7, 8] {
            plan.numbered(Op::AttributePlace, number, &key[..]);
        }
        plan.attribute_named(name, &key);
        plan.attribute_named(b"SGC", &key);
    }
    for digits in [SHORTEST_PROTECTED - 2, LONGEST_PROTECTED, LONGEST_PROTECTED + 1] {
        let nonce = sample::hex(&mut plan.random, NONCE_DIGITS);
        let protected_key = sample::hex(&mut plan.random, digits);
        let fields = [nonce, required.list(), protected_key];
        plan.attributes(7, b"SGC", &sample::of_kind(Kind::WrappedKey, &fields));
    }
}

/// No other kind has attributes, and its check does not count.
fn other_kinds(plan: &mut Plan) {
    let others = RECORDS.iter().filter(|name| !WRAPPED_KEYS.contains(name));
    for (number, name) in (0..).zip(IDENTITIES.iter().chain(others)) {
        let record = worked(name);
        plan.attribute(number % 3, &record);
        plan.attribute_named(b"ACT", &record[..record.len() - 1]);
    }
}

fn few_bytes(plan: &mut Plan) {
    for bytes in [
        "",
        "K",
        "KEY.1",
        "KEY.1|",
        "KEY.1:",
        "KEY.1|x",
        "KEY.1|0000",
        "KEY.1|abcd",
        "KEY.1:x|",
        "KEY.2|x",
        "key.1|x",
        "|0000",
        ":",
    ] {
        plan.attributes(1, b"ACT", bytes.as_bytes());
    }
    for body in ["KEY.1|", "KEY.1||", "KEY.1||||", "KEY.1|||||", "KEY.1|;|;|;|"] {
        plan.attributes(1, b"", &sample::sealed(body.as_bytes()));
    }
}

/// Refused keys, whatever is wanted: each fault, each rule of the list, and damage.
fn refused_keys(plan: &mut Plan) {
    let wanted: [(u64, &[u8]); 3] = [(1, b"ACT"), (0, b""), (99, b"ACU")];
    let mut keys = Vec::new();
    for &fault in Fault::of(Kind::WrappedKey) {
        keys.push(sample::faulty(&mut plan.random, Kind::WrappedKey, &[fault]));
    }
    for fault in ListFault::ALL {
        let list = sample::faulty_list(&mut plan.random, fault);
        keys.push(sample::wrapped_key(&mut plan.random, &list));
    }
    for place in Place::ALL {
        let key = worked("KEY1_1");
        let damaged = sample::damaged(&mut plan.random, Kind::WrappedKey, &key, place, 1);
        keys.push(sample::resealed(&damaged));
    }
    for (key, (number, name)) in keys.iter().zip(wanted.into_iter().cycle()) {
        plan.attributes(number, name, key);
    }
}
