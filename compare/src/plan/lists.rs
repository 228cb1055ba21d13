//! Attribute lists on both sides of each rule of clause 7.5.1 and Appendix B, in a key that is right
//! otherwise.

use super::Plan;
use crate::calls::Op;
use compare::attributes::LONGEST_VALUE;
use compare::kind::Kind;
use compare::record::LONGEST_READ;
use compare::sample::{self, Cards, ListFault, Signed};

/// The list that is changed: document 003's first, which has the required names alone.
const CARDS: [&str; 7] = [
    "ACT19930101T000000Z",
    "BDT19930101T000000Z",
    "DKG02",
    "KEN255",
    "KRN1",
    "KTC2",
    "SGC0000123456",
];

pub fn add(plan: &mut Plan) {
    ends(plan);
    names(plan);
    orders(plan);
    required_names(plan);
    times(plan);
    digits(plan);
    lengths(plan);
    drawn(plan);
}

impl Plan {
    /// The record call with a key that has this list.
    fn list(&mut self, list: impl AsRef<[u8]>) {
        let key = sample::wrapped_key(&mut self.random, list.as_ref());
        self.call(Op::Record, key);
    }

    /// The same with these cards, each ended.
    fn cards(&mut self, cards: &[&str]) {
        self.list(ended(cards));
    }

    /// The same with one card more, in its place.
    fn with_card(&mut self, card: &str) {
        let mut cards: Vec<&str> = CARDS.into_iter().chain([card]).collect();
        cards.sort();
        self.cards(&cards);
    }

    /// The same with another value of a required name.
    fn with_value(&mut self, name: &str, value: &str) {
        let card = [name, value].concat();
        let cards = CARDS.map(|other| if other.starts_with(name) { &card } else { other });
        self.cards(&cards);
    }
}

fn ended(cards: &[&str]) -> String {
    cards.iter().map(|card| format!("{card};")).collect()
}

/// The byte that ends a card: missing, twice, alone.
fn ends(plan: &mut Plan) {
    let list = ended(&CARDS);
    plan.list(&list);
    plan.list(list.trim_end_matches(';'));
    for (start, end) in
        [("", ";"), (";", ""), ("", ";;"), ("", " "), (" ", ""), ("", "; "), ("", "~")]
    {
        plan.list([start, &list, end].concat());
    }
    for index in 1..CARDS.len() {
        let (before, after) = CARDS.split_at(index);
        plan.list([ended(before), ended(after)].join(";"));
        plan.list([ended(before).trim_end_matches(';'), &ended(after)].concat());
    }
    for list in [";", ";;", "A", "ACT", "ACT;", "AAA;", " ", "~~~", "AC;", "SGC0000123456;"] {
        plan.list(list);
    }
}

/// Cards that are too short for a name, and what is no letter and no digit in it.
fn names(plan: &mut Plan) {
    for card in ["Z", "ZZ", "ZZZ", "ZZZZ", "000", "999", "AAA", "aaa", "zzz", "z0Z", "ACT"] {
        plan.with_card(card);
    }
    for place in 0..3 {
        for character in [' ', '-', '@', '_'] {
            let mut name = ['Y'; 3];
            name[place] = character;
            let name: String = name.iter().collect();
            plan.with_card(&format!("{name}1"));
        }
    }
}

/// Unknown names in their order and out of it, by each character of theirs; names that stand twice;
/// and every two neighbours exchanged.
fn orders(plan: &mut Plan) {
    for index in 1..CARDS.len() {
        let mut cards = CARDS;
        cards.swap(index - 1, index);
        plan.cards(&cards);
    }
    for pair in [["TAA", "UAA"], ["TAA", "TBA"], ["TAA", "TAB"], ["TAZ", "TBA"], ["T9Z", "TAA"]] {
        for last in [pair, [pair[1], pair[0]], [pair[0], pair[0]]] {
            plan.cards(&[&CARDS[..], &last].concat());
        }
    }
    for pair in [["TZZ", "Taa"], ["Tzz", "aAA"], ["TAA1", "TAA2"], ["TAA2", "TAA1"], ["TA", "TAA"]]
    {
        plan.cards(&[&CARDS[..], &pair].concat());
    }
    for first in ["000", "ACS", "ACTx", "ACU", "AcT", "act", "~~~"] {
        plan.cards(&[&[first], &CARDS[..]].concat());
    }
    for card in CARDS {
        let mut twice = [&CARDS[..], &[card]].concat();
        twice.sort();
        plan.cards(&twice);
    }
    let mut backwards = CARDS;
    backwards.reverse();
    plan.cards(&backwards);
}

/// Each required name left out, alone and with a name of its own in its stead.
fn required_names(plan: &mut Plan) {
    for index in 0..CARDS.len() {
        let mut cards = CARDS.to_vec();
        let card = cards.remove(index);
        plan.cards(&cards);
        let small = card.to_lowercase();
        cards.push(&small);
        plan.cards(&cards);
    }
    plan.cards(&CARDS[..1]);
    plan.cards(&["EXP20170506T215959Z", "KCV17D819", "ULM1000"]);
}

fn times(plan: &mut Plan) {
    let values = [
        ("00010101T000000Z", "00000101T000000Z"),
        ("99991231T235959Z", "99991231T240000Z"),
        ("20180430T005900Z", "20180432T005900Z"),
        ("20181201T000059Z", "20181301T000059Z"),
        ("20180101T100000Z", "20180101T1000000Z"),
        ("20180101T090000Z", "20180101T090000"),
        ("20000229T005900Z", "20180431T005900Z"),
    ];
    for (index, (good, bad)) in values.into_iter().enumerate() {
        let name = ["ACT", "BDT"][index % 2];
        plan.with_value(name, good);
        plan.with_value(name, bad);
        plan.with_card(&["IUT", good].concat());
        plan.with_card(&["IUT", bad].concat());
    }
    for name in ["ACT", "BDT"] {
        plan.with_value(name, "");
    }
    for card in ["IUT", "IUTnever", "EXP", "EXPnever", "EXP20189999T999999Z"] {
        plan.with_card(card);
    }
}

/// Values that are digits: so many, no fewer and no more, and nothing else among them.
fn digits(plan: &mut Plan) {
    for (name, values) in [
        ("DKG", &["00", "99", "", "0", "000", "0A", " 2", "-1"][..]),
        ("KRN", &["0", "9", "", "00", "A"]),
        ("KTC", &["0", "9", "", "10", "a"]),
        ("SGC", &["0000000000", "9999999999", "4294967296", "", "123456789", "12345678901"]),
        ("SGC", &["000012345A", "-000123456"]),
        ("KEN", &["000", "099", "100", "199", "200", "249", "250", "254", "255"]),
        ("KEN", &["256", "260", "299", "300", "511", "999", "", "25", "0255", "2A5", " 55"]),
    ] {
        for value in values {
            plan.with_value(name, value);
        }
    }
}

/// How long a value may be: of an unknown name, of SGN, and of the other known names.
fn lengths(plan: &mut Plan) {
    let mut value = |length: usize| {
        let value = sample::printable(&mut plan.random, length);
        String::from_utf8(value).expect("printable characters")
    };
    let mut cards = Vec::new();
    for length in [1, 2, 98, 99, 100, 101, LONGEST_VALUE, LONGEST_VALUE + 1] {
        cards.push(["SGN", &value(length)].concat());
    }
    for (name, lengths) in [
        ("XYZ", &[0, 1, 100, 252, 253, 255, 256, 300][..]),
        ("000", &[252, 253]),
        ("EXP", &[252, 253]),
    ] {
        for &length in lengths {
            cards.push([name, &value(length)].concat());
        }
    }
    cards.push("SGN".into());
    for card in cards {
        plan.with_card(&card);
    }
    plan.with_value("SGC", &"0".repeat(LONGEST_VALUE));
}

/// Drawn lists: two of each fault, one read and one built, and damaged ones.
fn drawn(plan: &mut Plan) {
    for fault in ListFault::ALL {
        let list = sample::faulty_list(&mut plan.random, fault);
        plan.list(list);
        let list = sample::faulty_list(&mut plan.random, fault);
        let mut fields = sample::short_fields(&mut plan.random, Kind::WrappedKey, Signed::No);
        fields[1] = list;
        let room = plan.random.one_of(&[0, LONGEST_READ]);
        plan.build(room, Kind::WrappedKey.name(), &fields);
    }
    for changes in [1, 1, 1, 1, 1, 1, 2, 3] {
        let list = Cards::any(&mut plan.random).list();
        let damaged = sample::damaged_anywhere(&mut plan.random, &list, changes);
        plan.list(damaged);
    }
}
