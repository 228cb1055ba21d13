//! Wrapped keys held against clause 7.5, Appendix B and request E1: values on each side of every rule.

use compare::agreement::shared_info;
use compare::attributes::{attribute, attribute_named, is_permitted};
use compare::build::build;
use compare::kind::Kind;
use compare::newer::newer;
use compare::random::Random;
use compare::record::{read_identity, read_record};
use compare::refusal::Refusal;
use compare::sample;
use compare::text::{is_printable, is_protected};
use compare::worked::worked;

/// The list of document 003's first wrapped key, which has the required names alone.
const LIST: &str = "ACT19930101T000000Z;BDT19930101T000000Z;DKG02;KEN255;KRN1;KTC2;SGC0000123456;";

/// What the record call answers for a wrapped key of these fields.
fn wrapped_key_number(nonce: &str, list: &[u8], protected_key: &str) -> (u8, u8) {
    let fields = [nonce.as_bytes(), list, protected_key.as_bytes()];
    let key = sample::join(b"KEY.1", b'|', &fields);
    assert_eq!(key.len(), 37 + list.len() + protected_key.len() + nonce.len() - 24);
    read_record(&key).map_or_else(|refusal| (refusal.number(), refusal.field()), |_| (0, 0))
}

#[test]
fn fields_of_a_wrapped_key() {
    let (nonce, key) = ("0".repeat(24), "F".repeat(48));
    let list = LIST.as_bytes();
    assert_eq!(wrapped_key_number(&nonce, list, &key), (0, 0));
    for wrong in [&nonce[1..], &[&nonce[..], "0"].concat(), &[&nonce[1..], "a"].concat(), ""] {
        assert_eq!(wrapped_key_number(wrong, list, &key), (6, 1), "{wrong}");
    }
    assert_eq!(wrapped_key_number(&nonce, b"", &key), (6, 2));
    for byte in [0, b'\t', b'\n', 0x1F, 0x7F, 0x80, 0xFF] {
        let list = [list, b"SGN", &[byte], b";"].concat();
        assert_eq!(wrapped_key_number(&nonce, &list, &key), (6, 2), "{byte}");
    }
    for (digits, answer) in
        [(30, (6, 3)), (31, (6, 3)), (32, (0, 0)), (33, (6, 3)), (34, (0, 0)), (70, (0, 0))]
    {
        assert_eq!(wrapped_key_number(&nonce, list, &"A".repeat(digits)), answer, "{digits}");
    }
    for (digits, answer) in [(71, (6, 3)), (72, (0, 0)), (73, (6, 3)), (74, (6, 3)), (0, (6, 3))] {
        assert_eq!(wrapped_key_number(&nonce, list, &"0".repeat(digits)), answer, "{digits}");
    }
    assert!(is_protected(&[b'0'; 32]) && !is_protected(&[b'a'; 32]) && !is_protected(&[b'G'; 32]));
    for byte in 0..=255 {
        assert_eq!(is_printable(&[byte]), matches!(byte, 0x20..=0x7E) && byte != b'|');
    }
}

#[test]
fn cards_and_names() {
    let permitted = |list: String| is_permitted(list.as_bytes());
    assert!(permitted(LIST.into()));
    for (list, is) in [
        (LIST.trim_end_matches(';').to_owned(), false),
        (format!("{LIST};"), false),
        (format!(";{LIST}"), false),
        (LIST.replacen(';', ";;", 1), false),
        (";".into(), false),
        ("A".into(), false),
        (format!("{LIST}ZZZ;"), true),
        (format!("{LIST}ZZ;"), false),
        (format!("{LIST}Z;"), false),
        (format!("{LIST}Z-Z;"), false),
        (format!("{LIST}Z Z1;"), false),
        (format!("{LIST}SGC0000123456;"), false),
        (format!("{LIST}SGB1;"), false),
        (format!("{LIST}SGD1;"), true),
        (format!("000;{LIST}"), true),
        (format!("ACS{LIST}"), false),
        (format!("ACS;{LIST}"), true),
        (format!("ACU;{LIST}"), false),
        (format!("act;{LIST}"), false),
        (format!("{LIST}act;"), true),
    ] {
        assert_eq!(permitted(list.clone()), is, "{list}");
    }
    let cards: Vec<&str> = LIST.split_inclusive(';').collect();
    for index in 0..cards.len() {
        let mut fewer = cards.clone();
        fewer.remove(index);
        assert!(!permitted(fewer.concat()), "{fewer:?}");
        if index > 0 {
            let mut exchanged = cards.clone();
            exchanged.swap(index - 1, index);
            assert!(!permitted(exchanged.concat()), "{exchanged:?}");
        }
    }
}

#[test]
fn values_of_attributes() {
    let with = |old: &str, new: &str| is_permitted(LIST.replacen(old, new, 1).as_bytes());
    for good in ["KEN000", "KEN199", "KEN249", "KEN255"] {
        assert!(with("KEN255", good), "{good}");
    }
    for bad in ["KEN", "KEN25", "KEN256", "KEN260", "KEN300", "KEN999", "KEN0255", "KEN2A5"] {
        assert!(!with("KEN255", bad), "{bad}");
    }
    for (old, good, bad) in [
        ("DKG02", "DKG00", ["DKG", "DKG2", "DKG002", "DKG0A"]),
        ("KRN1", "KRN9", ["KRN", "KRN10", "KRNA", "KRN "]),
        ("KTC2", "KTC0", ["KTC", "KTC10", "KTC-", "KTCa"]),
        (
            "SGC0000123456",
            "SGC9999999999",
            ["SGC", "SGC000123456", "SGC00000123456", "SGC-000123456"],
        ),
        ("ACT1993", "ACT0001", ["ACT0000", "ACT193", "ACT199 ", "ACT+993"]),
        ("BDT19930101", "BDT99991231", ["BDT19930001", "BDT19930132", "BDT19931301", "BDT1993010"]),
    ] {
        assert!(with(old, good), "{good}");
        for bad in bad {
            assert!(!with(old, bad), "{bad}");
        }
    }
    let and = |card: &str| is_permitted(with_card(card).as_bytes());
    assert!(and("IUT20990101T000000Z") && !and("IUT20990101T240000Z") && !and("IUT"));
    assert!(and("SGN ") && and(&format!("SGN{}", "n".repeat(99))));
    assert!(!and("SGN") && !and(&format!("SGN{}", "n".repeat(100))));
    assert!(and("EXP") && and("EXPnever") && and(&format!("EXP{}", "~".repeat(252))));
    assert!(!and(&format!("EXP{}", "~".repeat(253))));
}

/// The list with one card more, in its place.
fn with_card(card: &str) -> String {
    let mut cards: Vec<&str> = LIST.split_terminator(';').chain([card]).collect();
    cards.sort();
    cards.iter().map(|card| format!("{card};")).collect()
}

#[test]
fn a_list_is_looked_at_after_every_field() {
    let (nonce, key) = ("0".repeat(24), "F".repeat(48));
    for list in ["x", ";", " ", &LIST[20..]] {
        assert_eq!(wrapped_key_number(&nonce, list.as_bytes(), &key), (14, 0));
        assert_eq!(wrapped_key_number(&nonce[1..], list.as_bytes(), &key), (6, 1));
        assert_eq!(wrapped_key_number(&nonce, list.as_bytes(), &key[1..]), (6, 3));
        assert_eq!(wrapped_key_number(&nonce, format!("{list}|").as_bytes(), &key), (5, 0));
    }
}

#[test]
fn a_wrapped_key_of_1024_is_read_and_built_and_1025_answers_1() {
    let mut random = Random::with_seed(1);
    for (length, number, too_short) in [(1023, 0, 10), (1024, 0, 10), (1025, 1, 1)] {
        let fields = sample::wrapped_key_fields(&mut random, length);
        let key = sample::of_kind(Kind::WrappedKey, &fields);
        assert_eq!(read_record(&key).map_or_else(Refusal::number, |_| 0), number);
        let lengths: Vec<u64> = fields.iter().map(|field| field.len() as u64).collect();
        let build = |bytes: &[u8], room: usize| {
            let mut output = vec![9; room];
            let answer = build(b"KEY.1", bytes, &lengths, &mut output);
            assert!(answer.is_ok() || output == vec![9; room]);
            answer.map_or_else(Refusal::number, |_| 0)
        };
        let bytes = fields.concat();
        assert_eq!((build(&bytes, length), build(&bytes, length - 1)), (number, too_short));
        assert_eq!((build(&bytes, 2000), build(&bytes, 0)), (number, too_short));
        // A list that is not permitted, and a byte that no list has, come before.
        for (wrong, first) in [(b'-', 14), (b'|', 6)] {
            let mut bytes = bytes.clone();
            bytes[24] = wrong;
            assert_eq!((build(&bytes, length), build(&bytes, 0)), (first, first));
        }
    }
}

#[test]
fn attributes_are_those_of_a_wrapped_key_alone() {
    for name in ["PUBKEY_KMC", "VKLOADREQ", "VKLOADRESP", "ID_SM"] {
        let mut record = worked(name);
        assert_eq!(attribute(&record, 1), Err(Refusal::UnknownKind), "{name}");
        record.pop();
        assert_eq!(attribute_named(&record, b"ACT"), Err(Refusal::UnknownKind), "{name}");
    }
    let key = worked("KEY1_1");
    for (bytes, refusal) in [
        (&key[..key.len() - 1], Refusal::NoCheck),
        (b"KEY.1|0000", Refusal::CheckDiffers),
        (b"KEY.1:", Refusal::UnknownKind),
        (&[b'x'; 1025], Refusal::TooLong),
    ] {
        assert_eq!(attribute(bytes, 0), Err(refusal));
        assert_eq!(attribute_named(bytes, b""), Err(refusal));
    }
    assert_eq!(read_identity(&key), Err(Refusal::UnknownKind));
    assert_eq!(newer(&key, &key), Err(Refusal::UnknownKind));
    assert_eq!(shared_info(&key, &mut [0; 1024]), Err(Refusal::UnknownKind));
}
