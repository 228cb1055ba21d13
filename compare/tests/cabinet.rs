//! The implementation held against requests E8, E9 and E10: what is a cabinet, where a key is put, where numbers 23
//! to 27 stand, where the number of Expiry does, and which load requests are admitted.

use compare::cabinet::{
    admit, check, count, find, make, put, remove, NUMBER_AT, PLACES, SIZE, START, TVP_AT, WIDTH,
};
use compare::kind::Kind;
use compare::moment::moment_of;
use compare::random::Random;
use compare::refusal::Refusal;
use compare::sample::{self, Exchange, Fault, PublicKey, Signed, Subject};
use compare::worked::{worked, IDENTITIES, RECORDS};
use std::collections::{BTreeMap, BTreeSet};

/// An empty cabinet.
fn empty() -> Vec<u8> {
    let mut lent = vec![0xA5; SIZE];
    assert_eq!(make(&mut lent), Ok(()));
    lent
}

/// A cabinet with these bytes at the start of places.
fn bare(places: &[(usize, &[u8])]) -> Vec<u8> {
    let mut lent = empty();
    for (place, bytes) in places {
        lent[place * WIDTH..][..bytes.len()].copy_from_slice(bytes);
    }
    lent
}

/// The same, with the number of what stands in them where Expiry does, if they leave room for it.
fn numbered(places: &[(usize, &[u8])]) -> Vec<u8> {
    let mut lent = bare(places);
    for (place, bytes) in places.iter().filter(|(_, bytes)| bytes.len() <= NUMBER_AT) {
        let expiry = bytes.split(|&byte| byte == b'|').nth(3).and_then(moment_of);
        write_number(&mut lent, *place, expiry.unwrap_or(0));
    }
    lent
}

/// And with the TVP of a first put.
fn image(places: &[(usize, &[u8])]) -> Vec<u8> {
    let mut lent = numbered(places);
    for (place, _) in places.iter().filter(|(_, bytes)| bytes.len() <= TVP_AT) {
        write_tvp(&mut lent, *place, &START);
    }
    lent
}

fn write_number(lent: &mut [u8], place: usize, number: i64) {
    lent[place * WIDTH..][NUMBER_AT..WIDTH].copy_from_slice(&number.to_be_bytes());
}

fn write_tvp(lent: &mut [u8], place: usize, tvp: &[u8; 16]) {
    lent[place * WIDTH..][TVP_AT..NUMBER_AT].copy_from_slice(tvp);
}

/// The TVP that stands in a place.
fn tvp_in(lent: &[u8], place: usize) -> &[u8] {
    &lent[place * WIDTH..][1000..1016]
}

/// A key of Subject number so many, with this GNT.
fn key(random: &mut Random, subject: usize, gnt: &str) -> Vec<u8> {
    let (manufacturer, mid) = (b"Prism".to_vec(), format!("{subject:08}").into_bytes());
    let kind = Kind::IDENTITIES[subject % 3];
    let subject = Subject { kind, manufacturer, mid, gnt: gnt.into() };
    PublicKey::of(random, subject, Signed::No).record()
}

/// An identity of the Subject of a key, with another GNT and Fingerprint.
fn identity(record: &[u8]) -> Vec<u8> {
    let subject = PublicKey::of_record(record).subject;
    let gnt = b"19930101T000000Z".to_vec();
    Subject { gnt, ..subject }.identity(b"0123456789ABCDEF".to_vec())
}

/// The call answers so, and leaves the lent bytes as they were.
fn refuses(lent: &[u8], no: Refusal, call: impl FnOnce(&mut [u8]) -> Result<(), Refusal>) {
    let mut after = lent.to_vec();
    assert_eq!(call(&mut after), Err(no));
    assert!(after == lent, "a refused call leaves the bytes");
}

#[test]
fn the_keys_of_document_003_are_put_found_and_removed() {
    let mut lent = empty();
    let names = [("PUBKEY_KMC", "ID_KMC"), ("PUBKEY_MAN", "ID_MAN"), ("PUBKEY_SM", "ID_SM")];
    for (place, (record, identity)) in names.into_iter().enumerate() {
        let (record, identity) = (worked(record), worked(identity));
        assert_eq!(find(&lent, &identity), Err(Refusal::NotThere));
        assert_eq!(put(&mut lent, &record), Ok(()));
        assert_eq!(find(&lent, &identity), Ok(&record[..]));
        assert_eq!(lent[place * WIDTH..][..record.len()], record);
        assert_eq!(count(&lent), Ok(place + 1));
    }
    // Another key of the module that has the same GNT.
    let other = expiring("20180120T090000Z", "20300101T000000Z");
    refuses(&lent, Refusal::NotLater, |lent| put(lent, &other));
    let [centre, manufacturer, module] = names.map(|(record, _)| worked(record));
    for (place, number) in [884_433_600, 884_872_800, 252_676_411_199i64].into_iter().enumerate() {
        assert_eq!(lent[place * WIDTH..][1016..1024], number.to_be_bytes());
    }
    assert!(lent == image(&[(0, &centre), (1, &manufacturer), (2, &module)]));
    assert_eq!(remove(&mut lent, &worked("ID_KMC")), Ok(()));
    assert_eq!(remove(&mut lent, &worked("ID_SM")), Ok(()));
    assert_eq!(put(&mut lent, &other), Ok(()));
    assert!(lent == image(&[(0, &other), (1, &manufacturer)]));
    for name in RECORDS.iter().filter(|name| !name.starts_with("PUBKEY")) {
        refuses(&lent, Refusal::UnknownKind, |lent| put(lent, &worked(name)));
    }
    for name in IDENTITIES {
        refuses(&lent, Refusal::UnknownKind, |lent| put(lent, &worked(name)));
    }
}

#[test]
fn a_cabinet_has_65_536_bytes() {
    assert_eq!((PLACES, WIDTH, SIZE, TVP_AT, NUMBER_AT), (64, 1024, 65_536, 1000, 1016));
    for length in [0, 1, 1024, 65_535, 65_537, 131_072] {
        let lent = vec![0; length];
        let (record, identity) = (worked("PUBKEY_SM"), worked("ID_SM"));
        refuses(&lent, Refusal::NoCabinet, make);
        refuses(&lent, Refusal::NoCabinet, |lent| put(lent, &record));
        refuses(&lent, Refusal::NoCabinet, |lent| put(lent, b"x"));
        refuses(&lent, Refusal::NoCabinet, |lent| remove(lent, &identity));
        refuses(&lent, Refusal::NoCabinet, |lent| admit(lent, &worked("VKLOADREQ")));
        refuses(&lent, Refusal::NoCabinet, |lent| admit(lent, b"x"));
        assert_eq!(check(&lent), Err(Refusal::NoCabinet));
        assert_eq!(count(&lent), Err(Refusal::NoCabinet));
        assert_eq!(find(&lent, b"x"), Err(Refusal::NoCabinet));
    }
    let made = empty();
    assert!(made.iter().all(|&byte| byte == 0));
    assert_eq!((check(&made), count(&made)), (Ok(()), Ok(0)));
}

#[test]
fn the_65th_subject_has_no_place() {
    let mut random = Random::with_seed(1);
    let mut lent = empty();
    let keys: Vec<_> =
        (0..=PLACES).map(|subject| key(&mut random, subject, "20180101T000000Z")).collect();
    for (place, key) in keys[..PLACES].iter().enumerate() {
        assert_eq!(put(&mut lent, key), Ok(()));
        assert_eq!(count(&lent), Ok(place + 1));
    }
    refuses(&lent, Refusal::NoPlace, |lent| put(lent, &keys[PLACES]));
    // 24 before 25, and the record's own before both.
    refuses(&lent, Refusal::NotLater, |lent| put(lent, &keys[5]));
    refuses(&lent, Refusal::UnknownKind, |lent| put(lent, b"PK.ECDH.2|"));
    let mut wrong = keys[PLACES].clone();
    *wrong.last_mut().unwrap() ^= 1;
    assert!(matches!(put(&mut lent, &wrong), Err(Refusal::CheckDiffers | Refusal::NoCheck)));
    // A later key takes the place of its Subject though none is free.
    let later = key(&mut random, 40, "20180101T000001Z");
    assert_eq!(put(&mut lent, &later), Ok(()));
    assert_eq!(lent[40 * WIDTH..][..later.len()], later);
    assert_eq!(find(&lent, &identity(&later)), Ok(&later[..]));
    // A place that was given up is used again, the lowest first.
    for place in [50, 7] {
        assert_eq!(remove(&mut lent, &identity(&keys[place])), Ok(()));
        assert!(lent[place * WIDTH..][..WIDTH].iter().all(|&byte| byte == 0));
    }
    assert_eq!(put(&mut lent, &keys[PLACES]), Ok(()));
    assert_eq!(lent[7 * WIDTH..][..keys[PLACES].len()], keys[PLACES]);
    assert_eq!(count(&lent), Ok(63));
}

#[test]
fn a_replacement_is_later() {
    let mut random = Random::with_seed(2);
    let old = key(&mut random, 0, "20180110T120000Z");
    for (gnt, is_later) in [
        ("20180110T120000Z", false),
        ("20180110T115959Z", false),
        ("20171231T235959Z", false),
        ("00010101T000000Z", false),
        ("20180110T120001Z", true),
        ("20180111T000000Z", true),
        ("99991231T235959Z", true),
    ] {
        let new = key(&mut random, 0, gnt);
        let mut lent = image(&[(9, &old)]);
        if is_later {
            assert_eq!(put(&mut lent, &new), Ok(()));
            assert!(lent == image(&[(9, &new)]));
        } else {
            refuses(&lent, Refusal::NotLater, |lent| put(lent, &new));
        }
        // After a removal it is a first put, whatever its GNT.
        let mut lent = image(&[(9, &old)]);
        assert_eq!(remove(&mut lent, &identity(&old)), Ok(()));
        assert_eq!(put(&mut lent, &new), Ok(()));
        assert!(lent == image(&[(0, &new)]));
    }
}

#[test]
fn other_memory_is_no_cabinet() {
    let mut random = Random::with_seed(3);
    let [one, other] = [1, 2].map(|subject| key(&mut random, subject, "20180101T000000Z"));
    let later = key(&mut random, 1, "20190101T000000Z");
    let behind = [&one[..], b"\0x"].concat();
    let mut full = one.clone();
    full.resize(WIDTH, 0xFF);
    let images: Vec<Vec<u8>> = vec![
        image(&[(3, b"x")]),
        image(&[(3, &behind)]),
        image(&[(3, &full)]),
        image(&[(3, &[b"\0", &one[..]].concat())]),
        image(&[(3, &one[..one.len() - 1])]),
        image(&[(3, &[&one[..], b"\n"].concat())]),
        image(&[(0, &one), (1, &one)]),
        image(&[(63, &one), (0, &later)]),
        image(&[(1, &one), (2, &other), (3, &later)]),
        vec![0xFF; SIZE],
    ];
    let kinds = ["VKLOADREQ", "VKLOADRESP", "KEY1_1", "ID_SM"].map(worked);
    for lent in images.into_iter().chain(kinds.map(|record| image(&[(63, &record)]))) {
        assert_eq!(check(&lent), Err(Refusal::NoCabinet));
        assert_eq!(count(&lent), Err(Refusal::NoCabinet));
        assert_eq!(find(&lent, &identity(&one)), Err(Refusal::NoCabinet));
        refuses(&lent, Refusal::NoCabinet, |lent| put(lent, &other));
        refuses(&lent, Refusal::NoCabinet, |lent| remove(lent, &identity(&one)));
        refuses(&lent, Refusal::NoCabinet, |lent| admit(lent, &worked("VKLOADREQ")));
        let mut lent = lent;
        assert_eq!((make(&mut lent), lent == empty()), (Ok(()), true));
    }
    for lent in [image(&[(0, &one), (63, &other)]), image(&[(63, &later), (62, &other)])] {
        assert_eq!((check(&lent), count(&lent)), (Ok(()), Ok(2)));
    }
}

/// Times at which a key may expire, and their numbers.
const TIMES: [(&str, i64); 8] = [
    ("00010101T000000Z", -62_861_443_200),
    ("19000301T000000Z", -2_929_737_600),
    ("19921231T235959Z", -1),
    ("19930101T000000Z", 0),
    ("19930101T000001Z", 1),
    ("20000229T000000Z", 225_936_000),
    ("24000229T000000Z", 12_848_716_800),
    ("99991231T235959Z", 252_676_454_399),
];

/// A key of one Subject with this GNT that expires at this time.
fn expiring(gnt: &str, expiry: &str) -> Vec<u8> {
    let mut key = PublicKey::of_record(&worked("PUBKEY_SM"));
    (key.subject.gnt, key.expiry) = (gnt.into(), expiry.into());
    key.record()
}

/// After a put, a replacement and a removal, with the TVP and zeros before it.
#[test]
fn the_number_of_expiry_stands_at_the_end_of_its_place() {
    for (first, number) in TIMES {
        let mut lent = empty();
        let old = expiring("20180120T090000Z", first);
        assert_eq!(put(&mut lent, &old), Ok(()));
        let (place, behind) = lent.split_at(WIDTH);
        assert_eq!(place[1016..], number.to_be_bytes());
        assert_eq!(place[1000..1016], START);
        assert!(place[old.len()..1000].iter().chain(behind).all(|&byte| byte == 0));
        assert_eq!(place[..old.len()], old);
        for (second, number) in TIMES {
            let mut lent = lent.clone();
            refuses(&lent, Refusal::NotLater, |lent| {
                put(lent, &expiring("20180120T090000Z", second))
            });
            let new = expiring("20180120T090001Z", second);
            assert_eq!(put(&mut lent, &new), Ok(()));
            assert_eq!(lent[1016..1024], number.to_be_bytes());
            assert_eq!((check(&lent), find(&lent, &worked("ID_SM"))), (Ok(()), Ok(&new[..])));
            assert_eq!(remove(&mut lent, &worked("ID_SM")), Ok(()));
            assert!(lent == empty());
        }
    }
}

#[test]
fn another_number_than_that_of_the_text_is_no_cabinet() {
    let (record, identity) = (worked("PUBKEY_KMC"), worked("ID_KMC"));
    for (expiry, number) in TIMES {
        let key = expiring("20180120T090000Z", expiry);
        let right = image(&[(63, &key)]);
        assert_eq!(check(&right), Ok(()));
        let mut others = vec![number + 1, number - 1, number.swap_bytes(), -number, !number, 0];
        others.extend([number & 0xFFFF_FFFF, number as i32 as i64, number + 725_846_400]);
        others.extend(TIMES.map(|(_, number)| number));
        others.extend((0..64).map(|bit| number ^ 1 << bit));
        others.retain(|&other| other != number);
        for other in others {
            let mut lent = right.clone();
            write_number(&mut lent, 63, other);
            assert_eq!(check(&lent), Err(Refusal::NoCabinet), "{expiry} {other}");
            assert_eq!(count(&lent), Err(Refusal::NoCabinet));
        }
        let mut lent = right;
        write_number(&mut lent, 63, number + 1);
        assert_eq!(find(&lent, &identity), Err(Refusal::NoCabinet));
        refuses(&lent, Refusal::NoCabinet, |lent| put(lent, &record));
        refuses(&lent, Refusal::NoCabinet, |lent| remove(lent, &identity));
        write_number(&mut lent, 63, number);
        assert_eq!(count(&lent), Ok(1));
    }
}

/// A number that is not written is 0, and right where the key expires so.
#[test]
fn an_image_without_numbers_is_none() {
    for (expiry, number) in TIMES {
        let mut lent = bare(&[(5, &expiring("20180120T090000Z", expiry))]);
        write_tvp(&mut lent, 5, &START);
        assert_eq!(check(&lent).is_ok(), number == 0, "{expiry}");
    }
    let (key, other) = (expiring("20180120T090000Z", "19930101T000000Z"), worked("PUBKEY_KMC"));
    let mut lent = bare(&[(5, &key), (6, &other)]);
    write_tvp(&mut lent, 5, &START);
    write_tvp(&mut lent, 6, &START);
    assert_eq!(check(&lent), Err(Refusal::NoCabinet));
}

/// An image without TVPs, as requests E8 and E9 had it, is a cabinet only where all places are free.
#[test]
fn an_image_without_tvps_is_none() {
    for (expiry, _) in TIMES {
        let key = expiring("20180120T090000Z", expiry);
        for mut lent in [bare(&[(5, &key)]), numbered(&[(5, &key)])] {
            assert_eq!(check(&lent), Err(Refusal::NoCabinet), "{expiry}");
            // It is rebuilt by putting the record in again.
            assert_eq!((make(&mut lent), put(&mut lent, &key)), (Ok(()), Ok(())));
            assert!(lent == image(&[(0, &key)]));
        }
    }
    let keys = ["PUBKEY_KMC", "PUBKEY_MAN", "PUBKEY_SM"].map(worked);
    let mut lent = numbered(&[(0, &keys[0]), (1, &keys[1]), (2, &keys[2])]);
    for place in 0..3 {
        assert_eq!(check(&lent), Err(Refusal::NoCabinet));
        write_tvp(&mut lent, place, &START);
    }
    assert_eq!(count(&lent), Ok(3));
    assert_eq!(check(&empty()), Ok(()));
}

/// Nothing stands before the TVP but zeros, and nothing at all in a free place.
#[test]
fn what_is_not_the_record_its_tvp_or_its_number_is_zero() {
    let key = expiring("20180120T090000Z", "20000229T000000Z");
    let right = image(&[(0, &key)]);
    for at in (key.len()..1016).chain(63 * WIDTH..SIZE) {
        let mut lent = right.clone();
        lent[at] = 1;
        assert_eq!(check(&lent), Err(Refusal::NoCabinet), "{at}");
    }
    // Texts that go as far as the TVP or the number and farther.
    let mut random = Random::with_seed(7);
    for length in [999, 1000, 1001, 1015, 1016, 1017, 1023, 1024] {
        let long = sample::padded(&mut random, Kind::PkEcdh, 4, length);
        for mut lent in [bare(&[(0, &long)]), image(&[(0, &long)])] {
            assert_eq!(check(&lent), Err(Refusal::NoCabinet));
            write_number(&mut lent, 0, 225_936_000);
            assert_eq!(check(&lent), Err(Refusal::NoCabinet));
        }
    }
}

#[test]
fn an_identity_names_by_kind_manufacturer_and_mid() {
    let key = worked("PUBKEY_SM");
    let lent = image(&[(30, &key)]);
    let subject = PublicKey::of_record(&key).subject;
    let find_as = |subject: Subject| {
        let identity = subject.identity(b"0000000000000000".to_vec());
        find(&lent, &identity).map(<[u8]>::len)
    };
    for gnt in ["00010101T000000Z", "20180120T090000Z", "99991231T235959Z"] {
        assert_eq!(find_as(Subject { gnt: gnt.into(), ..subject.clone() }), Ok(key.len()));
    }
    for kind in [Kind::Smman, Kind::Kmcid] {
        assert_eq!(find_as(Subject { kind, ..subject.clone() }), Err(Refusal::NotThere));
    }
    for (manufacturer, mid) in
        [("prism", "06000001"), ("Prism", "0600000"), ("Prism0", "6000001"), ("Prism", "060000010")]
    {
        let (manufacturer, mid) = (manufacturer.into(), mid.into());
        let other = Subject { manufacturer, mid, ..subject.clone() };
        assert_eq!(find_as(other), Err(Refusal::NotThere));
    }
}

/// The identity's own refusals are before 26, the record's own before all but 23.
#[test]
fn own_refusals_come_first() {
    let mut random = Random::with_seed(4);
    let lent = empty();
    for kind in Kind::IDENTITIES {
        for &fault in Fault::of(kind) {
            let bad = sample::faulty(&mut random, kind, &[fault]);
            let no = compare::record::read_identity(&bad).expect_err("a fault");
            refuses(&lent, no, |lent| remove(lent, &bad));
            assert_eq!(find(&lent, &bad), Err(no));
        }
    }
    for kind in Kind::PUBLIC_KEYS {
        for &fault in Fault::of(kind) {
            let bad = sample::faulty(&mut random, kind, &[fault]);
            let no = compare::record::read_record(&bad).expect_err("a fault");
            refuses(&lent, no, |lent| put(lent, &bad));
        }
    }
}

#[test]
fn the_longest_key_fits() {
    let mut random = Random::with_seed(5);
    for kind in Kind::PUBLIC_KEYS {
        let longest = sample::longest_record(&mut random, kind);
        assert_eq!(longest.len(), kind.longest());
        assert!(longest.len() < TVP_AT);
        let mut lent = empty();
        assert_eq!(put(&mut lent, &longest), Ok(()));
        assert_eq!(find(&lent, &identity(&longest)), Ok(&longest[..]));
    }
}

/// The request's words: after any calls the occupied places number the accepted first puts less the accepted
/// removals, and find gives the last accepted put that was not removed.
#[test]
fn a_history_holds_what_the_request_says() {
    let mut random = Random::with_seed(6);
    let times = ["20180101T000000Z", "20180101T000001Z", "20180102T000000Z"];
    let keys: Vec<[Vec<u8>; 3]> =
        (0..80).map(|subject| times.map(|gnt| key(&mut random, subject, gnt))).collect();
    let mut lent = empty();
    let mut kept: BTreeMap<usize, usize> = BTreeMap::new();
    for _ in 0..2000 {
        let (subject, time) = (random.below(keys.len()), random.below(3));
        let named = identity(&keys[subject][0]);
        if random.once_in(4) {
            let answer = remove(&mut lent, &named);
            assert_eq!(answer, kept.remove(&subject).map(|_| ()).ok_or(Refusal::NotThere));
        } else {
            let expected = match kept.get(&subject) {
                Some(&old) if time <= old => Err(Refusal::NotLater),
                None if kept.len() == PLACES => Err(Refusal::NoPlace),
                _ => Ok(()),
            };
            assert_eq!(put(&mut lent, &keys[subject][time]), expected);
            if expected.is_ok() {
                kept.insert(subject, time);
            }
        }
        assert_eq!(count(&lent), Ok(kept.len()));
        let found = kept.get(&subject).map(|&time| &keys[subject][time][..]);
        assert_eq!(find(&lent, &named), found.ok_or(Refusal::NotThere));
    }
}

/// 003's request with another TVP, and of another module where one is named.
fn asking(id_sm: &[u8], tvp: &str) -> Vec<u8> {
    let id_sm = id_sm.to_vec();
    Exchange { id_sm, tvp: tvp.into(), ..Exchange::worked() }.confirmed().request()
}

/// The vendor's second delivery: once, and not again, whatever is put over the key; and again after a first put.
#[test]
fn the_request_of_document_003_is_admitted_once() {
    let (request, id_sm, tvp) = (worked("VKLOADREQ"), worked("ID_SM"), worked("TVP"));
    for first in [worked("PUBKEY_SM"), expiring("20180120T090000Z", "19921231T235959Z")] {
        let mut lent = empty();
        refuses(&lent, Refusal::NotThere, |lent| admit(lent, &request));
        assert_eq!(put(&mut lent, &worked("PUBKEY_KMC")), Ok(()));
        refuses(&lent, Refusal::NotThere, |lent| admit(lent, &request));
        assert_eq!(put(&mut lent, &first), Ok(()));
        assert_eq!(tvp_in(&lent, 1), START);
        let mut after = lent.clone();
        assert_eq!(admit(&mut after, &request), Ok(()));
        // The sixteen bytes, and no other.
        lent[WIDTH + 1000..WIDTH + 1016].copy_from_slice(&tvp);
        assert!(after == lent);
        refuses(&lent, Refusal::TvpNotLater, |lent| admit(lent, &request));
        // A replacement keeps the TVP, and a refused one too.
        refuses(&lent, Refusal::NotLater, |lent| put(lent, &worked("PUBKEY_SM")));
        let later = expiring("20180120T090001Z", "20400101T000000Z");
        assert_eq!(put(&mut lent, &later), Ok(()));
        assert_eq!(tvp_in(&lent, 1), tvp);
        refuses(&lent, Refusal::TvpNotLater, |lent| admit(lent, &request));
        // A removal drops it: the place is all zeros, and a first put starts anew.
        assert_eq!(remove(&mut lent, &id_sm), Ok(()));
        assert!(lent == image(&[(0, &worked("PUBKEY_KMC"))]));
        refuses(&lent, Refusal::NotThere, |lent| admit(lent, &request));
        assert_eq!(put(&mut lent, &first), Ok(()));
        assert_eq!(tvp_in(&lent, 1), START);
        assert_eq!(admit(&mut lent, &request), Ok(()));
        refuses(&lent, Refusal::TvpNotLater, |lent| admit(lent, &request));
    }
}

/// TVPs from the start on, one after another.
const TVPS: [&str; 7] = [
    "19930101T000000Z",
    "19930101T000001Z",
    "19991231T235959Z",
    "20000101T000000Z",
    "20180125T150000Z",
    "20180125T150001Z",
    "99991231T235959Z",
];

#[test]
fn a_tvp_is_later_than_the_last_one() {
    let id_sm = worked("ID_SM");
    let key = worked("PUBKEY_SM");
    for (last, stored) in TVPS.iter().enumerate() {
        let mut lent = image(&[(63, &key)]);
        write_tvp(&mut lent, 63, stored.as_bytes().try_into().unwrap());
        for (this, tvp) in TVPS.iter().enumerate() {
            let request = asking(&id_sm, tvp);
            if this <= last {
                refuses(&lent, Refusal::TvpNotLater, |lent| admit(lent, &request));
            } else {
                let mut lent = lent.clone();
                assert_eq!(admit(&mut lent, &request), Ok(()));
                assert_eq!(tvp_in(&lent, 63), tvp.as_bytes());
                refuses(&lent, Refusal::TvpNotLater, |lent| admit(lent, &request));
            }
        }
        // Those before the start are earlier than all.
        for tvp in ["00010101T000000Z", "19921231T235959Z"] {
            refuses(&lent, Refusal::TvpNotLater, |lent| admit(lent, &asking(&id_sm, tvp)));
        }
    }
}

#[test]
fn a_tvp_that_is_no_timestamp_or_before_the_start_is_no_cabinet() {
    let keys = ["PUBKEY_KMC", "PUBKEY_MAN", "PUBKEY_SM"].map(worked);
    let right = image(&[(0, &keys[0]), (31, &keys[1]), (63, &keys[2])]);
    for place in [0, 31, 63] {
        for tvp in TVPS {
            let mut lent = right.clone();
            write_tvp(&mut lent, place, tvp.as_bytes().try_into().unwrap());
            assert_eq!((check(&lent), count(&lent)), (Ok(()), Ok(3)), "{tvp}");
        }
        for tvp in [
            b"19921231T235959Z",
            b"00010101T000000Z",
            b"00000101T000000Z",
            b"19930101t000000Z",
            b"19930101T000000z",
            b"19930431T000000Z",
            b"19930229T000000Z",
            b"21000229T000000Z",
            b"19930101T240000Z",
            b"19930101T000060Z",
            b"19930101T000000\0",
            b"                ",
            &[0; 16],
            &[0xFF; 16],
        ] {
            let mut lent = right.clone();
            write_tvp(&mut lent, place, tvp);
            let (identity, request) = (worked("ID_KMC"), worked("VKLOADREQ"));
            assert_eq!(check(&lent), Err(Refusal::NoCabinet), "{tvp:?}");
            assert_eq!(count(&lent), Err(Refusal::NoCabinet));
            assert_eq!(find(&lent, &identity), Err(Refusal::NoCabinet));
            refuses(&lent, Refusal::NoCabinet, |lent| put(lent, &worked("PUBKEY_SM")));
            refuses(&lent, Refusal::NoCabinet, |lent| remove(lent, &identity));
            refuses(&lent, Refusal::NoCabinet, |lent| admit(lent, &request));
            refuses(&lent, Refusal::NoCabinet, |lent| admit(lent, b"x"));
        }
    }
}

/// By the kind, Manufacturer and MID of ID_SM: a centre and a manufacturer with its names are not the module.
#[test]
fn a_request_names_its_module() {
    let request = worked("VKLOADREQ");
    let module = PublicKey::of_record(&worked("PUBKEY_SM"));
    let mut random = Random::with_seed(8);
    let [centre, maker] = [Kind::Kmcid, Kind::Smman].map(|kind| {
        let subject = Subject { kind, ..module.subject.clone() };
        PublicKey::of(&mut random, subject, Signed::No).record()
    });
    let lent = image(&[(0, &centre), (1, &maker)]);
    assert_eq!(count(&lent), Ok(2));
    refuses(&lent, Refusal::NotThere, |lent| admit(lent, &request));
    let mut lent = image(&[(0, &centre), (1, &maker), (2, &module.record())]);
    assert_eq!(admit(&mut lent, &request), Ok(()));
    assert_eq!([0, 1, 2].map(|place| tvp_in(&lent, place)), [&START, &START, &worked("TVP")[..]]);
    // Its GNT and Fingerprint are ignored, the rest of its names is not.
    let lent = image(&[(2, &module.record())]);
    let print = b"0000000000000000".to_vec();
    for gnt in ["00010101T000000Z", "99991231T235959Z"] {
        let id_sm = Subject { gnt: gnt.into(), ..module.subject.clone() }.identity(print.clone());
        let mut lent = lent.clone();
        assert_eq!(admit(&mut lent, &asking(&id_sm, "20180125T150000Z")), Ok(()));
    }
    for (manufacturer, mid) in
        [("prism", "06000001"), ("Prism", "0600000"), ("Prism0", "6000001"), ("Prism", "060000010")]
    {
        let (manufacturer, mid) = (manufacturer.into(), mid.into());
        let id_sm = Subject { manufacturer, mid, ..module.subject.clone() }.identity(print.clone());
        let request = asking(&id_sm, "20180125T150000Z");
        refuses(&lent, Refusal::NotThere, |lent| admit(lent, &request));
    }
}

/// The request's own refusals are before 26 and 27, and another kind answers 2.
#[test]
fn a_requests_own_refusals_come_first() {
    let mut random = Random::with_seed(9);
    let mut admitted = image(&[(0, &worked("PUBKEY_SM"))]);
    assert_eq!(admit(&mut admitted, &worked("VKLOADREQ")), Ok(()));
    for lent in [empty(), image(&[(0, &worked("PUBKEY_SM"))]), admitted] {
        for _ in 0..20 {
            for &fault in Fault::of(Kind::VkloadReq) {
                let bad = sample::faulty(&mut random, Kind::VkloadReq, &[fault]);
                let no = compare::record::read(&bad, &[Kind::VkloadReq]).expect_err("a fault");
                refuses(&lent, no, |lent| admit(lent, &bad));
            }
        }
        for name in RECORDS.into_iter().chain(IDENTITIES).filter(|&name| name != "VKLOADREQ") {
            refuses(&lent, Refusal::UnknownKind, |lent| admit(lent, &worked(name)));
        }
        let no_day = Exchange { tvp: b"20180431T150000Z".to_vec(), ..Exchange::worked() };
        refuses(&lent, Refusal::WrongText(3), |lent| admit(lent, &no_day.request()));
        let no_module = Exchange { id_sm: worked("ID_KMC"), ..Exchange::worked() };
        refuses(&lent, Refusal::WrongIdentity(1), |lent| admit(lent, &no_module.request()));
    }
}

/// The request's words: two requests of a module that were admitted since its latest first put never share a TVP, and
/// the last of them stands in its place.
#[test]
fn no_tvp_is_admitted_twice_since_the_latest_first_put() {
    let mut random = Random::with_seed(10);
    let times = ["20180101T000000Z", "20180101T000001Z", "20180102T000000Z"];
    let subject = |module: usize| Subject {
        kind: Kind::Smid,
        manufacturer: b"Prism".to_vec(),
        mid: format!("{module:08}").into_bytes(),
        gnt: times[0].into(),
    };
    let keys: Vec<[Vec<u8>; 3]> = (0..5)
        .map(|module| {
            times.map(|gnt| Subject { gnt: gnt.into(), ..subject(module) }.key(&mut random))
        })
        .collect();
    let mut lent = empty();
    // What is there, with the TVPs that were admitted.
    let mut kept: BTreeMap<usize, (usize, BTreeSet<&str>)> = BTreeMap::new();
    let mut counts = [0; 3];
    for _ in 0..3000 {
        let module = random.below(keys.len());
        let named = identity(&keys[module][0]);
        match random.below(16) {
            0 => {
                let answer = remove(&mut lent, &named);
                assert_eq!(answer, kept.remove(&module).map(|_| ()).ok_or(Refusal::NotThere));
            }
            1 | 2 => {
                let time = random.below(3);
                let answer = put(&mut lent, &keys[module][time]);
                let held = kept.entry(module).or_insert((3, BTreeSet::new()));
                let is_refused = held.0 < 3 && time <= held.0;
                assert_eq!(answer, if is_refused { Err(Refusal::NotLater) } else { Ok(()) });
                if !is_refused {
                    held.0 = time;
                }
            }
            _ => {
                let tvp = random.one_of(&TVPS);
                let answer = admit(&mut lent, &asking(&named, tvp));
                let expected = match kept.get_mut(&module) {
                    None => Err(Refusal::NotThere),
                    Some((_, tvps)) if tvps.last().copied().unwrap_or(TVPS[0]) >= tvp => {
                        Err(Refusal::TvpNotLater)
                    }
                    Some((_, tvps)) => {
                        assert!(tvps.insert(tvp), "admitted twice");
                        Ok(())
                    }
                };
                assert_eq!(answer, expected);
                counts[match answer {
                    Ok(()) => 0,
                    Err(Refusal::NotThere) => 1,
                    Err(_) => 2,
                }] += 1;
            }
        }
        let place =
            find(&lent, &named).map(|found| found.as_ptr() as usize - lent.as_ptr() as usize);
        let last = kept.get(&module).map(|(_, tvps)| tvps.last().copied().unwrap_or(TVPS[0]));
        let stored = place.ok().map(|start| &lent[start + 1000..start + 1016]);
        assert_eq!(stored, last.map(str::as_bytes));
    }
    assert!(counts.into_iter().all(|count| count >= 200), "{counts:?}");
}
