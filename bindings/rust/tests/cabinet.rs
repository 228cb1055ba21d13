//! The centre's key cabinet, held against that of `compare/` and the plain one in `held/cabinet.rs`.

mod held;

use compare::kind::Kind;
use compare::random::Random;
use compare::sample::{self, Fault, Subject};
use compare::worked::{worked, IDENTITIES, RECORDS};
use held::cabinet::{
    asked, expect_no_cabinet, expect_put, is_tvp, names, own, place_from, requested, tvp_in,
    with_bytes, with_place, Both, Held, NOT_LATER, NOT_THERE, NO_CABINET, NO_PLACE, START,
    TVP_NOT_LATER, UNSIGNED,
};
use held::keys::{
    at, filled, identity, key, key_until, nth, nth_module, request, subject, unsigned_key, EARLIER,
    EQUAL, LATER,
};
use held::{first, lent, numbers, place, rounds, Seen};
use obscurlane::{
    admit, check_cabinet, count_keys, find_key, make_cabinet, remove_key, Cabinet, Record,
    CABINET_NUMBER_AT, CABINET_PLACES, CABINET_SIZE, CABINET_TVP_AT, CABINET_WIDTH,
};

// ---- the request's words

#[test]
fn sixty_four_subjects_and_one_more() {
    let mut random = Random::with_seed(201);
    let mut both = filled(&mut random, CABINET_PLACES);
    assert_eq!(count_keys(&both.bytes), Ok(64));
    for number in CABINET_PLACES..CABINET_PLACES + 6 {
        for gnt in [EARLIER, LATER] {
            let key = key(&mut random, &at(nth(number), gnt));
            assert_eq!(both.put(&key), Err(NO_PLACE));
        }
        assert_eq!(both.find(&identity(&mut random, &nth(number))), Err(NOT_THERE));
        assert_eq!(both.remove(&identity(&mut random, &nth(number))), Err(NOT_THERE));
    }
    for number in 0..CABINET_PLACES {
        assert!(both.find(&identity(&mut random, &nth(number))).is_ok());
    }
}

/// When it is full too; the place is the same.
#[test]
fn replacements() {
    let mut random = Random::with_seed(202);
    for count in [1, 5, CABINET_PLACES] {
        let mut both = filled(&mut random, count);
        for number in 0..count {
            let before = both.model.place_of(&names(&nth(number)));
            let mut put = |gnt: &[u8]| both.put(&key(&mut random, &at(nth(number), gnt)));
            assert_eq!(put(EARLIER), Err(NOT_LATER));
            assert_eq!(put(EQUAL), Err(NOT_LATER));
            assert_eq!(put(LATER), Ok(()));
            assert_eq!(put(LATER), Err(NOT_LATER));
            assert_eq!(put(EQUAL), Err(NOT_LATER));
            assert_eq!(both.model.place_of(&names(&nth(number))), before);
        }
    }
}

/// In every order of the digits of a GNT.
#[test]
fn every_digit_of_the_gnt() {
    let mut random = Random::with_seed(203);
    for _ in 0..rounds().div_ceil(10) {
        let (one, other) = (sample::timestamp(&mut random), sample::timestamp(&mut random));
        let mut both = Both::new();
        assert_eq!(both.put(&key(&mut random, &at(nth(0), &one))), Ok(()));
        let wanted = if one < other { Ok(()) } else { Err(NOT_LATER) };
        assert_eq!(both.put(&key(&mut random, &at(nth(0), &other))), wanted);
    }
}

#[test]
fn all_removed_and_put_again() {
    let mut random = Random::with_seed(204);
    let mut both = filled(&mut random, CABINET_PLACES);
    for number in 0..CABINET_PLACES {
        let gone = nth(number * 27 % CABINET_PLACES);
        assert_eq!(both.remove(&identity(&mut random, &gone)), Ok(()));
        assert_eq!(both.remove(&identity(&mut random, &gone)), Err(NOT_THERE));
        assert_eq!(both.find(&identity(&mut random, &gone)), Err(NOT_THERE));
    }
    assert!(both.bytes.iter().all(|&byte| byte == 0));
    // An earlier GNT than the one that was there is no hindrance.
    for number in (0..CABINET_PLACES).rev() {
        assert_eq!(both.put(&key(&mut random, &at(nth(number), EARLIER))), Ok(()));
    }
    assert_eq!(both.put(&key(&mut random, &nth(CABINET_PLACES))), Err(NO_PLACE));
}

/// The lowest place that was given up is taken first.
#[test]
fn places_are_used_again() {
    let mut random = Random::with_seed(205);
    let mut both = filled(&mut random, CABINET_PLACES);
    for (number, gone) in (CABINET_PLACES..).zip([40, 9, 63, 0]) {
        assert_eq!(both.remove(&identity(&mut random, &nth(gone))), Ok(()));
        assert_eq!(both.put(&key(&mut random, &nth(number))), Ok(()));
        assert_eq!(both.model.place_of(&names(&nth(number))), Some(gone));
    }
    for gone in [50, 20, 30] {
        assert_eq!(both.remove(&identity(&mut random, &nth(gone))), Ok(()));
    }
    for (number, place) in [(50, 20), (20, 30), (30, 50)] {
        assert_eq!(both.put(&key(&mut random, &nth(number))), Ok(()));
        assert_eq!(both.model.place_of(&names(&nth(number))), Some(place));
    }
}

#[test]
fn the_worked_keys() {
    let mut both = Both::new();
    let keys = [("ID_KMC", "PUBKEY_KMC"), ("ID_MAN", "PUBKEY_MAN"), ("ID_SM", "PUBKEY_SM")];
    for (name, key) in keys {
        assert_eq!(both.find(&worked(name)), Err(NOT_THERE));
        assert_eq!(both.put(&worked(key)), Ok(()));
        assert_eq!(both.put(&worked(key)), Err(NOT_LATER));
        assert_eq!(both.find(&worked(name)), Ok(worked(key)));
    }
    // The unsigned key of the module, which has the same GNT, is refused whether the signed one is there or not.
    assert_eq!(both.put(&worked("PUBKEY_SM_NOSIG")), Err(UNSIGNED));
    assert_eq!(both.remove(&worked("ID_SM")), Ok(()));
    assert_eq!(both.put(&worked("PUBKEY_SM_NOSIG")), Err(UNSIGNED));
    assert_eq!(both.put(&worked("PUBKEY_SM")), Ok(()));
    assert_eq!(both.find(&worked("ID_SM")), Ok(worked("PUBKEY_SM")));
    assert_eq!(both.find(&worked("APPA_ID_SM")), Err(NOT_THERE));
    for name in RECORDS {
        assert!(both.put(&worked(name)).is_err(), "{name}");
        assert_eq!(both.find(&worked(name)), Err((2, 0)), "{name}");
    }
    for name in IDENTITIES {
        assert_eq!(both.put(&worked(name)), Err((2, 0)), "{name}");
    }
}

/// A module, and Subjects that have nearly its names.
fn one_and_others() -> (Subject, Vec<Subject>) {
    let longest = [b'A'; obscurlane::LONGEST_IDENT];
    let others = vec![
        subject(Kind::Kmcid, b"Prism", b"06000001", EQUAL),
        subject(Kind::Smman, b"Prism", b"06000001", EQUAL),
        subject(Kind::Smid, b"prism", b"06000001", EQUAL),
        subject(Kind::Smid, b"Pris", b"06000001", EQUAL),
        subject(Kind::Smid, b"Prism0", b"06000001", EQUAL),
        subject(Kind::Smid, b"Prism0", b"6000001", EQUAL),
        subject(Kind::Smid, b"Prism", b"0600000", EQUAL),
        subject(Kind::Smid, b"Prism", b"060000011", EQUAL),
        subject(Kind::Smid, b"Prism", b"06000002", EQUAL),
        subject(Kind::Smid, b"06000001", b"Prism", EQUAL),
        subject(Kind::Smid, b"P", b"0", EQUAL),
        subject(Kind::Smid, &longest, &longest, EQUAL),
        subject(Kind::Smid, &longest, &longest[1..], EQUAL),
    ];
    (subject(Kind::Smid, b"Prism", b"06000001", EQUAL), others)
}

/// Another kind, Manufacturer or MID, nearly the same ones too, is another Subject; another GNT or Fingerprint is not.
#[test]
fn other_names() {
    let mut random = Random::with_seed(206);
    let (one, others) = one_and_others();
    let mut both = Both::new();
    assert_eq!(both.put(&key(&mut random, &one)), Ok(()));
    for _ in 0..100 {
        assert!(both.find(&identity(&mut random, &one)).is_ok());
    }
    for other in &others {
        assert_eq!(both.find(&identity(&mut random, other)), Err(NOT_THERE));
        assert_eq!(both.remove(&identity(&mut random, other)), Err(NOT_THERE));
    }
    for other in &others {
        assert_eq!(both.put(&key(&mut random, other)), Ok(()));
    }
    assert_eq!(count_keys(&both.bytes), Ok(1 + others.len()));
    for other in &others {
        assert!(both.find(&identity(&mut random, other)).is_ok());
        assert_eq!(both.remove(&identity(&mut random, other)), Ok(()));
    }
    assert!(both.find(&identity(&mut random, &one)).is_ok());
}

// ---- the order of the numbers

/// Every choice of: no cabinet, a record with a fault, a GNT that is not later, no free place.
#[test]
fn every_choice_of_faults_in_a_put() {
    let mut random = Random::with_seed(207);
    let full = filled(&mut random, CABINET_PLACES).bytes;
    let less = filled(&mut random, CABINET_PLACES - 1).bytes;
    for choice in 0..16 {
        let [is_none, is_faulty, is_there, is_full] = [1, 2, 4, 8].map(|bit| choice & bit != 0);
        for &fault in Fault::of(Kind::PkEcdh) {
            let whose = if is_there { nth(7) } else { nth(CABINET_PLACES + 1) };
            let mut record = key(&mut random, &whose);
            let mut wrong = (0, 0);
            if is_faulty {
                record = sample::faulty(&mut random, Kind::PkEcdh, &[fault]);
                wrong = own(&record).expect_err("it is faulty");
            }
            let mut bytes = if is_full { full.clone() } else { less.clone() };
            if is_none {
                let place = random.below(CABINET_PLACES - 1);
                bytes[place * CABINET_WIDTH + CABINET_TVP_AT - 1] = random.one_of(b"\n 0A");
            }
            let wanted = first([
                (is_none, NO_CABINET),
                (is_faulty, wrong),
                (is_there, NOT_LATER),
                (is_full, NO_PLACE),
            ]);
            expect_put(&mut bytes, &record, wanted, &format!("{choice} {fault:?}"));
        }
    }
}

/// Every choice of: no cabinet, an identity with a fault, none of its names there.
#[test]
fn every_choice_of_faults_in_an_identity() {
    let mut random = Random::with_seed(208);
    let some = filled(&mut random, 20).bytes;
    for choice in 0..8 {
        let [is_none, is_faulty, is_absent] = [1, 2, 4].map(|bit| choice & bit != 0);
        for kind in Kind::IDENTITIES {
            for &fault in Fault::of(kind) {
                let whose = if is_absent { nth(21) } else { nth(11) };
                let mut asking = identity(&mut random, &whose);
                let mut wrong = (0, 0);
                if is_faulty {
                    asking = sample::faulty(&mut random, kind, &[fault]);
                    wrong = asked(&asking).expect_err("it is faulty");
                }
                let mut bytes = some.clone();
                if is_none {
                    let last = bytes.len() - 1;
                    bytes[random.one_of(&[0, 1023, 40_000, last])] ^= 0x80;
                }
                let before = bytes.clone();
                let wanted =
                    first([(is_none, NO_CABINET), (is_faulty, wrong), (is_absent, NOT_THERE)]);
                assert_eq!(numbers(find_key(&bytes, &asking)).map(drop), wanted, "{choice}");
                assert!(bytes == before);
                let said = numbers(remove_key(&mut bytes, &asking));
                assert_eq!(said, wanted, "{choice} {fault:?}");
                assert!(said.is_ok() || bytes == before, "{choice}");
            }
        }
    }
}

/// Every choice of: no cabinet, a request with a fault, a module that is not there, a TVP that is not later.
#[test]
fn every_choice_of_faults_in_a_request() {
    let mut random = Random::with_seed(220);
    let mut some = filled(&mut random, 20);
    assert_eq!(some.admit(&request(&mut random, &nth_module(3), EQUAL)), Ok(()));
    for choice in 0..16 {
        let [is_none, is_faulty, is_absent, is_old] = [1, 2, 4, 8].map(|bit| choice & bit != 0);
        for &fault in Fault::of(Kind::VkloadReq) {
            let whose = if is_absent { nth_module(7) } else { nth_module(3) };
            let tvp = if is_old { random.one_of(&[&START[..], EARLIER, EQUAL]) } else { LATER };
            let mut asking = request(&mut random, &whose, tvp);
            let mut wrong = (0, 0);
            if is_faulty {
                asking = sample::faulty(&mut random, Kind::VkloadReq, &[fault]);
                wrong = requested(&asking).expect_err("it is faulty");
            }
            let mut bytes = some.bytes.clone();
            if is_none {
                let place = random.below(20);
                bytes[place * CABINET_WIDTH + CABINET_TVP_AT + random.below(16)] ^= 0x80;
            }
            let before = bytes.clone();
            let wanted = first([
                (is_none, NO_CABINET),
                (is_faulty, wrong),
                (is_absent, NOT_THERE),
                (is_old, TVP_NOT_LATER),
            ]);
            let said = numbers(admit(&mut bytes, &asking));
            assert_eq!(said, wanted, "{choice} {fault:?}");
            assert!(said.is_ok() || bytes == before, "{choice}");
        }
    }
}

// ---- what is no cabinet

#[test]
fn other_lengths() {
    let mut random = Random::with_seed(209);
    let whole = filled(&mut random, 3).bytes;
    let twice = [&whole[..], &whole].concat();
    let padded = [&whole[..], &[0; CABINET_SIZE]].concat();
    for len in [0, 1, 1023, 1024, 64, 65_535, 65_537, 65_536 + 1024, 131_071, 131_072] {
        for bytes in [&twice, &padded, &vec![0; 131_072]] {
            expect_no_cabinet(&mut bytes[..len].to_vec(), &format!("{len} bytes"));
        }
        let mut bytes = lent(len);
        assert_eq!(numbers(Cabinet::make(&mut bytes).map(drop)), Err(NO_CABINET));
        assert_eq!(numbers(make_cabinet(&mut bytes)), Err(NO_CABINET));
        assert_eq!(bytes, lent(len));
    }
}

/// A byte that is not zero, in a free place or behind a record.
#[test]
fn bytes_that_are_not_zeros() {
    let mut random = Random::with_seed(210);
    let both = filled(&mut random, 3);
    let len = both.model.0[2].as_ref().expect("a key").record.len();
    let ends = (2 * CABINET_WIDTH + len..2 * CABINET_WIDTH + CABINET_TVP_AT).step_by(7);
    let free = (3..CABINET_PLACES).map(|place| place * CABINET_WIDTH);
    let free = free.flat_map(|start| [start, start + 1, start + 1023]);
    for at in ends.chain(free).chain([2 * CABINET_WIDTH + len]) {
        let mut bytes = both.bytes.clone();
        bytes[at] = random.one_of(b"\x01\n\r 0AP|#\x80\xFF");
        expect_no_cabinet(&mut bytes, &format!("byte {at}"));
    }
}

/// In every place of a record, another byte and a zero.
#[test]
fn damaged_records() {
    let mut random = Random::with_seed(211);
    let both = filled(&mut random, 2);
    let len = both.model.0[1].as_ref().expect("a key").record.len();
    for at in CABINET_WIDTH..CABINET_WIDTH + len {
        for byte in [0, both.bytes[at] ^ (1 << (at % 8))] {
            let mut bytes = both.bytes.clone();
            bytes[at] = byte;
            expect_no_cabinet(&mut bytes, &format!("{byte} at {at}"));
        }
    }
}

/// A record that is cut, moved, followed by another or by a line feed; of another kind; or refused.
#[test]
fn other_contents() {
    let mut random = Random::with_seed(212);
    let both = filled(&mut random, 3);
    let other = key(&mut random, &nth(9));
    let number = Held::of(&other).expiry;
    assert_eq!(numbers(check_cabinet(&with_place(&both.bytes, 40, &other, number))), Ok(()));
    let mut wrong: Vec<Vec<u8>> = (1..other.len()).map(|len| other[..len].to_vec()).collect();
    wrong.extend((1..other.len()).map(|len| other[len..].to_vec()));
    wrong.extend([
        [b"\0", &other[..]].concat(),
        [&other[..], b"\n"].concat(),
        [&other[..], b"\0\0", &other[..20]].concat(),
        [&other[..], &key(&mut random, &nth(10))[..200]].concat(),
        sample::anything(&mut random).into_iter().take(1).collect(),
    ]);
    for kind in Kind::ALL {
        if !Kind::PUBLIC_KEYS.contains(&kind) {
            wrong.push(sample::record(&mut random, kind));
            continue;
        }
        for &fault in Fault::of(kind) {
            let faulty = sample::faulty(&mut random, kind, &[fault]);
            if faulty.len() <= CABINET_TVP_AT {
                wrong.push(faulty);
            }
        }
    }
    for front in wrong.iter().filter(|front| !front.is_empty()) {
        for number in [number, 0] {
            let mut bytes = with_place(&both.bytes, 40, front, number);
            expect_no_cabinet(&mut bytes, &format!("{front:?}"));
        }
    }
}

/// Of two records with the same names in any two places, whatever their GNTs.
#[test]
fn the_same_names_twice() {
    let mut random = Random::with_seed(213);
    for count in [1, 3, CABINET_PLACES] {
        let both = filled(&mut random, count);
        for _ in 0..rounds().div_ceil(100) {
            let number = random.below(count);
            let place = (number + 1 + random.below(CABINET_PLACES - 1)) % CABINET_PLACES;
            let gnt = random.one_of(&[EARLIER, EQUAL, LATER]);
            let twice = key(&mut random, &at(nth(number), gnt));
            let mut bytes = with_place(&both.bytes, place, &twice, Held::of(&twice).expiry);
            expect_no_cabinet(&mut bytes, &format!("{number} in {place}"));
        }
    }
}

/// Places may stand in any order, with free ones between them: the bytes are a cabinet all the same, and the calls go on.
#[test]
fn places_in_any_order() {
    let mut random = Random::with_seed(214);
    for _ in 0..rounds().div_ceil(100) {
        let mut both = Both::new();
        for number in 0..30 {
            let at = random.below(CABINET_PLACES);
            let record = key(&mut random, &nth(number));
            both.model.0[at] = Some(Held::of(&record));
        }
        both.bytes = both.model.image();
        both.agree();
        for number in 0..40 {
            let _ = both.find(&identity(&mut random, &nth(number)));
        }
        let _ = both.put(&key(&mut random, &at(nth(3), LATER)));
        let _ = both.remove(&identity(&mut random, &nth(4)));
        let _ = both.put(&key(&mut random, &nth(50)));
    }
}

// ---- the number of Expiry

/// Dates, and their seconds in the last eight bytes of a place.
const NUMBERS: [(&str, [u8; 8]); 10] = [
    ("19930101T000000Z", [0; 8]),
    ("19930101T000001Z", [0, 0, 0, 0, 0, 0, 0, 1]),
    ("19921231T235959Z", [0xFF; 8]),
    ("00010101T000000Z", [0xFF, 0xFF, 0xFF, 0xF1, 0x5D, 0x2A, 0x7F, 0x80]),
    ("99991231T235959Z", [0, 0, 0, 0x3A, 0xD4, 0xB0, 0xB7, 0xFF]),
    ("20210110T120000Z", [0, 0, 0, 0, 0x34, 0xB7, 0x62, 0xC0]),
    ("19700101T000000Z", [0xFF, 0xFF, 0xFF, 0xFF, 0xD4, 0xBC, 0x76, 0x80]),
    ("20610119T031408Z", [0, 0, 0, 0, 0x80, 0, 0, 0]),
    ("19241213T204551Z", [0xFF, 0xFF, 0xFF, 0xFF, 0x7F, 0xFF, 0xFF, 0xFF]),
    ("21290207T062816Z", [0, 0, 0, 1, 0, 0, 0, 0]),
];

/// The last eight bytes of a place.
fn number_in(cabinet: &[u8], place: usize) -> [u8; 8] {
    let place = &cabinet[place * CABINET_WIDTH..][..CABINET_WIDTH];
    place[CABINET_NUMBER_AT..].try_into().expect("eight bytes")
}

/// After a put, a replacement and a removal, in the first place and in the last.
#[test]
fn numbers_go_with_their_keys() {
    let mut random = Random::with_seed(216);
    let last = CABINET_PLACES - 1;
    let some = filled(&mut random, last);
    for whose in [0, last] {
        for (index, (expiry, number)) in NUMBERS.iter().enumerate() {
            let (next, next_number) = NUMBERS[(index + 1) % NUMBERS.len()];
            let mut both = some.clone();
            let _ = both.remove(&identity(&mut random, &nth(whose)));
            assert_eq!(both.put(&key_until(&mut random, &nth(whose), expiry)), Ok(()));
            assert_eq!(number_in(&both.bytes, whose), *number, "{expiry}");
            let earlier = key_until(&mut random, &at(nth(whose), EARLIER), next);
            assert_eq!(both.put(&earlier), Err(NOT_LATER));
            assert_eq!(number_in(&both.bytes, whose), *number, "{expiry}");
            let later = key_until(&mut random, &at(nth(whose), LATER), next);
            assert_eq!(both.put(&later), Ok(()));
            assert_eq!(number_in(&both.bytes, whose), next_number, "{next}");
            assert_eq!(both.remove(&identity(&mut random, &nth(whose))), Ok(()));
            assert_eq!(number_in(&both.bytes, whose), [0; 8]);
        }
    }
}

/// One more or less, zeros, in little endian, of the other sign, cut to 32 bits; and with every bit changed.
#[test]
fn other_numbers() {
    let mut random = Random::with_seed(217);
    let both = filled(&mut random, 3);
    for (expiry, bytes) in NUMBERS {
        let (record, right) = (key_until(&mut random, &nth(9), expiry), i64::from_be_bytes(bytes));
        let cabinet = with_place(&both.bytes, 40, &record, right);
        assert_eq!(numbers(check_cabinet(&cabinet)), Ok(()), "{expiry}");
        let mut others = vec![0, right + 1, right - 1, right.swap_bytes(), -right, !right];
        others.extend([right << 32, right >> 32, right << 8, right >> 8, i64::MIN, i64::MAX]);
        others.extend((0..64).map(|bit| right ^ (1 << bit)));
        others.extend([0; 10].map(|_| i64::from_be_bytes(random.bytes(8).try_into().unwrap())));
        for other in others.into_iter().filter(|&other| other != right) {
            let mut cabinet = with_place(&both.bytes, 40, &record, other);
            expect_no_cabinet(&mut cabinet, &format!("{other} for {expiry}"));
        }
        for at in CABINET_TVP_AT - 9..CABINET_NUMBER_AT {
            let mut cabinet = cabinet.clone();
            cabinet[40 * CABINET_WIDTH + at] = random.one_of(b"\x01\x80\xFFA");
            expect_no_cabinet(&mut cabinet, &format!("byte {at} before {expiry}"));
        }
        let mut alone = with_place(&both.bytes, 40, b"", right);
        expect_no_cabinet(&mut alone, &format!("{right}, a TVP and no key"));
        if right != 0 {
            let mut alone = with_bytes(&both.bytes, 40, &place_from(b"", &[0; 16], right));
            expect_no_cabinet(&mut alone, &format!("{right} and no key"));
        }
    }
}

/// In every place of a full cabinet, the number of the next one.
#[test]
fn numbers_of_other_places() {
    let mut random = Random::with_seed(218);
    let both = filled(&mut random, CABINET_PLACES);
    for place in 0..CABINET_PLACES {
        let held = both.model.0[place].as_ref().expect("a key");
        let next = i64::from_be_bytes(number_in(&both.bytes, (place + 1) % CABINET_PLACES));
        assert_ne!(held.expiry, next);
        let mut bytes = with_place(&both.bytes, place, &held.record, next);
        expect_no_cabinet(&mut bytes, &format!("place {place}"));
    }
}

// ---- the last TVP

/// Admitted once, and again only where the key was taken out and put in again.
#[test]
fn the_worked_request() {
    let mut random = Random::with_seed(221);
    let mut both = Both::new();
    let (request, tvp) = (worked("VKLOADREQ"), b"20180125T150000Z");
    for name in ["PUBKEY_KMC", "PUBKEY_MAN"] {
        assert_eq!(both.put(&worked(name)), Ok(()));
        assert_eq!(both.admit(&request), Err(NOT_THERE));
    }
    let module = subject(Kind::Smid, b"Prism", b"06000001", EARLIER);
    assert_eq!(both.put(&key(&mut random, &module)), Ok(()));
    assert_eq!(tvp_in(&both.bytes, 2), START);
    let mut wanted = both.bytes.clone();
    wanted[2 * CABINET_WIDTH + CABINET_TVP_AT..][..16].copy_from_slice(tvp);
    assert_eq!(both.admit(&request), Ok(()));
    assert!(both.bytes == wanted);
    assert_eq!(both.admit(&request), Err(TVP_NOT_LATER));
    // A replacement keeps the TVP, and so does one that is refused.
    assert_eq!(both.put(&worked("PUBKEY_SM_NOSIG")), Err(UNSIGNED));
    assert_eq!(both.put(&key(&mut random, &module)), Err(NOT_LATER));
    assert_eq!(both.admit(&request), Err(TVP_NOT_LATER));
    assert_eq!(both.put(&worked("PUBKEY_SM")), Ok(()));
    assert_eq!(tvp_in(&both.bytes, 2), tvp);
    assert_eq!(both.admit(&request), Err(TVP_NOT_LATER));
    assert_eq!(both.put(&key(&mut random, &at(module, LATER))), Ok(()));
    assert_eq!(tvp_in(&both.bytes, 2), tvp);
    assert_eq!(both.admit(&request), Err(TVP_NOT_LATER));
    assert_eq!(both.remove(&worked("ID_SM")), Ok(()));
    assert_eq!(both.admit(&request), Err(NOT_THERE));
    assert_eq!(both.put(&worked("PUBKEY_SM")), Ok(()));
    assert_eq!(both.admit(&request), Ok(()));
    assert_eq!(both.admit(&request), Err(TVP_NOT_LATER));
    for name in RECORDS.into_iter().filter(|&name| name != "VKLOADREQ") {
        assert_eq!(both.admit(&worked(name)), Err((2, 0)), "{name}");
    }
    for name in IDENTITIES {
        assert_eq!(both.admit(&worked(name)), Err((2, 0)), "{name}");
    }
}

/// The beginning of 1993 is not later than itself, and neither is any date before it.
#[test]
fn the_first_tvp() {
    let mut random = Random::with_seed(222);
    let mut both = filled(&mut random, 10);
    for old in [&START[..], b"19921231T235959Z", b"00010101T000000Z", b"19700101T000000Z"] {
        assert_eq!(both.admit(&request(&mut random, &nth_module(1), old)), Err(TVP_NOT_LATER));
    }
    for next in [&b"19930101T000001Z"[..], b"99991231T235959Z"] {
        let asking = request(&mut random, &nth_module(1), next);
        assert_eq!(both.admit(&asking), Ok(()));
        assert_eq!(both.admit(&asking), Err(TVP_NOT_LATER));
    }
}

/// In every order of the digits of a TVP.
#[test]
fn every_digit_of_the_tvp() {
    let mut random = Random::with_seed(223);
    let (mut both, module) = (filled(&mut random, 2), nth_module(0));
    for _ in 0..rounds().div_ceil(10) {
        assert_eq!(both.remove(&identity(&mut random, &module)), Ok(()));
        assert_eq!(both.put(&key(&mut random, &module)), Ok(()));
        let mut last = START.to_vec();
        for _ in 0..3 {
            let tvp = sample::timestamp(&mut random);
            let wanted = if last < tvp { Ok(()) } else { Err(TVP_NOT_LATER) };
            assert_eq!(both.admit(&request(&mut random, &module, &tvp)), wanted);
            last = last.max(tvp);
        }
    }
}

/// A key of another kind, Manufacturer or MID, nearly the same ones too, is not the module's.
#[test]
fn other_modules() {
    let mut random = Random::with_seed(224);
    let (one, others) = one_and_others();
    let mut both = Both::new();
    for other in &others {
        assert_eq!(both.put(&key(&mut random, other)), Ok(()));
        assert_eq!(both.admit(&request(&mut random, &one, LATER)), Err(NOT_THERE));
    }
    assert_eq!(both.put(&key(&mut random, &one)), Ok(()));
    for other in &others {
        let wanted = if other.kind == Kind::Smid { Ok(()) } else { Err((9, 1)) };
        assert_eq!(both.admit(&request(&mut random, other, LATER)), wanted);
    }
    assert_eq!(tvp_in(&both.bytes, others.len()), START);
    assert_eq!(both.admit(&request(&mut random, &one, EARLIER)), Ok(()));
}

/// Of every module in a full cabinet: a replacement keeps it, a removal drops it, and no other place has another one.
#[test]
fn tvps_go_with_their_modules() {
    let mut random = Random::with_seed(225);
    let mut both = filled(&mut random, CABINET_PLACES);
    for number in 0..CABINET_PLACES / 3 {
        let module = nth_module(number);
        let [one, next] = [EARLIER, EQUAL].map(|tvp| request(&mut random, &module, tvp));
        assert_eq!(both.admit(&next), Ok(()));
        assert_eq!(both.admit(&one), Err(TVP_NOT_LATER));
        assert_eq!(both.put(&key(&mut random, &at(module.clone(), LATER))), Ok(()));
        assert_eq!(both.admit(&next), Err(TVP_NOT_LATER));
        assert_eq!(both.remove(&identity(&mut random, &module)), Ok(()));
        assert_eq!(both.admit(&next), Err(NOT_THERE));
        assert_eq!(both.put(&key(&mut random, &at(module.clone(), EARLIER))), Ok(()));
        assert_eq!(both.admit(&one), Ok(()));
        assert_eq!(both.admit(&next), Ok(()));
        assert_eq!(both.admit(&one), Err(TVP_NOT_LATER));
    }
}

/// What is no TIMESTAMP, or is before 1993, is no TVP of a place, whatever the kind of its key; any other date is, and a module goes
/// on from there.
#[test]
fn other_tvps() {
    let mut random = Random::with_seed(226);
    let both = filled(&mut random, 4);
    let mut texts = [
        "19921231T235959Z",
        "19920229T000000Z",
        "00010101T000000Z",
        "19930229T000000Z",
        "20230431T000000Z",
        "19930101T240000Z",
        "19930101t000000Z",
        "19930101T000000z",
        "1993010100000000",
        " 9930101T000000Z",
        "T000000Z19930101",
        "                ",
        "99991231T235959Z",
        "20000229T000000Z",
        "19930101T000001Z",
    ]
    .map(|text| text.as_bytes().to_vec())
    .to_vec();
    texts.extend([vec![0; 16], vec![0xFF; 16], random.bytes(16)]);
    for _ in 0..rounds().div_ceil(30) {
        let date = sample::timestamp(&mut random);
        let changes = random.between(1, 2);
        texts.push(sample::damaged_anywhere(&mut random, &date, changes));
        texts.extend([date, sample::missing_day(&mut random)]);
    }
    let mut accepted = 0;
    for tvp in texts.iter().filter(|tvp| tvp.len() == START.len()) {
        for place in 0..4 {
            let mut both = both.clone();
            let held = both.model.0[place].as_mut().expect("a key");
            held.tvp.clone_from(tvp);
            both.bytes = both.model.image();
            if !is_tvp(tvp) {
                expect_no_cabinet(&mut both.bytes, &format!("{tvp:?}"));
                continue;
            }
            both.agree();
            accepted += 1;
            if nth(place).kind == Kind::Smid {
                assert_eq!(both.admit(&request(&mut random, &nth(place), tvp)), Err(TVP_NOT_LATER));
                let is_last = tvp == b"99991231T235959Z";
                let last = request(&mut random, &nth(place), b"99991231T235959Z");
                assert_eq!(both.admit(&last).is_ok(), !is_last);
            }
        }
    }
    assert!(accepted > 8, "{accepted}");
    // A TVP without a key.
    let mut alone = with_bytes(&both.bytes, 40, &place_from(b"", START, 0));
    expect_no_cabinet(&mut alone, "a TVP and no key");
}

/// Bytes that were stored before there were TVPs, or numbers, are no cabinet. The records in them, put into an empty one, have both.
#[test]
fn bytes_from_before() {
    let mut random = Random::with_seed(219);
    let both = filled(&mut random, CABINET_PLACES);
    let without = |from: usize, to: usize| {
        let mut bytes = both.bytes.clone();
        bytes.chunks_exact_mut(CABINET_WIDTH).for_each(|place| place[from..to].fill(0));
        bytes
    };
    let mut befores = [
        without(CABINET_TVP_AT, CABINET_NUMBER_AT),
        without(CABINET_TVP_AT, CABINET_WIDTH),
        without(CABINET_NUMBER_AT, CABINET_WIDTH),
    ];
    for before in &mut befores {
        expect_no_cabinet(before, "without TVPs or numbers");
        let mut bytes = vec![0; CABINET_SIZE];
        let mut cabinet = Cabinet::make(&mut bytes).expect("its length");
        for place in before.chunks_exact(CABINET_WIDTH) {
            let record = place.split(|&byte| byte == 0).next().expect("what stands before a zero");
            assert_eq!(cabinet.put(record), Ok(()));
        }
        assert!(bytes == both.bytes);
    }

    // Where the number is zeros a key still needs its TVP.
    let key = key_until(&mut random, &nth(0), "19930101T000000Z");
    let bytes = with_place(&[0; CABINET_SIZE], 0, &key, 0);
    assert_eq!(count_keys(&bytes), Ok(1));
    let mut bytes = with_bytes(&[0; CABINET_SIZE], 0, &place_from(&key, &[0; 16], 0));
    expect_no_cabinet(&mut bytes, "without its TVP");
}

// ---- histories

/// A TVP of few, or one that goes on with the calls.
fn any_tvp(random: &mut Random, call: usize) -> Vec<u8> {
    let few = [&START[..], b"19930101T000001Z", b"19921231T235959Z", EARLIER, EQUAL];
    let year = (1993 + call / 10).min(9999);
    let next = format!("{year:04}0101T0000{:02}Z", random.below(60));
    if random.once_in(3) {
        random.one_of(&few).to_vec()
    } else {
        next.into_bytes()
    }
}

/// What a history may have: a key of one of so many Subjects, with a GNT of few; the same of a module, unsigned; the same, damaged;
/// an identity; a request of the module with these names, whatever the kind of the Subject; the same twice, and damaged; or anything.
fn step(random: &mut Random, both: &mut Both, subjects: usize, call: usize, seen: &mut Seen) {
    let gnts =
        [EARLIER, EQUAL, LATER, b"19930101T000000Z", b"20180121T090000Z", b"99991231T235959Z"];
    let gnt = random.one_of(&gnts);
    let whose = at(nth(random.below(subjects)), gnt);
    match random.below(15) {
        0..=4 => seen.add(&both.put(&key(random, &whose))),
        14 => {
            let module = Subject { kind: Kind::Smid, ..whose };
            assert_eq!(both.put(&unsigned_key(random, &module)), Err(UNSIGNED));
        }
        5 | 6 => seen.add(&both.remove(&identity(random, &whose))),
        7 => seen.add(&both.find(&identity(random, &whose))),
        8 => {
            let record = key(random, &whose);
            let damaged = sample::damaged_anywhere(random, &record, 1);
            seen.add(&both.put(&sample::resealed(&damaged)));
            seen.add(&both.put(&damaged));
        }
        9..=11 => {
            let (tvp, module) = (any_tvp(random, call), Subject { kind: Kind::Smid, ..whose });
            let request = request(random, &module, &tvp);
            seen.add(&both.admit(&request));
            assert!(both.admit(&request).is_err());
        }
        12 => {
            let (tvp, module) = (any_tvp(random, call), Subject { kind: Kind::Smid, ..whose });
            let request = request(random, &module, &tvp);
            let damaged = sample::damaged_anywhere(random, &request, 1);
            seen.add(&both.admit(&sample::resealed(&damaged)));
            seen.add(&both.admit(&damaged));
        }
        _ => {
            let any = sample::anything(random);
            seen.add(&both.put(&any));
            seen.add(&both.remove(&any));
            seen.add(&both.find(&any));
            seen.add(&both.admit(&any));
        }
    }
}

/// Calls on a cabinet, and the keys that are there afterwards.
fn history(random: &mut Random, mut both: Both, subjects: usize, calls: usize, seen: &mut Seen) {
    for call in 0..calls {
        step(random, &mut both, subjects, call, seen);
    }
    for number in 0..subjects {
        let _ = both.find(&identity(random, &nth(number)));
    }
}

/// The occupied places number the accepted first puts less the accepted removals, find gives the last accepted put that was not
/// removed, and no request is admitted twice between: so says the plain cabinet, which every call is held against.
#[test]
fn histories() {
    let mut random = Random::with_seed(215);
    let mut seen = Seen::default();
    for subjects in [2, 10, 70, 80, 200] {
        history(&mut random, Both::new(), subjects, rounds().div_ceil(6), &mut seen);
    }
    seen.expect([0, 24, 25, 26, 27, 2, 4, 6], 5);
}

/// The same from bytes that an earlier version stored: keys of some of the Subjects in some of the places, with any TVP, and those of
/// modules old or not.
#[test]
fn histories_with_old_records() {
    let mut random = Random::with_seed(227);
    let mut seen = Seen::default();
    for subjects in [2, 10, 70, 80, 200] {
        let mut both = Both::new();
        for place in 0..CABINET_PLACES.min(subjects) {
            let whose = at(nth(place), random.one_of(&[EARLIER, EQUAL, LATER]));
            let is_unsigned = whose.kind == Kind::Smid && random.once_in(2);
            let make = if is_unsigned { unsigned_key } else { key };
            let tvp = random.one_of(&[&START[..], EARLIER, EQUAL]).to_vec();
            let held = Held { tvp, ..Held::of(&make(&mut random, &whose)) };
            both.model.0[place] = (!random.once_in(4)).then_some(held);
        }
        both.store();
        history(&mut random, both, subjects, rounds().div_ceil(6), &mut seen);
    }
    seen.expect([0, 24, 25, 26, 27, 2, 4, 6], 5);
}

// ---- the type

#[test]
fn a_cabinet_shows_its_bytes() {
    let mut bytes = lent(CABINET_SIZE);
    let mut cabinet = Cabinet::make(&mut bytes).expect("its length");
    assert_eq!(format!("{cabinet:?}"), "Cabinet { count: Ok(0), .. }");
    cabinet.put(&worked("PUBKEY_SM")).expect("a free place");
    assert_eq!(format!("{cabinet:?}"), "Cabinet { count: Ok(1), .. }");
    assert!(cabinet.bytes().starts_with(&worked("PUBKEY_SM")));
    let found = cabinet.find(&worked("ID_SM")).expect("it was put");
    assert_eq!(place(found), place(&cabinet.bytes()[..found.len()]));
    assert_eq!(Record::read(found).map(|record| record.kind()), Ok(obscurlane::Kind::Ecdh));
}

/// In the order of their places, each a part of the bytes, with the last TVP and its seconds.
#[test]
fn a_cabinet_hands_out_its_keys() {
    let mut bytes = lent(CABINET_SIZE);
    let mut cabinet = Cabinet::make(&mut bytes).expect("its length");
    assert_eq!(cabinet.keys().map(Iterator::count), Ok(0));
    for name in ["PUBKEY_KMC", "PUBKEY_MAN", "PUBKEY_SM"] {
        cabinet.put(&worked(name)).expect("a free place");
    }
    cabinet.remove(&worked("ID_MAN")).expect("it was put");
    cabinet.admit(&worked("VKLOADREQ")).expect("its module is there");
    let mut keys = cabinet.keys().expect("a cabinet");
    let shown = format!("{keys:?}");
    assert!(shown.starts_with("[HeldKey { record: \"PK.ECDH.1|KMCID.1:"), "{shown}");
    let last = "|4971\", tvp: \"20180125T150000Z\", expiry: 252676411199, is_old: false }]";
    assert!(shown.ends_with(last), "{shown}");
    for (at, name, tvp, expiry) in [
        (0, "PUBKEY_KMC", START, 884_433_600),
        (2, "PUBKEY_SM", b"20180125T150000Z", 252_676_411_199),
    ] {
        let key = keys.next().expect("a key");
        assert_eq!((key.record, key.expiry), (&worked(name)[..], expiry));
        assert_eq!((key.tvp, place(key.tvp)), (&tvp[..], place(tvp_in(cabinet.bytes(), at))));
        assert_eq!(
            place(key.record),
            place(&cabinet.bytes()[at * CABINET_WIDTH..][..key.record.len()])
        );
        assert_eq!(obscurlane::expiry_of(key.record), Ok(expiry));
        assert!(!key.is_old());
    }
    assert_eq!((keys.next(), keys.next()), (None, None));
}
