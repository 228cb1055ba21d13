//! Old records in the key cabinet: unsigned keys of modules, in bytes that were stored when these were accepted.

mod held;

use compare::kind::Kind;
use compare::random::Random;
use compare::sample::{self, Fault, Subject};
use compare::worked::worked;
use held::cabinet::{
    expect_no_cabinet, expect_put, is_tvp, own, requested, tvp_in, with_bytes, with_place, Both,
    Held, NOT_LATER, NOT_THERE, NO_CABINET, NO_PLACE, START, TVP_NOT_LATER, UNSIGNED,
};
use held::keys::{
    at, identity, key, nth, nth_module, request, subject, unsigned_key, EARLIER, EQUAL, LATER,
};
use held::{first, numbers, place, rounds};
use obscurlane::{
    admit, check_cabinet, count_keys, held_keys, Cabinet, HeldKey, Reason, Record, CABINET_PLACES,
    CABINET_SIZE, CABINET_TVP_AT, CABINET_WIDTH,
};

// ---- bytes that were stored

/// A cabinet with 003's unsigned key in this place, by the layout alone: the record, zeros, the TVP and the number of its Expiry.
fn by_layout(place: usize, tvp: &[u8; 16]) -> Vec<u8> {
    let (mut bytes, key) = (vec![0; 65_536], worked("PUBKEY_SM_NOSIG"));
    bytes[place * 1024..][..key.len()].copy_from_slice(&key);
    bytes[place * 1024 + 1000..][..16].copy_from_slice(tvp);
    bytes[place * 1024 + 1016..][..8].copy_from_slice(&[0, 0, 0, 0x3A, 0xD4, 0xB0, 0x0F, 0x3F]);
    bytes
}

/// The same with the plain cabinet beside it.
fn stored(place: usize, tvp: &[u8; 16]) -> Both {
    let mut both = Both::new();
    let held = Held { tvp: tvp.to_vec(), ..Held::of(&worked("PUBKEY_SM_NOSIG")) };
    both.model.0[place] = Some(held);
    both.store();
    assert!(both.bytes == by_layout(place, tvp));
    both
}

const TVPS: [&[u8; 16]; 4] = [START, b"19930101T000001Z", b"20180125T150000Z", b"99991231T235959Z"];

/// 003's module, with this GNT.
fn module(gnt: &[u8]) -> Subject {
    subject(Kind::Smid, b"Prism", b"06000001", gnt)
}

/// A full cabinet in which every module's key is old, and every other key unsigned.
fn full(random: &mut Random) -> Both {
    let mut both = Both::new();
    for number in 0..CABINET_PLACES {
        let tvp = random.one_of(&TVPS[..3]).to_vec();
        let held = Held { tvp, ..Held::of(&unsigned_key(random, &nth(number))) };
        assert_eq!(held.is_old(), nth(number).kind == Kind::Smid);
        both.model.0[number] = Some(held);
    }
    both.store();
    both
}

// ---- the request's words

/// It stays in its place and counts; finding and requests do not see it, whatever its TVP and theirs.
#[test]
fn the_worked_key() {
    let mut random = Random::with_seed(251);
    for tvp in TVPS {
        for place in [0, 5, CABINET_PLACES - 1] {
            let mut both = stored(place, tvp);
            assert_eq!(numbers(check_cabinet(&both.bytes)), Ok(()));
            assert_eq!(count_keys(&both.bytes), Ok(1));
            assert_eq!(both.find(&worked("ID_SM")), Err(NOT_THERE));
            assert_eq!(both.find(&identity(&mut random, &module(LATER))), Err(NOT_THERE));
            assert_eq!(both.admit(&worked("VKLOADREQ")), Err(NOT_THERE));
            for asked in TVPS {
                let request = request(&mut random, &module(EQUAL), asked);
                assert_eq!(both.admit(&request), Err(NOT_THERE));
            }
        }
    }
}

/// By a signed key with a later GNT alone, which takes its place and its TVP.
#[test]
fn replacements() {
    let mut random = Random::with_seed(252);
    for tvp in TVPS {
        let mut both = stored(5, tvp);
        for name in ["PUBKEY_KMC", "PUBKEY_MAN"] {
            assert_eq!(both.put(&worked(name)), Ok(()));
        }
        assert_eq!(both.put(&worked("PUBKEY_SM_NOSIG")), Err(UNSIGNED));
        assert_eq!(both.put(&unsigned_key(&mut random, &module(LATER))), Err(UNSIGNED));
        assert_eq!(both.put(&worked("PUBKEY_SM")), Err(NOT_LATER));
        assert_eq!(both.put(&key(&mut random, &module(EARLIER))), Err(NOT_LATER));
        assert_eq!(both.put(&key(&mut random, &module(EQUAL))), Err(NOT_LATER));
        assert_eq!(both.find(&worked("ID_SM")), Err(NOT_THERE));

        let later = key(&mut random, &module(LATER));
        assert_eq!(both.put(&later), Ok(()));
        assert_eq!(both.find(&worked("ID_SM")), Ok(later.clone()));
        assert!(both.bytes[5 * CABINET_WIDTH..].starts_with(&later));
        assert_eq!(tvp_in(&both.bytes, 5), tvp);
        assert_eq!(count_keys(&both.bytes), Ok(3));
        assert_eq!(both.admit(&request(&mut random, &module(EQUAL), tvp)), Err(TVP_NOT_LATER));
        let last = request(&mut random, &module(EQUAL), b"99991231T235959Z");
        assert_eq!(both.admit(&last).is_ok(), tvp != b"99991231T235959Z");
        assert_eq!(
            both.put(&unsigned_key(&mut random, &module(b"99990101T000000Z"))),
            Err(UNSIGNED)
        );
    }
}

/// Its place is all zeros afterwards, and what is put then is a first put.
#[test]
fn removals() {
    for tvp in TVPS {
        let mut both = stored(0, tvp);
        assert_eq!(both.remove(&worked("ID_SM")), Ok(()));
        assert!(both.bytes.iter().all(|&byte| byte == 0));
        assert_eq!(both.remove(&worked("ID_SM")), Err(NOT_THERE));
        assert_eq!(both.put(&worked("PUBKEY_SM")), Ok(()));
        assert_eq!(tvp_in(&both.bytes, 0), START);
        assert_eq!(both.admit(&worked("VKLOADREQ")), Ok(()));
    }
}

/// Of all modules, in a full cabinet: they leave no place to others, and each is replaced or taken out by itself.
#[test]
fn a_full_cabinet() {
    let mut random = Random::with_seed(253);
    let mut both = full(&mut random);
    assert_eq!(count_keys(&both.bytes), Ok(64));
    assert_eq!(both.put(&key(&mut random, &nth(CABINET_PLACES))), Err(NO_PLACE));
    for number in 0..CABINET_PLACES {
        let (whose, is_module) = (nth(number), nth(number).kind == Kind::Smid);
        assert_eq!(both.find(&identity(&mut random, &whose)).is_ok(), !is_module);
        if is_module {
            let tvp = tvp_in(&both.bytes, number).to_vec();
            assert_eq!(
                both.put(&unsigned_key(&mut random, &at(whose.clone(), LATER))),
                Err(UNSIGNED)
            );
            assert_eq!(both.put(&key(&mut random, &whose)), Err(NOT_LATER));
            assert_eq!(both.put(&key(&mut random, &at(whose.clone(), LATER))), Ok(()));
            assert_eq!(tvp_in(&both.bytes, number), tvp);
            assert_eq!(both.admit(&request(&mut random, &whose, &tvp)), Err(TVP_NOT_LATER));
            assert_eq!(both.admit(&request(&mut random, &whose, LATER)).is_ok(), &tvp[..] < LATER);
        }
    }
    let mut both = full(&mut random);
    for (other, number) in (CABINET_PLACES + 1..).zip((1..CABINET_PLACES).step_by(3)) {
        assert_eq!(both.remove(&identity(&mut random, &nth(number))), Ok(()));
        assert_eq!(both.put(&key(&mut random, &nth(other))), Ok(()));
        assert!(both.find(&identity(&mut random, &nth(other))).is_ok());
        assert_eq!(both.find(&identity(&mut random, &nth(number))), Err(NOT_THERE));
    }
}

/// Each with its names, its GNT, its TVP and its seconds, a part of the bytes, and marked; the others are not.
#[test]
fn old_keys_are_listed() {
    let mut random = Random::with_seed(254);
    let mut both = stored(3, b"20180125T150000Z");
    assert_eq!(both.put(&worked("PUBKEY_KMC")), Ok(()));
    assert_eq!(both.put(&key(&mut random, &nth_module(1))), Ok(()));
    let bytes = both.bytes.clone();
    let cabinet = Cabinet::open(&mut both.bytes).expect("a cabinet");
    let keys: Vec<HeldKey> = cabinet.keys().expect("a cabinet").collect();
    assert_eq!(keys.iter().map(HeldKey::is_old).collect::<Vec<_>>(), [false, false, true]);
    let old = keys[2];
    assert_eq!(place(old.record).1, worked("PUBKEY_SM_NOSIG").len());
    assert_eq!((old.record, old.tvp), (&worked("PUBKEY_SM_NOSIG")[..], &b"20180125T150000Z"[..]));
    assert_eq!(place(old.subject()), place(&old.record[10..10 + worked("ID_SM").len()]));
    assert_eq!((old.subject(), old.expiry), (&worked("ID_SM")[..], 252_676_411_199));
    let reason = |record| Record::read(record).map_err(|refusal| refusal.reason).map(drop);
    assert_eq!(reason(old.record), Err(Reason::ModuleUnsigned));
    let shown = format!("{old:?}");
    let end = "|ECD4\", tvp: \"20180125T150000Z\", expiry: 252676411199, is_old: true }";
    assert!(shown.ends_with(end), "{shown}");
    assert!(cabinet.bytes() == bytes);

    // All of a full cabinet, which are then replaced one after the other.
    let mut both = full(&mut random);
    for left in (0..=CABINET_PLACES / 3).rev() {
        let old = held_keys(&both.bytes).expect("a cabinet").filter(HeldKey::is_old);
        let subjects: Vec<Vec<u8>> = old.map(|held| held.subject().to_vec()).collect();
        assert_eq!(subjects.len(), left);
        let Some(subject) = subjects.first() else { break };
        assert_eq!(both.find(subject), Err(NOT_THERE));
        assert_eq!(both.remove(subject), Ok(()));
    }
}

/// A key that no cabinet handed out has no Subject that could be wrong.
#[test]
fn a_held_key_of_any_bytes() {
    for (record, subject) in [(&b""[..], &b""[..]), (b"PK", b""), (b"a|b|c", b"b"), (b"|||", b"")] {
        let held = HeldKey { record, tvp: b"", expiry: 0 };
        assert_eq!((held.subject(), held.is_old()), (subject, true));
    }
    let signed = worked("PUBKEY_SM");
    assert!(!HeldKey { record: &signed, tvp: b"", expiry: 0 }.is_old());
}

// ---- the order of the numbers

/// Every choice of: no cabinet, a record with a fault, an unsigned key of a module, a GNT that is not later than that of an old
/// record, no free place.
#[test]
fn every_choice_of_faults_in_a_put() {
    let mut random = Random::with_seed(255);
    let full = full(&mut random).bytes;
    for choice in 0..32 {
        let [is_none, is_faulty, is_unsigned, is_there, is_full] =
            [1, 2, 4, 8, 16].map(|bit| choice & bit != 0);
        for &fault in Fault::of(Kind::PkEcdh) {
            let whose = if is_there { nth_module(2) } else { nth_module(30) };
            let make = if is_unsigned { unsigned_key } else { key };
            let mut record = make(&mut random, &whose);
            let mut wrong = (0, 0);
            if is_faulty {
                record = sample::faulty(&mut random, Kind::PkEcdh, &[fault]);
                wrong = own(&record).expect_err("it is faulty");
            }
            let free = if is_full { &[][..] } else { &[0; CABINET_WIDTH] };
            let mut bytes = full.clone();
            bytes[40 * CABINET_WIDTH..][..free.len()].copy_from_slice(free);
            if is_none {
                bytes[random.below(40) * CABINET_WIDTH + CABINET_TVP_AT - 1] = b'A';
            }
            let wanted = first([
                (is_none, NO_CABINET),
                (is_faulty, wrong),
                (is_unsigned, UNSIGNED),
                (is_there, NOT_LATER),
                (is_full, NO_PLACE),
            ]);
            expect_put(&mut bytes, &record, wanted, &format!("{choice} {fault:?}"));
        }
    }
}

/// Every choice of: no cabinet, a request with a fault; else its module's key is old, whether its TVP is later or not.
#[test]
fn every_choice_of_faults_in_a_request() {
    let mut random = Random::with_seed(256);
    let full = full(&mut random).bytes;
    for choice in 0..4 {
        let [is_none, is_faulty] = [1, 2].map(|bit| choice & bit != 0);
        for (&fault, tvp) in Fault::of(Kind::VkloadReq).iter().zip(TVPS.into_iter().cycle()) {
            let mut asking = request(&mut random, &nth_module(2), tvp);
            let mut wrong = (0, 0);
            if is_faulty {
                asking = sample::faulty(&mut random, Kind::VkloadReq, &[fault]);
                wrong = requested(&asking).expect_err("it is faulty");
            }
            let mut bytes = full.clone();
            if is_none {
                bytes[random.below(64) * CABINET_WIDTH + CABINET_TVP_AT + 15] = b'z';
            }
            let before = bytes.clone();
            let wanted = first([(is_none, NO_CABINET), (is_faulty, wrong), (true, NOT_THERE)]);
            assert_eq!(numbers(admit(&mut bytes, &asking)), wanted, "{choice} {fault:?}");
            assert!(bytes == before, "{choice}");
        }
    }
}

// ---- what is no cabinet

/// Two old ones, or one of each, in any two places and whatever their GNTs.
#[test]
fn the_same_names_twice() {
    let mut random = Random::with_seed(257);
    for _ in 0..rounds().div_ceil(30) {
        let one = random.below(CABINET_PLACES);
        let other = (one + 1 + random.below(CABINET_PLACES - 1)) % CABINET_PLACES;
        let are_old = random.one_of(&[[true, true], [true, false], [false, true]]);
        let [first, second] = are_old.map(|is_old| {
            let make = if is_old { unsigned_key } else { key };
            let gnt = random.one_of(&[EARLIER, EQUAL, LATER]);
            make(&mut random, &module(gnt))
        });
        let alone = with_place(&[0; CABINET_SIZE], one, &first, Held::of(&first).expiry);
        assert_eq!(numbers(check_cabinet(&alone)), Ok(()));
        let mut bytes = with_place(&alone, other, &second, Held::of(&second).expiry);
        expect_no_cabinet(&mut bytes, &format!("{one} and {other}"));
    }
}

/// The TVP and the number of an old record are held as those of any other, and so is every byte of it.
#[test]
fn other_places() {
    let (key, right) = (worked("PUBKEY_SM_NOSIG"), 252_676_411_199_i64);
    let place_of = |tvp: &[u8], number: i64| {
        let place = held::cabinet::place_from(&key, tvp, number);
        with_bytes(&[0; CABINET_SIZE], 7, &place)
    };
    assert_eq!(numbers(check_cabinet(&place_of(START, right))), Ok(()));
    let mut others = vec![0, right + 1, right - 1, right.swap_bytes(), -right, !right, i64::MIN];
    others.extend((0..64).map(|bit| right ^ (1 << bit)));
    for other in others {
        expect_no_cabinet(&mut place_of(START, other), &format!("{other}"));
    }
    for tvp in [&b"19921231T235959Z"[..], b"19930229T000000Z", b"19930101t000000Z", &[0; 16]] {
        assert!(!is_tvp(tvp));
        expect_no_cabinet(&mut place_of(tvp, right), &format!("{tvp:?}"));
    }
    for at in (0..key.len()).chain((key.len()..1024).step_by(5)) {
        let whole = place_of(b"20180125T150000Z", right);
        for byte in [0, whole[7 * CABINET_WIDTH + at] ^ 0x80] {
            let mut bytes = whole.clone();
            bytes[7 * CABINET_WIDTH + at] = byte;
            if bytes != whole {
                expect_no_cabinet(&mut bytes, &format!("{byte} at {at}"));
            }
        }
    }
}
