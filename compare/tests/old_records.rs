//! The implementation held against request E11 on cabinets: what is old stays in its place, nobody finds it, and it is
//! replaced and removed.

use compare::cabinet::{
    admit, check, count, find, make, put, remove, NUMBER_AT, PLACES, SIZE, START, TVP_AT, WIDTH,
};
use compare::kind::Kind;
use compare::moment::moment_of;
use compare::random::Random;
use compare::refusal::Refusal;
use compare::sample::{Exchange, PublicKey, Signed, Subject};
use compare::worked::{worked, UNSIGNED};
use std::collections::BTreeMap;

/// An image of an earlier release with these records, each with the TVP of a first put.
fn image(places: &[(usize, &[u8])]) -> Vec<u8> {
    let mut lent = vec![0; SIZE];
    for (place, record) in places {
        hold(&mut lent, *place, record, &START);
    }
    lent
}

fn hold(lent: &mut [u8], place: usize, record: &[u8], tvp: &[u8]) {
    let place = &mut lent[place * WIDTH..][..WIDTH];
    let expiry = PublicKey::of_record(record).expiry;
    let number = moment_of(&expiry).expect("an Expiry");
    place.fill(0);
    place[..record.len()].copy_from_slice(record);
    place[TVP_AT..NUMBER_AT].copy_from_slice(tvp);
    place[NUMBER_AT..].copy_from_slice(&number.to_be_bytes());
}

/// The module's signed key of document 003 with this GNT.
fn signed(gnt: &str) -> PublicKey {
    let mut key = PublicKey::of_record(&worked("PUBKEY_SM"));
    key.subject.gnt = gnt.into();
    key
}

/// 003's request with another TVP.
fn asking(tvp: &str) -> Vec<u8> {
    Exchange { tvp: tvp.into(), ..Exchange::worked() }.confirmed().request()
}

/// The call answers so, and leaves the lent bytes as they were.
fn refuses(lent: &[u8], no: Refusal, call: impl FnOnce(&mut [u8]) -> Result<(), Refusal>) {
    let mut after = lent.to_vec();
    assert_eq!(call(&mut after), Err(no));
    assert!(after == lent, "a refused call leaves the bytes");
}

#[test]
fn an_old_record_is_there_and_is_not_found() {
    for place in [0, 17, 63] {
        let lent = image(&[(place, &worked(UNSIGNED))]);
        assert_eq!((check(&lent), count(&lent)), (Ok(()), Ok(1)));
        assert_eq!(find(&lent, &worked("ID_SM")), Err(Refusal::NotThere));
        // 26 before 27: a TVP that would not be later.
        for tvp in ["19930101T000000Z", "20180125T150000Z"] {
            refuses(&lent, Refusal::NotThere, |lent| admit(lent, &asking(tvp)));
        }
    }
}

#[test]
fn a_later_signed_key_takes_its_place_and_keeps_the_tvp() {
    for (tvp, next) in [
        (&START, "19930101T000001Z"),
        (b"20180125T150000Z", "20180125T150001Z"),
        (b"99991231T235958Z", "99991231T235959Z"),
    ] {
        let mut lent = image(&[(0, &worked("PUBKEY_KMC")), (63, &worked("PUBKEY_MAN"))]);
        hold(&mut lent, 5, &worked(UNSIGNED), tvp);
        for gnt in ["00010101T000000Z", "20180120T085959Z", "20180120T090000Z"] {
            refuses(&lent, Refusal::NotLater, |lent| put(lent, &signed(gnt).record()));
        }
        let key = signed("20180120T090001Z").record();
        let mut expected = lent.clone();
        hold(&mut expected, 5, &key, tvp);
        assert_eq!(put(&mut lent, &key), Ok(()));
        assert!(lent == expected);
        assert_eq!((find(&lent, &worked("ID_SM")), count(&lent)), (Ok(&key[..]), Ok(3)));
        let last = String::from_utf8(tvp.to_vec()).expect("a text");
        refuses(&lent, Refusal::TvpNotLater, |lent| admit(lent, &asking(&last)));
        assert_eq!(admit(&mut lent, &asking(next)), Ok(()));
    }
}

#[test]
fn no_call_puts_one_in() {
    let old = worked(UNSIGNED);
    let later = signed("20190120T090000Z").unsigned().record();
    let signed = worked("PUBKEY_SM");
    for lent in [image(&[]), image(&[(3, &old)]), image(&[(3, &signed)])] {
        for key in [&old, &later] {
            refuses(&lent, Refusal::UnsignedModule, |lent| put(lent, key));
        }
    }
    // 23 before it.
    let mut lent = image(&[(3, &old)]);
    lent[3 * WIDTH + TVP_AT - 1] = b'x';
    refuses(&lent, Refusal::NoCabinet, |lent| put(lent, &later));
    refuses(&lent[1..], Refusal::NoCabinet, |lent| put(lent, &later));
}

#[test]
fn a_removed_one_leaves_zeros_and_a_first_put_starts_anew() {
    let mut lent = image(&[(1, &worked("PUBKEY_KMC"))]);
    hold(&mut lent, 0, &worked(UNSIGNED), b"20180125T150000Z");
    // By any identity of its kind, Manufacturer and MID, and by no other.
    let subject = signed("20180120T090000Z").subject;
    let print = b"0123456789ABCDEF".to_vec();
    for kind in [Kind::Kmcid, Kind::Smman] {
        let other = Subject { kind, ..subject.clone() }.identity(print.clone());
        refuses(&lent, Refusal::NotThere, |lent| remove(lent, &other));
    }
    let named = Subject { gnt: b"99991231T235959Z".to_vec(), ..subject }.identity(print);
    assert_eq!(remove(&mut lent, &named), Ok(()));
    assert!(lent == image(&[(1, &worked("PUBKEY_KMC"))]));
    refuses(&lent, Refusal::NotThere, |lent| remove(lent, &named));
    refuses(&lent, Refusal::NotThere, |lent| admit(lent, &worked("VKLOADREQ")));
    // An earlier key than the old one, with the first TVP.
    let key = signed("00010101T000000Z").record();
    assert_eq!(put(&mut lent, &key), Ok(()));
    assert!(lent == image(&[(0, &key), (1, &worked("PUBKEY_KMC"))]));
    assert_eq!(admit(&mut lent, &worked("VKLOADREQ")), Ok(()));
}

#[test]
fn an_old_record_holds_its_names() {
    let old = worked(UNSIGNED);
    let other = signed("20190120T090000Z");
    for second in [old.clone(), other.record(), other.clone().unsigned().record()] {
        let lent = image(&[(0, &old), (63, &second)]);
        assert_eq!(
            (check(&lent), count(&lent)),
            (Err(Refusal::NoCabinet), Err(Refusal::NoCabinet))
        );
    }
    // A centre's and a manufacturer's of the same Manufacturer and MID are others, and are not old.
    let mut random = Random::with_seed(30);
    let mut lent = image(&[(7, &old)]);
    for kind in [Kind::Kmcid, Kind::Smman] {
        let subject = Subject { kind, ..other.subject.clone() };
        let key = PublicKey::of(&mut random, subject, Signed::No).unsigned();
        assert_eq!(put(&mut lent, &key.record()), Ok(()));
        assert_eq!(find(&lent, &key.fields()[0]), Ok(&key.record()[..]));
    }
    assert_eq!(count(&lent), Ok(3));
    assert_eq!(lent[7 * WIDTH..][..old.len()], old);
}

/// All else of a place is held to the rules of any record.
#[test]
fn what_was_no_cabinet_is_none() {
    let right = image(&[(9, &worked(UNSIGNED))]);
    let spoiled = |byte: usize, change: u8| {
        let mut lent = right.clone();
        lent[9 * WIDTH + byte] ^= change;
        check(&lent)
    };
    for byte in [0, 100, 288, 289, 290, TVP_AT - 1, TVP_AT, TVP_AT + 15, NUMBER_AT, WIDTH - 1] {
        for change in [1, 0x20, 0x80] {
            assert_eq!(spoiled(byte, change), Err(Refusal::NoCabinet), "{byte}");
        }
    }
    // Unsigned keys that were refused before: half signed, and with a Subject, a Q or an Expiry that is none.
    let changes: [fn(&mut PublicKey); 4] = [
        |key| key.issuer = worked("ID_MAN"),
        |key| key.signature = worked("SIG_SM"),
        |key| key.subject.kind = Kind::Smman,
        |key| key.q[0] = b'1',
    ];
    for change in changes {
        let mut key = PublicKey::of_record(&worked(UNSIGNED));
        change(&mut key);
        let mut lent = right.clone();
        lent[9 * WIDTH..][..TVP_AT].fill(0);
        lent[9 * WIDTH..][..key.record().len()].copy_from_slice(&key.record());
        assert_eq!(check(&lent), Err(Refusal::NoCabinet));
    }
}

/// The keys of so many modules with this GNT.
fn crowd(gnt: &str) -> Vec<PublicKey> {
    let mut random = Random::with_seed(31);
    let subject = |index: usize| Subject {
        kind: Kind::Smid,
        manufacturer: b"Prism".to_vec(),
        mid: format!("{index:08}").into_bytes(),
        gnt: gnt.into(),
    };
    (0..=PLACES).map(|index| PublicKey::of(&mut random, subject(index), Signed::Yes)).collect()
}

#[test]
fn old_records_leave_no_room_for_others() {
    let keys = crowd("20180120T090000Z");
    let records: Vec<Vec<u8>> = keys.iter().map(|key| key.clone().unsigned().record()).collect();
    let held: Vec<(usize, &[u8])> =
        records[..PLACES].iter().map(Vec::as_slice).enumerate().collect();
    let mut lent = image(&held);
    assert_eq!((check(&lent), count(&lent)), (Ok(()), Ok(PLACES)));
    let other = keys[PLACES].record();
    refuses(&lent, Refusal::NoPlace, |lent| put(lent, &other));
    refuses(&lent, Refusal::NoPlace, |lent| put(lent, &worked("PUBKEY_KMC")));
    refuses(&lent, Refusal::UnsignedModule, |lent| put(lent, &records[PLACES]));
    // Each gives its place to its own Subject, and to another when it was removed.
    let later = crowd("20180120T090001Z");
    assert_eq!(put(&mut lent, &later[40].record()), Ok(()));
    assert_eq!(lent[40 * WIDTH..][..later[40].record().len()], later[40].record());
    refuses(&lent, Refusal::NoPlace, |lent| put(lent, &other));
    assert_eq!(remove(&mut lent, &keys[31].fields()[0]), Ok(()));
    assert_eq!(put(&mut lent, &other), Ok(()));
    assert_eq!(lent[31 * WIDTH..][..other.len()], other);
}

/// A made cabinet has none.
#[test]
fn making_a_cabinet_takes_them_out() {
    let mut lent = image(&[(0, &worked(UNSIGNED))]);
    assert_eq!((make(&mut lent), count(&lent)), (Ok(()), Ok(0)));
    assert_eq!(put(&mut lent, &worked("PUBKEY_SM")), Ok(()));
}

const GNTS: [&str; 3] = ["20180101T000000Z", "20180101T000001Z", "20180102T000000Z"];
const TVPS: [&str; 4] =
    ["19930101T000000Z", "19930101T000001Z", "20180125T150000Z", "99991231T235959Z"];

/// What a module has in its place: the time of its key, whether that is old, and the last TVP.
#[derive(Clone, Copy)]
struct Kept {
    time: usize,
    is_old: bool,
    tvp: &'static str,
}

/// A cabinet, and what the request says of each of its modules.
struct History {
    keys: [Vec<PublicKey>; 3],
    lent: Vec<u8>,
    kept: BTreeMap<usize, Kept>,
}

impl History {
    /// An image of an earlier release: most of its keys are old.
    fn begin(random: &mut Random) -> History {
        let (keys, mut lent, mut kept) = (GNTS.map(crowd), vec![0; SIZE], BTreeMap::new());
        for (module, place) in (0..60).step_by(10).enumerate() {
            let (time, is_old) = (random.below(2), !random.once_in(4));
            let tvp = random.one_of(&TVPS);
            let key = keys[time][module].clone();
            let key = if is_old { key.unsigned() } else { key };
            hold(&mut lent, place, &key.record(), tvp.as_bytes());
            kept.insert(module, Kept { time, is_old, tvp });
        }
        History { keys, lent, kept }
    }

    fn identity(&self, module: usize) -> Vec<u8> {
        self.keys[0][module].fields().swap_remove(0)
    }

    fn remove(&mut self, module: usize) -> Result<(), Refusal> {
        let named = self.identity(module);
        let expected = self.kept.remove(&module).map(|_| ()).ok_or(Refusal::NotThere);
        assert_eq!(remove(&mut self.lent, &named), expected);
        expected
    }

    fn put(&mut self, module: usize, time: usize) -> Result<(), Refusal> {
        let here = self.kept.get(&module).copied();
        let expected = match here {
            Some(here) if time <= here.time => Err(Refusal::NotLater),
            _ => Ok(()),
        };
        if expected.is_ok() {
            let tvp = here.map_or(TVPS[0], |here| here.tvp);
            self.kept.insert(module, Kept { time, is_old: false, tvp });
        }
        assert_eq!(put(&mut self.lent, &self.keys[time][module].record()), expected);
        expected
    }

    fn put_unsigned(&mut self, module: usize, time: usize) -> Result<(), Refusal> {
        let key = self.keys[time][module].clone().unsigned();
        let expected = Err(Refusal::UnsignedModule);
        assert_eq!(put(&mut self.lent, &key.record()), expected);
        expected
    }

    fn admit(&mut self, module: usize, tvp: &'static str) -> Result<(), Refusal> {
        let id_sm = self.identity(module);
        let expected = match self.kept.get_mut(&module).filter(|here| !here.is_old) {
            None => Err(Refusal::NotThere),
            Some(here) if tvp <= here.tvp => Err(Refusal::TvpNotLater),
            Some(here) => {
                here.tvp = tvp;
                Ok(())
            }
        };
        let request = Exchange { id_sm, tvp: tvp.into(), ..Exchange::worked() }.request();
        assert_eq!(admit(&mut self.lent, &request), expected);
        expected
    }

    /// What is found of a module, and how many are there.
    fn compare(&self, module: usize) {
        let found = self.kept.get(&module).filter(|here| !here.is_old);
        let found = found.map(|here| self.keys[here.time][module].record());
        assert_eq!(find(&self.lent, &self.identity(module)).ok(), found.as_deref());
        assert_eq!(count(&self.lent), Ok(self.kept.len()));
    }
}

/// Calls of every sort on images with old records.
#[test]
fn histories_go_on_from_images_with_old_records() {
    let mut random = Random::with_seed(32);
    let mut counts = BTreeMap::new();
    for _ in 0..30 {
        let mut history = History::begin(&mut random);
        for _ in 0..60 {
            let (module, time) = (random.below(8), random.below(3));
            let tvp = random.one_of(&TVPS);
            let answer = match random.below(8) {
                0 => history.remove(module),
                1 => history.put_unsigned(module, time),
                2..=4 => history.put(module, time),
                _ => history.admit(module, tvp),
            };
            history.compare(module);
            *counts.entry(answer.map_or_else(Refusal::number, |()| 0)).or_insert(0) += 1;
        }
    }
    for number in [0, 24, 26, 27, 28] {
        assert!(counts.get(&number).is_some_and(|&count| count >= 50), "{counts:?}");
    }
}
