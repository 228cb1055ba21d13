//! The key cabinet, held against that of `compare/`, which is given the same bytes, and against a plain one that is written here and
//! keeps its own account: 64 places, each with the names, the GNT, the last TVP, the seconds of Expiry and the record that it has;
//! and the TVPs that were admitted. What is read, `compare/` reads.

use super::{expected, lent, numbers, place, Numbers};
use compare::kind::Kind;
use compare::sample::Subject;
use compare::worked::worked;
use compare::{moment, record};
use obscurlane::{
    admit, check_cabinet, count_keys, find_key, held_keys, put_key, remove_key, Cabinet, HeldKey,
    Identity, Reason, CABINET_NUMBER_AT, CABINET_PLACES, CABINET_SIZE, CABINET_TVP_AT,
    CABINET_WIDTH,
};

pub const NO_CABINET: Numbers = (23, 0);
pub const NOT_LATER: Numbers = (24, 0);
pub const NO_PLACE: Numbers = (25, 0);
pub const NOT_THERE: Numbers = (26, 0);
pub const TVP_NOT_LATER: Numbers = (27, 0);
pub const UNSIGNED: Numbers = (28, 0);

/// A put answers this, and a refused one leaves the bytes.
pub fn expect_put(bytes: &mut [u8], record: &[u8], wanted: Result<(), Numbers>, choice: &str) {
    let before = bytes.to_vec();
    assert_eq!(numbers(put_key(bytes, record)), wanted, "{choice}");
    assert!(wanted.is_ok() || bytes == before, "{choice}");
}

/// The TVP of a module of which no request was admitted.
pub const START: &[u8; 16] = b"19930101T000000Z";

// ---- the plain cabinet

/// Subject kind, Manufacturer and MID.
pub type Names = (Kind, Vec<u8>, Vec<u8>);

pub fn names(subject: &Subject) -> Names {
    (subject.kind, subject.manufacturer.clone(), subject.mid.clone())
}

/// What is in an occupied place.
#[derive(Clone)]
pub struct Held {
    pub names: Names,
    pub gnt: Vec<u8>,
    pub tvp: Vec<u8>,
    pub expiry: i64,
    pub record: Vec<u8>,
}

impl Held {
    /// Of a record that may stand in a place, put in first.
    pub fn of(record: &[u8]) -> Held {
        let fields: Vec<&[u8]> = record.split(|&byte| byte == b'|').collect();
        let subject = record::read_identity(fields[1]).expect("a Subject");
        let [manufacturer, mid, gnt] = [0, 1, 2].map(|index| subject.fields[index].to_vec());
        let expiry = moment::moment_of(fields[3]).expect("an Expiry");
        let (tvp, record) = (START.to_vec(), record.to_vec());
        Held { names: (subject.kind, manufacturer, mid), gnt, tvp, expiry, record }
    }

    /// The unsigned key of a module.
    pub fn is_old(&self) -> bool {
        self.names.0 == Kind::Smid && self.record.windows(3).any(|marks| marks == b"|||")
    }

    pub fn place(&self) -> Vec<u8> {
        place_from(&self.record, &self.tvp, self.expiry)
    }
}

/// A place that begins with these bytes, has zeros after them, and ends with this TVP and this number.
pub fn place_from(front: &[u8], tvp: &[u8], number: i64) -> Vec<u8> {
    let mut place = front.to_vec();
    place.resize(CABINET_TVP_AT, 0);
    place.extend(tvp);
    place.extend(number.to_be_bytes());
    place
}

/// One whose TVP is that of a first put.
pub fn place_with(front: &[u8], number: i64) -> Vec<u8> {
    place_from(front, START, number)
}

/// A TIMESTAMP that is not before the beginning of 1993.
pub fn is_tvp(text: &[u8]) -> bool {
    moment::moment_of(text).is_some_and(|seconds| seconds >= 0)
}

/// The places.
#[derive(Clone)]
pub struct Model(pub Vec<Option<Held>>);

impl Model {
    pub fn new() -> Model {
        Model(vec![None; CABINET_PLACES])
    }

    pub fn place_of(&self, names: &Names) -> Option<usize> {
        self.0.iter().position(|held| held.as_ref().is_some_and(|held| held.names == *names))
    }

    /// The same, where the record there is not old.
    fn current_of(&self, names: &Names) -> Option<usize> {
        let is_old = |&place: &usize| self.0[place].as_ref().is_some_and(Held::is_old);
        self.place_of(names).filter(|place| !is_old(place))
    }

    fn count(&self) -> usize {
        self.0.iter().flatten().count()
    }

    /// Of a record that is accepted.
    fn put(&mut self, record: &[u8]) -> Result<(), Numbers> {
        let mut held = Held::of(record);
        let place = match self.place_of(&held.names) {
            Some(place) => {
                let before = self.0[place].as_ref().expect("it was found");
                held.tvp.clone_from(&before.tvp);
                (before.gnt < held.gnt).then_some(place).ok_or(NOT_LATER)?
            }
            None => self.0.iter().position(Option::is_none).ok_or(NO_PLACE)?,
        };
        self.0[place] = Some(held);
        Ok(())
    }

    fn remove(&mut self, names: &Names) -> Result<(), Numbers> {
        let place = self.place_of(names).ok_or(NOT_THERE)?;
        self.0[place] = None;
        Ok(())
    }

    fn admit(&mut self, names: &Names, tvp: &[u8]) -> Result<(), Numbers> {
        let place = self.current_of(names).ok_or(NOT_THERE)?;
        let held = self.0[place].as_mut().expect("it was found");
        if tvp <= &held.tvp[..] {
            return Err(TVP_NOT_LATER);
        }
        held.tvp = tvp.to_vec();
        Ok(())
    }

    fn find(&self, names: &Names) -> Result<(usize, &[u8]), Numbers> {
        let place = self.current_of(names).ok_or(NOT_THERE)?;
        let held = self.0[place].as_ref().expect("it was found");
        Ok((place * CABINET_WIDTH, &held.record))
    }

    pub fn image(&self) -> Vec<u8> {
        let free = || vec![0; CABINET_WIDTH];
        self.0.iter().flat_map(|held| held.as_ref().map_or_else(free, Held::place)).collect()
    }
}

// ---- both of them

/// What a public key is refused with that is put into a cabinet, before 24 and 25.
pub fn own(bytes: &[u8]) -> Result<(), Numbers> {
    expected(record::read(bytes, &Kind::PUBLIC_KEYS)).map(drop)
}

/// Whether a public key may stand in a place: it is accepted, or it is old, which is told after all other refusals.
pub fn stands(bytes: &[u8]) -> bool {
    matches!(own(bytes), Ok(()) | Err(UNSIGNED))
}

/// Whether these bytes of a place are all zeros, or a public key, zeros after it, a TVP and the seconds of its Expiry.
pub fn is_place(bytes: &[u8]) -> bool {
    if bytes.iter().all(|&byte| byte == 0) {
        return true;
    }
    let len = bytes.iter().position(|&byte| byte == 0).unwrap_or(bytes.len());
    let (record, tvp) = (&bytes[..len], &bytes[CABINET_TVP_AT..CABINET_NUMBER_AT]);
    let is_right = || bytes == place_from(record, tvp, Held::of(record).expiry);
    stands(record) && is_tvp(tvp) && is_right()
}

/// What an identity is refused with, before 26; and its three names.
pub fn asked(bytes: &[u8]) -> Result<Names, Numbers> {
    let read = expected(record::read_identity(bytes))?;
    Ok((read.kind, read.fields[0].to_vec(), read.fields[1].to_vec()))
}

/// What a load request is refused with, before 26 and 27; and the three names of its module and the TVP.
pub fn requested(bytes: &[u8]) -> Result<(Names, Vec<u8>), Numbers> {
    let read = expected(record::read(bytes, &[Kind::VkloadReq]))?;
    Ok((asked(read.fields[0])?, read.fields[2].to_vec()))
}

/// The library's cabinet and the plain one; each call is made on both, and on a copy of the bytes by `compare/`.
#[derive(Clone)]
pub struct Both {
    pub bytes: Vec<u8>,
    pub model: Model,
    /// The requests that were admitted since the latest first put of their module's key.
    admitted: Vec<(Names, Vec<u8>)>,
}

impl Both {
    pub fn new() -> Both {
        let mut bytes = lent(CABINET_SIZE);
        let cabinet = Cabinet::make(&mut bytes).expect("its length");
        assert_eq!(cabinet.count(), Ok(0));
        Both { bytes, model: Model::new(), admitted: Vec::new() }
    }

    /// The lent bytes are those of the plain cabinet, every one.
    pub fn agree(&self) {
        assert!(self.bytes == self.model.image());
        assert_eq!(check_cabinet(&self.bytes), Ok(()));
        assert_eq!(count_keys(&self.bytes), Ok(self.model.count()));
        let mut keys = held_keys(&self.bytes).expect("a cabinet");
        for held in self.model.0.iter().flatten() {
            let Held { names, gnt, tvp, expiry, record } = held;
            let key = HeldKey { record, tvp, expiry: *expiry };
            assert_eq!(keys.next(), Some(key));
            assert_eq!(key.is_old(), held.is_old());
            let subject = Identity::read(key.subject()).expect("a Subject");
            assert_eq!(subject.kind.name(), names.0.name());
            assert_eq!([subject.manufacturer, subject.mid, subject.gnt], [&names.1, &names.2, gnt]);
        }
        assert_eq!(keys.next(), None);
    }

    /// Writes the plain cabinet's bytes, as if they had been stored.
    pub fn store(&mut self) {
        self.bytes = self.model.image();
        self.agree();
    }

    pub fn put(&mut self, record: &[u8]) -> Result<(), Numbers> {
        let mut beside = self.bytes.clone();
        let compared = expected(compare::cabinet::put(&mut beside, record));
        let mut cabinet = Cabinet::open(&mut self.bytes).expect("a cabinet");
        let answer = numbers(cabinet.put(record));
        assert_eq!((answer, self.bytes == beside), (compared, true), "{record:?}");
        let wanted = own(record).and_then(|()| {
            let names = Held::of(record).names;
            let is_first = self.model.place_of(&names).is_none();
            self.model.put(record)?;
            self.admitted.retain(|(module, _)| !is_first || *module != names);
            Ok(())
        });
        assert_eq!(answer, wanted, "{record:?}");
        self.agree();
        answer
    }

    pub fn remove(&mut self, identity: &[u8]) -> Result<(), Numbers> {
        let mut beside = self.bytes.clone();
        let compared = expected(compare::cabinet::remove(&mut beside, identity));
        let mut cabinet = Cabinet::open(&mut self.bytes).expect("a cabinet");
        let answer = numbers(cabinet.remove(identity));
        assert_eq!((answer, self.bytes == beside), (compared, true), "{identity:?}");
        let wanted = asked(identity).and_then(|names| self.model.remove(&names));
        assert_eq!(answer, wanted, "{identity:?}");
        self.agree();
        answer
    }

    /// No two requests of a module share a TVP that were admitted since the latest first put of its key.
    pub fn admit(&mut self, request: &[u8]) -> Result<(), Numbers> {
        let mut beside = self.bytes.clone();
        let compared = expected(compare::cabinet::admit(&mut beside, request));
        let mut cabinet = Cabinet::open(&mut self.bytes).expect("a cabinet");
        let answer = numbers(cabinet.admit(request));
        assert_eq!((answer, self.bytes == beside), (compared, true), "{request:?}");
        let wanted = requested(request).and_then(|(names, tvp)| self.model.admit(&names, &tvp));
        assert_eq!(answer, wanted, "{request:?}");
        self.agree();
        if answer.is_ok() {
            let this = requested(request).expect("it was admitted");
            assert!(!self.admitted.contains(&this), "{request:?}");
            self.admitted.push(this);
        }
        answer
    }

    /// The same part of the lent bytes, not only equal ones.
    pub fn find(&mut self, identity: &[u8]) -> Result<Vec<u8>, Numbers> {
        let names = asked(identity);
        let wanted =
            names.and_then(|names| self.model.find(&names).map(|(at, key)| (at, key.len())));
        let wanted = wanted.map(|(start, len)| &self.bytes[start..start + len]);
        let found = numbers(find_key(&self.bytes, identity));
        assert_eq!(found.map(place), wanted.map(place), "{identity:?}");
        let compared = expected(compare::cabinet::find(&self.bytes, identity));
        assert_eq!(found.map(place), compared.map(place), "{identity:?}");
        let found = found.map(<[u8]>::to_vec);
        let cabinet = Cabinet::open(&mut self.bytes).expect("a cabinet");
        assert_eq!(numbers(cabinet.find(identity)).map(<[u8]>::to_vec), found);
        found
    }
}

// ---- what is no cabinet

/// 23 from every call, and no byte is another.
pub fn expect_no_cabinet(bytes: &mut [u8], what: &str) {
    let before = bytes.to_vec();
    assert_eq!(numbers(check_cabinet(bytes)), Err(NO_CABINET), "{what}");
    assert_eq!(numbers(count_keys(bytes)), Err(NO_CABINET), "{what}");
    assert_eq!(numbers(held_keys(bytes).map(drop)), Err(NO_CABINET), "{what}");
    assert_eq!(expected(compare::cabinet::check(bytes)), Err(NO_CABINET), "{what}");
    let texts = ["PUBKEY_SM", "ID_SM", "ID_KMC", "VKLOADREQ"].map(worked);
    for text in texts.into_iter().chain([Vec::new()]) {
        assert_eq!(numbers(find_key(bytes, &text)), Err(NO_CABINET), "{what}");
        assert_eq!(numbers(put_key(bytes, &text)), Err(NO_CABINET), "{what}");
        assert_eq!(numbers(remove_key(bytes, &text)), Err(NO_CABINET), "{what}");
        assert_eq!(numbers(admit(bytes, &text)), Err(NO_CABINET), "{what}");
    }
    assert_eq!(Cabinet::open(bytes).unwrap_err().reason, Reason::NotCabinet, "{what}");
    assert!(bytes == before, "{what}");
}

/// A cabinet with these bytes in a place.
pub fn with_bytes(cabinet: &[u8], place: usize, bytes: &[u8]) -> Vec<u8> {
    let mut cabinet = cabinet.to_vec();
    cabinet[place * CABINET_WIDTH..][..CABINET_WIDTH].copy_from_slice(bytes);
    cabinet
}

/// A cabinet with these bytes at the front of a place, zeros after them, the TVP of a first put, and this number.
pub fn with_place(cabinet: &[u8], place: usize, front: &[u8], number: i64) -> Vec<u8> {
    with_bytes(cabinet, place, &place_with(front, number))
}

/// The sixteen bytes before the number of a place.
pub fn tvp_in(cabinet: &[u8], place: usize) -> &[u8] {
    &cabinet[place * CABINET_WIDTH..][CABINET_TVP_AT..CABINET_NUMBER_AT]
}
