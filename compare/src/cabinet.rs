//! Requests E8 to E11: the centre's key cabinet, 64 places of 1,024 bytes in 65,536 lent bytes.
//!
//! A place is all zeros, or holds a public key that the rules up to E10 accept, zeros behind it, the last TVP accepted
//! for its module, and in its last eight bytes the number of the key's Expiry, in big endian and two's complement. No
//! two records share the kind, Manufacturer and MID of their Subjects. All other bytes are no cabinet.
//!
//! A record that is refused today is old: it has its place and its names, and nobody finds it.

use crate::kind::Kind;
use crate::moment::expiry_in;
use crate::newer::{subject_in, subject_of_key, Subject};
use crate::record::{read, read_up_to_e10};
use crate::refusal::Refusal;
use crate::text::is_timestamp;

/// How many places there are.
pub const PLACES: usize = 64;
/// The bytes of a place.
pub const WIDTH: usize = 1024;
/// Where the number of Expiry begins in a place: its last eight bytes.
pub const NUMBER_AT: usize = WIDTH - 8;
/// Where the last TVP begins in a place: the sixteen bytes before the number.
pub const TVP_AT: usize = NUMBER_AT - START.len();
/// The bytes of a cabinet.
pub const SIZE: usize = PLACES * WIDTH;

/// The TVP of a module of which no request was admitted, and the earliest that may stand in a place. The order of
/// such texts is the order of the times.
pub const START: [u8; 16] = *b"19930101T000000Z";

/// What an occupied place holds: the record, what is read from its Subject and its Expiry, and the last TVP accepted
/// for its module.
#[derive(Clone, Debug, PartialEq, Eq)]
struct Held {
    /// Kind, Manufacturer and MID.
    entity: (Kind, Vec<u8>, Vec<u8>),
    gnt: Vec<u8>,
    expiry: i64,
    record: Vec<u8>,
    tvp: Vec<u8>,
    is_old: bool,
}

impl Held {
    fn of(record: &[u8], tvp: &[u8]) -> Result<Held, Refusal> {
        let key = read_up_to_e10(record, &Kind::PUBLIC_KEYS)?;
        let is_old = read(record, &Kind::PUBLIC_KEYS).is_err();
        let Subject { entity: (kind, manufacturer, mid), gnt } = subject_in(&key);
        let entity = (kind, manufacturer.to_vec(), mid.to_vec());
        let expiry = expiry_in(&key);
        let (gnt, record, tvp) = (gnt.to_vec(), record.to_vec(), tvp.to_vec());
        Ok(Held { entity, gnt, expiry, record, tvp, is_old })
    }

    fn is_of(&self, (kind, manufacturer, mid): (Kind, &[u8], &[u8])) -> bool {
        self.entity.0 == kind && self.entity.1 == manufacturer && self.entity.2 == mid
    }
}

/// A cabinet by its places.
#[derive(Clone, Debug, PartialEq, Eq)]
pub struct Cabinet {
    places: Vec<Option<Held>>,
}

impl Cabinet {
    pub fn empty() -> Cabinet {
        Cabinet { places: vec![None; PLACES] }
    }

    /// The cabinet that these bytes are.
    pub fn read(bytes: &[u8]) -> Result<Cabinet, Refusal> {
        if bytes.len() != SIZE {
            return Err(Refusal::NoCabinet);
        }
        let places: Option<Vec<_>> = bytes.chunks(WIDTH).map(read_place).collect();
        let cabinet = Cabinet { places: places.ok_or(Refusal::NoCabinet)? };
        let entities: Vec<_> = cabinet.places.iter().flatten().map(|held| &held.entity).collect();
        let is_first = |index: usize| !entities[..index].contains(&entities[index]);
        if (0..entities.len()).all(is_first) {
            Ok(cabinet)
        } else {
            Err(Refusal::NoCabinet)
        }
    }

    /// The bytes of this cabinet.
    pub fn bytes(&self) -> Vec<u8> {
        let place = |held: &Option<Held>| {
            let mut bytes = [0; WIDTH];
            if let Some(Held { record, tvp, expiry, .. }) = held {
                bytes[..record.len()].copy_from_slice(record);
                bytes[TVP_AT..NUMBER_AT].copy_from_slice(tvp);
                bytes[NUMBER_AT..].copy_from_slice(&expiry.to_be_bytes());
            }
            bytes
        };
        self.places.iter().flat_map(place).collect()
    }

    /// How many places are occupied.
    pub fn count(&self) -> usize {
        self.places.iter().flatten().count()
    }

    /// Puts a public key in that is accepted today: over the one of the same entity, old or not, which must have
    /// an earlier GNT and whose TVP stays, and else into the lowest free place.
    pub fn put(&mut self, record: &[u8]) -> Result<(), Refusal> {
        let entity = subject_of_key(record)?.entity;
        let new = Held::of(record, &START)?;
        if let Some(held) = self.held_of(entity) {
            if new.gnt <= held.gnt {
                return Err(Refusal::NotLater);
            }
            *held = Held { tvp: held.tvp.clone(), ..new };
            return Ok(());
        }
        let free = self.places.iter_mut().find(|place| place.is_none()).ok_or(Refusal::NoPlace)?;
        *free = Some(new);
        Ok(())
    }

    /// Admits a load request: its module is here, with a key that is not old, and its TVP is later than the last one,
    /// which it then is.
    pub fn admit(&mut self, request: &[u8]) -> Result<(), Refusal> {
        let request = read(request, &[Kind::VkloadReq])?;
        let [id_sm, _id_kmc, tvp, ..] = request.fields[..] else {
            unreachable!("an accepted request has seven fields");
        };
        let module = Subject::of(id_sm).expect("an accepted request has an accepted ID_SM");
        let held = self.held_of(module.entity).filter(|held| !held.is_old);
        let held = held.ok_or(Refusal::NotThere)?;
        if tvp <= &held.tvp[..] {
            return Err(Refusal::TvpNotLater);
        }
        held.tvp = tvp.to_vec();
        Ok(())
    }

    /// Takes out the key of the entity that this identity names, old or not.
    pub fn remove(&mut self, identity: &[u8]) -> Result<(), Refusal> {
        let (place, _) = self.named(identity)?;
        self.places[place] = None;
        Ok(())
    }

    /// The place of the key of the entity that this identity names; one that is old is not there.
    pub fn find(&self, identity: &[u8]) -> Result<usize, Refusal> {
        let (place, held) = self.named(identity)?;
        if held.is_old {
            Err(Refusal::NotThere)
        } else {
            Ok(place)
        }
    }

    fn named(&self, identity: &[u8]) -> Result<(usize, &Held), Refusal> {
        let entity = Subject::of(identity)?.entity;
        let mut occupied = self
            .places
            .iter()
            .enumerate()
            .filter_map(|(place, held)| Some((place, held.as_ref()?)));
        occupied.find(|(_, held)| held.is_of(entity)).ok_or(Refusal::NotThere)
    }

    fn held_of(&mut self, entity: (Kind, &[u8], &[u8])) -> Option<&mut Held> {
        self.places.iter_mut().flatten().find(|held| held.is_of(entity))
    }
}

/// What a place holds, and none where its bytes may not stand in one. The record is what stands before the
/// first zero; no key is so long that there is none before the TVP.
fn read_place(bytes: &[u8]) -> Option<Option<Held>> {
    if bytes.iter().all(|&byte| byte == 0) {
        return Some(None);
    }
    let (front, number) = bytes.split_last_chunk()?;
    let (front, tvp) = front.split_last_chunk::<{ START.len() }>()?;
    let end = front.iter().position(|&byte| byte == 0)?;
    let (record, rest) = front.split_at(end);
    let held = Held::of(record, tvp).ok()?;
    let is_dated = is_timestamp(tvp) && *tvp >= START;
    let is_right = is_dated && held.expiry == i64::from_be_bytes(*number);
    (is_right && rest.iter().all(|&byte| byte == 0)).then_some(Some(held))
}

/// Makes the lent bytes an empty cabinet.
pub fn make(lent: &mut [u8]) -> Result<(), Refusal> {
    if lent.len() != SIZE {
        return Err(Refusal::NoCabinet);
    }
    lent.copy_from_slice(&Cabinet::empty().bytes());
    Ok(())
}

/// Whether the lent bytes are a cabinet.
pub fn check(lent: &[u8]) -> Result<(), Refusal> {
    Cabinet::read(lent).map(|_| ())
}

/// How many places are occupied.
pub fn count(lent: &[u8]) -> Result<usize, Refusal> {
    Ok(Cabinet::read(lent)?.count())
}

/// Puts a public key in. A refusal leaves the lent bytes as they were.
pub fn put(lent: &mut [u8], record: &[u8]) -> Result<(), Refusal> {
    let mut cabinet = Cabinet::read(lent)?;
    cabinet.put(record)?;
    lent.copy_from_slice(&cabinet.bytes());
    Ok(())
}

/// Takes the key of an entity out. A refusal leaves the lent bytes as they were.
pub fn remove(lent: &mut [u8], identity: &[u8]) -> Result<(), Refusal> {
    let mut cabinet = Cabinet::read(lent)?;
    cabinet.remove(identity)?;
    lent.copy_from_slice(&cabinet.bytes());
    Ok(())
}

/// Admits a load request. A refusal leaves the lent bytes as they were.
pub fn admit(lent: &mut [u8], request: &[u8]) -> Result<(), Refusal> {
    let mut cabinet = Cabinet::read(lent)?;
    cabinet.admit(request)?;
    lent.copy_from_slice(&cabinet.bytes());
    Ok(())
}

/// The record of an entity, a part of the lent bytes.
pub fn find<'a>(lent: &'a [u8], identity: &[u8]) -> Result<&'a [u8], Refusal> {
    let cabinet = Cabinet::read(lent)?;
    let place = cabinet.find(identity)?;
    let length = cabinet.places[place].as_ref().map_or(0, |held| held.record.len());
    Ok(&lent[place * WIDTH..][..length])
}

#[cfg(test)]
mod tests {
    use super::*;
    use crate::worked::{worked, UNSIGNED};

    /// Of the module's key: 99991231T115959Z.
    const EXPIRY: i64 = 252_676_411_199;

    #[test]
    fn a_record_is_old_that_was_accepted_before_and_is_not_today() {
        let is_old = |name| Held::of(&worked(name), &START).map(|held| held.is_old);
        for name in ["PUBKEY_KMC", "PUBKEY_MAN", "PUBKEY_SM"] {
            assert_eq!(is_old(name), Ok(false), "{name}");
        }
        assert_eq!(is_old(UNSIGNED), Ok(true));
        assert_eq!(is_old("VKLOADREQ"), Err(Refusal::UnknownKind));
    }

    #[test]
    fn a_place_is_all_zeros_or_a_public_key_zeros_a_tvp_and_its_number() {
        let key = worked("PUBKEY_SM");
        let with = |bytes: &[u8], tvp: &[u8; 16], number: i64| {
            let mut place = bytes.to_vec();
            place.resize(TVP_AT, 0);
            place.extend(tvp);
            place.extend(number.to_be_bytes());
            read_place(&place)
        };
        let place = |bytes: &[u8]| with(bytes, &START, EXPIRY);
        assert_eq!(with(b"", &[0; 16], 0), Some(None));
        assert_eq!(with(b"", &START, 0), None);
        assert_eq!(with(b"", &[0; 16], EXPIRY), None);
        assert_eq!(place(b""), None);
        let held = place(&key).flatten().expect("a key");
        assert_eq!((held.record, held.gnt), (key.clone(), b"20180120T090000Z".to_vec()));
        for other in [0, EXPIRY - 1, EXPIRY + 1, -EXPIRY, EXPIRY.swap_bytes(), !EXPIRY] {
            assert_eq!(with(&key, &START, other), None);
        }
        assert_eq!(held.entity, (Kind::Smid, b"Prism".to_vec(), b"06000001".to_vec()));
        for tvp in [START, *b"19930101T000001Z", *b"20180125T150000Z", *b"99991231T235959Z"] {
            let held = with(&key, &tvp, EXPIRY).flatten().expect("a key");
            assert_eq!(held.tvp, tvp);
        }
        for tvp in [
            [0; 16],
            [b' '; 16],
            *b"19921231T235959Z",
            *b"00010101T000000Z",
            *b"19930101t000000Z",
            *b"19930101T000000z",
            *b"19930431T000000Z",
            *b"20190229T000000Z",
            *b"19930101T000000\0",
            *b"19930101T240000Z",
        ] {
            assert_eq!(with(&key, &tvp, EXPIRY), None, "{tvp:?}");
        }
        for other in [
            [&key[..], b"\0\x01"].concat(),
            [&key[..], b"\n"].concat(),
            [b"\0", &key[..]].concat(),
            key[1..].to_vec(),
            worked("VKLOADREQ"),
            worked("ID_SM"),
        ] {
            assert_eq!(place(&other), None);
        }
    }
}
