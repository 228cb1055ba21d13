//! The key cabinet for `fast.rs`: a record's end is looked for eight bytes at a time, the zeros behind it are gone over without an early
//! end, and of names a number is compared before the names themselves.

use crate::fast::{find, read, read_stored, timestamp};
use crate::fast_dates::seconds_of;
use crate::kinds::{check_signed, Kind, IDENTITIES, PUBLIC_KEYS};
use crate::side::{
    Fields, Refusal, FIRST_TVP, GNT_TO_END, NOT_CABINET, NOT_LATER, NOT_THERE, NO_PLACE,
    TVP_NOT_LATER,
};
use obscurlane::{CABINET_NUMBER_AT, CABINET_PLACES, CABINET_SIZE, CABINET_TVP_AT, CABINET_WIDTH};

/// Names, and their last eight bytes as a number, in which most differ.
#[derive(Clone, Copy, PartialEq)]
struct Names<'a> {
    number: u64,
    text: &'a [u8],
}

/// What is in an occupied place, or is to be.
#[derive(Clone, Copy)]
struct Held<'a> {
    record: &'a [u8],
    names: Names<'a>,
    gnt: &'a [u8],
    tvp: &'a [u8; 16],
    number: [u8; 8],
    is_old: bool,
}

type Shelf<'a> = [Option<Held<'a>>; CABINET_PLACES];

/// The names in an accepted identity, and the GNT.
fn split(identity: &[u8]) -> (Names<'_>, &[u8]) {
    let (text, rest) = identity.split_at(identity.len() - GNT_TO_END);
    let number = text.last_chunk().map_or(0, |&last| u64::from_le_bytes(last));
    (Names { number, text }, &rest[..16])
}

fn held_by<'a>(record: &'a [u8], (kind, fields): (Kind, Fields<'a>)) -> Held<'a> {
    let (names, gnt) = split(fields[0]);
    let number = seconds_of(fields[2]).to_be_bytes();
    let is_old = check_signed(kind, &fields).is_err();
    Held { record, names, gnt, tvp: FIRST_TVP, number, is_old }
}

fn are_zeros(bytes: &[u8]) -> bool {
    bytes.iter().fold(0, |any, &byte| any | byte) == 0
}

/// Of dates the order of the texts is that of the seconds.
fn is_tvp(text: &[u8; 16]) -> bool {
    timestamp(text).is_some() && FIRST_TVP <= text
}

fn read_place(place: &[u8]) -> Result<Option<Held<'_>>, Refusal> {
    let len = find(0, place).unwrap_or(place.len());
    if len == 0 {
        return are_zeros(place).then_some(None).ok_or(NOT_CABINET);
    }
    let (front, last) = place.split_at(CABINET_TVP_AT);
    let (tvp, number) = last.split_first_chunk().ok_or(NOT_CABINET)?;
    let (record, rest) = front.split_at_checked(len).ok_or(NOT_CABINET)?;
    let held = held_by(record, read_stored(record, PUBLIC_KEYS).map_err(|_| NOT_CABINET)?);
    let is_held = are_zeros(rest) && is_tvp(tvp) && held.number == number;
    is_held.then_some(Some(Held { tvp, ..held })).ok_or(NOT_CABINET)
}

fn place_of(shelf: &[Option<Held<'_>>], names: Names<'_>) -> Option<usize> {
    shelf.iter().position(|held| held.is_some_and(|held| held.names == names))
}

fn read_cabinet(cabinet: &[u8]) -> Result<Shelf<'_>, Refusal> {
    if cabinet.len() != CABINET_SIZE {
        return Err(NOT_CABINET);
    }
    let mut shelf: Shelf<'_> = [None; CABINET_PLACES];
    for (index, place) in cabinet.chunks_exact(CABINET_WIDTH).enumerate() {
        let held = read_place(place)?;
        if held.is_some_and(|held| place_of(&shelf[..index], held.names).is_some()) {
            return Err(NOT_CABINET);
        }
        shelf[index] = held;
    }
    Ok(shelf)
}

fn sought<'a>(cabinet: &'a [u8], identity: &[u8]) -> Result<(usize, Held<'a>), Refusal> {
    let shelf = read_cabinet(cabinet)?;
    read(identity, IDENTITIES)?;
    let place = place_of(&shelf, split(identity).0).ok_or(NOT_THERE)?;
    Ok((place, shelf[place].ok_or(NOT_THERE)?))
}

fn place_for(cabinet: &[u8], record: &[u8]) -> Result<(usize, [u8; 16], [u8; 8]), Refusal> {
    let shelf = read_cabinet(cabinet)?;
    let key = held_by(record, read(record, PUBLIC_KEYS)?);
    let place = match place_of(&shelf, key.names) {
        Some(place) if shelf[place].is_some_and(|held| key.gnt <= held.gnt) => Err(NOT_LATER),
        Some(place) => Ok(place),
        None => shelf.iter().position(Option::is_none).ok_or(NO_PLACE),
    };
    let tvp = |place: usize| *shelf[place].map_or(FIRST_TVP, |held| held.tvp);
    place.map(|place| (place, tvp(place), key.number))
}

fn write_place(cabinet: &mut [u8], place: usize, record: &[u8], tvp: [u8; 16], number: [u8; 8]) {
    let place = &mut cabinet[place * CABINET_WIDTH..][..CABINET_WIDTH];
    let (front, last) = place.split_at_mut(CABINET_TVP_AT);
    let (front, rest) = front.split_at_mut(record.len());
    front.copy_from_slice(record);
    rest.fill(0);
    let (before, behind) = last.split_at_mut(tvp.len());
    before.copy_from_slice(&tvp);
    behind.copy_from_slice(&number);
}

pub fn check_cabinet(cabinet: &[u8]) -> Result<(), Refusal> {
    read_cabinet(cabinet).map(drop)
}

pub fn put_key(cabinet: &mut [u8], record: &[u8]) -> Result<(), Refusal> {
    let (place, tvp, number) = place_for(cabinet, record)?;
    write_place(cabinet, place, record, tvp, number);
    Ok(())
}

pub fn remove_key(cabinet: &mut [u8], identity: &[u8]) -> Result<(), Refusal> {
    let (place, _) = sought(cabinet, identity)?;
    write_place(cabinet, place, &[], [0; 16], [0; 8]);
    Ok(())
}

pub fn admit(cabinet: &mut [u8], request: &[u8]) -> Result<(), Refusal> {
    let shelf = read_cabinet(cabinet)?;
    let [id_sm, _, tvp, ..] = read(request, &[Kind::Request])?.1;
    let place = place_of(&shelf, split(id_sm).0).ok_or(NOT_THERE)?;
    let held = shelf[place].filter(|held| !held.is_old).ok_or(NOT_THERE)?;
    if tvp <= &held.tvp[..] {
        return Err(TVP_NOT_LATER);
    }
    cabinet[place * CABINET_WIDTH..][CABINET_TVP_AT..CABINET_NUMBER_AT].copy_from_slice(tvp);
    Ok(())
}

pub fn find_key<'a>(cabinet: &'a [u8], identity: &[u8]) -> Result<&'a [u8], Refusal> {
    let (_, held) = sought(cabinet, identity)?;
    Some(held).filter(|held| !held.is_old).map(|held| held.record).ok_or(NOT_THERE)
}
