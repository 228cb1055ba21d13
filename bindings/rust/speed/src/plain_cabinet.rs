//! The key cabinet for `plain.rs`, in the library's form: every place is read, and its names are compared with those of all later ones.

use crate::kinds::{Kind, IDENTITIES, PUBLIC_KEYS};
use crate::plain::{read, read_stored};
use crate::plain_dates::{moment_of, seconds_of};
use crate::side::{
    Fields, Refusal, FIRST_TVP, GNT_TO_END, NOT_CABINET, NOT_LATER, NOT_THERE, NO_PLACE,
    TVP_NOT_LATER,
};
use obscurlane::{CABINET_NUMBER_AT, CABINET_PLACES, CABINET_SIZE, CABINET_TVP_AT, CABINET_WIDTH};

/// What is in an occupied place, or is to be: the record, of its Subject what stands before the GNT, and the GNT; the last TVP of its
/// module; and the number of its Expiry.
#[derive(Clone, Copy)]
struct Held<'a> {
    record: &'a [u8],
    names: &'a [u8],
    gnt: &'a [u8],
    tvp: &'a [u8; 16],
    number: [u8; 8],
}

/// All places from the lowest; none for a free one.
type Shelf<'a> = [Option<Held<'a>>; CABINET_PLACES];

/// What stands in an identity before its GNT, and the GNT with what stands behind it, which has always the same length.
fn split(identity: &[u8]) -> (&[u8], &[u8]) {
    identity.split_at(identity.len() - GNT_TO_END)
}

fn held_by<'a>(record: &'a [u8], [subject, _, expiry, ..]: Fields<'a>) -> Held<'a> {
    let (names, rest) = split(subject);
    let number = seconds_of(expiry).to_be_bytes();
    Held { record, names, gnt: &rest[..16], tvp: FIRST_TVP, number }
}

/// Whether the record, which stands in a place, is refused today.
fn is_old(held: &Held<'_>) -> bool {
    read(held.record, PUBLIC_KEYS).is_err()
}

fn are_zeros(bytes: &[u8]) -> bool {
    bytes.iter().all(|&byte| byte == 0)
}

fn is_tvp(text: &[u8]) -> bool {
    moment_of(text).is_some_and(|seconds| seconds >= 0)
}

fn read_place(place: &[u8]) -> Result<Option<Held<'_>>, Refusal> {
    let len = place.iter().position(|&byte| byte == 0).unwrap_or(place.len());
    if len == 0 {
        return are_zeros(place).then_some(None).ok_or(NOT_CABINET);
    }
    let (front, last) = place.split_at(CABINET_TVP_AT);
    let (tvp, number) = last.split_first_chunk().ok_or(NOT_CABINET)?;
    let (record, rest) = front.split_at_checked(len).ok_or(NOT_CABINET)?;
    let (_, fields) = read_stored(record, PUBLIC_KEYS).map_err(|_| NOT_CABINET)?;
    let held = held_by(record, fields.parts);
    let is_held = are_zeros(rest) && is_tvp(tvp) && held.number == number;
    is_held.then_some(Some(Held { tvp, ..held })).ok_or(NOT_CABINET)
}

fn place_of(shelf: &[Option<Held<'_>>], names: &[u8]) -> Option<usize> {
    shelf.iter().position(|held| held.is_some_and(|held| held.names == names))
}

fn read_cabinet(cabinet: &[u8]) -> Result<Shelf<'_>, Refusal> {
    if cabinet.len() != CABINET_SIZE {
        return Err(NOT_CABINET);
    }
    let mut shelf: Shelf<'_> = [None; CABINET_PLACES];
    for (held, place) in shelf.iter_mut().zip(cabinet.chunks_exact(CABINET_WIDTH)) {
        *held = read_place(place)?;
    }
    for (index, held) in shelf.iter().enumerate() {
        let Some(held) = held else { continue };
        if place_of(&shelf[index + 1..], held.names).is_some() {
            return Err(NOT_CABINET);
        }
    }
    Ok(shelf)
}

/// The place of an identity's key, and the key.
fn sought<'a>(cabinet: &'a [u8], identity: &[u8]) -> Result<(usize, Held<'a>), Refusal> {
    let shelf = read_cabinet(cabinet)?;
    read(identity, IDENTITIES)?;
    let place = place_of(&shelf, split(identity).0).ok_or(NOT_THERE)?;
    Ok((place, shelf[place].ok_or(NOT_THERE)?))
}

/// The place that a record takes, the TVP that stays there or is that of a first put, and the number that goes with the record.
fn place_for(cabinet: &[u8], record: &[u8]) -> Result<(usize, [u8; 16], [u8; 8]), Refusal> {
    let shelf = read_cabinet(cabinet)?;
    let key = held_by(record, read(record, PUBLIC_KEYS)?.1.parts);
    let place = match place_of(&shelf, key.names) {
        Some(place) if shelf[place].is_some_and(|held| key.gnt <= held.gnt) => Err(NOT_LATER),
        Some(place) => Ok(place),
        None => shelf.iter().position(Option::is_none).ok_or(NO_PLACE),
    };
    let tvp = |place: usize| *shelf[place].map_or(FIRST_TVP, |held| held.tvp);
    place.map(|place| (place, tvp(place), key.number))
}

/// The record, zeros after it, the TVP and the number; zeros alone where there is none.
fn write_place(cabinet: &mut [u8], place: usize, record: &[u8], tvp: [u8; 16], number: [u8; 8]) {
    let place = &mut cabinet[place * CABINET_WIDTH..][..CABINET_WIDTH];
    let (front, last) = place.split_at_mut(CABINET_TVP_AT);
    let (front, rest) = front.split_at_mut(record.len());
    front.copy_from_slice(record);
    rest.fill(0);
    let (before, behind) = last.split_at_mut(tvp.len());
    before.copy_from_slice(&tvp);
    behind.copy_from_slice(&number);
}

pub fn check_cabinet(cabinet: &[u8]) -> Result<(), Refusal> {
    read_cabinet(cabinet).map(drop)
}

pub fn put_key(cabinet: &mut [u8], record: &[u8]) -> Result<(), Refusal> {
    let (place, tvp, number) = place_for(cabinet, record)?;
    write_place(cabinet, place, record, tvp, number);
    Ok(())
}

pub fn remove_key(cabinet: &mut [u8], identity: &[u8]) -> Result<(), Refusal> {
    let (place, _) = sought(cabinet, identity)?;
    write_place(cabinet, place, &[], [0; 16], [0; 8]);
    Ok(())
}

pub fn admit(cabinet: &mut [u8], request: &[u8]) -> Result<(), Refusal> {
    let shelf = read_cabinet(cabinet)?;
    let [id_sm, _, tvp, ..] = read(request, &[Kind::Request])?.1.parts;
    let place = place_of(&shelf, split(id_sm).0).ok_or(NOT_THERE)?;
    let held = shelf[place].filter(|held| !is_old(held)).ok_or(NOT_THERE)?;
    if tvp <= &held.tvp[..] {
        return Err(TVP_NOT_LATER);
    }
    cabinet[place * CABINET_WIDTH..][CABINET_TVP_AT..CABINET_NUMBER_AT].copy_from_slice(tvp);
    Ok(())
}

pub fn find_key<'a>(cabinet: &'a [u8], identity: &[u8]) -> Result<&'a [u8], Refusal> {
    let (_, held) = sought(cabinet, identity)?;
    Some(held).filter(|held| !is_old(held)).map(|held| held.record).ok_or(NOT_THERE)
}
