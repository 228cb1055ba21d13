//! The tags of a key agreement for `plain.rs`, in the library's form: a text goes to the hash item by item, and no copy of it is
//! made; a MacTag is decoded, and compared to its end.

use crate::kinds::Kind;
use crate::plain::{hex_value, read};
use crate::plain_hash::{hmac_begin, hmac_end, State};
use crate::side::{Fields, NamedRefusal, OTHER_REQUEST, SHORT_OUTPUT, WRONG_TAG, WRONG_Z};
use obscurlane::field::{request as asked, response as answered};
use obscurlane::{KEY_BYTES, Z_BYTES};

const POINT_BYTES: usize = 97;

fn field<'a>(fields: &Fields<'a>, number: usize) -> &'a [u8] {
    fields[number - 1]
}

fn decode(digits: &[u8], out: &mut [u8]) {
    for (byte, pair) in out.iter_mut().zip(digits.chunks_exact(2)) {
        *byte = 16 * hex_value(pair[0]) + hex_value(pair[1]);
    }
}

// ---- texts

fn add_item(state: State, item: &[u8]) -> State {
    state.add(&[item.len() as u8]).add(item)
}

/// In its array the length stands before it.
fn add_point(state: State, point: &[u8]) -> State {
    let mut item = [POINT_BYTES as u8; 1 + POINT_BYTES];
    decode(point, &mut item[1..]);
    state.add(&item)
}

/// The text of this label and of the fields of these numbers.
fn add_text(state: State, label: &[u8], numbers: &[usize], fields: &Fields<'_>) -> State {
    let counted = state.add(&[1 + numbers.len() as u8]);
    numbers.iter().fold(add_item(counted, label), |state, &number| match number {
        asked::QE => add_point(state, field(fields, number)),
        _ => add_item(state, field(fields, number)),
    })
}

// ---- keys and tags

/// MacKey and KEK, one behind the other.
fn derived(z: &[u8], fields: &Fields<'_>) -> [u8; 48] {
    let counted = State::begin().add(z).add(&[0, 0, 0, 1]);
    let numbers = [asked::ID_SM, asked::ID_KMC, asked::TVP];
    add_text(counted, b"STS.KAA.1", &numbers, fields).end()
}

fn module_tag(mac_key: &[u8], fields: &Fields<'_>) -> [u8; 24] {
    let numbers = [asked::ID_SM, asked::ID_KMC, asked::QE, asked::TVP, asked::HWID, asked::FWID];
    hmac_end(mac_key, add_text(hmac_begin(mac_key), b"U_2", &numbers, fields))
}

fn centre_tag(mac_key: &[u8], fields: &Fields<'_>) -> [u8; 24] {
    let numbers = [asked::ID_KMC, asked::ID_SM, asked::TVP, asked::QE];
    hmac_end(mac_key, add_text(hmac_begin(mac_key), b"V2", &numbers, fields))
}

fn check_tag(mac_tag: &[u8], tag: [u8; 24]) -> Result<(), NamedRefusal> {
    let mut said = [0; 24];
    decode(mac_tag, &mut said);
    let differing = said.iter().zip(tag).fold(0, |differing, (a, b)| differing | (a ^ b));
    if differing == 0 {
        Ok(())
    } else {
        Err((0, WRONG_TAG))
    }
}

// ---- the calls

fn read_of(kind: Kind, which: u8, record: &[u8]) -> Result<Fields<'_>, NamedRefusal> {
    read(record, &[kind]).map(|(_, fields)| fields.parts).map_err(|refusal| (which, refusal))
}

fn check_z(z: &[u8]) -> Result<(), NamedRefusal> {
    if z.len() == Z_BYTES {
        Ok(())
    } else {
        Err((0, WRONG_Z))
    }
}

pub fn confirm_request(
    z: &[u8],
    request: &[u8],
    mac_key: &mut [u8],
    kek: &mut [u8],
) -> Result<(), NamedRefusal> {
    let fields = read_of(Kind::Request, 1, request)?;
    check_z(z)?;
    if mac_key.len() < KEY_BYTES || kek.len() < KEY_BYTES {
        return Err((0, SHORT_OUTPUT));
    }
    let keys = derived(z, &fields);
    let right = module_tag(&keys[..KEY_BYTES], &fields);
    check_tag(field(&fields, asked::MAC_TAG), right)?;
    mac_key[..KEY_BYTES].copy_from_slice(&keys[..KEY_BYTES]);
    kek[..KEY_BYTES].copy_from_slice(&keys[KEY_BYTES..]);
    Ok(())
}

pub fn confirm_response(z: &[u8], request: &[u8], response: &[u8]) -> Result<(), NamedRefusal> {
    let fields = read_of(Kind::Request, 1, request)?;
    let its_fields = read_of(Kind::Response, 2, response)?;
    check_z(z)?;
    let pairs = [
        (asked::ID_KMC, answered::ID_KMC),
        (asked::ID_SM, answered::ID_SM),
        (asked::TVP, answered::TVP),
    ];
    if pairs.iter().any(|&(one, other)| field(&fields, one) != field(&its_fields, other)) {
        return Err((0, OTHER_REQUEST));
    }
    let keys = derived(z, &fields);
    let right = centre_tag(&keys[..KEY_BYTES], &fields);
    check_tag(field(&its_fields, answered::MAC_TAG), right)
}
