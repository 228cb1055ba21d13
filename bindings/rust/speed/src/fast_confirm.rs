//! The tags of a key agreement for `fast.rs`: every text is written once, behind what is hashed before it, and hashed in one piece.

use crate::fast::{decoded, read, value, write_text};
use crate::fast_hash::{hmac_of, sha384_of};
use crate::kinds::Kind;
use crate::side::{Fields, NamedRefusal, OTHER_REQUEST, SHORT_OUTPUT, WRONG_TAG, WRONG_Z};
use obscurlane::{KEY_BYTES, LONGEST_MODULE_TEXT, LONGEST_SHARED_INFO, Z_BYTES};

/// Z and the counter, which stand before SharedInfo.
const BEFORE: usize = Z_BYTES + 4;

/// MacKey and KEK, one behind the other.
fn derived(z: &[u8; Z_BYTES], [id_sm, id_kmc, tvp, ..]: &Fields<'_>) -> [u8; 48] {
    let mut input = [0; BEFORE + LONGEST_SHARED_INFO];
    let (before, text) = input.split_at_mut(BEFORE);
    before[..Z_BYTES].copy_from_slice(z);
    before[BEFORE - 1] = 1;
    let length = write_text(&[b"STS.KAA.1", id_sm, id_kmc, tvp], text).expect("room for any text");
    sha384_of(&input[..BEFORE + length])
}

/// The tag of the text of these items.
fn tag_of(mac_key: &[u8], items: &[&[u8]]) -> [u8; 24] {
    let mut text = [0; LONGEST_MODULE_TEXT];
    let length = write_text(items, &mut text).expect("room for any text");
    hmac_of(mac_key, &text[..length])
}

/// All bytes are compared, whichever differs first.
fn check_tag(mac_tag: &[u8], tag: [u8; 24]) -> Result<(), NamedRefusal> {
    let said = mac_tag.chunks_exact(2).map(|pair| 16 * value(pair[0]) + value(pair[1]));
    let differing = said.zip(tag).fold(0, |differing, (a, b)| differing | (a ^ b));
    (differing == 0).then_some(()).ok_or((0, WRONG_TAG))
}

fn read_of(kind: Kind, which: u8, record: &[u8]) -> Result<Fields<'_>, NamedRefusal> {
    read(record, &[kind]).map(|(_, fields)| fields).map_err(|refusal| (which, refusal))
}

pub fn confirm_request(
    z: &[u8],
    request: &[u8],
    mac_key: &mut [u8],
    kek: &mut [u8],
) -> Result<(), NamedRefusal> {
    let fields = read_of(Kind::Request, 1, request)?;
    let z = z.try_into().map_err(|_| (0, WRONG_Z))?;
    let (Some(mac_key), Some(kek)) =
        (mac_key.first_chunk_mut::<KEY_BYTES>(), kek.first_chunk_mut::<KEY_BYTES>())
    else {
        return Err((0, SHORT_OUTPUT));
    };
    let keys = derived(z, &fields);
    let (first, last) = keys.split_at(KEY_BYTES);
    let [id_sm, id_kmc, tvp, hwid, fwid, qe, mac_tag] = fields;
    let right = tag_of(first, &[b"U_2", id_sm, id_kmc, &decoded(qe), tvp, hwid, fwid]);
    check_tag(mac_tag, right)?;
    mac_key.copy_from_slice(first);
    kek.copy_from_slice(last);
    Ok(())
}

pub fn confirm_response(z: &[u8], request: &[u8], response: &[u8]) -> Result<(), NamedRefusal> {
    let fields = read_of(Kind::Request, 1, request)?;
    let [its_id_kmc, its_id_sm, its_tvp, mac_tag, ..] = read_of(Kind::Response, 2, response)?;
    let z = z.try_into().map_err(|_| (0, WRONG_Z))?;
    let [id_sm, id_kmc, tvp, _, _, qe, _] = fields;
    if (id_kmc, id_sm, tvp) != (its_id_kmc, its_id_sm, its_tvp) {
        return Err((0, OTHER_REQUEST));
    }
    let keys = derived(z, &fields);
    let right = tag_of(&keys[..KEY_BYTES], &[b"V2", id_kmc, id_sm, tvp, &decoded(qe)]);
    check_tag(mac_tag, right)
}
