//! Key agreement texts.

use crate::build::put;
use crate::kind::Kind;
use crate::record::read;
use crate::refusal::Refusal;
use crate::text::base16_decode;

/// The parts of an accepted load request that its texts take.
struct Request<'a> {
    id_sm: &'a [u8],
    id_kmc: &'a [u8],
    tvp: &'a [u8],
    hwid: &'a [u8],
    fwid: &'a [u8],
    /// The point as bytes.
    qe: Vec<u8>,
}

fn read_request(bytes: &[u8]) -> Result<Request<'_>, Refusal> {
    let record = read(bytes, &[Kind::VkloadReq])?;
    let [id_sm, id_kmc, tvp, hwid, fwid, qe, _mac_tag] = record.fields[..] else {
        unreachable!("an accepted request has seven fields");
    };
    let qe = base16_decode(qe).expect("an accepted point is hexadecimal");
    Ok(Request { id_sm, id_kmc, tvp, hwid, fwid, qe })
}

/// Writes SharedInfo of a load request to the start of `output` and gives back its length.
pub fn shared_info(request: &[u8], output: &mut [u8]) -> Result<usize, Refusal> {
    let Request { id_sm, id_kmc, tvp, .. } = read_request(request)?;
    put(&join(&[b"STS.KAA.1", id_sm, id_kmc, tvp]), output)
}

/// Writes the module text of a load request to the start of `output` and gives back its length.
pub fn module_text(request: &[u8], output: &mut [u8]) -> Result<usize, Refusal> {
    let Request { id_sm, id_kmc, tvp, hwid, fwid, qe } = read_request(request)?;
    put(&join(&[b"U_2", id_sm, id_kmc, &qe, tvp, hwid, fwid]), output)
}

/// Writes the centre text of a load request to the start of `output` and gives back its length.
pub fn centre_text(request: &[u8], output: &mut [u8]) -> Result<usize, Refusal> {
    let Request { id_sm, id_kmc, tvp, qe, .. } = read_request(request)?;
    put(&join(&[b"V2", id_kmc, id_sm, tvp, &qe]), output)
}

/// A call that writes a text of a load request.
pub type TextCall = fn(&[u8], &mut [u8]) -> Result<usize, Refusal>;

/// The whole of a text, by the call that writes it.
///
/// # Panics
///
/// When the request is refused.
pub fn text_of(call: TextCall, request: &[u8]) -> Vec<u8> {
    // A request is longer than each of its texts.
    let mut output = vec![0; request.len()];
    let length = call(request, &mut output).expect("an accepted request");
    output.truncate(length);
    output
}

/// LVCONCAT: the number of items, then each item after its length.
///
/// # Panics
///
/// With more than 255 items, or an item of more than 255 bytes.
pub fn join(items: &[&[u8]]) -> Vec<u8> {
    let count = |length: usize| u8::try_from(length).expect("at most 255");
    let mut joined = vec![count(items.len())];
    for item in items {
        joined.push(count(item.len()));
        joined.extend_from_slice(item);
    }
    joined
}

/// The items of a key agreement text, if `bytes` are one.
pub fn split(bytes: &[u8]) -> Option<Vec<&[u8]>> {
    let (&count, mut rest) = bytes.split_first()?;
    let mut items = Vec::new();
    for _ in 0..count {
        let (&length, after) = rest.split_first()?;
        let (item, after) = after.split_at_checked(usize::from(length))?;
        items.push(item);
        rest = after;
    }
    rest.is_empty().then_some(items)
}

/// The reading call: the item with this number, counted from 1, of a key agreement text.
pub fn item(bytes: &[u8], number: u64) -> Result<&[u8], Refusal> {
    let items = split(bytes).ok_or(Refusal::NoPart)?;
    (1..)
        .zip(items)
        .find(|&(place, _)| place == number)
        .map(|(_, item)| item)
        .ok_or(Refusal::NoPart)
}
