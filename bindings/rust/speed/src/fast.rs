//! The same calls as a Rust programmer writes them for speed, without `unsafe` and for no particular processor: tables for the
//! check, sixteen bytes at a step; words in the place of bytes where something is looked for; and every field gone over once,
//! by its type, which finds its end as well. Only what is refused is gone over again, to count its fields.

use crate::fast_cabinet;
use crate::fast_confirm;
use crate::fast_dates;
use crate::fast_hash::{self, Sha384};
use crate::fast_mail;
use crate::fast_trailed;
use crate::kinds::{
    check_signed, Kind, Type, IDENTITIES, PUBLIC_KEYS, RECORDS, WRONG_IDENTITY, WRONG_KIND,
    WRONG_TEXT,
};
use crate::side::{
    Fields, Line, NamedRefusal, Pieces, Reads, Refusal, Side, MISSING_CHECK, MISSING_PART,
    MOST_FIELDS, PRINT_TO_END, SHORT_OUTPUT, TOO_LONG, UNFINISHED, UNKNOWN_KIND, UNPAIRED,
    WRONG_ATTRIBUTES, WRONG_CHECK, WRONG_COUNT, WRONG_FINGERPRINT,
};
use obscurlane::{LONGEST_IDENT, LONGEST_READ};

const CHECK_LENGTH: usize = 4;
const POINT_BYTES: usize = 97;
// ---- the check

const STEP: usize = 16;

/// Table n has the states after the byte of its index and n bytes 0.
static TABLES: [[u16; 256]; STEP] = tables();

const fn tables() -> [[u16; 256]; STEP] {
    let mut tables = [[0; 256]; STEP];
    let mut index = 0;
    while index < 256 * STEP {
        let (table, byte) = (index / 256, index % 256);
        let before = if table == 0 { byte as u16 } else { tables[table - 1][byte] };
        tables[table][byte] = eight(before);
        index += 1;
    }
    tables
}

const fn eight(mut state: u16) -> u16 {
    let mut bit = 0;
    while bit < 8 {
        state = (state >> 1) ^ (0xA001 * (state & 1));
        bit += 1;
    }
    state
}

fn crc_of(bytes: &[u8]) -> u16 {
    let mut steps = bytes.chunks_exact(STEP);
    let state = steps.by_ref().fold(0xFFFF_u16, |state, step| {
        // What does not wait for the state before goes first.
        let rest = TABLES[..STEP - 2].iter().rev().zip(&step[2..]);
        let mixed = rest.fold(0, |mixed, (table, &byte)| mixed ^ table[usize::from(byte)]);
        let [low, high] = state.to_le_bytes();
        let (first, second) = (usize::from(step[0] ^ low), usize::from(step[1] ^ high));
        mixed ^ (TABLES[STEP - 1][first] ^ TABLES[STEP - 2][second])
    });
    let rest = steps.remainder().iter();
    rest.fold(state, |state, &byte| (state >> 8) ^ TABLES[0][usize::from(state as u8 ^ byte)])
}

// ---- characters

const fn is_hexadecimal(byte: u8) -> bool {
    byte.wrapping_sub(b'0') < 10 || byte.wrapping_sub(b'A') < 6
}

/// The value of a hexadecimal character.
pub const fn value(character: u8) -> u8 {
    (character & 15) + 9 * (character >> 6)
}

/// No early end, so that the loop becomes wide instructions.
pub fn are_hexadecimal(text: &[u8]) -> bool {
    text.iter().fold(true, |all, &byte| all & is_hexadecimal(byte))
}

fn are_decimal(text: &[u8]) -> bool {
    text.iter().fold(true, |all, &byte| all & byte.is_ascii_digit())
}

fn are_printable(text: &[u8]) -> bool {
    text.iter().fold(true, |all, &byte| all & (byte.wrapping_sub(b' ') < 95) & (byte != b'|'))
}

/// The characters of an IDENT after its first.
static IN_IDENT: [bool; 256] = {
    let mut table = [false; 256];
    let mut byte = 0;
    while byte < 256 {
        let character = byte as u8;
        table[byte] =
            character.is_ascii_alphanumeric() || matches!(character, b'_' | b'-' | b'.' | b',');
        byte += 1;
    }
    table
};

const ONES: u64 = u64::from_le_bytes([1; 8]);

/// The first place of a byte, eight bytes at a time.
pub fn find(byte: u8, bytes: &[u8]) -> Option<usize> {
    const LOW: u64 = 0x7F * ONES;
    let mut words = bytes.chunks_exact(8);
    let found = words.by_ref().enumerate().find_map(|(index, word)| {
        let other = word_of(word) ^ (ONES * u64::from(byte));
        let same = !(((other & LOW) + LOW) | other | LOW);
        (same != 0).then(|| 8 * index + same.trailing_zeros() as usize / 8)
    });
    found.or_else(|| {
        let rest = words.remainder();
        let at = rest.iter().position(|&other| other == byte)?;
        Some(bytes.len() - rest.len() + at)
    })
}

/// Eight bytes as a word, the first the lowest.
fn word_of(bytes: &[u8]) -> u64 {
    u64::from_le_bytes(bytes.try_into().expect("eight bytes"))
}

/// Eight characters that are all decimal digits, as four numbers of two digits.
fn pairs(word: u64) -> Option<[u8; 4]> {
    let digits = word ^ (u64::from(b'0') * ONES);
    let are_digits = (digits | digits.wrapping_add(6 * ONES)) & (0xF0 * ONES) == 0;
    are_digits.then(|| {
        let [first, _, second, _, third, _, fourth, _] =
            (10 * digits + (digits >> 8)).to_le_bytes();
        [first, second, third, fourth]
    })
}

/// The parts of a TIMESTAMP, of two digits each.
pub struct Timestamp {
    /// The year's first two digits.
    pub high: u8,
    /// The year's last two.
    pub low: u8,
    pub month: u8,
    pub day: u8,
    pub hour: u8,
    pub minute: u8,
    pub second: u8,
}

pub fn timestamp(text: &[u8; 16]) -> Option<Timestamp> {
    let [date @ .., b'T', h1, h2, i1, i2, s1, s2, b'Z'] = text else { return None };
    let time = [*h1, *h2, *i1, *i2, *s1, *s2, b'0', b'0'];
    let [high, low, month, day] = pairs(word_of(date))?;
    let [hour, minute, second, _] = pairs(u64::from_le_bytes(time))?;
    let is_one = (high, low) != (0, 0)
        && (1..=12).contains(&month)
        && (1..=days_of(high, low, month)).contains(&day)
        && hour < 24
        && minute < 60
        && second < 60;
    is_one.then_some(Timestamp { high, low, month, day, hour, minute, second })
}

fn is_timestamp(text: &[u8; 16]) -> bool {
    timestamp(text).is_some()
}

/// The days of a month in the year of these four digits: one that ends a century is leap by its first two.
fn days_of(high: u8, low: u8, month: u8) -> u8 {
    let is_leap = if low == 0 { high % 4 == 0 } else { low % 4 == 0 };
    match month {
        2 => 28 + u8::from(is_leap),
        _ => 30 + (month + month / 8) % 2,
    }
}

// ---- the attributes of a wrapped key

/// A name as a number, so that names stand in the order of their numbers.
const fn code([first, second, third]: [u8; 3]) -> u32 {
    u32::from_be_bytes([0, first, second, third])
}

const ACT: u32 = code(*b"ACT");
const BDT: u32 = code(*b"BDT");
const DKG: u32 = code(*b"DKG");
const IUT: u32 = code(*b"IUT");
const KEN: u32 = code(*b"KEN");
const KRN: u32 = code(*b"KRN");
const KTC: u32 = code(*b"KTC");
const SGC: u32 = code(*b"SGC");
const SGN: u32 = code(*b"SGN");

const REQUIRED: [u32; 7] = [ACT, BDT, DKG, KEN, KRN, KTC, SGC];

/// Whether the value is what its name asks for.
fn is_value(name: u32, value: &[u8]) -> bool {
    match name {
        ACT | BDT | IUT => value.try_into().is_ok_and(is_timestamp),
        DKG => matches!(value, [b'0'..=b'9', b'0'..=b'9']),
        KEN => value.len() == 3 && are_decimal(value) && value <= b"255",
        KRN | KTC => matches!(value, [b'0'..=b'9']),
        SGC => value.len() == 10 && are_decimal(value),
        SGN => (1..=99).contains(&value.len()),
        _ => value.len() <= 252,
    }
}

/// The length of the card at the front without its `;`, and its name, if there is one.
fn card_at(rest: &[u8]) -> Option<(usize, u32)> {
    let (&name, value) = rest.split_first_chunk()?;
    let length = find(b';', value).filter(|_| name.iter().all(u8::is_ascii_alphanumeric))?;
    Some((name.len() + length, code(name)))
}

/// Whether a list is permitted. Required names ascend as all names do, so that one walk finds them.
fn are_attributes(mut rest: &[u8]) -> bool {
    let (mut before, mut found) = (0, 0);
    while !rest.is_empty() {
        let Some((length, name)) = card_at(rest) else { return false };
        if name <= before || !is_value(name, &rest[3..length]) {
            return false;
        }
        found += usize::from(REQUIRED.get(found) == Some(&name));
        (rest, before) = (&rest[length + 1..], name);
    }
    found == REQUIRED.len()
}

/// The card of this name in a permitted list.
fn card_named(mut rest: &[u8], wanted: [u8; 3]) -> Option<&[u8]> {
    while let Some((length, name)) = card_at(rest) {
        if name >= code(wanted) {
            return (name == code(wanted)).then(|| &rest[..length]);
        }
        rest = &rest[length + 1..];
    }
    None
}

// ---- fields

pub fn ident_length(rest: &[u8]) -> Option<usize> {
    let among = rest.iter().take(LONGEST_IDENT + 1);
    let length = among.take_while(|&&byte| IN_IDENT[usize::from(byte)]).count();
    let is_ident = length <= LONGEST_IDENT && rest.first()?.is_ascii_alphanumeric();
    is_ident.then_some(length)
}

fn hex_length<const LENGTH: usize>(rest: &[u8]) -> Option<usize> {
    rest.first_chunk::<LENGTH>().filter(|text| are_hexadecimal(&text[..])).map(|_| LENGTH)
}

/// The length of a text that ends where its field does.
fn length_before(behind: Option<u8>, rest: &[u8]) -> Option<usize> {
    behind.map_or(Some(rest.len()), |mark| find(mark, rest))
}

fn printable_length(behind: Option<u8>, rest: &[u8]) -> Option<usize> {
    length_before(behind, rest).filter(|&length| length > 0 && are_printable(&rest[..length]))
}

fn protected_length(behind: Option<u8>, rest: &[u8]) -> Option<usize> {
    let is_sized = |length: usize| (32..=72).contains(&length) && length % 2 == 0;
    length_before(behind, rest)
        .filter(|&length| is_sized(length) && are_hexadecimal(&rest[..length]))
}

/// The length of the field of this type at the front, or the number that it is refused with. What stands behind it is the mark,
/// or nothing.
fn field_length(field_type: Type, behind: Option<u8>, rest: &[u8]) -> Result<usize, u8> {
    let is_empty = rest.first().copied() == behind;
    let length = match field_type {
        Type::Ident => ident_length(rest),
        Type::Timestamp => rest.first_chunk().filter(|text| is_timestamp(text)).map(|_| 16),
        Type::Print => hex_length::<16>(rest),
        Type::Point => hex_length::<194>(rest).filter(|_| rest.starts_with(b"04")),
        Type::Mac => hex_length::<48>(rest),
        Type::SigOrEmpty | Type::IssuerOrEmpty if is_empty => Some(0),
        Type::SigOrEmpty => hex_length::<192>(rest),
        Type::Identity(permitted) => return identity_length(permitted, behind, rest),
        Type::IssuerOrEmpty => return identity_length(&[Kind::Smman], behind, rest),
        Type::Nonce => hex_length::<24>(rest),
        Type::Printable => printable_length(behind, rest),
        Type::Protected => protected_length(behind, rest),
    };
    length.filter(|&length| rest.get(length).copied() == behind).ok_or(WRONG_TEXT)
}

fn identity_length(permitted: &[Kind], behind: Option<u8>, rest: &[u8]) -> Result<usize, u8> {
    match identity_at(rest) {
        Some((kind, length)) if rest.get(length).copied() == behind => {
            permitted.contains(&kind).then_some(length).ok_or(WRONG_KIND)
        }
        _ => Err(WRONG_IDENTITY),
    }
}

/// The kind and the length of the identity at the front.
fn identity_at(bytes: &[u8]) -> Option<(Kind, usize)> {
    let (kind, mut end) = title_at(bytes, IDENTITIES)?;
    for &field_type in kind.types() {
        end += field_length(field_type, Some(b':'), &bytes[end..]).ok()? + 1;
    }
    let check = check_of(bytes[end..].first_chunk()?)?;
    (check == crc_of(&bytes[..end])).then_some((kind, end + CHECK_LENGTH))
}

/// The kind whose name and mark stand at the front, and the length of both.
fn title_at(bytes: &[u8], wanted: &[Kind]) -> Option<(Kind, usize)> {
    let title = |kind: Kind| -> &'static [u8] {
        match kind {
            Kind::Smman => b"SMMAN.1:",
            Kind::Smid => b"SMID.1:",
            Kind::Kmcid => b"KMCID.1:",
            Kind::Ecdsa => b"PK.ECDSA.1|",
            Kind::Ecdh => b"PK.ECDH.1|",
            Kind::Request => b"VKLOAD.REQ.1|",
            Kind::Response => b"VKLOAD.RESP.1|",
            Kind::Key => b"KEY.1|",
        }
    };
    let kind = wanted.iter().copied().find(|&kind| bytes.starts_with(title(kind)))?;
    Some((kind, title(kind).len()))
}

fn check_of(text: &[u8; CHECK_LENGTH]) -> Option<u16> {
    let number = |text: &[u8; CHECK_LENGTH]| {
        text.iter().fold(0, |number, &digit| 16 * number + u16::from(value(digit)))
    };
    are_hexadecimal(text).then(|| number(text))
}

// ---- reading

/// The kind and the fields of a record of one of the wanted kinds.
pub fn read<'a>(bytes: &'a [u8], wanted: &[Kind]) -> Result<(Kind, Fields<'a>), Refusal> {
    let (kind, fields) = read_stored(bytes, wanted)?;
    check_signed(kind, &fields)?;
    Ok((kind, fields))
}

/// The same of one that may be old, in a place of a cabinet.
pub fn read_stored<'a>(bytes: &'a [u8], wanted: &[Kind]) -> Result<(Kind, Fields<'a>), Refusal> {
    if bytes.len() > LONGEST_READ {
        return Err(TOO_LONG);
    }
    let (kind, title) = title_at(bytes, wanted).ok_or(UNKNOWN_KIND)?;
    let (body, check) = bytes.split_last_chunk().ok_or(MISSING_CHECK)?;
    let is_ended = body.last() == Some(&kind.mark());
    let check = check_of(check).filter(|_| is_ended).ok_or(MISSING_CHECK)?;
    if check != crc_of(body) {
        return Err(WRONG_CHECK);
    }
    let fields = &body[title..];
    read_fields(kind, fields)
        .map_err(|refusal| unless_miscounted(kind, fields, refusal))
        .map(|fields| (kind, fields))
}

/// The fields from left to right, each ended by the mark, and those that go together.
fn read_fields(kind: Kind, mut rest: &[u8]) -> Result<Fields<'_>, Refusal> {
    let mut fields: Fields<'_> = [&[]; MOST_FIELDS];
    for (number, &field_type) in (1..).zip(kind.types()) {
        let length =
            field_length(field_type, Some(kind.mark()), rest).map_err(|no| (no, number))?;
        fields[number - 1] = &rest[..length];
        rest = &rest[length + 1..];
    }
    if !rest.is_empty() {
        return Err(WRONG_COUNT);
    }
    check_together(kind, &fields).map(|()| fields)
}

/// Issuer and Signature of a public key; the attributes of a wrapped key.
fn check_together(kind: Kind, fields: &Fields<'_>) -> Result<(), Refusal> {
    if kind.is_public_key() && fields[3].is_empty() != fields[4].is_empty() {
        return Err(UNPAIRED);
    }
    if kind == Kind::Key && !are_attributes(fields[1]) {
        return Err(WRONG_ATTRIBUTES);
    }
    Ok(())
}

/// A wrong number of fields comes before what is wrong with one of them.
#[cold]
fn unless_miscounted(kind: Kind, fields: &[u8], refusal: Refusal) -> Refusal {
    let count = fields.iter().filter(|&&byte| byte == kind.mark()).count();
    if count == kind.types().len() {
        refusal
    } else {
        WRONG_COUNT
    }
}

/// The line at a place of a file, read by this call.
fn line_by(
    file: &[u8],
    place: usize,
    read: impl FnOnce(&[u8]) -> Result<usize, Refusal>,
) -> Option<Line> {
    let rest = file.get(place..).filter(|rest| !rest.is_empty())?;
    let (len, next, answer) = match find(b'\n', rest) {
        Some(len) => (len, place + len + 1, read(&rest[..len])),
        None => (rest.len(), file.len(), Err(UNFINISHED)),
    };
    Some(Line { start: place, len, next, answer })
}

// ---- writing

/// Writes from the front of an output that is long enough.
pub struct Writer<'o> {
    pub out: &'o mut [u8],
    pub at: usize,
}

impl Writer<'_> {
    pub fn put(&mut self, piece: &[u8]) {
        let end = self.at + piece.len();
        self.out[self.at..end].copy_from_slice(piece);
        self.at = end;
    }

    fn put_item(&mut self, item: &[u8]) {
        self.put(&[item.len() as u8]);
        self.put(item);
    }
}

/// The fields of the lengths, if they are permitted.
fn permitted<'a>(kind: Kind, mut rest: &'a [u8], lens: &[usize]) -> Result<Fields<'a>, Refusal> {
    if lens.len() != kind.types().len() {
        return Err(WRONG_COUNT);
    }
    let mut fields: Fields<'a> = [&[]; MOST_FIELDS];
    for (field, &length) in fields.iter_mut().zip(lens) {
        (*field, rest) = rest.split_at_checked(length).ok_or(WRONG_COUNT)?;
    }
    if !rest.is_empty() {
        return Err(WRONG_COUNT);
    }
    for (number, &field_type) in (1..).zip(kind.types()) {
        field_length(field_type, None, fields[number - 1]).map_err(|no| (no, number))?;
    }
    check_together(kind, &fields)?;
    check_signed(kind, &fields).map(|()| fields)
}

pub fn decoded(point: &[u8]) -> [u8; POINT_BYTES] {
    let mut bytes = [0; POINT_BYTES];
    for (byte, pair) in bytes.iter_mut().zip(point.chunks_exact(2)) {
        *byte = 16 * value(pair[0]) + value(pair[1]);
    }
    bytes
}

pub fn write_text(items: &[&[u8]], out: &mut [u8]) -> Result<usize, Refusal> {
    let total = 1 + items.iter().map(|item| 1 + item.len()).sum::<usize>();
    let out = out.get_mut(..total).ok_or(SHORT_OUTPUT)?;
    let mut writer = Writer { out, at: 0 };
    writer.put(&[items.len() as u8]);
    items.iter().for_each(|item| writer.put_item(item));
    Ok(total)
}

fn read_request(request: &[u8]) -> Result<Fields<'_>, Refusal> {
    read(request, &[Kind::Request]).map(|(_, fields)| fields)
}

// ---- as a side

pub struct Fast;

impl Side for Fast {
    const NAME: &'static str = "fast";

    fn crc_of(bytes: &[u8]) -> u16 {
        crc_of(bytes)
    }

    fn read(reads: Reads, bytes: &[u8]) -> Result<usize, Refusal> {
        Fast::read_fields(reads, bytes).map(|(kind, _)| kind)
    }

    fn read_fields(reads: Reads, bytes: &[u8]) -> Result<(usize, Fields<'_>), Refusal> {
        let wanted = match reads {
            Reads::Identities => IDENTITIES,
            Reads::Records => RECORDS,
        };
        read(bytes, wanted).map(|(kind, fields)| (kind as usize, fields))
    }

    fn record_field(record: &[u8], wanted: usize) -> Result<&[u8], Refusal> {
        let (kind, fields) = read(record, RECORDS)?;
        let index = wanted.checked_sub(1).filter(|&index| index < kind.types().len());
        index.map(|index| fields[index]).ok_or(MISSING_PART)
    }

    fn attribute_named<'a>(record: &'a [u8], name: &[u8]) -> Result<&'a [u8], Refusal> {
        let (_, fields) = read(record, &[Kind::Key])?;
        let name = name.try_into().map_err(|_| MISSING_PART)?;
        card_named(fields[1], name).ok_or(MISSING_PART)
    }

    fn line_at(file: &[u8], place: usize) -> Option<Line> {
        line_by(file, place, |line| Fast::read(Reads::Records, line))
    }

    fn build(name: &[u8], bytes: &[u8], lens: &[usize], out: &mut [u8]) -> Result<usize, Refusal> {
        let kind = Kind::named(name).ok_or(UNKNOWN_KIND)?;
        let fields = permitted(kind, bytes, lens)?;
        let total = name.len() + 1 + bytes.len() + lens.len() + CHECK_LENGTH;
        if total > LONGEST_READ {
            return Err(TOO_LONG);
        }
        let out = out.get_mut(..total).ok_or(SHORT_OUTPUT)?;
        let mut writer = Writer { out, at: 0 };
        for part in [name].iter().chain(&fields[..lens.len()]) {
            writer.put(part);
            writer.put(&[kind.mark()]);
        }
        let check = crc_of(&writer.out[..writer.at]);
        let digit = |place: u16| b"0123456789ABCDEF"[usize::from(check >> place & 15)];
        writer.put(&[12, 8, 4, 0].map(digit));
        Ok(total)
    }

    fn shared_info(request: &[u8], out: &mut [u8]) -> Result<usize, Refusal> {
        let [id_sm, id_kmc, tvp, ..] = read_request(request)?;
        write_text(&[b"STS.KAA.1", id_sm, id_kmc, tvp], out)
    }

    fn module_text(request: &[u8], out: &mut [u8]) -> Result<usize, Refusal> {
        let [id_sm, id_kmc, tvp, hwid, fwid, qe, _] = read_request(request)?;
        write_text(&[b"U_2", id_sm, id_kmc, &decoded(qe), tvp, hwid, fwid], out)
    }

    fn centre_text(request: &[u8], out: &mut [u8]) -> Result<usize, Refusal> {
        let [id_sm, id_kmc, tvp, _, _, qe, _] = read_request(request)?;
        write_text(&[b"V2", id_kmc, id_sm, tvp, &decoded(qe)], out)
    }

    fn sha384_of(bytes: &[u8]) -> [u8; 48] {
        fast_hash::sha384_of(bytes)
    }

    fn hash_of(pieces: Pieces<'_>) -> [u8; 48] {
        let mut sha384 = Sha384::begin();
        pieces.iter().for_each(|piece| sha384.add(piece));
        sha384.end()
    }

    /// The Subject up to its Fingerprint is hashed as it stands there.
    fn check_fingerprint(record: &[u8]) -> Result<(), Refusal> {
        let [subject, q, ..] = read(record, PUBLIC_KEYS)?.1;
        let (bound, print) = subject.split_at(subject.len() - PRINT_TO_END);
        let mut sha384 = Sha384::begin();
        [bound, q, b":"].iter().for_each(|piece| sha384.add(piece));
        let digits = print.chunks_exact(2).map(|pair| 16 * value(pair[0]) + value(pair[1]));
        let is_right = digits.zip(sha384.end()).take(8).all(|(said, right)| said == right);
        is_right.then_some(()).ok_or(WRONG_FINGERPRINT)
    }

    fn hmac_of(key: &[u8], text: &[u8]) -> [u8; 24] {
        fast_hash::hmac_of(key, text)
    }

    fn confirm_request(
        z: &[u8],
        request: &[u8],
        mac_key: &mut [u8],
        kek: &mut [u8],
    ) -> Result<(), NamedRefusal> {
        fast_confirm::confirm_request(z, request, mac_key, kek)
    }

    fn confirm_response(z: &[u8], request: &[u8], response: &[u8]) -> Result<(), NamedRefusal> {
        fast_confirm::confirm_response(z, request, response)
    }

    fn sha1_of(bytes: &[u8]) -> [u8; 20] {
        fast_trailed::sha1_of(bytes)
    }

    fn trailed_at(file: &[u8], place: usize) -> Option<Line> {
        line_by(file, place, fast_trailed::read_trailed)
    }

    fn write_trailed(record: &[u8], out: &mut [u8]) -> Result<usize, Refusal> {
        fast_trailed::write_trailed(record, out)
    }

    fn write_mail(record: &[u8], out: &mut [u8]) -> Result<usize, Refusal> {
        fast_mail::write_mail(record, out)
    }

    fn read_mail(text: &[u8], out: &mut [u8]) -> Result<usize, Refusal> {
        fast_mail::read_mail(text, out)
    }

    fn moment_of(text: &[u8]) -> Option<i64> {
        fast_dates::moment_of(text)
    }

    fn expiry_of(record: &[u8]) -> Result<i64, Refusal> {
        fast_dates::expiry_of(record)
    }

    fn check_cabinet(cabinet: &[u8]) -> Result<(), Refusal> {
        fast_cabinet::check_cabinet(cabinet)
    }

    fn put_key(cabinet: &mut [u8], record: &[u8]) -> Result<(), Refusal> {
        fast_cabinet::put_key(cabinet, record)
    }

    fn remove_key(cabinet: &mut [u8], identity: &[u8]) -> Result<(), Refusal> {
        fast_cabinet::remove_key(cabinet, identity)
    }

    fn admit(cabinet: &mut [u8], request: &[u8]) -> Result<(), Refusal> {
        fast_cabinet::admit(cabinet, request)
    }

    fn find_key<'a>(cabinet: &'a [u8], identity: &[u8]) -> Result<&'a [u8], Refusal> {
        fast_cabinet::find_key(cabinet, identity)
    }
}
