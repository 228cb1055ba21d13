//! The same calls in plain Rust, to measure the library against: slices, no allocation, no proof.
//!
//! The check is taken bit by bit in the form of the library's: nested calls of one step. As a loop LLVM would take it for a
//! CRC and put a table of 512 bytes in its place, and the two sides would not do the same work. The feedback of a bit is
//! chosen, as one writes it; the library masks it.

use crate::kinds::{
    check_signed, Kind, Type, IDENTITIES, PUBLIC_KEYS, RECORDS, WRONG_IDENTITY, WRONG_KIND,
    WRONG_TEXT,
};
use crate::plain_cabinet;
use crate::plain_confirm;
use crate::plain_dates;
use crate::plain_hash::{self, State};
use crate::plain_mail;
use crate::plain_trailed;
use crate::side::{
    Fields, Line, NamedRefusal, Pieces, Reads, Refusal, Side, MISSING_CHECK, MISSING_PART,
    MOST_FIELDS, PRINT_TO_END, SHORT_OUTPUT, TOO_LONG, UNFINISHED, UNKNOWN_KIND, UNPAIRED,
    WRONG_ATTRIBUTES, WRONG_CHECK, WRONG_COUNT, WRONG_FINGERPRINT,
};
use obscurlane::{LONGEST_IDENT, LONGEST_READ};

const CHECK_LENGTH: usize = 4;
const POINT_BYTES: u8 = 97;
const PRINT_BYTES: usize = 8;

// ---- the check

fn bit(state: u16) -> u16 {
    if state & 1 == 1 {
        (state >> 1) ^ 0xA001
    } else {
        state >> 1
    }
}

fn eight(state: u16) -> u16 {
    bit(bit(bit(bit(bit(bit(bit(bit(state))))))))
}

fn crc_of(bytes: &[u8]) -> u16 {
    bytes.iter().fold(0xFFFF, |state, &byte| eight(state ^ u16::from(byte)))
}

pub fn hex_digit(value: u16) -> u8 {
    b"0123456789ABCDEF"[usize::from(value & 15)]
}

fn check_text(check: u16) -> [u8; CHECK_LENGTH] {
    [hex_digit(check >> 12), hex_digit(check >> 8), hex_digit(check >> 4), hex_digit(check)]
}

// ---- the text types

fn is_hexadecimal(byte: u8) -> bool {
    matches!(byte, b'0'..=b'9' | b'A'..=b'F')
}

pub fn is_hex(length: usize, text: &[u8]) -> bool {
    text.len() == length && text.iter().all(|&byte| is_hexadecimal(byte))
}

pub fn is_ident(text: &[u8]) -> bool {
    match text {
        [first, rest @ ..] => {
            text.len() <= LONGEST_IDENT
                && first.is_ascii_alphanumeric()
                && rest.iter().all(|&byte| {
                    byte.is_ascii_alphanumeric() || matches!(byte, b'_' | b'-' | b'.' | b',')
                })
        }
        [] => false,
    }
}

pub fn is_timestamp(text: &[u8]) -> bool {
    let &[y1, y2, y3, y4, m1, m2, d1, d2, b'T', h1, h2, i1, i2, s1, s2, b'Z'] = text else {
        return false;
    };
    let digits = [y1, y2, y3, y4, m1, m2, d1, d2, h1, h2, i1, i2, s1, s2];
    let two = |high: u8, low: u8| 10 * (high - b'0') + (low - b'0');
    let year = || 100 * u16::from(two(y1, y2)) + u16::from(two(y3, y4));
    digits.iter().all(u8::is_ascii_digit)
        && year() != 0
        && (1..=12).contains(&two(m1, m2))
        && (1..=days_of(year(), two(m1, m2))).contains(&two(d1, d2))
        && two(h1, h2) < 24
        && two(i1, i2) < 60
        && two(s1, s2) < 60
}

pub fn is_leap(year: u16) -> bool {
    (year % 4 == 0 && year % 100 != 0) || year % 400 == 0
}

fn days_of(year: u16, month: u8) -> u8 {
    match month {
        2 if is_leap(year) => 29,
        2 => 28,
        4 | 6 | 9 | 11 => 30,
        _ => 31,
    }
}

fn is_printable(text: &[u8]) -> bool {
    !text.is_empty() && text.iter().all(|&byte| matches!(byte, b' '..=b'~') && byte != b'|')
}

/// A key of at most 160 bits, with its tag of 128.
fn is_protected(text: &[u8]) -> bool {
    (32..=72).contains(&text.len()) && text.len() % 2 == 0 && is_hex(text.len(), text)
}

fn are_digits(length: usize, text: &[u8]) -> bool {
    text.len() == length && text.iter().all(u8::is_ascii_digit)
}

// ---- the attributes of a wrapped key

const NAME_LENGTH: usize = 3;
const LONGEST_VALUE: usize = 252;

/// The names that every list has, in their order.
const REQUIRED: [&[u8]; 7] = [b"ACT", b"BDT", b"DKG", b"KEN", b"KRN", b"KTC", b"SGC"];

/// Whether the value is what its name asks for.
fn is_value(name: &[u8], value: &[u8]) -> bool {
    match name {
        b"ACT" | b"BDT" | b"IUT" => is_timestamp(value),
        b"DKG" => are_digits(2, value),
        b"KEN" => are_digits(3, value) && value <= b"255",
        b"KRN" | b"KTC" => are_digits(1, value),
        b"SGC" => are_digits(10, value),
        b"SGN" => (1..=99).contains(&value.len()),
        _ => value.len() <= LONGEST_VALUE,
    }
}

/// Whether a list is permitted. Its names ascend, and so do those that are required: one walk finds them all.
fn are_attributes(list: &[u8]) -> bool {
    let [cards @ .., b';'] = list else { return false };
    let mut required = REQUIRED.iter().peekable();
    let mut before: &[u8] = b"";
    for card in cards.split(|&byte| byte == b';') {
        let Some((name, value)) = card.split_at_checked(NAME_LENGTH) else { return false };
        if !name.iter().all(u8::is_ascii_alphanumeric) || name <= before || !is_value(name, value) {
            return false;
        }
        required.next_if(|&&wanted| wanted == name);
        before = name;
    }
    required.next().is_none()
}

// ---- fields

/// At most seven fields, and how many.
pub struct Parts<'a> {
    pub parts: Fields<'a>,
    count: usize,
}

impl<'a> Parts<'a> {
    fn new() -> Self {
        Parts { parts: [&[]; MOST_FIELDS], count: 0 }
    }

    /// A field more; past the most there can be it is only counted.
    fn push(&mut self, part: &'a [u8]) {
        if let Some(place) = self.parts.get_mut(self.count) {
            *place = part;
        }
        self.count += 1;
    }
}

/// Each field by itself from left to right, then Issuer and Signature together, or the attributes of a wrapped key.
fn check_fields(kind: Kind, fields: &[&[u8]]) -> Result<(), Refusal> {
    for (number, (&field_type, field)) in (1..).zip(kind.types().iter().zip(fields)) {
        check_field(field_type, field).map_err(|no| (no, number))?;
    }
    if let (true, [.., issuer, signature]) = (kind.is_public_key(), fields) {
        if issuer.is_empty() != signature.is_empty() {
            return Err(UNPAIRED);
        }
    }
    if let (Kind::Key, [_, attributes, _]) = (kind, fields) {
        if !are_attributes(attributes) {
            return Err(WRONG_ATTRIBUTES);
        }
    }
    Ok(())
}

/// The number that the field is refused with, if it is.
fn check_field(field_type: Type, field: &[u8]) -> Result<(), u8> {
    let fits = match field_type {
        Type::Ident => is_ident(field),
        Type::Timestamp => is_timestamp(field),
        Type::Print => is_hex(16, field),
        Type::Point => is_hex(194, field) && field.starts_with(b"04"),
        Type::Mac => is_hex(48, field),
        Type::SigOrEmpty => field.is_empty() || is_hex(192, field),
        Type::Identity(permitted) => return check_identity(permitted, field),
        Type::IssuerOrEmpty if field.is_empty() => true,
        Type::IssuerOrEmpty => return check_identity(&[Kind::Smman], field),
        Type::Nonce => is_hex(24, field),
        Type::Printable => is_printable(field),
        Type::Protected => is_protected(field),
    };
    if fits {
        Ok(())
    } else {
        Err(WRONG_TEXT)
    }
}

fn check_identity(permitted: &[Kind], field: &[u8]) -> Result<(), u8> {
    match read(field, IDENTITIES) {
        Err(_) => Err(WRONG_IDENTITY),
        Ok((kind, _)) if permitted.contains(&kind) => Ok(()),
        Ok(_) => Err(WRONG_KIND),
    }
}

// ---- reading

/// The kind and the fields of a record of one of the wanted kinds.
pub fn read<'a>(bytes: &'a [u8], wanted: &[Kind]) -> Result<(Kind, Parts<'a>), Refusal> {
    let (kind, fields) = read_stored(bytes, wanted)?;
    check_signed(kind, &fields.parts)?;
    Ok((kind, fields))
}

/// The same of one that may be old, in a place of a cabinet.
pub fn read_stored<'a>(bytes: &'a [u8], wanted: &[Kind]) -> Result<(Kind, Parts<'a>), Refusal> {
    if bytes.len() > LONGEST_READ {
        return Err(TOO_LONG);
    }
    let title = bytes.iter().position(|&byte| matches!(byte, b':' | b'|'));
    let title = title.ok_or(UNKNOWN_KIND)?;
    let kind = Kind::named(&bytes[..title])
        .filter(|kind| wanted.contains(kind) && kind.mark() == bytes[title])
        .ok_or(UNKNOWN_KIND)?;

    let end = bytes.len().checked_sub(CHECK_LENGTH).ok_or(MISSING_CHECK)?;
    let (body, check) = bytes.split_at(end);
    if !is_hex(CHECK_LENGTH, check) || body.last() != Some(&kind.mark()) {
        return Err(MISSING_CHECK);
    }
    if check != check_text(crc_of(body)) {
        return Err(WRONG_CHECK);
    }

    let mut fields = Parts::new();
    if let [between @ .., _] = &body[title + 1..] {
        between.split(|&byte| byte == kind.mark()).for_each(|part| fields.push(part));
    }
    if fields.count != kind.types().len() {
        return Err(WRONG_COUNT);
    }
    check_fields(kind, &fields.parts[..fields.count])?;
    Ok((kind, fields))
}

fn wanted(reads: Reads) -> &'static [Kind] {
    match reads {
        Reads::Identities => IDENTITIES,
        Reads::Records => RECORDS,
    }
}

/// The line at a place of a file, read by this call.
fn line_by(
    file: &[u8],
    place: usize,
    read: impl FnOnce(&[u8]) -> Result<usize, Refusal>,
) -> Option<Line> {
    let rest = file.get(place..).filter(|rest| !rest.is_empty())?;
    let (len, next, answer) = match rest.iter().position(|&byte| byte == b'\n') {
        Some(len) => (len, place + len + 1, read(&rest[..len])),
        None => (rest.len(), file.len(), Err(UNFINISHED)),
    };
    Some(Line { start: place, len, next, answer })
}

// ---- building

/// Writes from the front of an output that is long enough.
pub struct Writer<'o> {
    pub out: &'o mut [u8],
    pub at: usize,
}

impl Writer<'_> {
    pub fn put(&mut self, piece: &[u8]) {
        let end = self.at + piece.len();
        self.out[self.at..end].copy_from_slice(piece);
        self.at = end;
    }
}

// ---- the texts of a load request

/// An item of a text: as it stands, or a point that is decoded.
enum Item<'a> {
    Bytes(&'a [u8]),
    Point(&'a [u8]),
}

impl Item<'_> {
    fn len(&self) -> usize {
        match self {
            Item::Bytes(bytes) => bytes.len(),
            Item::Point(_) => usize::from(POINT_BYTES),
        }
    }
}

pub fn hex_value(character: u8) -> u8 {
    match character {
        b'0'..=b'9' => character - b'0',
        _ => character - b'A' + 10,
    }
}

fn write_text(items: &[Item<'_>], out: &mut [u8]) -> Result<usize, Refusal> {
    let total = 1 + items.iter().map(|item| 1 + item.len()).sum::<usize>();
    let out = out.get_mut(..total).ok_or(SHORT_OUTPUT)?;
    let mut writer = Writer { out, at: 0 };
    writer.put(&[items.len() as u8]);
    for item in items {
        writer.put(&[item.len() as u8]);
        match item {
            Item::Bytes(bytes) => writer.put(bytes),
            Item::Point(point) => {
                for pair in point.chunks_exact(2) {
                    writer.put(&[16 * hex_value(pair[0]) + hex_value(pair[1])]);
                }
            }
        }
    }
    Ok(total)
}

fn read_request(request: &[u8]) -> Result<Fields<'_>, Refusal> {
    read(request, &[Kind::Request]).map(|(_, fields)| fields.parts)
}

// ---- the Fingerprint of a public key

/// The first bytes of a hash as hexadecimal characters.
fn print_of(hash: [u8; 48]) -> [u8; 2 * PRINT_BYTES] {
    let mut print = [0; 2 * PRINT_BYTES];
    for (pair, &byte) in print.chunks_exact_mut(2).zip(&hash) {
        pair.copy_from_slice(&[hex_digit(u16::from(byte >> 4)), hex_digit(u16::from(byte))]);
    }
    print
}

/// The calls of a state as the library's interface has them: no caller can inline a function of an archive, and C hands a state
/// over by a copy of its own.
mod apart {
    use crate::plain_hash::State;

    #[repr(C)]
    pub struct Digest {
        pub bytes: [u8; 48],
    }

    #[inline(never)]
    pub extern "C" fn begin() -> State {
        State::begin()
    }

    #[allow(improper_ctypes_definitions)] // no C calls it, and a slice goes as a pointer and a length all the same
    #[inline(never)]
    pub extern "C" fn add(state: State, bytes: &[u8]) -> State {
        state.add(bytes)
    }

    #[inline(never)]
    pub extern "C" fn end(state: State) -> Digest {
        Digest { bytes: state.end() }
    }
}

// ---- as a side

pub struct Plain;

impl Side for Plain {
    const NAME: &'static str = "plain";

    fn crc_of(bytes: &[u8]) -> u16 {
        crc_of(bytes)
    }

    fn read(reads: Reads, bytes: &[u8]) -> Result<usize, Refusal> {
        read(bytes, wanted(reads)).map(|(kind, _)| kind as usize)
    }

    fn read_fields(reads: Reads, bytes: &[u8]) -> Result<(usize, Fields<'_>), Refusal> {
        read(bytes, wanted(reads)).map(|(kind, fields)| (kind as usize, fields.parts))
    }

    fn record_field(record: &[u8], wanted: usize) -> Result<&[u8], Refusal> {
        let (_, fields) = read(record, RECORDS)?;
        let index = wanted.checked_sub(1).filter(|&index| index < fields.count);
        index.map(|index| fields.parts[index]).ok_or(MISSING_PART)
    }

    fn attribute_named<'a>(record: &'a [u8], name: &[u8]) -> Result<&'a [u8], Refusal> {
        let (_, fields) = read(record, &[Kind::Key])?;
        let mut cards = fields.parts[1].split(|&byte| byte == b';');
        let is_named = |card: &&[u8]| name.len() == NAME_LENGTH && card.starts_with(name);
        cards.find(is_named).ok_or(MISSING_PART)
    }

    fn line_at(file: &[u8], place: usize) -> Option<Line> {
        line_by(file, place, |line| Plain::read(Reads::Records, line))
    }

    fn build(name: &[u8], bytes: &[u8], lens: &[usize], out: &mut [u8]) -> Result<usize, Refusal> {
        let kind = Kind::named(name).ok_or(UNKNOWN_KIND)?;
        if lens.len() != kind.types().len() {
            return Err(WRONG_COUNT);
        }
        let mut fields = Parts::new();
        let mut rest = bytes;
        for &len in lens {
            if rest.len() < len {
                return Err(WRONG_COUNT);
            }
            let (part, after) = rest.split_at(len);
            fields.push(part);
            rest = after;
        }
        if !rest.is_empty() {
            return Err(WRONG_COUNT);
        }
        let fields = &fields.parts[..fields.count];
        check_fields(kind, fields)?;
        check_signed(kind, fields)?;

        let total = name.len() + 1 + bytes.len() + lens.len() + CHECK_LENGTH;
        if total > LONGEST_READ {
            return Err(TOO_LONG);
        }
        let out = out.get_mut(..total).ok_or(SHORT_OUTPUT)?;
        let mut writer = Writer { out, at: 0 };
        writer.put(name);
        writer.put(&[kind.mark()]);
        for field in fields {
            writer.put(field);
            writer.put(&[kind.mark()]);
        }
        let check = check_text(crc_of(&writer.out[..writer.at]));
        writer.put(&check);
        Ok(total)
    }

    fn shared_info(request: &[u8], out: &mut [u8]) -> Result<usize, Refusal> {
        let [id_sm, id_kmc, tvp, ..] = read_request(request)?;
        let label = Item::Bytes(b"STS.KAA.1");
        write_text(&[label, Item::Bytes(id_sm), Item::Bytes(id_kmc), Item::Bytes(tvp)], out)
    }

    fn module_text(request: &[u8], out: &mut [u8]) -> Result<usize, Refusal> {
        let [id_sm, id_kmc, tvp, hwid, fwid, qe, _] = read_request(request)?;
        let items = [
            Item::Bytes(b"U_2"),
            Item::Bytes(id_sm),
            Item::Bytes(id_kmc),
            Item::Point(qe),
            Item::Bytes(tvp),
            Item::Bytes(hwid),
            Item::Bytes(fwid),
        ];
        write_text(&items, out)
    }

    fn centre_text(request: &[u8], out: &mut [u8]) -> Result<usize, Refusal> {
        let [id_sm, id_kmc, tvp, _, _, qe, _] = read_request(request)?;
        let items = [
            Item::Bytes(b"V2"),
            Item::Bytes(id_kmc),
            Item::Bytes(id_sm),
            Item::Bytes(tvp),
            Item::Point(qe),
        ];
        write_text(&items, out)
    }

    fn sha384_of(bytes: &[u8]) -> [u8; 48] {
        plain_hash::sha384_of(bytes)
    }

    fn hash_of(pieces: Pieces<'_>) -> [u8; 48] {
        apart::end(pieces.iter().fold(apart::begin(), |state, piece| apart::add(state, piece)))
            .bytes
    }

    fn check_fingerprint(record: &[u8]) -> Result<(), Refusal> {
        let [subject, q, ..] = read(record, PUBLIC_KEYS)?.1.parts;
        let (bound, print) = subject.split_at(subject.len() - PRINT_TO_END);
        let hash = State::begin().add(bound).add(q).add(b":").end();
        if print[..2 * PRINT_BYTES] == print_of(hash) {
            return Ok(());
        }
        Err(WRONG_FINGERPRINT)
    }

    fn hmac_of(key: &[u8], text: &[u8]) -> [u8; 24] {
        plain_hash::hmac_of(key, text)
    }

    fn confirm_request(
        z: &[u8],
        request: &[u8],
        mac_key: &mut [u8],
        kek: &mut [u8],
    ) -> Result<(), NamedRefusal> {
        plain_confirm::confirm_request(z, request, mac_key, kek)
    }

    fn confirm_response(z: &[u8], request: &[u8], response: &[u8]) -> Result<(), NamedRefusal> {
        plain_confirm::confirm_response(z, request, response)
    }

    fn sha1_of(bytes: &[u8]) -> [u8; 20] {
        plain_trailed::sha1_of(bytes)
    }

    fn trailed_at(file: &[u8], place: usize) -> Option<Line> {
        line_by(file, place, plain_trailed::read_trailed)
    }

    fn write_trailed(record: &[u8], out: &mut [u8]) -> Result<usize, Refusal> {
        plain_trailed::write_trailed(record, out)
    }

    fn write_mail(record: &[u8], out: &mut [u8]) -> Result<usize, Refusal> {
        plain_mail::write_mail(record, out)
    }

    fn read_mail(text: &[u8], out: &mut [u8]) -> Result<usize, Refusal> {
        plain_mail::read_mail(text, out)
    }

    fn moment_of(text: &[u8]) -> Option<i64> {
        plain_dates::moment_of(text)
    }

    fn expiry_of(record: &[u8]) -> Result<i64, Refusal> {
        plain_dates::expiry_of(record)
    }

    fn check_cabinet(cabinet: &[u8]) -> Result<(), Refusal> {
        plain_cabinet::check_cabinet(cabinet)
    }

    fn put_key(cabinet: &mut [u8], record: &[u8]) -> Result<(), Refusal> {
        plain_cabinet::put_key(cabinet, record)
    }

    fn remove_key(cabinet: &mut [u8], identity: &[u8]) -> Result<(), Refusal> {
        plain_cabinet::remove_key(cabinet, identity)
    }

    fn admit(cabinet: &mut [u8], request: &[u8]) -> Result<(), Refusal> {
        plain_cabinet::admit(cabinet, request)
    }

    fn find_key<'a>(cabinet: &'a [u8], identity: &[u8]) -> Result<&'a [u8], Refusal> {
        plain_cabinet::find_key(cabinet, identity)
    }
}
