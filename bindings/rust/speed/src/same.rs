//! That two sides give the same answers and leave the same outputs: to everything that is measured, and to as many inputs that
//! are damaged or nothing at all.

use crate::inputs::{
    place_of, request_of, unsigned_of, Agreed, Filed, Inputs, Kept, Printed, Sample, MESSAGES,
    TAGGED,
};
use crate::side::{Fields, Line, NamedRefusal, Reads, Refusal, Side, MODULE_UNSIGNED, NOT_THERE};
use compare::kind::Kind;
use compare::mail::block_of;
use compare::random::Random;
use compare::sample::{self, Exchange, Fault, ListFault, PublicKey};
use compare::trailed::line_of;
use obscurlane::{
    CABINET_NUMBER_AT, CABINET_PLACES, CABINET_TVP_AT, CABINET_WIDTH, KEY_BYTES, LONGEST_MAIL,
    LONGEST_MODULE_TEXT, LONGEST_RECORD, TRAILER, Z_BYTES,
};

/// The places of the fields, not only their bytes.
fn places((kind, fields): (usize, Fields<'_>)) -> (usize, [Option<(*const u8, usize)>; 7]) {
    (kind, fields.map(|field| Some((field.as_ptr(), field.len())).filter(|_| !field.is_empty())))
}

fn same_reading<A: Side, B: Side>(bytes: &[u8]) {
    assert_eq!(A::crc_of(bytes), B::crc_of(bytes), "{bytes:?}");
    for reads in [Reads::Identities, Reads::Records] {
        assert_eq!(A::read(reads, bytes), B::read(reads, bytes), "{bytes:?}");
        let (one, other) = (A::read_fields(reads, bytes), B::read_fields(reads, bytes));
        assert_eq!(one.map(places), other.map(places), "{bytes:?}");
    }
    for wanted in 0..=8 {
        let (one, other) = (A::record_field(bytes, wanted), B::record_field(bytes, wanted));
        assert_eq!(one, other, "field {wanted} of {bytes:?}");
    }
    for name in [&b"SGC"[..], b"ACT", b"SGN", b"XYZ", b"SG", b""] {
        let (one, other) = (A::attribute_named(bytes, name), B::attribute_named(bytes, name));
        assert_eq!(one, other, "attribute {name:?} of {bytes:?}");
    }
}

/// The answer to a call, and what it leaves in an output of this room.
fn with_room(
    room: usize,
    call: impl FnOnce(&mut [u8]) -> Result<usize, Refusal>,
) -> (Result<usize, Refusal>, Vec<u8>) {
    let mut out = vec![0xA5; room];
    (call(&mut out), out)
}

fn same_texts<A: Side, B: Side>(request: &[u8], room: usize) {
    for (one, other) in [
        (A::shared_info as fn(&_, &mut _) -> _, B::shared_info as fn(&_, &mut _) -> _),
        (A::module_text, B::module_text),
        (A::centre_text, B::centre_text),
    ] {
        let one = with_room(room, |out| one(request, out));
        let other = with_room(room, |out| other(request, out));
        assert!(one == other, "{request:?}: {:?}, {:?}", one.0, other.0);
    }
}

fn same_building<A: Side, B: Side>(name: &[u8], bytes: &[u8], lens: &[usize], room: usize) {
    let one = with_room(room, |out| A::build(name, bytes, lens, out));
    let other = with_room(room, |out| B::build(name, bytes, lens, out));
    assert!(one == other, "{bytes:?} {lens:?}: {:?}, {:?}", one.0, other.0);
}

type LineCall = fn(&[u8], usize) -> Option<Line>;

/// Gives back the number of lines, and of those that are accepted.
fn same_file(file: &[u8], one: LineCall, other: LineCall) -> (usize, usize) {
    let (mut place, mut lines, mut accepted) = (0, 0, 0);
    while let Some(line) = one(file, place) {
        assert_eq!(Some(&line), other(file, place).as_ref());
        place = line.next;
        lines += 1;
        accepted += usize::from(line.answer.is_ok());
    }
    assert_eq!(other(file, place), None);
    (lines, accepted)
}

/// A wrapped key of these fields, permitted or not, read and built with every sort of room.
fn same_wrapped_key<A: Side, B: Side>(fields: &[Vec<u8>]) {
    let key = sample::of_kind(Kind::WrappedKey, fields);
    same_reading::<A, B>(&key);
    let lens: Vec<usize> = fields.iter().map(Vec::len).collect();
    for room in [0, key.len() - 1, key.len()] {
        same_building::<A, B>(b"KEY.1", &fields.concat(), &lens, room);
    }
}

/// A wrapped key with one fault; with one byte changed and the right check; of a list that is not permitted; and of about as many
/// bytes as are read.
fn same_wrapped_keys<A: Side, B: Side>(random: &mut Random, key: &[u8]) {
    let fault = random.one_of(Fault::of(Kind::WrappedKey));
    same_reading::<A, B>(&sample::faulty(random, Kind::WrappedKey, &[fault]));
    same_reading::<A, B>(&sample::resealed(&sample::damaged_anywhere(random, key, 1)));

    let fault = random.one_of(&ListFault::ALL);
    let list = sample::faulty_list(random, fault);
    same_wrapped_key::<A, B>(&[sample::hex(random, 24), list, sample::hex(random, 48)]);
    let length = LONGEST_RECORD + random.below(2);
    same_wrapped_key::<A, B>(&sample::wrapped_key_fields(random, length));
}

/// Of the messages, and of one of every short length.
fn same_messages<A: Side, B: Side>(inputs: &Inputs) {
    let short = (1..=300).filter_map(|length| inputs.messages(length).next());
    let measured = MESSAGES.iter().flat_map(|&length| inputs.messages(length));
    for message in short.chain(measured).chain([&b""[..]]) {
        assert_eq!(A::sha384_of(message), B::sha384_of(message), "{message:?}");
        assert_eq!(A::sha1_of(message), B::sha1_of(message), "{message:?}");
    }
}

/// Of what is hashed for a Fingerprint, and of the same bytes cut in any three slices.
fn same_pieces<A: Side, B: Side>(random: &mut Random, inputs: &Inputs) {
    for printed in &inputs.printed {
        let pieces = printed.pieces();
        assert_eq!(A::hash_of(pieces), B::hash_of(pieces), "{pieces:?}");
        let bytes = pieces.concat();
        let mut cuts = [0; 2].map(|_| random.below(bytes.len() + 1));
        cuts.sort_unstable();
        let [one, two] = cuts;
        let pieces = [&bytes[..one], &bytes[one..two], &bytes[two..]];
        assert_eq!(A::hash_of(pieces), B::hash_of(pieces), "{pieces:?}");
    }
}

fn same_fingerprint<A: Side, B: Side>(record: &[u8]) {
    assert_eq!(A::check_fingerprint(record), B::check_fingerprint(record), "{record:?}");
}

/// A key with the right Fingerprint; damaged, with its check as it was and made right again; with its Subject damaged and both
/// checks made right; and anything.
fn same_fingerprints<A: Side, B: Side>(random: &mut Random, Printed { record, .. }: &Printed) {
    assert_eq!(A::check_fingerprint(record), Ok(()));
    same_fingerprint::<A, B>(record);
    let damaged = sample::damaged_anywhere(random, record, 1);
    same_fingerprint::<A, B>(&damaged);
    same_fingerprint::<A, B>(&sample::resealed(&damaged));
    let PublicKey { kind, .. } = PublicKey::of_record(record);
    let mut fields = PublicKey::of_record(record).fields();
    fields[0] = sample::resealed(&sample::damaged_anywhere(random, &fields[0], 1));
    same_fingerprint::<A, B>(&sample::of_kind(kind, &fields));
    same_fingerprint::<A, B>(&sample::anything(random));
}

/// Of keys and texts of every short length, and of what is measured.
fn same_tags<A: Side, B: Side>(inputs: &Inputs) {
    let short: Vec<&[u8]> = (1..=300).filter_map(|length| inputs.messages(length).next()).collect();
    let pairs = short.iter().copied().zip(short.iter().copied().rev());
    let keys = short.iter().map(|&key| (key, &b""[..])).chain(pairs);
    let measured = inputs.agreed.iter().map(Agreed::key).zip(inputs.messages(TAGGED));
    for (key, text) in keys.chain(measured).chain([(&b""[..], &b""[..])]) {
        assert_eq!(A::hmac_of(key, text), B::hmac_of(key, text), "{key:?} {text:?}");
    }
}

/// The answer to a request, and what is left in outputs of these rooms.
fn confirmed<S: Side>(
    z: &[u8],
    request: &[u8],
    rooms: [usize; 2],
) -> (Result<(), NamedRefusal>, [Vec<u8>; 2]) {
    let mut outputs = rooms.map(|room| vec![0xA5; room]);
    let [mac_key, kek] = &mut outputs;
    (S::confirm_request(z, request, mac_key, kek), outputs)
}

/// Both calls, with rooms that are enough and one that is too short.
fn same_confirmation<A: Side, B: Side>(z: &[u8], request: &[u8], response: &[u8]) {
    const ROOMS: [[usize; 2]; 3] =
        [[KEY_BYTES; 2], [KEY_BYTES - 1, KEY_BYTES], [KEY_BYTES + 1, KEY_BYTES - 1]];
    for rooms in ROOMS {
        let one = confirmed::<A>(z, request, rooms);
        assert_eq!(one, confirmed::<B>(z, request, rooms), "{z:?} {request:?} {rooms:?}");
    }
    let one = A::confirm_response(z, request, response);
    assert_eq!(one, B::confirm_response(z, request, response), "{z:?} {request:?} {response:?}");
}

/// Right tags; another Z, and one too short; each record damaged, with its check as it was and made right again; records of another
/// exchange; and anything.
fn same_confirmations<A: Side, B: Side>(random: &mut Random, agreed: &Agreed) {
    let Agreed { z, request, response } = agreed;
    assert_eq!(confirmed::<A>(z, request, [KEY_BYTES; 2]).0, Ok(()));
    assert_eq!(A::confirm_response(z, request, response), Ok(()));
    same_confirmation::<A, B>(z, request, response);
    same_confirmation::<A, B>(&random.bytes(Z_BYTES), request, response);
    same_confirmation::<A, B>(&z[1..], request, response);
    for _ in 0..2 {
        let asked = sample::damaged_anywhere(random, request, 1);
        let answered = sample::damaged_anywhere(random, response, 1);
        same_confirmation::<A, B>(z, &asked, response);
        same_confirmation::<A, B>(z, &sample::resealed(&asked), response);
        same_confirmation::<A, B>(z, request, &answered);
        same_confirmation::<A, B>(z, request, &sample::resealed(&answered));
    }
    let other = Exchange::any(random);
    same_confirmation::<A, B>(&other.z, &other.request(), &other.response());
    same_confirmation::<A, B>(z, request, &other.response());
    same_confirmation::<A, B>(z, &sample::anything(random), &sample::anything(random));
}

/// The record, whatever it is, written with its trailer where there is room.
fn same_writing<A: Side, B: Side>(record: &[u8]) {
    for room in [0, record.len() + TRAILER - 1, record.len() + TRAILER, LONGEST_RECORD + 100] {
        let one = with_room(room, |out| A::write_trailed(record, out));
        let other = with_room(room, |out| B::write_trailed(record, out));
        assert!(one == other, "{record:?}: {:?}, {:?}", one.0, other.0);
    }
}

/// A line by itself, damaged, with another trailer, and without one; of a record that is refused; and of anything. Each stands
/// in a file, with its line feed and without.
fn same_trailed<A: Side, B: Side>(random: &mut Random, record: &[u8]) {
    let line = line_of(record);
    let kind = PublicKey::of_record(record).kind;
    let fault = random.one_of(Fault::of(kind));
    let [refused, any] = [sample::faulty(random, kind, &[fault]), sample::anything(random)];
    let other = [record, &line_of(&any)[any.len()..]].concat();
    let mut misspelt = line.clone();
    let place = line.len() - 1 - random.below(TRAILER);
    misspelt[place] = random.one_of(b"0123456789ABCDEFabG#");
    let damaged = sample::damaged_anywhere(random, &line, 2);
    for line in [&line, &damaged, &other, &misspelt, &line_of(&refused), &line_of(&any)] {
        same_file(line, A::trailed_at, B::trailed_at);
        same_file(&[&line[..], b"\n"].concat(), A::trailed_at, B::trailed_at);
    }
    for record in [record, &refused, &any, &line] {
        same_file(&[record, b"\n"].concat(), A::trailed_at, B::trailed_at);
        same_writing::<A, B>(record);
    }
}

/// The record in a text, whatever the text is, found where there is room.
fn same_letter<A: Side, B: Side>(text: &[u8]) {
    for room in [0, 300, LONGEST_RECORD] {
        let one = with_room(room, |out| A::read_mail(text, out));
        let other = with_room(room, |out| B::read_mail(text, out));
        assert!(one == other, "{text:?}: {:?}, {:?}", one.0, other.0);
    }
}

/// A record, whatever it is, written as mail, with every sort of room.
fn same_block<A: Side, B: Side>(record: &[u8]) {
    let needed = block_of(b"VKLOAD.REQ.1", record).len();
    for room in [0, needed - 1, needed, LONGEST_MAIL] {
        let one = with_room(room, |out| A::write_mail(record, out));
        let other = with_room(room, |out| B::write_mail(record, out));
        assert!(one == other, "{record:?}: {:?}, {:?}", one.0, other.0);
    }
}

/// A letter; damaged; cut anywhere; with other rows; of a request that is refused; and any text. And requests, accepted and
/// refused, wrapped keys of about as many bytes as are read, and anything, as mail.
fn same_mail<A: Side, B: Side>(random: &mut Random, request: &[u8], letter: &[u8]) {
    let mut out = [0; LONGEST_RECORD];
    assert_eq!(A::read_mail(letter, &mut out), Ok(request.len()));
    assert_eq!(out[..request.len()], *request);
    let fault = random.one_of(Fault::of(Kind::VkloadReq));
    let refused = sample::faulty(random, Kind::VkloadReq, &[fault]);
    let length = LONGEST_RECORD + random.below(2);
    let fields = sample::wrapped_key_fields(random, length);
    let longest = sample::of_kind(Kind::WrappedKey, &fields);
    let any = sample::anything(random);
    for record in [request, &refused, &longest, &any] {
        same_block::<A, B>(record);
        same_letter::<A, B>(&block_of(b"VKLOAD.REQ.1", record));
        same_letter::<A, B>(&sample::folded(random, b"KEY.1", record));
    }
    same_letter::<A, B>(letter);
    same_letter::<A, B>(&letter[..random.below(letter.len())]);
    same_letter::<A, B>(&sample::damaged_anywhere(random, letter, 1));
    same_letter::<A, B>(&sample::folded(random, b"VKLOAD.REQ.1", request));
    same_letter::<A, B>(&sample::mail(random));
}

fn same_moment<A: Side, B: Side>(text: &[u8]) {
    assert_eq!(A::moment_of(text), B::moment_of(text), "{text:?}");
}

/// A date; damaged; cut; one whose day does not exist; the ends of its year, the ends of its month and of February; and anything.
fn same_moments<A: Side, B: Side>(random: &mut Random, date: &[u8]) {
    assert!(A::moment_of(date).is_some(), "{date:?}");
    same_moment::<A, B>(date);
    for changes in 1..=2 {
        same_moment::<A, B>(&sample::damaged_anywhere(random, date, changes));
    }
    same_moment::<A, B>(&date[..random.below(date.len())]);
    same_moment::<A, B>(&sample::missing_day(random));
    for rest in [b"0101T000000Z", b"0301T000000Z", b"1231T235959Z"] {
        same_moment::<A, B>(&[&date[..4], rest].concat());
    }
    for day in [&b"01"[..], b"28", b"29", b"30", b"31"] {
        same_moment::<A, B>(&[&date[..6], day, &date[8..]].concat());
        same_moment::<A, B>(&[&date[..4], b"02", day, &date[8..]].concat());
    }
    same_moment::<A, B>(&sample::anything(random));
}

fn same_expiry<A: Side, B: Side>(record: &[u8]) {
    assert_eq!(A::expiry_of(record), B::expiry_of(record), "{record:?}");
}

/// A key; damaged, with its check as it was and made right again; with one fault; with a date that is damaged; and anything.
fn same_expiries<A: Side, B: Side>(random: &mut Random, record: &[u8]) {
    assert!(A::expiry_of(record).is_ok());
    same_expiry::<A, B>(record);
    let damaged = sample::damaged_anywhere(random, record, 1);
    same_expiry::<A, B>(&damaged);
    same_expiry::<A, B>(&sample::resealed(&damaged));
    let mut key = PublicKey::of_record(record);
    let fault = random.one_of(Fault::of(key.kind));
    same_expiry::<A, B>(&sample::faulty(random, key.kind, &[fault]));
    key.expiry = sample::damaged_anywhere(random, &key.expiry, 1);
    same_expiry::<A, B>(&key.record());
    same_expiry::<A, B>(&sample::anything(random));
}

/// The answer to a call, and what it leaves of a cabinet.
fn on_copy(
    cabinet: &[u8],
    call: impl FnOnce(&mut [u8]) -> Result<(), Refusal>,
) -> (Result<(), Refusal>, Vec<u8>) {
    let mut copy = cabinet.to_vec();
    (call(&mut copy), copy)
}

/// All calls on these bytes, whatever they are. A key that is found is the same part of them.
fn same_filing<A: Side, B: Side>(cabinet: &[u8], record: &[u8], identity: &[u8]) {
    assert_eq!(A::check_cabinet(cabinet), B::check_cabinet(cabinet));
    let (one, other) = (A::find_key(cabinet, identity), B::find_key(cabinet, identity));
    assert_eq!(one.map(<[u8]>::as_ptr_range), other.map(<[u8]>::as_ptr_range), "{identity:?}");
    let one = on_copy(cabinet, |cabinet| A::put_key(cabinet, record));
    let other = on_copy(cabinet, |cabinet| B::put_key(cabinet, record));
    assert!(one == other, "{record:?}: {:?}, {:?}", one.0, other.0);
    let one = on_copy(cabinet, |cabinet| A::remove_key(cabinet, identity));
    let other = on_copy(cabinet, |cabinet| B::remove_key(cabinet, identity));
    assert!(one == other, "{identity:?}: {:?}, {:?}", one.0, other.0);
}

/// The answer to a request, and to the same once more, and to the key of its module that is replaced afterwards.
fn same_admission<A: Side, B: Side>(cabinet: &[u8], request: &[u8], later: &[u8]) {
    let (mut one, mut other) = (cabinet.to_vec(), cabinet.to_vec());
    for _ in 0..2 {
        assert_eq!(A::admit(&mut one, request), B::admit(&mut other, request), "{request:?}");
        assert!(one == other, "{request:?}");
    }
    assert_eq!(A::put_key(&mut one, later), B::put_key(&mut other, later), "{later:?}");
    assert!(one == other, "{later:?}");
}

/// A full cabinet, and one with free places: keys that are there, later ones, others, requests, and what is refused. Then the same
/// bytes damaged, of another length, with the names of one place in another, and with another number or TVP, or none, in a place.
fn same_cabinets<A: Side, B: Side>(random: &mut Random, filed: &Filed) {
    let Filed { cabinet, kept, requests } = filed;
    assert_eq!(A::check_cabinet(cabinet), Ok(()));
    let mut less = cabinet.clone();
    for kept in kept.iter().step_by(3) {
        assert_eq!(A::remove_key(&mut less, &kept.identity), Ok(()));
        assert_eq!(B::remove_key(&mut cabinet.clone(), &kept.identity), Ok(()));
    }
    for (index, Kept { record, later, identity }) in kept.iter().enumerate().step_by(7) {
        let request = &requests[index];
        let other = Kept::new(random);
        let damaged = sample::damaged_anywhere(random, later, 1);
        let asking = sample::damaged_anywhere(random, identity, 1);
        let any = sample::anything(random);
        for cabinet in [cabinet, &less] {
            same_filing::<A, B>(cabinet, record, identity);
            same_filing::<A, B>(cabinet, later, &other.identity);
            same_filing::<A, B>(cabinet, &other.record, &asking);
            same_filing::<A, B>(cabinet, &damaged, &sample::resealed(&asking));
            same_filing::<A, B>(cabinet, &sample::resealed(&damaged), &any);
            same_filing::<A, B>(cabinet, &any, record);
            let asking = sample::damaged_anywhere(random, request, 1);
            let resealed = sample::resealed(&asking);
            let others = request_of(random, &other.identity);
            for request in [request, &others, &asking, &resealed, &any, record, identity] {
                same_admission::<A, B>(cabinet, request, later);
            }
            let wrong = sample::damaged_anywhere(random, cabinet, 1);
            same_filing::<A, B>(&wrong, later, identity);
            same_admission::<A, B>(&wrong, request, later);
            same_filing::<A, B>(&cabinet[1..], later, identity);
            same_admission::<A, B>(&cabinet[1..], request, later);
        }
        let mut twice = less.clone();
        let place = (index + 1 + random.below(CABINET_PLACES - 1)) % CABINET_PLACES;
        twice[place * CABINET_WIDTH..][..CABINET_WIDTH].copy_from_slice(&place_of(later));
        same_filing::<A, B>(&twice, &other.record, identity);
        let number = index * CABINET_WIDTH + CABINET_NUMBER_AT..(index + 1) * CABINET_WIDTH;
        let mut others = vec![cabinet.clone(); 5];
        others[0][number.clone()].fill(0);
        others[1][number.clone()].reverse();
        others[2][number.clone()][random.below(8)] ^= 1 << random.below(8);
        others[3][number.start - 1] = 1;
        others[4][number.start - CABINET_NUMBER_AT..number.start].fill(0);
        let tvp = index * CABINET_WIDTH + CABINET_TVP_AT..number.start;
        let date = sample::timestamp(random);
        let wrong = [sample::missing_day(random), sample::damaged_anywhere(random, &date, 1)];
        let dates = [b"19921231T235959Z", b"20180125T145959Z", b"20180125T150000Z", &[0; 16]];
        let texts = dates.map(|text| text.to_vec()).into_iter().chain(wrong).chain([date]);
        for text in texts.filter(|text| text.len() == tvp.len()) {
            let mut cabinet = cabinet.clone();
            cabinet[tvp.clone()].copy_from_slice(&text);
            others.push(cabinet);
        }
        for wrong in others {
            same_filing::<A, B>(&wrong, later, identity);
            same_admission::<A, B>(&wrong, request, later);
        }
    }
}

/// An unsigned key of a module, by every call that reads or builds it.
fn same_unsigned<A: Side, B: Side>(record: &[u8]) {
    let key = unsigned_of(record);
    assert_eq!(A::read(Reads::Records, &key), Err(MODULE_UNSIGNED));
    same_reading::<A, B>(&key);
    same_fingerprint::<A, B>(&key);
    same_expiry::<A, B>(&key);
    same_writing::<A, B>(&key);
    same_block::<A, B>(&key);
    same_letter::<A, B>(&block_of(b"PK.ECDH.1", &key));
    same_file(&[&line_of(&key)[..], b"\n"].concat(), A::trailed_at, B::trailed_at);
    let fields: Vec<&[u8]> = key.split(|&byte| byte == b'|').skip(1).take(5).collect();
    let lens: Vec<usize> = fields.iter().map(|field| field.len()).collect();
    for room in [0, LONGEST_RECORD] {
        same_building::<A, B>(b"PK.ECDH.1", &fields.concat(), &lens, room);
    }
}

/// A cabinet in which one place has the old key of a module: to be found, replaced, taken out, and with its request.
fn same_old_records<A: Side, B: Side>(filed: &Filed) {
    let Filed { cabinet, kept, requests } = filed;
    for (index, Kept { record, later, identity }) in kept.iter().enumerate() {
        if !identity.starts_with(b"SMID.1:") {
            continue;
        }
        let (old, mut cabinet) = (unsigned_of(record), cabinet.clone());
        cabinet[index * CABINET_WIDTH..][..CABINET_WIDTH].copy_from_slice(&place_of(&old));
        assert_eq!(A::check_cabinet(&cabinet), Ok(()));
        assert_eq!(A::find_key(&cabinet, identity), Err(NOT_THERE));
        for key in [record, later, &old, &unsigned_of(later)] {
            same_filing::<A, B>(&cabinet, key, identity);
            same_admission::<A, B>(&cabinet, &requests[index], key);
        }
        let place = (index + 1) % CABINET_PLACES;
        cabinet[place * CABINET_WIDTH..][..CABINET_WIDTH].copy_from_slice(&place_of(later));
        same_filing::<A, B>(&cabinet, later, identity);
    }
}

/// Stops where the two differ.
pub fn same_answers<A: Side, B: Side>(inputs: &Inputs) {
    let mut random = Random::with_seed(2027);
    for Sample { kind, record, bytes, lens } in inputs.samples.iter().chain(&inputs.wrapped_keys) {
        same_reading::<A, B>(record);
        same_reading::<A, B>(&sample::anything(&mut random));
        let name = kind.name().as_bytes();
        for room in [LONGEST_RECORD, record.len(), record.len() - 1] {
            same_building::<A, B>(name, bytes, lens, room);
        }
        for _ in 0..10 {
            let damaged = sample::damaged_anywhere(&mut random, bytes, 1);
            same_building::<A, B>(name, &damaged, lens, LONGEST_RECORD);
        }
        let mut moved = lens.clone();
        let end = random.below(lens.len() - 1);
        (moved[end], moved[end + 1]) = (lens[end] + lens[end + 1], 0);
        same_building::<A, B>(name, bytes, &moved, LONGEST_RECORD);
        same_building::<A, B>(name, bytes, &lens[1..], LONGEST_RECORD);
    }
    for key in &inputs.wrapped_keys {
        same_wrapped_keys::<A, B>(&mut random, &key.record);
    }
    same_messages::<A, B>(inputs);
    same_pieces::<A, B>(&mut random, inputs);
    for printed in &inputs.printed {
        same_fingerprints::<A, B>(&mut random, printed);
        same_trailed::<A, B>(&mut random, &printed.record);
        same_expiries::<A, B>(&mut random, &printed.record);
        same_unsigned::<A, B>(&printed.record);
    }
    for date in &inputs.dates {
        same_moments::<A, B>(&mut random, date);
    }
    same_tags::<A, B>(inputs);
    for agreed in &inputs.agreed {
        same_confirmations::<A, B>(&mut random, agreed);
    }
    for request in &inputs.requests {
        same_texts::<A, B>(request, LONGEST_MODULE_TEXT);
        same_texts::<A, B>(request, 200);
        same_texts::<A, B>(&sample::anything(&mut random), LONGEST_MODULE_TEXT);
    }
    for (request, letter) in inputs.requests.iter().zip(&inputs.letters) {
        same_mail::<A, B>(&mut random, request, letter);
    }
    same_cabinets::<A, B>(&mut random, &inputs.filed);
    same_old_records::<A, B>(&inputs.filed);
    let count = inputs.samples.len();
    assert_eq!(same_file(&inputs.file, A::line_at, B::line_at).0, count);
    let damaged = sample::damaged_anywhere(&mut random, &inputs.file, count);
    same_file(&damaged, A::line_at, B::line_at);
    let accepted = same_file(&inputs.trailed, A::trailed_at, B::trailed_at);
    assert_eq!(accepted, (count, count));
    let damaged = sample::damaged_anywhere(&mut random, &inputs.trailed, count);
    same_file(&damaged, A::trailed_at, B::trailed_at);
}
