//! Each `LONGEST_` constant is the length of the longest thing of its name: it is made, and one byte less is no room for it. Each
//! `_BYTES` constant, `TRAILER` and `CABINET_SIZE`, is the only length that there is of its name.
//! What the table of kinds allows is computed by `compare/`.

use compare::kind::{FieldType, Kind};
use compare::random::Random;
use compare::sample::{self, Exchange, PublicKey};
use obscurlane::{confirm_request, confirm_response, ConfirmRefusal};
use obscurlane::{
    Cabinet, Reason, Record, Refusal, CABINET_NUMBER_AT, CABINET_PLACES, CABINET_SIZE,
    CABINET_TVP_AT, CABINET_WIDTH, KEY_BYTES, LONGEST_MAIL, LONGEST_READ, LONGEST_TRAILED, TRAILER,
    Z_BYTES,
};

/// What a call writes with as much room as it takes; one byte less is no room.
fn made(call: impl Fn(&mut [u8]) -> Result<usize, Refusal>) -> Vec<u8> {
    let mut out = [0; 2 * LONGEST_READ];
    let len = call(&mut out).expect("ample room");
    let made = out[..len].to_vec();
    assert_eq!((call(&mut out[..len]), &out[..len]), (Ok(len), &made[..]));
    let refusal = call(&mut out[..len - 1]).expect_err("one byte less");
    assert_eq!(refusal, Refusal { reason: Reason::ShortOutput, field: None });
    made
}

/// The longest record of a kind, built by the library.
fn longest_record(kind: Kind) -> Vec<u8> {
    let fields = sample::longest_fields(&mut Random::with_seed(51), kind);
    let lens: Vec<usize> = fields.iter().map(Vec::len).collect();
    let built = made(|out| obscurlane::build(kind.name().as_bytes(), &fields.concat(), &lens, out));
    assert_eq!(built, sample::of_kind(kind, &fields), "{kind:?}");
    built
}

#[test]
fn idents() {
    let letters = [b'A'; obscurlane::LONGEST_IDENT + 1];
    assert!(obscurlane::is_ident(&letters[1..]));
    assert!(!obscurlane::is_ident(&letters));
    assert_eq!(obscurlane::LONGEST_IDENT, compare::text::LONGEST_IDENT);
}

/// A field longer than the longest of its type is refused, so no record is longer than one of the longest fields. An attribute list
/// has no longest length of its own.
#[test]
fn no_field_is_longer() {
    for kind in Kind::ALL {
        let fields = sample::longest_fields(&mut Random::with_seed(52), kind);
        for (index, entry) in kind.fields().iter().enumerate() {
            if entry.field_type == FieldType::Attributes {
                continue;
            }
            let mut longer = fields.clone();
            longer[index].push(b'A');
            let lens: Vec<usize> = longer.iter().map(Vec::len).collect();
            let (name, mut out) = (kind.name().as_bytes(), [0; LONGEST_READ]);
            let refusal = obscurlane::build(name, &longer.concat(), &lens, &mut out).unwrap_err();
            assert_eq!(refusal.field, Some(index + 1), "{kind:?}");
        }
    }
}

#[test]
fn records_and_identities() {
    for kind in Kind::ALL {
        assert_eq!(longest_record(kind).len(), kind.longest(), "{kind:?}");
    }
    assert_eq!(obscurlane::LONGEST_IDENTITY, Kind::longest_of(&Kind::IDENTITIES));
    assert_eq!(obscurlane::LONGEST_PUBKEY, Kind::longest_of(&Kind::PUBLIC_KEYS));
    assert_eq!(obscurlane::LONGEST_RECORD, Kind::longest_of(&Kind::ALL));
    for kind in Kind::ALL {
        let is_within = kind.longest() <= obscurlane::LONGEST_PUBKEY;
        assert_eq!(is_within, kind != Kind::WrappedKey, "{kind:?}");
    }
}

/// One of more bytes is refused whatever the room, and one of as many for its room alone.
#[test]
fn wrapped_keys() {
    let mut random = Random::with_seed(53);
    let longest = obscurlane::LONGEST_RECORD;
    for (length, reason) in [
        (longest - 1, Reason::ShortOutput),
        (longest, Reason::ShortOutput),
        (longest + 1, Reason::TooLong),
        (longest + 2, Reason::TooLong),
    ] {
        let fields = sample::wrapped_key_fields(&mut random, length);
        let lens: Vec<usize> = fields.iter().map(Vec::len).collect();
        let key = sample::of_kind(Kind::WrappedKey, &fields);
        let mut out = vec![0; length];
        for room in [0, 1, length - 1] {
            let built = obscurlane::build(b"KEY.1", &fields.concat(), &lens, &mut out[..room]);
            assert_eq!(built, Err(Refusal { reason, field: None }), "{length} in {room}");
        }
        let built = obscurlane::build(b"KEY.1", &fields.concat(), &lens, &mut out);
        let read = Record::read(&key).map(|record| record.kind());
        if reason == Reason::ShortOutput {
            assert_eq!((built, out), (Ok(length), key.clone()));
            assert_eq!(read, Ok(obscurlane::Kind::Key));
        } else {
            let refusal = Refusal { reason, field: None };
            assert_eq!((built, read), (Err(refusal), Err(refusal)));
        }
    }
}

#[test]
fn texts_of_a_request() {
    let request = longest_record(Kind::VkloadReq);
    let shared_info = made(|out| obscurlane::shared_info(&request, out));
    assert_eq!(shared_info.len(), obscurlane::LONGEST_SHARED_INFO);
    let module_text = made(|out| obscurlane::module_text(&request, out));
    assert_eq!(module_text.len(), obscurlane::LONGEST_MODULE_TEXT);
    let centre_text = made(|out| obscurlane::centre_text(&request, out));
    assert_eq!(centre_text.len(), obscurlane::LONGEST_CENTRE_TEXT);
}

/// Of the longest keys and of the shortest: all Fingerprints are as long.
#[test]
fn fingerprints() {
    let mut random = Random::with_seed(54);
    for kind in Kind::PUBLIC_KEYS {
        let longest = longest_record(kind);
        let print = made(|out| obscurlane::write_fingerprint(&longest, out));
        assert_eq!(print.len(), obscurlane::LONGEST_FINGERPRINT);
        let mut shortest = PublicKey::of_record(&sample::record(&mut random, kind));
        (shortest.subject.manufacturer, shortest.subject.mid) = (b"A".into(), b"0".into());
        let print = made(|out| obscurlane::write_fingerprint(&shortest.record(), out));
        assert_eq!(print, shortest.right_print());
        assert_eq!(print.len(), obscurlane::LONGEST_FINGERPRINT);
    }
}

/// A byte less and a byte more are no Z; a byte less is no room for a key, and a byte more stays as it was.
#[test]
fn keys_and_what_they_come_from() {
    let exchange = Exchange::any(&mut Random::with_seed(55));
    let (request, response) = (exchange.request(), exchange.response());
    let longer = [&exchange.z[..], b"Z"].concat();
    let (mut mac_key, mut kek) = ([0xA5; KEY_BYTES + 1], [0xA5; KEY_BYTES + 1]);
    for z in [&longer[..Z_BYTES - 1], &longer[..Z_BYTES + 1]] {
        let refusal = Err(ConfirmRefusal::WrongZ);
        assert_eq!(confirm_request(z, &request, &mut mac_key, &mut kek), refusal);
        assert_eq!(confirm_response(z, &request, &response), refusal);
    }
    let z = &longer[..Z_BYTES];
    assert_eq!(confirm_response(z, &request, &response), Ok(()));
    let refusal = Err(ConfirmRefusal::ShortOutput);
    assert_eq!(confirm_request(z, &request, &mut mac_key[2..], &mut kek), refusal);
    assert_eq!(confirm_request(z, &request, &mut mac_key, &mut kek[2..]), refusal);
    assert_eq!((mac_key, kek), ([0xA5; KEY_BYTES + 1], [0xA5; KEY_BYTES + 1]));
    assert_eq!(confirm_request(z, &request, &mut mac_key, &mut kek), Ok(()));
    let keys = compare::confirm::Keys::of(z, &request);
    assert_eq!(mac_key[..], [&keys.mac_key[..], &[0xA5]].concat());
    assert_eq!(kek[..], [&keys.kek[..], &[0xA5]].concat());
}

/// A wrapped key that is as long as a record can be, and one that has a byte more.
fn longest_and_longer(seed: u64) -> [Vec<u8>; 2] {
    let (longest, longer) = (obscurlane::LONGEST_RECORD, obscurlane::LONGEST_RECORD + 1);
    let mut random = Random::with_seed(seed);
    [longest, longer].map(|length| {
        let fields = sample::wrapped_key_fields(&mut random, length);
        sample::of_kind(Kind::WrappedKey, &fields)
    })
}

/// The lines of the longest record of each kind, of which a wrapped key is the longest; and of one byte more.
#[test]
fn lines_with_a_trailer() {
    for kind in Kind::RECORDS {
        let record = longest_record(kind);
        let line = made(|out| obscurlane::write_trailed(&record, out));
        assert_eq!(line, compare::trailed::line_of(&record), "{kind:?}");
        assert_eq!(line.len(), record.len() + TRAILER, "{kind:?}");
        assert_eq!(Record::read_trailed(&line), Record::read(&record), "{kind:?}");
        assert!(line.len() <= LONGEST_TRAILED, "{kind:?}");
    }
    let [longest, longer] = longest_and_longer(56);
    let line = made(|out| obscurlane::write_trailed(&longest, out));
    assert_eq!(line.len(), LONGEST_TRAILED);
    assert!(Record::read_trailed(&line).is_ok());
    let refusal = Refusal { reason: Reason::TooLong, field: None };
    assert_eq!(Record::read_trailed(&compare::trailed::line_of(&longer)), Err(refusal));
    assert_eq!(obscurlane::write_trailed(&longer, &mut [0; 2 * LONGEST_READ]), Err(refusal));
}

/// The blocks of the longest record of each kind, of which a wrapped key is the longest; and of one byte more. What is read from
/// them has room where a record has.
#[test]
fn blocks_by_mail() {
    for kind in Kind::RECORDS {
        let record = longest_record(kind);
        let block = made(|out| obscurlane::write_mail(&record, out));
        assert_eq!(block, compare::mail::block_of(kind.name().as_bytes(), &record), "{kind:?}");
        let guards = 30 + 2 * kind.name().len();
        assert_eq!(block.len(), guards + record.len() + record.len().div_ceil(64), "{kind:?}");
        assert_eq!(made(|out| obscurlane::read_mail(&block, out)), record, "{kind:?}");
        assert!(block.len() <= LONGEST_MAIL, "{kind:?}");
    }
    let [longest, longer] = longest_and_longer(57);
    let block = made(|out| obscurlane::write_mail(&longest, out));
    assert_eq!(block.len(), LONGEST_MAIL);
    let mut out = [0; obscurlane::LONGEST_RECORD];
    assert_eq!(Record::read_mail(&block, &mut out), Record::read(&longest));
    let refusal = Refusal { reason: Reason::TooLong, field: None };
    let block = compare::mail::block_of(b"KEY.1", &longer);
    assert_eq!(obscurlane::read_mail(&block, &mut [0; 2 * LONGEST_READ]), Err(refusal));
    assert_eq!(obscurlane::write_mail(&longer, &mut [0; 2 * LONGEST_READ]), Err(refusal));
}

#[test]
fn bytes_that_are_read() {
    let longer = [b'A'; LONGEST_READ + 1];
    for read in [Record::read, Record::read_identity] {
        let reason = |bytes| read(bytes).expect_err("no record").reason;
        assert_eq!(reason(&longer[1..]), Reason::UnknownKind);
        assert_eq!(reason(&longer), Reason::TooLong);
    }
}

/// Bytes of this length alone are a cabinet; it takes so many keys, each at the front of a place, and no more. Between the longest key
/// and the TVP there are zeros, and behind that the number of its Expiry.
#[test]
fn cabinets() {
    assert_eq!(CABINET_SIZE, CABINET_PLACES * CABINET_WIDTH);
    assert_eq!(CABINET_WIDTH, CABINET_NUMBER_AT + size_of::<i64>());
    assert_eq!(CABINET_NUMBER_AT, CABINET_TVP_AT + "19930101T000000Z".len());
    for len in [0, CABINET_SIZE - 1, CABINET_SIZE + 1, 2 * CABINET_SIZE] {
        let refusal = Cabinet::make(&mut vec![0; len]).expect_err("another length");
        assert_eq!(refusal, Refusal { reason: Reason::NotCabinet, field: None });
    }
    let mut bytes = vec![0; CABINET_SIZE];
    let mut cabinet = Cabinet::make(&mut bytes).expect("its length");
    let mut fields = sample::longest_fields(&mut Random::with_seed(54), Kind::PkEcdsa);
    let mut subject = sample::longest_fields(&mut Random::with_seed(55), Kind::Smman);
    for number in 0..=CABINET_PLACES {
        subject[1] = format!("{number:032}").into_bytes();
        fields[0] = sample::of_kind(Kind::Smman, &subject);
        let key = sample::of_kind(Kind::PkEcdsa, &fields);
        assert_eq!(key.len(), obscurlane::LONGEST_PUBKEY);
        let put = cabinet.put(&key).map_err(|refusal| refusal.reason);
        if number == CABINET_PLACES {
            assert_eq!(put, Err(Reason::NoPlace));
        } else {
            assert_eq!(put, Ok(()));
            let place = &cabinet.bytes()[number * CABINET_WIDTH..][..CABINET_WIDTH];
            let (front, last) = place.split_at(CABINET_TVP_AT);
            let (tvp, expiry) = last.split_at(CABINET_NUMBER_AT - CABINET_TVP_AT);
            assert_eq!(tvp, b"19930101T000000Z");
            assert_eq!(
                front.split_at(key.len()),
                (&key[..], &vec![0; front.len() - key.len()][..])
            );
            let seconds = obscurlane::moment_of(&fields[2]).expect("a date");
            assert_eq!(expiry, seconds.to_be_bytes());
        }
    }
}
