//! HMAC-SHA-384-192, and the tags that confirm a key agreement, held against `compare/`.

mod held;

use compare::confirm::{Keys, KEY_LENGTH, Z_LENGTH};
use compare::hmac::{published, tag, Example};
use compare::kind::Kind;
use compare::random::Random;
use compare::record;
use compare::sample::{self, Exchange, Fault};
use compare::sha384::{sha384, BLOCK_LENGTH};
use compare::text::{base16, MAC_DIGITS};
use held::confirm::{same_request, same_response};
use held::{change_digit, expected, first, rounds, NamedNumbers};
use obscurlane::{confirm_request, confirm_response, hmac_of, ConfirmRefusal, Reason, Refusal};

// ---- HMAC

/// Longer than two blocks and what the end of a message needs.
const LONG: usize = 300;

#[test]
fn published_examples() {
    for Example { key, text, hmac } in published() {
        let ours = base16(&hmac_of(&key, &text));
        let length = hmac.len().min(ours.len());
        assert_eq!(ours[..length], hmac[..length]);
    }
}

/// A key of every length, a text of every length, and both.
#[test]
fn every_length() {
    let bytes = Random::with_seed(91).bytes(2 * LONG);
    for length in 0..=LONG {
        let (front, back) = bytes.split_at(length);
        for (key, text) in [(front, &bytes[..]), (back, front), (&bytes[..24], front)] {
            assert_eq!(hmac_of(key, text), tag(key, text), "{} and {}", key.len(), text.len());
        }
    }
}

/// Bytes that are all alike, in the key and in the text.
#[test]
fn every_byte_value() {
    for byte in 0..=255 {
        for length in [1, 24, 127, 128, 129] {
            let bytes = vec![byte; length];
            assert_eq!(hmac_of(&bytes, b"text"), tag(&bytes, b"text"), "{length} bytes {byte}");
            assert_eq!(hmac_of(b"key", &bytes), tag(b"key", &bytes), "{length} bytes {byte}");
        }
    }
}

/// Zeros behind a key up to a block; the hash of a longer one.
#[test]
fn keys_that_are_alike() {
    let mut random = Random::with_seed(92);
    for length in 0..=LONG {
        let key = random.bytes(length);
        let alike = if length > BLOCK_LENGTH {
            sha384(&key).to_vec()
        } else {
            [&key[..], &[0; BLOCK_LENGTH][length..]].concat()
        };
        assert_eq!(hmac_of(&key, b"text"), hmac_of(&alike, b"text"), "{length} bytes");
    }
}

// ---- right tags

const ENOUGH: [usize; 2] = [KEY_LENGTH; 2];
const TOO_SHORT: NamedNumbers = (0, (10, 0));
const WRONG_Z: NamedNumbers = (0, (16, 0));
const OTHER_REQUEST: NamedNumbers = (0, (17, 0));
const WRONG_TAG: NamedNumbers = (0, (18, 0));

#[test]
fn right_tags_and_their_keys() {
    let mut random = Random::with_seed(93);
    for _ in 0..rounds() {
        let exchange = Exchange::any(&mut random);
        let (z, request, response) = (&exchange.z, exchange.request(), exchange.response());
        let (mut mac_key, mut kek) = ([0; KEY_LENGTH], [0; KEY_LENGTH]);
        assert_eq!(confirm_request(z, &request, &mut mac_key, &mut kek), Ok(()));
        assert_eq!(Keys { mac_key, kek }, Keys::of(z, &request));
        assert_eq!(same_request(z, &request, ENOUGH), Ok(()));
        assert_eq!(same_response(z, &request, &response), Ok(()));
    }
}

/// What the tags are made of, by the other calls of the crate.
#[test]
fn tags_by_their_texts() {
    let mut random = Random::with_seed(94);
    for _ in 0..rounds().div_ceil(10) {
        let exchange = Exchange::any(&mut random);
        let request = exchange.request();
        let mut out = [0; obscurlane::LONGEST_MODULE_TEXT];
        let len = obscurlane::shared_info(&request, &mut out).expect("accepted");
        let begun = obscurlane::Sha384::begin().add(&exchange.z).add(&[0, 0, 0, 1]);
        let keys = begun.add(&out[..len]).end();
        let len = obscurlane::module_text(&request, &mut out).expect("accepted");
        let module_tag = hmac_of(&keys[..24], &out[..len]);
        assert_eq!(base16(&module_tag).as_bytes(), exchange.module_tag);
        let len = obscurlane::centre_text(&request, &mut out).expect("accepted");
        let centre_tag = hmac_of(&keys[..24], &out[..len]);
        assert_eq!(base16(&centre_tag).as_bytes(), exchange.centre_tag);
    }
}

/// The longest request, and the shortest that there can be.
#[test]
fn the_longest_and_the_shortest() {
    let mut random = Random::with_seed(95);
    let longest = sample::longest_fields(&mut random, Kind::VkloadReq);
    let mut shortest = Exchange::any(&mut random);
    for (kind, id) in [(Kind::Smid, &mut shortest.id_sm), (Kind::Kmcid, &mut shortest.id_kmc)] {
        let times = [sample::timestamp(&mut random), sample::hex(&mut random, 16)];
        *id = sample::of_kind(kind, &[&[b"A".to_vec(), b"0".to_vec()][..], &times].concat());
    }
    (shortest.hwid, shortest.fwid) = (b"h".to_vec(), b"f".to_vec());
    for exchange in [Exchange::of(random.bytes(Z_LENGTH), longest), shortest.confirmed()] {
        let (z, request) = (&exchange.z, exchange.request());
        assert_eq!(same_request(z, &request, ENOUGH), Ok(()));
        assert_eq!(same_response(z, &request, &exchange.response()), Ok(()));
    }
}

// ---- one thing wrong

#[test]
fn another_digit_in_every_place_of_a_tag() {
    let whole = Exchange::any(&mut Random::with_seed(96));
    for place in 0..MAC_DIGITS {
        let mut exchange = whole.clone();
        change_digit(&mut exchange.module_tag, place);
        let (z, request) = (&exchange.z, exchange.request());
        assert_eq!(same_request(z, &request, ENOUGH), Err(WRONG_TAG), "{place}");
        assert_eq!(same_response(z, &request, &exchange.response()), Ok(()), "{place}");
        change_digit(&mut exchange.centre_tag, place);
        let response = exchange.response();
        assert_eq!(same_response(z, &request, &response), Err(WRONG_TAG), "{place}");
    }
}

#[test]
fn another_bit_in_every_place_of_z() {
    let exchange = Exchange::any(&mut Random::with_seed(97));
    let (request, response) = (exchange.request(), exchange.response());
    for bit in 0..8 * Z_LENGTH {
        let mut z = exchange.z.clone();
        z[bit / 8] ^= 1 << (bit % 8);
        assert_eq!(same_request(&z, &request, ENOUGH), Err(WRONG_TAG), "bit {bit}");
        assert_eq!(same_response(&z, &request, &response), Err(WRONG_TAG), "bit {bit}");
    }
}

#[test]
fn every_length_of_z() {
    let exchange = Exchange::any(&mut Random::with_seed(98));
    let (request, response) = (exchange.request(), exchange.response());
    let longer = [&exchange.z[..], &exchange.z, &exchange.z].concat();
    for length in (0..=longer.len()).filter(|&length| length != Z_LENGTH) {
        let z = &longer[..length];
        assert_eq!(same_request(z, &request, ENOUGH), Err(WRONG_Z), "{length} bytes");
        assert_eq!(same_response(z, &request, &response), Err(WRONG_Z), "{length} bytes");
    }
}

/// With the right tag and with another one.
#[test]
fn every_two_rooms() {
    let mut exchange = Exchange::any(&mut Random::with_seed(99));
    let whole = exchange.request();
    change_digit(&mut exchange.module_tag, 0);
    for room in 0..=2 * KEY_LENGTH {
        for other in 0..=2 * KEY_LENGTH {
            let is_short = room < KEY_LENGTH || other < KEY_LENGTH;
            let rooms = [room, other];
            let right = if is_short { Err(TOO_SHORT) } else { Ok(()) };
            assert_eq!(same_request(&exchange.z, &whole, rooms), right, "{rooms:?}");
            let wrong = if is_short { TOO_SHORT } else { WRONG_TAG };
            assert_eq!(same_request(&exchange.z, &exchange.request(), rooms), Err(wrong));
        }
    }
}

/// Each part that both records have, in the response alone; the tag is that of the request, or right for what the response says.
#[test]
fn responses_to_another_request() {
    let mut random = Random::with_seed(100);
    for _ in 0..rounds().div_ceil(10) {
        let exchange = Exchange::any(&mut random);
        let request = exchange.request();
        for part in 0..3 {
            let mut other = exchange.clone();
            match part {
                0 => other.id_kmc = sample::record(&mut random, Kind::Kmcid),
                1 => other.id_sm = sample::record(&mut random, Kind::Smid),
                _ => other.tvp = sample::timestamp(&mut random),
            }
            for other in [other.clone(), other.confirmed()] {
                let response = other.response();
                let answer = same_response(&exchange.z, &request, &response);
                assert_eq!(answer, Err(OTHER_REQUEST));
            }
        }
    }
}

/// A request with another HWID, FWID or QE has another tag; the response to it has another with another QE alone.
#[test]
fn what_the_response_does_not_say() {
    let mut random = Random::with_seed(101);
    for _ in 0..rounds().div_ceil(10) {
        let exchange = Exchange::any(&mut random);
        let (z, response) = (&exchange.z, exchange.response());
        let mut other = exchange.clone();
        other.hwid = sample::ident(&mut random, 20);
        other.fwid = sample::ident(&mut random, 20);
        assert_eq!(same_request(z, &other.request(), ENOUGH), Err(WRONG_TAG));
        assert_eq!(same_response(z, &other.request(), &response), Ok(()));
        other.qe = sample::point(&mut random);
        assert_eq!(same_response(z, &other.request(), &response), Err(WRONG_TAG));
    }
}

// ---- the order of the numbers

/// A record that is refused by itself, and its refusal, which has the number of the record.
fn refused(random: &mut Random, kind: Kind, which: u8) -> (Vec<u8>, NamedNumbers) {
    let fault = random.one_of(Fault::of(kind));
    let record = sample::faulty(random, kind, &[fault]);
    let refusal = expected(record::read(&record, &[kind])).expect_err("it has a fault");
    (record, (which, refusal))
}

/// Every choice of things that are wrong at once: the first in the order decides, and the others are not heard of.
#[test]
fn every_choice_of_faults() {
    let mut random = Random::with_seed(102);
    for faults in (0..64_u8).cycle().take(rounds()) {
        let [asked, answered, length, other, room, tag] =
            [0, 1, 2, 3, 4, 5].map(|bit| faults >> bit & 1 == 1);
        let mut exchange = Exchange::any(&mut random);
        if tag {
            change_digit(&mut exchange.module_tag, 7);
            change_digit(&mut exchange.centre_tag, 7);
        }
        let whole = exchange.request();
        if other {
            exchange.tvp = sample::timestamp(&mut random);
        }
        let (no_request, request_s) = refused(&mut random, Kind::VkloadReq, 1);
        let (no_response, response_s) = refused(&mut random, Kind::VkloadResp, 2);
        let request = if asked { no_request } else { whole };
        let response = if answered { no_response } else { exchange.response() };
        let z = if length { &exchange.z[1..] } else { &exchange.z[..] };
        let rooms = if room { [KEY_LENGTH, KEY_LENGTH - 1] } else { ENOUGH };
        assert_eq!(
            same_request(z, &request, rooms),
            first([(asked, request_s), (length, WRONG_Z), (room, TOO_SHORT), (tag, WRONG_TAG)])
        );
        let of_both = [
            (asked, request_s),
            (answered, response_s),
            (length, WRONG_Z),
            (other, OTHER_REQUEST),
            (tag, WRONG_TAG),
        ];
        assert_eq!(same_response(z, &request, &response), first(of_both));
    }
}

/// Exchanged, one of them twice, and records of every other kind.
#[test]
fn other_kinds() {
    let mut random = Random::with_seed(103);
    let exchange = Exchange::any(&mut random);
    let (z, request, response) = (&exchange.z, exchange.request(), exchange.response());
    let unknown = |which| Err((which, (2, 0)));
    assert_eq!(same_request(z, &response, ENOUGH), unknown(1));
    assert_eq!(same_response(z, &response, &request), unknown(1));
    assert_eq!(same_response(z, &request, &request), unknown(2));
    assert_eq!(same_response(z, &response, &response), unknown(1));
    let is_neither = |kind: &Kind| !matches!(kind, Kind::VkloadReq | Kind::VkloadResp);
    for kind in Kind::ALL.into_iter().filter(is_neither) {
        let other = sample::record(&mut random, kind);
        assert_eq!(same_request(z, &other, ENOUGH), unknown(1), "{kind:?}");
        assert_eq!(same_response(z, &other, &response), unknown(1), "{kind:?}");
        assert_eq!(same_response(z, &request, &other), unknown(2), "{kind:?}");
    }
}

/// Support's question: a request that was mistyped is told from one that was made under another key.
#[test]
fn mistyped_or_under_another_key() {
    let mut random = Random::with_seed(104);
    for _ in 0..rounds().div_ceil(10) {
        let exchange = Exchange::any(&mut random);
        let mut mistyped = exchange.request();
        let place = random.between(20, mistyped.len() - 6);
        mistyped[place] ^= 1;
        assert_eq!(same_request(&exchange.z, &mistyped, ENOUGH), Err((1, (4, 0))));
        let other = random.bytes(Z_LENGTH);
        assert_eq!(same_request(&other, &exchange.request(), ENOUGH), Err(WRONG_TAG));
    }
}

// ---- inputs that overlap, and what a refusal says

/// Z is a part of the request that it is the right one for.
#[test]
fn z_inside_the_request() {
    let mut exchange = Exchange::any(&mut Random::with_seed(105));
    exchange.z = exchange.request()[..Z_LENGTH].to_vec();
    let exchange = exchange.confirmed();
    let request = exchange.request();
    assert_eq!(same_request(&request[..Z_LENGTH], &request, ENOUGH), Ok(()));
    assert_eq!(same_response(&request[..Z_LENGTH], &request, &exchange.response()), Ok(()));
}

#[test]
fn a_refusal_is_an_error() {
    let exchange = Exchange::any(&mut Random::with_seed(106));
    let (z, request) = (&exchange.z, exchange.request());
    let refusal = confirm_response(z, &request, b"VKLOAD.RESP.1|0000").unwrap_err();
    let own = Refusal { reason: Reason::WrongCheck, field: None };
    assert_eq!(refusal, ConfirmRefusal::Response(own));
    assert_eq!(refusal.reason(), Reason::WrongCheck);
    assert_eq!(refusal.to_string(), "the response: 4: the check differs");
    for (refusal, said) in [
        (ConfirmRefusal::Request(own), "the request: 4: the check differs"),
        (ConfirmRefusal::WrongZ, "16: Z is not 96 bytes"),
        (
            ConfirmRefusal::OtherRequest,
            "17: the response's identities or TVP differ from the request's",
        ),
        (ConfirmRefusal::ShortOutput, "10: the output is too short"),
        (ConfirmRefusal::WrongTag, "18: the tag differs"),
    ] {
        let error: Box<dyn std::error::Error> = refusal.into();
        assert_eq!(error.to_string(), said);
        assert_eq!(error.downcast_ref(), Some(&refusal));
    }
}
