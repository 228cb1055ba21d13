//! The implementation held against request E5: HMAC-SHA-384-192, the two keys, and where numbers 16 to
//! 18 stand.

use compare::confirm::{derive, request, response, Keys, Refused};
use compare::hmac::{hmac, published, tag, Example};
use compare::kind::Kind;
use compare::random::Random;
use compare::record::read_record;
use compare::refusal::Refusal;
use compare::sample::{self, Exchange, Fault};
use compare::sha384::sha384;
use compare::text::{base16, base16_decode};
use compare::worked::{worked, IDENTITIES, RECORDS};

/// What is written into outputs of these lengths, if anything is. What is not is left as it was.
fn keys(z: &[u8], asked: &[u8], rooms: [usize; 2]) -> Result<[Vec<u8>; 2], Refused> {
    let [mut mac_key, mut kek] = rooms.map(|room| vec![0xAA; room]);
    let answer = request(z, asked, &mut mac_key, &mut kek);
    let written = if answer.is_ok() { 24 } else { 0 };
    let outputs = [mac_key, kek];
    for output in &outputs {
        let kept = &output[written..];
        assert_eq!(kept, vec![0xAA; kept.len()]);
    }
    answer.map(|()| outputs.map(|output| output[..written].to_vec()))
}

/// Whether the request of an exchange is confirmed, and whether the response is.
fn both(z: &[u8], exchange: &Exchange) -> [Result<(), Refused>; 2] {
    let asked = exchange.request();
    [keys(z, &asked, [24; 2]).map(|_| ()), response(z, &asked, &exchange.response())]
}

fn refused<T>(refusal: Refusal) -> Result<T, Refused> {
    Err(refusal.into())
}

#[test]
fn the_values_of_document_003_come_out() {
    let (z, asked) = (worked("Z"), worked("VKLOADREQ"));
    let input = [&z[..], &[0, 0, 0, 1], &worked("SHAREDINFO")].concat();
    assert_eq!(input, worked("KDF_INPUT"));
    assert_eq!(derive(&z, &worked("SHAREDINFO"))[..], worked("DKM"));
    assert_eq!(worked("DKM"), [worked("MACKEY"), worked("KEK")].concat());
    let expected = [worked("MACKEY"), worked("KEK")];
    assert_eq!(keys(&z, &asked, [24; 2]), Ok(expected));

    for (text, characters) in [("MACDATA_SM", "MACTAG_SM"), ("MACDATA_KMC", "MACTAG_KMC")] {
        let right = base16_decode(&worked(characters)).unwrap();
        assert_eq!(tag(&worked("MACKEY"), &worked(text))[..], right, "{text}");
    }
    let keys = Keys::of(&z, &asked);
    assert_eq!(keys.module_tag(&asked), worked("MACTAG_SM"));
    assert_eq!(keys.centre_tag(&asked), worked("MACTAG_KMC"));
    assert_eq!(response(&z, &asked, &worked("VKLOADRESP")), Ok(()));
}

#[test]
fn the_examples_of_rfc_4231_come_out() {
    let lengths: Vec<usize> = published().iter().map(|example| example.hmac.len()).collect();
    assert_eq!(lengths, [96, 96, 96, 96, 32, 96, 96]);
    for Example { key, text, hmac: expected } in published() {
        assert_eq!(base16(&hmac(&key, &text))[..expected.len()], *expected);
        let kept = expected.len().min(48);
        assert_eq!(base16(&tag(&key, &text))[..kept], expected[..kept]);
    }
}

#[test]
fn zeros_behind_a_key_count_only_beyond_a_block() {
    let (key, text) = (worked("MACKEY"), worked("MACDATA_SM"));
    let with_zeros = |length| {
        let mut key = key.clone();
        key.resize(length, 0);
        tag(&key, &text)
    };
    for length in [25, 48, 127, 128] {
        assert_eq!(with_zeros(length), with_zeros(24), "{length}");
    }
    assert_ne!(with_zeros(129), with_zeros(24));
    let long = vec![1; 129];
    assert_eq!(tag(&long, &text), tag(&sha384(&long), &text));
    assert_ne!(tag(&long[1..], &text), tag(&sha384(&long[1..]), &text));
}

#[test]
fn z_is_96_bytes() {
    let right = Exchange::worked();
    for length in [0, 1, 95, 97, 192, 96 + 65_536] {
        let z: Vec<u8> = right.z.iter().cycle().take(length).copied().collect();
        let own = Exchange { z: z.clone(), ..right.clone() }.confirmed();
        for exchange in [&right, &own] {
            assert_eq!(both(&z, exchange), [refused(Refusal::WrongZ); 2], "{length}");
        }
    }
    assert_eq!((Refusal::WrongZ.number(), Refusal::WrongZ.field()), (16, 0));
}

#[test]
fn both_outputs_need_24_bytes() {
    let mut exchange = Exchange::worked();
    for _ in 0..2 {
        for rooms in [[0, 0], [23, 24], [24, 23], [0, 1024], [1024, 0]] {
            let written = keys(&exchange.z, &exchange.request(), rooms);
            assert_eq!(written, refused(Refusal::ShortOutput), "{rooms:?}");
        }
        // Room is asked for whether the tag is right or not.
        exchange.module_tag.reverse();
    }
    for rooms in [[24, 24], [25, 24], [24, 25], [48, 1024]] {
        let written = keys(&exchange.z, &exchange.request(), rooms);
        assert_eq!(written, Ok([worked("MACKEY"), worked("KEK")]), "{rooms:?}");
    }
}

#[test]
fn one_character_of_a_tag_makes_18() {
    let right = Exchange::worked();
    let other = |digit| if digit == b'0' { b'1' } else { b'0' };
    for place in 0..48 {
        let mut wrong = right.clone();
        wrong.module_tag[place] = other(wrong.module_tag[place]);
        let differs = refused(Refusal::TagDiffers);
        // The request's tag does not count for the response.
        assert_eq!(both(&right.z, &wrong), [differs, Ok(())], "{place}");
        wrong.centre_tag[place] = other(wrong.centre_tag[place]);
        assert_eq!(both(&right.z, &wrong), [differs; 2], "{place}");
    }
    let (module_tag, centre_tag) = (right.centre_tag.clone(), right.module_tag.clone());
    let exchanged = Exchange { module_tag, centre_tag, ..right.clone() };
    assert_eq!(both(&right.z, &exchanged), [refused(Refusal::TagDiffers); 2]);
    assert_eq!((Refusal::TagDiffers.number(), Refusal::TagDiffers.field()), (18, 0));
}

#[test]
fn support_tells_a_mistyped_request_from_one_under_another_key() {
    let mut random = Random::with_seed(17);
    let right = Exchange::worked();
    let other = Exchange { z: random.bytes(96), ..right.clone() }.confirmed();
    assert_eq!(both(&right.z, &other), [refused(Refusal::TagDiffers); 2]);
    assert_eq!(both(&other.z, &other), [Ok(()); 2]);
    let mut mistyped = right.request();
    mistyped[80] ^= 1;
    let own = Refused { refusal: Refusal::CheckDiffers, which: 1 };
    assert_eq!(keys(&right.z, &mistyped, [24; 2]), Err(own));
    assert_eq!(response(&right.z, &mistyped, &right.response()), Err(own));
}

#[test]
fn a_response_has_the_identities_and_the_time_of_its_request() {
    let right = Exchange::worked();
    let changes: [fn(&mut Exchange); 3] = [
        |exchange| exchange.id_sm = worked("APPA_ID_SM"),
        |exchange| exchange.id_kmc = worked("APPA_ID_KMC"),
        |exchange| exchange.tvp[14] = b'1',
    ];
    for change in changes {
        let mut other = right.clone();
        change(&mut other);
        // With the tag of the right one, and with that which is its own.
        for other in [other.clone(), other.confirmed()] {
            let answer = response(&right.z, &right.request(), &other.response());
            assert_eq!(answer, refused(Refusal::OtherRequest));
            let answer = response(&right.z, &other.request(), &right.response());
            assert_eq!(answer, refused(Refusal::OtherRequest));
        }
    }
    assert_eq!((Refusal::OtherRequest.number(), Refusal::OtherRequest.field()), (17, 0));
}

#[test]
fn of_the_other_parts_only_qe_is_in_the_tag_of_a_response() {
    let right = Exchange::worked();
    let changed = |change: fn(&mut Exchange)| {
        let mut other = right.clone();
        change(&mut other);
        both(&right.z, &other)
    };
    let differs = refused(Refusal::TagDiffers);
    assert_eq!(changed(|exchange| exchange.hwid[10] = b'2'), [differs, Ok(())]);
    assert_eq!(changed(|exchange| exchange.fwid[7] = b'2'), [differs, Ok(())]);
    assert_eq!(changed(|exchange| exchange.qe[193] = b'1'), [differs; 2]);
}

#[test]
fn the_records_own_numbers_come_first() {
    let mut random = Random::with_seed(18);
    let right = Exchange::worked();
    let own = |record: &[u8], which| {
        let refusal = read_record(record).map(|_| ()).unwrap_err();
        Err(Refused { refusal, which })
    };
    for &fault in Fault::of(Kind::VkloadReq).repeat(10).iter() {
        let bad = sample::faulty(&mut random, Kind::VkloadReq, &[fault]);
        let expected = own(&bad, 1);
        assert_eq!(keys(b"", &bad, [0; 2]).map(|_| ()), expected, "{fault:?}");
        assert_eq!(response(b"", &bad, b""), expected, "{fault:?}");
        let bad = sample::faulty(&mut random, Kind::VkloadResp, &[fault]);
        assert_eq!(response(b"", &right.request(), &bad), own(&bad, 2), "{fault:?}");
    }
}

#[test]
fn sixteen_comes_before_ten_and_seventeen_and_these_before_eighteen() {
    let mut random = Random::with_seed(19);
    let right = Exchange::worked();
    let (asked, other) = (right.request(), Exchange::any(&mut random));
    assert_eq!(keys(&other.z[1..], &asked, [0; 2]), refused(Refusal::WrongZ));
    assert_eq!(keys(&other.z, &asked, [23; 2]), refused(Refusal::ShortOutput));
    assert_eq!(keys(&other.z, &asked, [24; 2]), refused(Refusal::TagDiffers));
    let answer = |z: &[u8], exchange: &Exchange| response(z, &asked, &exchange.response());
    assert_eq!(answer(&other.z[1..], &other), refused(Refusal::WrongZ));
    assert_eq!(answer(&other.z, &other), refused(Refusal::OtherRequest));
    assert_eq!(answer(&other.z, &right), refused(Refusal::TagDiffers));
}

#[test]
fn other_kinds_are_unknown_in_each_place_whatever_their_checks() {
    let (z, asked, answered) = (worked("Z"), worked("VKLOADREQ"), worked("VKLOADRESP"));
    let unknown = |which| Refused { refusal: Refusal::UnknownKind, which };
    for name in IDENTITIES.iter().chain(&RECORDS) {
        let mut record = worked(name);
        for _ in 0..2 {
            if *name != "VKLOADREQ" {
                assert_eq!(keys(&z, &record, [24; 2]), Err(unknown(1)), "{name}");
                assert_eq!(response(&z, &record, &answered), Err(unknown(1)), "{name}");
            }
            if !name.ends_with("VKLOADRESP") {
                assert_eq!(response(&z, &asked, &record), Err(unknown(2)), "{name}");
            }
            let last = record.len() - 1;
            record[last] = b'g';
        }
    }
}
