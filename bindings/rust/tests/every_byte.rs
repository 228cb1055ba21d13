//! Every byte value in one place of what is otherwise right, held against `compare/`: in every place of every text type, of an
//! attribute list, of a key agreement text, of a trailer, of a file and of a text with a record by mail, and in the kinds of places
//! that a record has, one in a cabinet too.

mod held;

use compare::kind::{FieldType, Kind};
use compare::mail::block_of;
use compare::random::Random;
use compare::record;
use compare::sample::{self, Exchange, PublicKey};
use compare::trailed::line_of;
use compare::worked::worked;
use compare::{agreement, file, text};
use held::attributes::{same_attributes, same_named};
use held::cabinet::{is_place, place_with, Held};
use held::confirm::{same_request, same_response};
use held::dates::{same_expiry, same_moment};
use held::fingerprint::same_fingerprint;
use held::mail::{same_block, same_mail};
use held::reading::{same_identity, same_record};
use held::trailed::{same_trailed, same_trailed_at, same_trailed_file, same_written};
use held::{expected, expected_at, line_numbers, numbers, place, same_output, Seen};
use obscurlane::{CABINET_SIZE, CABINET_TVP_AT, CABINET_WIDTH, LONGEST_MAIL, LONGEST_RECORD};

/// Tries every byte value in one place.
fn at_place(bytes: &[u8], place: usize, mut tried: impl FnMut(&[u8])) {
    let mut changed = bytes.to_vec();
    for byte in 0..=255 {
        changed[place] = byte;
        tried(&changed);
    }
}

/// Tries every byte value in every place, one place at a time.
fn everywhere(bytes: &[u8], mut tried: impl FnMut(&[u8])) {
    for place in 0..bytes.len() {
        at_place(bytes, place, &mut tried);
    }
}

/// Holds a type against its own for these texts, all of which are of it.
fn same_type(ours: impl Fn(&[u8]) -> bool, theirs: impl Fn(&[u8]) -> bool, texts: &[Vec<u8>]) {
    for right in texts {
        assert!(theirs(right), "{right:?}");
        everywhere(right, |text| assert_eq!(ours(text), theirs(text), "{text:?}"));
    }
}

#[test]
fn text_types() {
    let mut random = Random::with_seed(61);
    let idents = [1, 2, 3, text::LONGEST_IDENT].map(|length| sample::ident(&mut random, length));
    same_type(obscurlane::is_ident, text::is_ident, &idents);
    let times = [
        "00010101T000000Z",
        "20180120T090000Z",
        "19991231T235959Z",
        "20181029T195959Z",
        "20000229T000000Z",
        "20230430T235959Z",
    ];
    same_type(obscurlane::is_timestamp, text::is_timestamp, &times.map(Into::into));
    same_type(obscurlane::is_point, text::is_point, &[sample::point(&mut random)]);
    let mut digits = |length: usize| [sample::hex(&mut random, length)];
    same_type(obscurlane::is_sig, text::is_sig, &digits(text::SIG_DIGITS));
    same_type(obscurlane::is_mac, text::is_mac, &digits(text::MAC_DIGITS));
    same_type(obscurlane::is_print, text::is_print, &digits(text::PRINT_DIGITS));
    for n in [1, 2, 3, 4, 16, 17, 255, 256, 257] {
        let theirs = |text: &[u8]| text::is_hex(text, n as u64);
        same_type(|text| obscurlane::is_hex(n, text), theirs, &digits(n));
    }
}

/// Every two byte values in neighbouring places: in a month, a day, an hour, a minute, a second, and in the two that a POINT has
/// fixed.
#[test]
fn neighbours_in_texts() {
    type Type = fn(&[u8]) -> bool;
    let point = sample::point(&mut Random::with_seed(65));
    let types: [(Type, Type, &[u8], usize); 4] = [
        (obscurlane::is_timestamp, text::is_timestamp, b"20181231T235959Z", 16),
        (obscurlane::is_timestamp, text::is_timestamp, b"20000229T235959Z", 8),
        (obscurlane::is_ident, text::is_ident, b"Ab0", 3),
        (obscurlane::is_point, text::is_point, &point, 3),
    ];
    for (ours, theirs, right, places) in types {
        for place in 1..places {
            at_place(right, place - 1, |changed| {
                at_place(changed, place, |text| assert_eq!(ours(text), theirs(text), "{text:?}"));
            });
        }
    }
}

/// The seconds of a date, with every byte value in every place, and with every two in neighbouring ones.
#[test]
fn moments() {
    for date in [&b"20000229T235959Z"[..], b"19991231T000000Z", b"00010101T101010Z"] {
        everywhere(date, |text| {
            same_moment(text);
        });
    }
    for place in 1..16 {
        at_place(b"19961130T125959Z", place - 1, |changed| {
            at_place(changed, place, |text| {
                same_moment(text);
            });
        });
    }
}

/// Fields of every kind; a public key is signed.
fn fields_of_kinds() -> [(Kind, Vec<Vec<u8>>); 8] {
    let mut random = Random::with_seed(62);
    Kind::ALL.map(|kind| (kind, sample::longest_fields(&mut random, kind)))
}

/// The places of a record: its name, every mark, its check, and of every field the first, the middle and the last.
fn places(kind: Kind, fields: &[Vec<u8>]) -> Vec<usize> {
    let name = kind.name().len();
    let mut places: Vec<usize> = (0..=name).collect();
    let mut start = name + 1;
    for field in fields {
        let mark = start + field.len();
        places.extend([start, start + (field.len() - 1) / 2, mark - 1, mark]);
        start = mark + 1;
    }
    places.extend(start..start + 4);
    places
}

/// With the check made right again, and with the check as it was.
#[test]
fn readings() {
    let mut seen = Seen::default();
    for (kind, fields) in fields_of_kinds() {
        let same = if Kind::IDENTITIES.contains(&kind) { same_identity } else { same_record };
        let record = sample::of_kind(kind, &fields);
        for place in places(kind, &fields) {
            at_place(&record, place, |record| {
                seen.add(&same(&sample::resealed(record)));
                seen.add(&same(record));
            });
        }
    }
    seen.expect([0, 2, 3, 4, 5, 6, 7, 14], 10);
}

/// In an identity inside a record, its own check and the record's made right again.
#[test]
fn identities_inside_records() {
    let mut random = Random::with_seed(64);
    let mut seen = Seen::default();
    for (kind, fields) in fields_of_kinds() {
        for (index, entry) in kind.fields().iter().enumerate() {
            let FieldType::Identity(permitted) = entry.field_type else {
                continue;
            };
            let inner = permitted[0];
            let inner_fields = sample::longest_fields(&mut random, inner);
            for place in places(inner, &inner_fields) {
                at_place(&sample::of_kind(inner, &inner_fields), place, |identity| {
                    let mut fields = fields.clone();
                    fields[index] = sample::resealed(identity);
                    seen.add(&same_record(&sample::of_kind(kind, &fields)));
                });
            }
        }
    }
    seen.expect([0, 5, 7], 10);
}

/// In a public key, with its check made right again; and in every place of its Subject, with both checks made right.
#[test]
fn fingerprints() {
    let mut seen = Seen::default();
    for name in ["PUBKEY_MAN", "PUBKEY_SM"] {
        let PublicKey { kind, .. } = PublicKey::of_record(&worked(name));
        let mut fields = PublicKey::of_record(&worked(name)).fields();
        for place in places(kind, &fields) {
            at_place(&worked(name), place, |key| {
                seen.add(&same_fingerprint(&sample::resealed(key), 16));
            });
        }
        everywhere(&fields[0].clone(), |subject| {
            fields[0] = sample::resealed(subject);
            seen.add(&same_fingerprint(&sample::of_kind(kind, &fields), 16));
        });
    }
    seen.expect([0, 2, 5, 6, 7, 15], 10);
}

/// In every kind, with its check made right again and as it was; and in every place of Expiry.
#[test]
fn expiries() {
    let mut seen = Seen::default();
    for (kind, fields) in fields_of_kinds() {
        let record = sample::of_kind(kind, &fields);
        for place in places(kind, &fields) {
            at_place(&record, place, |record| {
                seen.add(&same_expiry(&sample::resealed(record)));
                seen.add(&same_expiry(record));
            });
        }
        if Kind::PUBLIC_KEYS.contains(&kind) {
            let mut changed = fields.clone();
            everywhere(b"20201031T195959Z", |expiry| {
                changed[2] = expiry.to_vec();
                seen.add(&same_expiry(&sample::of_kind(kind, &changed)));
            });
        }
    }
    seen.expect([0, 2, 3, 4, 5, 6, 7], 10);
}

/// In every place of a key and of a text.
#[test]
fn tags() {
    let bytes = Random::with_seed(66).bytes(24);
    everywhere(&bytes, |changed| {
        assert_eq!(obscurlane::hmac_of(changed, &bytes), compare::hmac::tag(changed, &bytes));
        assert_eq!(obscurlane::hmac_of(&bytes, changed), compare::hmac::tag(&bytes, changed));
    });
}

/// In every place of Z, and in a request, with the check made right again.
#[test]
fn confirmations() {
    let exchange = Exchange::worked();
    let (request, response) = (exchange.request(), exchange.response());
    let mut seen = Seen::default();
    let without_which = |(_, refusal)| refusal;
    everywhere(&exchange.z, |z| {
        assert_eq!(same_request(z, &request, [24; 2]).is_ok(), z == exchange.z);
    });
    for place in places(Kind::VkloadReq, &exchange.request_fields()) {
        at_place(&request, place, |changed| {
            let changed = sample::resealed(changed);
            let asked = same_request(&exchange.z, &changed, [24; 2]);
            seen.add(&asked.map_err(without_which));
            let answered = same_response(&exchange.z, &changed, &response);
            seen.add(&answered.map_err(without_which));
        });
    }
    seen.expect([0, 2, 5, 6, 7, 17, 18], 10);
}

/// In the kinds of places that a response has, and in every place of its fields, with the check of an identity and its own made
/// right again.
#[test]
fn responses_to_a_request() {
    let exchange = Exchange::worked();
    let mut seen = Seen::default();
    for place in places(Kind::VkloadResp, &exchange.response_fields()) {
        at_place(&exchange.response(), place, |changed| {
            let response = sample::resealed(changed);
            let answer = same_response(&exchange.z, &exchange.request(), &response);
            seen.add(&answer.map_err(|(_, refusal)| refusal));
        });
    }
    for index in 0..exchange.response_fields().len() {
        let mut fields = exchange.response_fields();
        everywhere(&exchange.response_fields()[index], |field| {
            fields[index] = if index < 2 { sample::resealed(field) } else { field.to_vec() };
            let response = sample::of_kind(Kind::VkloadResp, &fields);
            let answer = same_response(&exchange.z, &exchange.request(), &response);
            seen.add(&answer.map_err(|(_, refusal)| refusal));
        });
    }
    seen.expect([0, 2, 5, 6, 7, 17, 18], 10);
}

/// First, middle and last place of every field.
#[test]
fn building() {
    let mut seen = Seen::default();
    for (kind, fields) in fields_of_kinds() {
        let name = kind.name().as_bytes();
        let lens: Vec<usize> = fields.iter().map(Vec::len).collect();
        let wide: Vec<u64> = lens.iter().map(|&len| len as u64).collect();
        let mut start = 0;
        for len in &lens {
            for place in [start, start + len / 2, start + len - 1] {
                at_place(&fields.concat(), place, |bytes| {
                    let ours = |out: &mut [u8]| obscurlane::build(name, bytes, &lens, out);
                    let theirs = |out: &mut [u8]| compare::build::build(name, bytes, &wide, out);
                    seen.add(&same_output(LONGEST_RECORD, ours, theirs, &bytes));
                });
            }
            start += len;
        }
    }
    seen.expect([0, 6, 7], 1000);
    seen.expect([14], 100);
}

/// In every place of the lists of the worked example's wrapped keys, read with the right check and built.
#[test]
fn attribute_lists() {
    let mut seen = Seen::default();
    for name in ["KEY1_1", "KEY1_2"] {
        let key = worked(name);
        let [nonce, list, protected_key] =
            [1, 2, 3].map(|number| record::record_field(&key, number).expect("a field").to_vec());
        everywhere(&list, |list| {
            let fields = [&nonce, list, &protected_key];
            let key = sample::of_kind(Kind::WrappedKey, &fields.map(<[u8]>::to_vec));
            let read = same_record(&key).map(|_| ());
            let first = same_attributes(&key).map(|_| ());
            assert_eq!(first, read);
            let lens = fields.map(<[u8]>::len);
            let wide = lens.map(|len| len as u64);
            let bytes = fields.concat();
            let built = same_output(
                LONGEST_RECORD,
                |out| obscurlane::build(b"KEY.1", &bytes, &lens, out),
                |out| compare::build::build(b"KEY.1", &bytes, &wide, out),
                &key,
            );
            // A mark more is a field more only to the reader.
            assert!(built.map(|_| ()) == read || read == Err((5, 0)), "{key:?}");
            seen.add(&read);
        });
    }
    seen.expect([0, 6, 14], 1000);
    seen.expect([5], 200);
}

/// In every place of a wanted name.
#[test]
fn names_of_attributes() {
    let mut seen = Seen::default();
    for name in ["KEY1_1", "KEY1_2"] {
        let key = worked(name);
        for name in [b"ACT", b"KEN", b"SGC", b"SGN"] {
            everywhere(name, |name| seen.add(&same_named(&key, name)));
        }
    }
    seen.expect([0], 20);
    seen.expect([12], 5000);
}

#[test]
fn single_fields() {
    for (kind, fields) in fields_of_kinds() {
        let right = sample::of_kind(kind, &fields);
        at_place(&right, kind.name().len() + 2, |changed| {
            let record = sample::resealed(changed);
            for wanted in 0..=fields.len() + 1 {
                assert_eq!(
                    numbers(obscurlane::record_field(&record, wanted)).map(place),
                    expected(record::record_field(&record, wanted as u64)).map(place),
                );
                assert_eq!(
                    numbers(obscurlane::identity_field(&record, wanted)).map(place),
                    expected(record::identity_field(&record, wanted as u64)).map(place),
                );
            }
        });
    }
}

#[test]
fn items() {
    let text = agreement::join(&[b"U_2", b"", &[7; 30], b"20180120T090000Z", &[0xE9; 97]]);
    everywhere(&text, |text| {
        for wanted in 0..=7 {
            assert_eq!(
                numbers(obscurlane::text_item(text, wanted)).map(place),
                expected(agreement::item(text, wanted as u64)).map(place),
                "item {wanted} of {text:?}"
            );
        }
    });
}

/// In the record of a line: with the check and the trailer made right again, with the check alone, and as they were. And the
/// record written with its trailer.
#[test]
fn manufacturers_lines() {
    let mut seen = Seen::default();
    for (kind, fields) in fields_of_kinds() {
        let line = line_of(&sample::of_kind(kind, &fields));
        let end = line.len() - obscurlane::TRAILER;
        for place in places(kind, &fields) {
            at_place(&line, place, |line| {
                let record = sample::resealed(&line[..end]);
                seen.add(&same_trailed(&line_of(&record)));
                seen.add(&same_trailed(&[&record[..], &line[end..]].concat()));
                seen.add(&same_trailed(line));
                seen.add(&same_written(&record, line.len()));
            });
        }
    }
    seen.expect([0, 2, 3, 4, 5, 6, 7, 14, 20], 10);
}

/// In every place of a trailer, of a short line and of the longest.
#[test]
fn trailers() {
    let mut seen = Seen::default();
    for (kind, fields) in fields_of_kinds() {
        let line = line_of(&sample::of_kind(kind, &fields));
        for place in line.len() - obscurlane::TRAILER..line.len() {
            at_place(&line, place, |line| seen.add(&same_trailed(line)));
        }
    }
    seen.expect([0], 10);
    seen.expect([19, 20], 1000);
}

/// In every place of a short message of SHA-1, and of one of more than a block.
#[test]
fn short_hashes() {
    for length in [3, 70] {
        everywhere(&Random::with_seed(67).bytes(length), |bytes| {
            assert_eq!(obscurlane::sha1_of(bytes), compare::sha1::sha1(bytes), "{bytes:?}");
        });
    }
}

/// Two lines with their trailers, and every byte value in every place of them, the line feeds among them.
#[test]
fn manufacturers_files() {
    let line = line_of(&sample::record(&mut Random::with_seed(68), Kind::VkloadResp));
    let file = [&line[..], b"\n", &line, b"\n"].concat();
    let mut seen = Seen::default();
    everywhere(&file, |file| {
        same_trailed_file(file).iter().for_each(|line| seen.add(&line.0));
        same_trailed_at(file, line.len() + 1);
    });
    seen.expect([0, 4, 11, 19, 20], 10);
}

/// In a record by mail, with the check made right again and as it was; and the same record written.
#[test]
fn records_by_mail() {
    let mut seen = Seen::default();
    for (kind, fields) in fields_of_kinds() {
        let name = kind.name().as_bytes();
        for place in places(kind, &fields) {
            at_place(&sample::of_kind(kind, &fields), place, |changed| {
                let record = sample::resealed(changed);
                seen.add(&same_mail(&block_of(name, &record), LONGEST_RECORD));
                seen.add(&same_mail(&block_of(name, changed), LONGEST_RECORD));
                seen.add(&same_block(&record, LONGEST_MAIL));
            });
        }
    }
    seen.expect([0, 2, 3, 4, 5, 6, 7, 14], 10);
}

/// In every place of a text that has a block and other lines, its guards and line feeds among them.
#[test]
fn texts_with_mail() {
    let block = block_of(b"VKLOAD.RESP.1", &worked("VKLOADRESP"));
    let text = [&b"Dear vendor,\n\n"[..], &block, b"\nThe centre"].concat();
    let mut seen = Seen::default();
    everywhere(&text, |text| seen.add(&same_mail(text, LONGEST_RECORD)));
    seen.expect([0, 2, 3, 4, 21, 22], 10);
}

/// In a record in a cabinet, with its check made right again and as it was, with its number and that of the record before; behind it;
/// in every byte of the TVP and of the number; and in every sixteenth place of a free one.
#[test]
fn cabinets() {
    let mut image = vec![0; CABINET_SIZE];
    let (mut accepted, mut refused) = (0, 0);
    let mut same = |number: usize, bytes: &[u8]| {
        image[number * CABINET_WIDTH..][..CABINET_WIDTH].copy_from_slice(bytes);
        let answer = numbers(obscurlane::check_cabinet(&image));
        assert_eq!(answer, is_place(bytes).then_some(()).ok_or((23, 0)), "{bytes:?}");
        *if answer.is_ok() { &mut accepted } else { &mut refused } += 1;
        image[number * CABINET_WIDTH..][..CABINET_WIDTH].fill(0);
    };
    for (kind, fields) in fields_of_kinds() {
        let record = sample::of_kind(kind, &fields);
        let len = record.len();
        if !Kind::PUBLIC_KEYS.contains(&kind) {
            let mut place = record;
            place.resize(CABINET_WIDTH, 0);
            same(63, &place);
            continue;
        }
        let place = Held::of(&record).place();
        let behind = [len, len + 1].into_iter().chain(CABINET_TVP_AT - 1..CABINET_WIDTH);
        for at in places(kind, &fields).into_iter().chain(behind) {
            at_place(&place, at, |changed| {
                let record = sample::resealed(&changed[..len]);
                same(5, &[&record, &changed[len..]].concat());
                same(5, changed);
                if let Ok(number) = same_expiry(&record) {
                    same(5, &place_with(&record, number));
                }
            });
        }
    }
    for at in (0..CABINET_WIDTH).step_by(16).chain([CABINET_WIDTH - 1]) {
        at_place(&[0; CABINET_WIDTH], at, |changed| same(at % 64, changed));
    }
    assert!(accepted > 1000 && refused > 1000, "{accepted} {refused}");
}

/// Two lines, and every byte value in every place of them, the line feeds among them.
#[test]
fn files() {
    let line = sample::record(&mut Random::with_seed(63), Kind::VkloadResp);
    let file = [&line[..], b"\n", &line, b"\n"].concat();
    everywhere(&file, |file| {
        let totals = obscurlane::count(file);
        assert_eq!((totals.lines, totals.accepted), file::count(file), "{file:?}");
        for at in [0, line.len() + 1] {
            let line = obscurlane::line_at(file, at).map(|line| line_numbers(file, line));
            assert_eq!(line, expected_at(file, at), "place {at} of {file:?}");
        }
    });
}
