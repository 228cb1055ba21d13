//! Lengths, numbers and places that are right only modulo 65,536, or beyond it, held against `compare/`. A library that keeps a
//! length in two bytes is refused here.

mod held;

use compare::kind::{FieldType, Kind};
use compare::mail::block_of;
use compare::random::Random;
use compare::refusal::Refusal as Expected;
use compare::sample::{self, Exchange, Signed};
use compare::trailed::line_of;
use compare::worked::worked;
use compare::{agreement, file, record, text};
use held::attributes::{same_attribute, same_attributes, same_named};
use held::cabinet::{Both, NO_CABINET};
use held::confirm::{same_request, same_response};
use held::dates::{same_expiry, same_moment};
use held::fingerprint::same_fingerprint;
use held::hash::Hash;
use held::mail::{same_block, same_mail};
use held::reading::{same_identity, same_record};
use held::trailed::{same_trailed, same_trailed_at, same_trailed_file, same_written};
use held::{expected, expected_at, line_numbers, numbers, place, same_output};
use obscurlane::{Cabinet, Refusal, Sha1, Sha384};

/// What a length in two bytes forgets.
const MORE: usize = 1 << 16;

/// The bytes with so many digits behind them, and before them.
fn longer(bytes: &[u8]) -> [Vec<u8>; 2] {
    let digits = [b'0'; MORE];
    [[bytes, &digits].concat(), [&digits, bytes].concat()]
}

/// A record of every kind; a public key is signed.
fn records() -> [(Kind, Vec<Vec<u8>>); 8] {
    let mut random = Random::with_seed(71);
    Kind::ALL.map(|kind| (kind, sample::fields(&mut random, kind, Signed::Yes)))
}

fn of(kind: Kind) -> Vec<u8> {
    sample::record(&mut Random::with_seed(72), kind)
}

#[test]
fn text_types() {
    let digits = vec![b'0'; MORE + text::SIG_DIGITS];
    for text in longer(b"Prism") {
        assert!(!obscurlane::is_ident(&text));
    }
    for text in longer(b"20180120T090000Z") {
        assert!(!obscurlane::is_timestamp(&text));
        assert_eq!(same_moment(&text), None);
    }
    for text in longer(&sample::point(&mut Random::with_seed(73))) {
        assert!(!obscurlane::is_point(&text));
    }
    assert!(!obscurlane::is_sig(&digits[..MORE + text::SIG_DIGITS]));
    assert!(!obscurlane::is_mac(&digits[..MORE + text::MAC_DIGITS]));
    assert!(!obscurlane::is_print(&digits[..MORE + text::PRINT_DIGITS]));
    for (n, length) in [(16, MORE + 16), (MORE + 16, 16), (0, MORE), (MORE, 0)] {
        assert!(!obscurlane::is_hex(n, &digits[..length]), "{length} digits as HEX({n})");
    }
    assert!(obscurlane::is_hex(MORE + 16, &digits[..MORE + 16]));
}

#[test]
fn checks() {
    for (kind, fields) in records() {
        for bytes in longer(&sample::of_kind(kind, &fields)) {
            assert_eq!(obscurlane::crc_of(&bytes), compare::crc::crc16(&bytes));
        }
    }
}

/// In one piece, and in pieces of which one is longer.
fn hashes_of<H: Hash>() {
    let message = of(Kind::VkloadReq);
    for bytes in longer(&message) {
        let hash = H::expected(&bytes);
        assert_eq!(H::whole(&bytes), hash);
        for cut in [1, message.len(), MORE - 1, MORE, MORE + 1] {
            let (front, back) = bytes.split_at(cut);
            assert_eq!(H::begin().add(front).add(back).end(), hash);
        }
    }
}

#[test]
fn hashes() {
    hashes_of::<Sha384>();
}

#[test]
fn short_hashes() {
    hashes_of::<Sha1>();
}

/// A key that is longer, and a text that is.
#[test]
fn tags() {
    for bytes in longer(b"key") {
        assert_eq!(obscurlane::hmac_of(&bytes, b"text"), compare::hmac::tag(&bytes, b"text"));
        assert_eq!(obscurlane::hmac_of(b"key", &bytes), compare::hmac::tag(b"key", &bytes));
    }
}

/// Whole records that are longer, and records of which one field is, with a right check.
#[test]
fn readings() {
    let mut tried = Vec::new();
    for (kind, fields) in records() {
        tried.extend(longer(&sample::of_kind(kind, &fields)));
        for index in 0..fields.len() {
            for field in longer(&fields[index]) {
                let mut fields = fields.clone();
                fields[index] = field;
                tried.push(sample::of_kind(kind, &fields));
            }
        }
    }
    for bytes in tried {
        assert_eq!(same_identity(&bytes).unwrap_err(), (1, 0));
        assert_eq!(same_record(&bytes).unwrap_err(), (1, 0));
        assert_eq!(numbers(obscurlane::identity_field(&bytes, 1)), Err((1, 0)));
        assert_eq!(numbers(obscurlane::record_field(&bytes, 1)), Err((1, 0)));
        assert_eq!(same_attributes(&bytes), Err((1, 0)));
        assert_eq!(same_fingerprint(&bytes, 16), Err((1, 0)));
        assert_eq!(same_request(&[7; 96], &bytes, [24; 2]), Err((1, (1, 0))));
        assert_eq!(same_response(&[7; 96], &worked("VKLOADREQ"), &bytes), Err((2, (1, 0))));
        assert_eq!(same_trailed(&line_of(&bytes)), Err((1, 0)));
        assert_eq!(same_written(&bytes, 2 * MORE + 2048), Err((1, 0)));
        assert_eq!(same_mail(&block_of(b"KEY.1", &bytes), 2 * MORE + 2048), Err((1, 0)));
        assert_eq!(same_block(&bytes, 2 * MORE + 8192), Err((1, 0)));
    }
}

#[test]
fn wanted_fields_attributes_and_items() {
    let (identity, record, key) = (of(Kind::Smid), of(Kind::VkloadReq), of(Kind::WrappedKey));
    let text = agreement::join(&[b"V2", b"20180120T090000Z"]);
    for wanted in [1 << 8, MORE, 1 << 32].map(|beyond| beyond + 1) {
        assert_eq!(numbers(obscurlane::identity_field(&identity, wanted)), Err((12, 0)));
        assert_eq!(numbers(obscurlane::record_field(&record, wanted)), Err((12, 0)));
        assert_eq!(same_attribute(&key, wanted), Err((12, 0)));
        assert_eq!(numbers(obscurlane::text_item(&text, wanted)), Err((12, 0)));
    }
    for text in longer(&text) {
        for wanted in [1, 2] {
            let ours = numbers(obscurlane::text_item(&text, wanted)).map(place);
            assert_eq!(ours, expected(agreement::item(&text, wanted as u64)).map(place));
        }
    }
    for name in longer(b"ACT") {
        assert_eq!(same_named(&key, &name), Err((12, 0)));
    }
}

#[test]
fn keys() {
    let key = of(Kind::PkEcdh);
    for longer in longer(&key) {
        assert_eq!(same_expiry(&longer), Err((1, 0)));
        for (first, second) in [(&longer, &key), (&key, &longer)] {
            let refusal = obscurlane::newer(first, second).expect_err("longer than is read");
            assert_eq!(refusal.reason().number(), 1);
            assert_eq!(compare::newer::newer(first, second), Err(Expected::TooLong));
        }
    }
}

/// Outputs whose lengths are short only modulo 65,536.
#[test]
fn fingerprints() {
    let key = of(Kind::PkEcdh);
    for room in [MORE, MORE + 1, MORE + 15, MORE + 16] {
        assert_eq!(same_fingerprint(&key, room), Err((15, 0)));
        assert_eq!(same_fingerprint(&worked("PUBKEY_KMC"), room), Ok(()));
    }
}

/// A Z that is longer, and outputs whose lengths are short only modulo 65,536.
#[test]
fn confirmations() {
    let exchange = Exchange::worked();
    let (request, response) = (exchange.request(), exchange.response());
    let zs = [longer(&exchange.z), longer(b"")].concat();
    for z in zs {
        assert_eq!(same_request(&z, &request, [24; 2]), Err((0, (16, 0))));
        assert_eq!(same_response(&z, &request, &response), Err((0, (16, 0))));
    }
    for room in [MORE, MORE + 1, MORE + 23, MORE + 24] {
        for rooms in [[room, 24], [24, room], [room, room]] {
            assert_eq!(same_request(&exchange.z, &request, rooms), Ok(()));
        }
        assert_eq!(same_request(&exchange.z, &request, [room, 23]), Err((0, (10, 0))));
    }
}

type Ours = fn(&[u8], &mut [u8]) -> Result<usize, Refusal>;
type Theirs = fn(&[u8], &mut [u8]) -> Result<usize, Expected>;

#[test]
fn texts() {
    let texts: [(Ours, Theirs); 3] = [
        (obscurlane::shared_info, agreement::shared_info),
        (obscurlane::module_text, agreement::module_text),
        (obscurlane::centre_text, agreement::centre_text),
    ];
    let request = of(Kind::VkloadReq);
    for (ours, theirs) in texts {
        let same = |request: &Vec<u8>, room| {
            same_output(room, |out| ours(request, out), |out| theirs(request, out), request)
        };
        for longer in longer(&request) {
            assert_eq!(same(&longer, 1024), Err((1, 0)));
        }
        for room in [MORE, MORE + 1, MORE + request.len()] {
            assert!(same(&request, room).is_ok());
        }
    }
}

fn same_build(kind: Kind, bytes: &[u8], lens: &[usize], room: usize) -> Result<usize, (u8, usize)> {
    let name = kind.name().as_bytes();
    let wide: Vec<u64> = lens.iter().map(|&len| len as u64).collect();
    same_output(
        room,
        |out| obscurlane::build(name, bytes, lens, out),
        |out| compare::build::build(name, bytes, &wide, out),
        &lens,
    )
}

/// A field that is longer, with its length and with the one that it had; only its length; more lengths than there are fields;
/// and an output whose length is short only modulo 65,536.
#[test]
fn building() {
    for (kind, fields) in records() {
        let right = fields.concat();
        let lens: Vec<usize> = fields.iter().map(Vec::len).collect();
        for index in 0..fields.len() {
            let mut long_lens = lens.clone();
            long_lens[index] += MORE;
            assert_eq!(same_build(kind, &right, &long_lens, 1024), Err((5, 0)));
            for field in longer(&fields[index]) {
                let mut fields = fields.clone();
                fields[index] = field;
                assert_eq!(same_build(kind, &fields.concat(), &lens, 1024), Err((5, 0)));
                let refused = same_build(kind, &fields.concat(), &long_lens, 2 * MORE);
                if kind.fields()[index].field_type == FieldType::Attributes {
                    assert_eq!(refused, Err((14, 0)), "{kind:?}");
                } else {
                    assert_eq!(refused.unwrap_err().1, index + 1, "{kind:?}");
                }
            }
        }
        for more in [1 << 8, MORE] {
            let more_lens = [&lens[..], &vec![0; more]].concat();
            assert_eq!(same_build(kind, &right, &more_lens, 1024), Err((5, 0)));
        }
        let needed = sample::of_kind(kind, &fields).len();
        for room in [MORE, MORE + needed - 1, MORE + needed] {
            assert_eq!(same_build(kind, &right, &lens, room), Ok(needed));
        }
    }
}

/// Permitted attributes that are too many, with every room.
#[test]
fn wrapped_keys() {
    let mut random = Random::with_seed(74);
    for length in [MORE, MORE + 1, MORE + 300, 2 * MORE] {
        let fields = sample::wrapped_key_fields(&mut random, length);
        let lens: Vec<usize> = fields.iter().map(Vec::len).collect();
        for room in [0, length % MORE, 1024, MORE, length] {
            let refused = same_build(Kind::WrappedKey, &fields.concat(), &lens, room);
            assert_eq!(refused, Err((1, 0)), "{length} bytes with a room of {room}");
        }
        assert_eq!(same_attributes(&sample::of_kind(Kind::WrappedKey, &fields)), Err((1, 0)));
    }
}

/// Long lines, lines far behind, and many.
#[test]
fn files() {
    let request = of(Kind::VkloadReq);
    let [followed, preceded] = longer(&request);
    let ended = |line: &[u8]| [line, b"\n", &request, b"\n"].concat();
    let files = [ended(&followed), ended(&preceded), followed, vec![b'\n'; MORE + 2]];
    for file in files {
        let totals = obscurlane::count(&file);
        assert_eq!((totals.lines, totals.accepted), file::count(&file));
        let lines = obscurlane::lines(&file).map(|line| line_numbers(&file, line));
        assert!(lines.eq(file::lines(&file).map(held::expected_line)));
        for at in [0, 1, MORE - 1, MORE, MORE + 1, MORE + request.len() + 1] {
            let line = obscurlane::line_at(&file, at).map(|line| line_numbers(&file, line));
            assert_eq!(line, expected_at(&file, at), "place {at}");
        }
    }
}

/// Lines with more digits before their trailer or behind it, and such a trailer that is longer itself; lines far behind, and many;
/// and outputs whose lengths are short only modulo 65,536.
#[test]
fn manufacturers_lines() {
    let record = of(Kind::VkloadReq);
    let line = line_of(&record);
    let [followed, preceded] = longer(&line);
    assert_eq!(same_trailed(&preceded), Err((1, 0)));
    assert_eq!(same_trailed(&followed), Err((19, 0)));
    assert_eq!(same_trailed(&[&record[..], b"#", &[b'0'; MORE + 40]].concat()), Err((19, 0)));
    let ended = |front: &[u8]| [front, b"\n", &line, b"\n"].concat();
    let files = [ended(&followed), ended(&preceded), followed, vec![b'\n'; MORE + 2]];
    for file in files {
        same_trailed_file(&file);
        for at in [0, 1, MORE - 1, MORE, MORE + 1, MORE + line.len() + 1] {
            same_trailed_at(&file, at);
        }
    }
    for room in [MORE, MORE + 1, MORE + line.len() - 1, MORE + line.len()] {
        assert_eq!(same_written(&record, room), Ok(line.len()));
    }
}

/// Texts with more bytes before a block, behind it and inside it, in one line and in many; texts of guards that are longer; and
/// outputs whose lengths are short only modulo 65,536.
#[test]
fn records_by_mail() {
    let record = of(Kind::VkloadReq);
    let (name, needed) = (b"VKLOAD.REQ.1", record.len());
    let block = block_of(name, &record);
    let digits = [b'0'; MORE];
    let feeds = [b'\n'; MORE + 1];
    for text in [
        [&digits[..], b"\n", &block].concat(),
        [&feeds[..], &block].concat(),
        [&block[..], &digits].concat(),
        [&block[..], &feeds].concat(),
        [&block[..30], &feeds, &block[30..]].concat(),
    ] {
        assert_eq!(same_mail(&text, 1024), Ok(needed));
        for length in [MORE - 1, MORE, MORE + 1, MORE + block.len() - 2] {
            let _ = same_mail(&text[..length], 1024);
        }
    }
    assert_eq!(same_mail(&[&digits[..], &block].concat(), 1024), Err((21, 0)));
    assert_eq!(same_mail(&[&block[..30], &digits, &block[30..]].concat(), 1024), Err((1, 0)));
    let [begins, ends] = [compare::mail::begins_line(name), compare::mail::ends_line(name)];
    assert_eq!(same_mail(&[&begins[..], b"\n", &digits, &ends].concat(), 1024), Err((22, 0)));
    for longer in longer(name) {
        assert_eq!(same_mail(&block_of(&longer, &record), 1024), Err((21, 0)));
    }
    let more = [[0; MORE].to_vec(), feeds.to_vec(), digits.to_vec()];
    for text in more {
        assert_eq!(same_mail(&text, 1024), Err((21, 0)));
    }
    for room in [MORE, MORE + 1, MORE + needed - 1, MORE + needed] {
        assert_eq!(same_mail(&block, room), Ok(needed));
        assert_eq!(same_block(&record, room), Ok(block.len()));
    }
}

/// The longer ones here are refused for their lengths alone.
#[test]
fn what_is_made_longer_is_accepted() {
    for (kind, fields) in records() {
        assert!(record::read(&sample::of_kind(kind, &fields), &[kind]).is_ok());
    }
}

/// A record, a request and an identity that are longer, and the bytes of a cabinet with as many behind them or before them; a length of 0 is
/// that of a cabinet modulo 65,536.
#[test]
fn cabinets() {
    let mut both = Both::new();
    assert_eq!(both.put(&worked("PUBKEY_SM")), Ok(()));
    for longer in longer(&worked("PUBKEY_KMC")) {
        assert_eq!(both.put(&longer), Err((1, 0)));
    }
    for longer in longer(&worked("VKLOADREQ")) {
        assert_eq!(both.admit(&longer), Err((1, 0)));
    }
    for longer in longer(&worked("ID_SM")) {
        assert_eq!(both.find(&longer), Err((1, 0)));
        assert_eq!(both.remove(&longer), Err((1, 0)));
    }
    let zeros = [0; MORE];
    let [behind, before] = [[&both.bytes[..], &zeros].concat(), [&zeros, &both.bytes[..]].concat()];
    for bytes in [&behind[..], &before, &behind[..0]] {
        assert_eq!(numbers(obscurlane::check_cabinet(bytes)), Err(NO_CABINET));
        assert_eq!(numbers(obscurlane::find_key(bytes, &worked("ID_SM"))), Err(NO_CABINET));
        assert_eq!(numbers(Cabinet::make(&mut bytes.to_vec()).map(drop)), Err(NO_CABINET));
        let admitted = obscurlane::admit(&mut bytes.to_vec(), &worked("VKLOADREQ"));
        assert_eq!(numbers(admitted), Err(NO_CABINET));
    }
}
