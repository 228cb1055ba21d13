//! Every call held against `compare/`, the independent implementation, on inputs with a fixed seed.
//!
//! `OBSCURLANE_ROUNDS` is the number of inputs for each call (3,000 where it is not set).

mod held;

use compare::kind::Kind;
use compare::random::Random;
use compare::refusal::Refusal as Expected;
use compare::sample::{self, Exchange, Fault, ListFault, Signed, Subject};
use compare::{agreement, file, record, text};
use held::attributes::{same_attribute, same_attributes, same_named};
use held::confirm::{same_request, same_response};
use held::dates::{same_expiry, same_moment};
use held::mail::{same_block, same_mail};
use held::reading::{same_identity, same_record};
use held::trailed::{any_line, any_record, same_trailed, same_trailed_at};
use held::{
    expect_share, expected, expected_at, expected_line, line_numbers, numbers, of_refusal, place,
    rounds, same_output, NamedNumbers, Numbers, Seen,
};
use obscurlane::{
    Crc, NewerRefusal, Record, Refusal, KEY_BYTES, LONGEST_MAIL, LONGEST_RECORD, Z_BYTES,
};

#[test]
fn text_types() {
    type Types = [(fn(&[u8]) -> bool, fn(&[u8]) -> bool); 6];
    let types: Types = [
        (obscurlane::is_ident, text::is_ident),
        (obscurlane::is_timestamp, text::is_timestamp),
        (obscurlane::is_point, text::is_point),
        (obscurlane::is_sig, text::is_sig),
        (obscurlane::is_mac, text::is_mac),
        (obscurlane::is_print, text::is_print),
    ];
    let mut random = Random::with_seed(1);
    let mut accepted = 0;
    for _ in 0..rounds() {
        let length = random.one_of(&[0, 1, 4, 16, 48, 192, 194]);
        let whole = match random.below(6) {
            0 => sample::point(&mut random),
            1 => sample::timestamp(&mut random),
            2 => sample::missing_day(&mut random),
            3 => sample::hex(&mut random, length),
            4 => {
                let length = random.between(1, text::LONGEST_IDENT + 2);
                sample::ident(&mut random, length)
            }
            _ => random.bytes(length),
        };
        let changes = random.below(2);
        let bytes = sample::damaged_anywhere(&mut random, &whole, changes);
        for (ours, theirs) in types {
            assert_eq!(ours(&bytes), theirs(&bytes), "{bytes:?}");
            accepted += usize::from(ours(&bytes));
        }
        for n in [bytes.len(), bytes.len() + 1, 0] {
            assert_eq!(obscurlane::is_hex(n, &bytes), text::is_hex(&bytes, n as u64), "{bytes:?}");
        }
        assert_eq!(obscurlane::crc_of(&bytes), compare::crc::crc16(&bytes), "{bytes:?}");
    }
    expect_share(25..=200, accepted, "were of a type, each counted for every type that it is of");
}

#[test]
fn moments() {
    let mut random = Random::with_seed(21);
    let mut accepted = 0;
    for _ in 0..rounds() {
        let [one, other] = [0; 2].map(|_| sample::timestamp(&mut random));
        let seconds = [&one, &other].map(|text| same_moment(text).expect("a TIMESTAMP"));
        assert_eq!(seconds[0].cmp(&seconds[1]), one.cmp(&other), "{one:?} {other:?}");
        assert_eq!(same_moment(&sample::missing_day(&mut random)), None);
        let changes = random.between(1, 3);
        let damaged = sample::damaged_anywhere(&mut random, &one, changes);
        accepted += usize::from(same_moment(&damaged).is_some());
    }
    expect_share(1..=90, accepted, "were dates after the damage");
}

/// A record of a kind, whole or with one fault, or anything else that may be read.
fn whole_or_not(random: &mut Random, kind: Kind) -> Vec<u8> {
    match random.below(4) {
        0 => sample::record(random, kind),
        1 => {
            let fault = random.one_of(Fault::of(kind));
            sample::faulty(random, kind, &[fault])
        }
        2 => {
            let record = sample::record(random, kind);
            sample::resealed(&sample::damaged_anywhere(random, &record, 1))
        }
        _ => sample::anything(random),
    }
}

#[test]
fn expiries() {
    let mut random = Random::with_seed(22);
    let mut seen = Seen::default();
    for _ in 0..rounds() {
        let kind = random.one_of(&Kind::PUBLIC_KEYS);
        seen.add(&same_expiry(&whole_or_not(&mut random, kind)));
    }
    seen.expect([0], 600);
    seen.expect(1..=9, 9);
}

#[test]
fn check_by_its_state() {
    let mut random = Random::with_seed(31);
    for _ in 0..rounds() {
        let length = random.below(60);
        let bytes = random.bytes(length);
        let mut crc = Crc::begin();
        for end in 0..length {
            assert_eq!(crc.end(), compare::crc::crc16(&bytes[..end]), "{:?}", &bytes[..end]);
            crc = crc.add(bytes[end]);
        }
        assert_eq!(crc.end(), compare::crc::crc16(&bytes), "{bytes:?}");
        assert_eq!(crc.end(), obscurlane::crc_of(&bytes), "{bytes:?}");
    }
}

#[test]
fn reading() {
    let mut random = Random::with_seed(2);
    let mut seen = Seen::default();
    for _ in 0..rounds() {
        let bytes = sample::anything(&mut random);
        seen.add(&same_identity(&bytes));
        seen.add(&same_record(&bytes));
    }
    seen.expect((0..=9).chain([14]), 9);
}

#[test]
fn fields_that_are_not_there() {
    let mut random = Random::with_seed(12);
    for kind in Kind::ALL {
        let bytes = sample::record(&mut random, kind);
        let read =
            Record::read(&bytes).or_else(|_| Record::read_identity(&bytes)).expect("accepted");
        for number in [0, kind.fields().len() + 1, 8, usize::MAX] {
            assert_eq!(read.field(number), None, "field {number} of {read:?}");
        }
        assert_eq!(read.fields().len(), kind.fields().len());
        assert!(read.fields().rev().eq(read.fields().collect::<Vec<_>>().into_iter().rev()));
    }
}

#[test]
fn fields() {
    let mut random = Random::with_seed(3);
    for _ in 0..rounds() {
        let bytes = sample::anything(&mut random);
        for wanted in [0, 1, 2, 3, 4, 5, 6, 7, 8, usize::MAX] {
            assert_eq!(
                numbers(obscurlane::identity_field(&bytes, wanted)).map(place),
                expected(record::identity_field(&bytes, wanted as u64)).map(place),
                "field {wanted} of {bytes:?}"
            );
            assert_eq!(
                numbers(obscurlane::record_field(&bytes, wanted)).map(place),
                expected(record::record_field(&bytes, wanted as u64)).map(place),
                "field {wanted} of {bytes:?}"
            );
        }
    }
}

#[test]
fn attributes() {
    let mut random = Random::with_seed(14);
    let mut seen = Seen::default();
    for _ in 0..rounds() {
        seen.add(&same_attributes(&whole_or_not(&mut random, Kind::WrappedKey)));
    }
    seen.expect([0], 600);
    seen.expect([1, 2, 3, 4, 5, 6, 14], 9);
}

#[test]
fn attributes_that_may_not_be_there() {
    const NAMES: [&[u8]; 8] = [b"ACT", b"IUT", b"SGN", b"SGC", b"ULM", b"act", b"ACTS", b""];
    let mut random = Random::with_seed(15);
    let mut seen = Seen::default();
    for _ in 0..rounds() {
        let bytes = whole_or_not(&mut random, Kind::WrappedKey);
        for wanted in [2, 7, 8, 9, 10, 256, 257, usize::MAX] {
            seen.add(&same_attribute(&bytes, wanted));
        }
        for name in NAMES {
            seen.add(&same_named(&bytes, name));
        }
        let name = random.bytes(3);
        seen.add(&same_named(&bytes, &name));
    }
    seen.expect([0, 12, 14], 600);
}

/// Fields of a kind, some of them wrong, or one too few or too many; of a wrapped key as many bytes as are read, or about as many.
fn any_fields(random: &mut Random, kind: Kind) -> Vec<Vec<u8>> {
    let signed = random.one_of(&[Signed::Yes, Signed::No]);
    let mut fields = sample::fields(random, kind, signed);
    let index = random.below(fields.len());
    match random.below(8) {
        0 => fields[index] = sample::damaged_anywhere(random, &fields[index], 1),
        1 => fields[index].clear(),
        2 => fields[index] = sample::record(random, Kind::Smid),
        3 if random.once_in(2) => drop(fields.pop()),
        3 => fields.push(Vec::new()),
        4 if kind == Kind::WrappedKey => {
            let length = LONGEST_RECORD - 2 + random.below(5);
            fields = sample::wrapped_key_fields(random, length);
        }
        5 if kind == Kind::WrappedKey => {
            let fault = random.one_of(&ListFault::ALL);
            fields[1] = sample::faulty_list(random, fault);
        }
        _ => {}
    }
    fields
}

/// What a build may be handed.
#[derive(Debug)]
struct Order {
    kind: Vec<u8>,
    bytes: Vec<u8>,
    lens: Vec<usize>,
}

impl Order {
    fn of(kind: Kind, fields: &[Vec<u8>]) -> Order {
        Order {
            kind: kind.name().as_bytes().to_vec(),
            bytes: fields.concat(),
            lens: fields.iter().map(Vec::len).collect(),
        }
    }

    fn any(random: &mut Random) -> Order {
        let kind = random.one_of(&Kind::ALL);
        let mut order = Order::of(kind, &any_fields(random, kind));
        let index = random.below(order.lens.len());
        match random.below(12) {
            0 => order.kind = sample::damaged_anywhere(random, &order.kind, 1),
            1 => order.lens[index] = random.one_of(&[0, 1, usize::MAX, usize::MAX / 2 + 1]),
            2 => order.bytes = random.bytes(30),
            _ => {}
        }
        order
    }

    /// Builds with so much room on both sides, and compares the answers and every byte of the outputs.
    fn build(&self, room: usize) -> Result<usize, Numbers> {
        let Order { kind, bytes, lens } = self;
        let wide: Vec<u64> = lens.iter().map(|&len| len as u64).collect();
        same_output(
            room,
            |out| obscurlane::build(kind, bytes, lens, out),
            |out| compare::build::build(kind, bytes, &wide, out),
            self,
        )
    }
}

#[test]
fn building() {
    let mut random = Random::with_seed(4);
    let mut seen = Seen::default();
    for _ in 0..rounds() {
        let room = random.one_of(&[0, 60, 300, LONGEST_RECORD]);
        seen.add(&Order::any(&mut random).build(room));
    }
    seen.expect([0, 1, 2, 5, 6, 7, 8, 9, 10, 14], 9);
}

#[test]
fn building_with_every_room() {
    let mut random = Random::with_seed(5);
    for kind in Kind::ALL {
        for _ in 0..rounds().div_ceil(300) {
            let signed = random.one_of(&[Signed::Yes, Signed::No]);
            let fields = sample::fields(&mut random, kind, signed);
            let record = sample::of_kind(kind, &fields);
            let order = Order::of(kind, &fields);
            for room in 0..=record.len() + 2 {
                let fits = if room < record.len() { Err((10, 0)) } else { Ok(record.len()) };
                assert_eq!(order.build(room), fits);
            }
            let mut out = vec![0; record.len()];
            let built = obscurlane::build(&order.kind, &order.bytes, &order.lens, &mut out);
            assert_eq!((built, out), (Ok(record.len()), record));
        }
    }
}

#[cfg(feature = "alloc")]
#[test]
fn building_from_parts() {
    let mut random = Random::with_seed(13);
    let mut seen = Seen::default();
    for _ in 0..rounds() {
        let index = random.below(Kind::ALL.len());
        let (kind, ours) = (Kind::ALL[index], obscurlane::Kind::ALL[index]);
        let fields = any_fields(&mut random, kind);
        let parts: Vec<&[u8]> = fields.iter().map(Vec::as_slice).collect();
        let lens: Vec<u64> = fields.iter().map(|field| field.len() as u64).collect();
        let room = random.one_of(&[0, 60, 300, LONGEST_RECORD]);
        let answer = same_output(
            room,
            |out| obscurlane::build_parts(ours, &parts, out),
            |out| compare::build::build(kind.name().as_bytes(), &fields.concat(), &lens, out),
            &parts,
        );
        seen.add(&answer);
    }
    seen.expect([0, 1, 5, 6, 7, 8, 9, 10, 14], 9);
}

type Ours = fn(&[u8], &mut [u8]) -> Result<usize, Refusal>;
type Theirs = fn(&[u8], &mut [u8]) -> Result<usize, Expected>;

const TEXTS: [(Ours, Theirs, usize); 3] = [
    (obscurlane::shared_info, agreement::shared_info, obscurlane::LONGEST_SHARED_INFO),
    (obscurlane::module_text, agreement::module_text, obscurlane::LONGEST_MODULE_TEXT),
    (obscurlane::centre_text, agreement::centre_text, obscurlane::LONGEST_CENTRE_TEXT),
];

/// Makes a text with so much room on both sides, and compares the answers and every byte of the outputs.
fn same_text(ours: Ours, theirs: Theirs, request: &[u8], room: usize) -> Result<usize, Numbers> {
    same_output(room, |out| ours(request, out), |out| theirs(request, out), &request)
}

#[test]
fn texts() {
    let mut random = Random::with_seed(6);
    for _ in 0..rounds() {
        let request = match random.below(2) {
            0 => sample::record(&mut random, Kind::VkloadReq),
            _ => sample::anything(&mut random),
        };
        for (ours, theirs, longest) in TEXTS {
            let room = random.one_of(&[0, 150, longest]);
            let _ = same_text(ours, theirs, &request, room);
        }
    }
}

#[test]
fn texts_with_every_room() {
    let mut random = Random::with_seed(7);
    for _ in 0..rounds().div_ceil(300) {
        let request = sample::record(&mut random, Kind::VkloadReq);
        for (ours, theirs, longest) in TEXTS {
            let needed = same_text(ours, theirs, &request, longest).expect("room for any text");
            for room in 0..=longest {
                let fits = if room < needed { Err((10, 0)) } else { Ok(needed) };
                assert_eq!(same_text(ours, theirs, &request, room), fits);
            }
        }
    }
}

#[test]
fn items() {
    let mut random = Random::with_seed(8);
    for _ in 0..rounds() {
        let count = random.one_of(&[0, 1, 2, 3, 7, 255]);
        let items: Vec<Vec<u8>> = (0..count)
            .map(|_| {
                let length = random.one_of(&[0, 1, 2, 16, 97, 255]);
                random.bytes(length)
            })
            .collect();
        let mut text = vec![count as u8];
        for item in &items {
            text.push(item.len() as u8);
            text.extend_from_slice(item);
        }
        match random.below(4) {
            0 => text = sample::damaged_anywhere(&mut random, &text, 1),
            1 => text.truncate(random.below(text.len() + 1)),
            2 if random.below(4) == 0 => text.push(0),
            _ => {}
        }
        for wanted in [0, 1, 2, 3, count, count + 1, 255, 256, 257, usize::MAX] {
            assert_eq!(
                numbers(obscurlane::text_item(&text, wanted)).map(place),
                expected(agreement::item(&text, wanted as u64)).map(place),
                "item {wanted} of {text:?}"
            );
        }
    }
}

#[test]
fn files() {
    let mut random = Random::with_seed(9);
    for _ in 0..rounds() {
        let file = sample::file(&mut random);
        let mut lines = obscurlane::lines(&file);
        for theirs in file::lines(&file) {
            let line = lines.next().map(|line| line_numbers(&file, line));
            assert_eq!(line, Some(expected_line(theirs)), "{file:?}");
            assert_eq!(lines.place(), theirs.next as usize, "{file:?}");
        }
        assert_eq!(
            (lines.next(), lines.next(), lines.place()),
            (None, None, file.len()),
            "{file:?}"
        );

        let totals = obscurlane::count(&file);
        assert_eq!((totals.lines, totals.accepted), file::count(&file), "{file:?}");

        let anywhere = random.below(file.len() + 2);
        for at in [anywhere, file.len(), file.len() + 1, usize::MAX] {
            let line = obscurlane::line_at(&file, at).map(|line| line_numbers(&file, line));
            assert_eq!(line, expected_at(&file, at), "place {at} of {file:?}");
        }
    }
}

#[test]
fn manufacturers_lines() {
    let mut random = Random::with_seed(18);
    let mut seen = Seen::default();
    for _ in 0..rounds() {
        let line = any_line(&mut random);
        let read = same_trailed(&line).map(|(kind, _)| kind);
        if !line.contains(&b'\n') {
            let file = [&line[..], b"\n"].concat();
            let found = same_trailed_at(&file, 0).expect("a line");
            assert_eq!(found, (read, 0, line.len(), file.len()), "{line:?}");
        }
        seen.add(&read);
    }
    seen.expect((1..=9).chain([14]), 9);
    seen.expect([0, 19, 20], 200);
}

#[test]
fn records_by_mail() {
    let mut random = Random::with_seed(20);
    let mut seen = Seen::default();
    for _ in 0..rounds() {
        let text = sample::mail(&mut random);
        let room = random.one_of(&[LONGEST_RECORD, LONGEST_RECORD, LONGEST_RECORD, 300, 0]);
        seen.add(&same_mail(&text, room));
        let room = random.one_of(&[LONGEST_MAIL, LONGEST_MAIL, 400, 0]);
        seen.add(&same_block(&any_record(&mut random), room));
    }
    seen.expect((0..=10).chain([14, 21, 22]), 9);
    seen.expect([0, 10, 21, 22], 100);
}

#[test]
fn short_hashes() {
    let mut random = Random::with_seed(19);
    for _ in 0..rounds() {
        let length = random.below(600);
        let bytes = random.bytes(length);
        assert_eq!(obscurlane::sha1_of(&bytes), compare::sha1::sha1(&bytes), "{bytes:?}");
    }
}

fn named(refusal: NewerRefusal) -> NamedNumbers {
    match refusal {
        NewerRefusal::First(refusal) => (1, of_refusal(refusal)),
        NewerRefusal::Second(refusal) => (2, of_refusal(refusal)),
        other => (0, (other.reason().number(), 0)),
    }
}

/// What `compare/` chooses. A key beside itself is refused only where it is none.
fn expected_newer(first: &[u8], second: &[u8]) -> Result<(*const u8, usize), NamedNumbers> {
    let is_key = |record| compare::newer::newer(record, record).is_ok();
    let refused = match (is_key(first), is_key(second)) {
        (false, _) => 1,
        (true, false) => 2,
        (true, true) => 0,
    };
    let chosen = expected(compare::newer::newer(first, second));
    chosen.map(place).map_err(|refusal| (refused, refusal))
}

#[test]
fn newer() {
    let mut random = Random::with_seed(10);
    let mut seen = Seen::default();
    for _ in 0..rounds() {
        let subject = Subject::any(&mut random);
        let mut other = subject.clone();
        match random.below(8) {
            0 | 1 => {}
            2 => other.mid = sample::any_ident(&mut random),
            3 => other.kind = random.one_of(&Kind::IDENTITIES),
            _ => other.gnt = sample::timestamp(&mut random),
        }
        let mut keys = [subject.key(&mut random), other.key(&mut random)];
        if random.below(3) == 0 {
            keys[random.below(2)] = sample::anything(&mut random);
        }
        let [first, second] = &keys;
        let ours = obscurlane::newer(first, second).map(place).map_err(named);
        assert_eq!(ours, expected_newer(first, second), "{keys:?}");
        seen.add(&ours.map_err(|(_, refusal)| refusal));
    }
    seen.expect([0], 300);
    seen.expect([2, 13], 60);
}

#[test]
fn tags() {
    let mut random = Random::with_seed(16);
    for _ in 0..rounds() {
        let lengths = [0; 2].map(|_| random.below(300));
        let [key, text] = lengths.map(|length| random.bytes(length));
        let theirs = compare::hmac::tag(&key, &text);
        assert_eq!(obscurlane::hmac_of(&key, &text), theirs, "{key:?} {text:?}");
    }
}

/// A request and its response by their parts, of which Z or a tag may be wrong.
fn any_exchange(random: &mut Random) -> Exchange {
    let mut exchange = Exchange::any(random);
    match random.below(8) {
        0 => {
            let length = random.one_of(&[0, Z_BYTES / 2, Z_BYTES - 1, Z_BYTES + 1, 2 * Z_BYTES]);
            exchange.z = random.bytes(length);
        }
        1 => exchange.z = random.bytes(Z_BYTES),
        2 => exchange.module_tag = sample::hex(random, text::MAC_DIGITS),
        3 => exchange.centre_tag = sample::hex(random, text::MAC_DIGITS),
        _ => {}
    }
    exchange
}

/// The record as it is, or with something wrong, or another one.
fn any_of(random: &mut Random, kind: Kind, whole: Vec<u8>) -> Vec<u8> {
    match random.below(8) {
        0 => {
            let fault = random.one_of(Fault::of(kind));
            sample::faulty(random, kind, &[fault])
        }
        1 => sample::damaged_anywhere(random, &whole, 1),
        2 => sample::resealed(&sample::damaged_anywhere(random, &whole, 1)),
        3 if random.once_in(2) => sample::anything(random),
        _ => whole,
    }
}

#[test]
fn confirmations() {
    let mut random = Random::with_seed(17);
    let mut seen = Seen::default();
    for _ in 0..rounds() {
        let mut exchange = any_exchange(&mut random);
        let request = any_of(&mut random, Kind::VkloadReq, exchange.request());
        match random.below(12) {
            0 => exchange.tvp = sample::timestamp(&mut random),
            1 => exchange.id_sm = sample::record(&mut random, Kind::Smid),
            2 => exchange.id_kmc = sample::record(&mut random, Kind::Kmcid),
            _ => {}
        }
        let response = any_of(&mut random, Kind::VkloadResp, exchange.response());
        let rooms = [KEY_BYTES, KEY_BYTES, 64, 64, 64, KEY_BYTES - 1, 0];
        let rooms = [0; 2].map(|_| random.one_of(&rooms));
        let without_which = |(_, refusal)| refusal;
        seen.add(&same_request(&exchange.z, &request, rooms).map_err(without_which));
        let answer = same_response(&exchange.z, &request, &response);
        seen.add(&answer.map_err(without_which));
    }
    seen.expect((0..=7).chain([9, 10, 16, 17, 18]), 9);
    seen.expect([0, 18], 300);
}
