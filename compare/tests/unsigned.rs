//! The implementation held against request E11, but for cabinets: where number 28 stands, and where it does not.

mod lent;

use compare::build::build;
use compare::crc::crc16;
use compare::fingerprint;
use compare::kind::Kind;
use compare::newer::choose;
use compare::random::Random;
use compare::record::{read_record, record_field};
use compare::refusal::Refusal;
use compare::sample::{self, Fault, PublicKey, Signed, Subject};
use compare::text::check_text;
use compare::trailed::{self, line_of};
use compare::worked::{worked, UNSIGNED};
use compare::{cabinet, file, mail, moment};

/// The module's key of document 003 without Issuer and Signature.
fn unsigned() -> PublicKey {
    PublicKey::of_record(&worked(UNSIGNED))
}

fn built(key: &PublicKey, room: usize) -> Result<Vec<u8>, Refusal> {
    let fields = key.fields();
    let lengths: Vec<u64> = fields.iter().map(|field| field.len() as u64).collect();
    let name = key.kind.name().as_bytes();
    lent::written(room, |output| build(name, &fields.concat(), &lengths, output))
}

/// What every call answers that reads or builds a public key.
fn said(key: &PublicKey) -> Vec<Result<(), Refusal>> {
    let record = key.record();
    let [line, block] = [line_of(&record), mail::block_of(key.kind.name().as_bytes(), &record)];
    let mut empty = vec![0; cabinet::SIZE];
    let of_line = |line: &[u8], of: fn(&[u8], u64) -> file::Step| {
        let file::Step::Read(line) = of(&[line, b"\n"].concat(), 0) else { panic!("a line") };
        line.answer.map(|_| ())
    };
    vec![
        read_record(&record).map(|_| ()),
        record_field(&record, 1).map(|_| ()),
        of_line(&record, file::line_at),
        built(key, record.len()).map(|_| ()),
        choose(&record, &record).answer,
        fingerprint::check(&record),
        lent::written(16, |output| fingerprint::write(&record, output)).map(|_| ()),
        moment::expiry_of(&record).map(|_| ()),
        trailed::read(&line).map(|_| ()),
        of_line(&line, trailed::line_at),
        lent::written(1024, |output| trailed::write(&record, output)).map(|_| ()),
        lent::written(1024, |output| mail::write(&record, output)).map(|_| ()),
        lent::written(1024, |output| mail::read(&block, output)).map(|_| ()),
        cabinet::put(&mut empty, &record),
    ]
}

#[test]
fn the_modules_key_of_document_003_is_refused_until_it_is_signed() {
    let record = worked(UNSIGNED);
    assert_eq!(record.len(), 289);
    let (body, check) = record.split_at(285);
    assert_eq!((check, check_text(crc16(body)).as_bytes()), (&b"ECD4"[..], &b"ECD4"[..]));
    assert_eq!((Refusal::UnsignedModule.number(), Refusal::UnsignedModule.field()), (28, 0));
    for answer in said(&unsigned()) {
        assert_eq!(answer, Err(Refusal::UnsignedModule));
    }
    for answer in said(&PublicKey::of_record(&worked("PUBKEY_SM"))) {
        assert_eq!(answer, Ok(()));
    }
}

/// The centre's key, which has no Issuer and no Signature in document 003, and the manufacturer's without them.
#[test]
fn other_unsigned_keys_stay() {
    let centre = PublicKey::of_record(&worked("PUBKEY_KMC"));
    assert!(centre.issuer.is_empty() && centre.signature.is_empty());
    let maker = PublicKey::of_record(&worked("PUBKEY_MAN")).unsigned();
    for key in [centre, maker] {
        for answer in said(&key) {
            assert_eq!(answer, Ok(()));
        }
    }
}

/// Whatever the names of the Subject are.
#[test]
fn the_kind_of_the_subject_decides() {
    let mut random = Random::with_seed(28);
    for kind in Kind::IDENTITIES.repeat(20) {
        let mut subject = Subject { kind, ..Subject::any(&mut random) };
        if random.once_in(2) {
            (subject.manufacturer, subject.mid) = (b"SMID.1".to_vec(), b"KMCID.1".to_vec());
        }
        let key = PublicKey::of(&mut random, subject, Signed::Yes);
        assert!(said(&key).iter().all(Result::is_ok));
        let expected = if kind == Kind::Smid { Err(Refusal::UnsignedModule) } else { Ok(()) };
        assert_eq!(said(&key.unsigned())[..], [expected; 14]);
    }
}

/// 1 to 9 of the record come first: each fault beside this one.
#[test]
fn the_other_numbers_of_a_record_come_first() {
    let mut random = Random::with_seed(29);
    for &fault in Fault::of(Kind::PkEcdh).repeat(20).iter() {
        let number = |faults: &[Fault], random: &mut Random| {
            let record = sample::faulty(random, Kind::PkEcdh, faults);
            read_record(&record).map_or_else(Refusal::number, |_| 0)
        };
        let alone = number(&[fault], &mut random);
        assert_eq!(number(&[fault, Fault::Unsigned], &mut random), alone, "{fault:?}");
    }
}

/// What is wrong with one part of 003's key: 6, 7, 8 and 9.
#[test]
fn the_numbers_of_its_fields_come_first() {
    let changed = |change: fn(&mut PublicKey)| {
        let mut key = unsigned();
        change(&mut key);
        let said = said(&key);
        assert!(said.iter().all(|answer| *answer == said[0]), "one answer in every call");
        said[0].expect_err("a refusal")
    };
    assert_eq!(changed(|key| key.q[0] = b'1'), Refusal::WrongText(2));
    assert_eq!(changed(|key| key.expiry[4] = b'9'), Refusal::WrongText(3));
    assert_eq!(changed(|key| key.subject.mid.clear()), Refusal::NoIdentity(1));
    assert_eq!(changed(|key| key.subject.kind = Kind::Smman), Refusal::WrongIdentity(1));
    assert_eq!(changed(|key| key.issuer = worked("ID_MAN")), Refusal::HalfSigned);
    assert_eq!(changed(|key| key.signature = worked("SIG_SM")), Refusal::HalfSigned);
    assert_eq!(changed(|key| key.issuer = worked("ID_KMC")), Refusal::WrongIdentity(4));
    assert_eq!(changed(|key| key.print.reverse()), Refusal::UnsignedModule);
}

/// 28 before 10 in building and in all that writes, before 20 behind 19 in a line with a trailer, and behind 2, 21 and
/// 22 by mail.
#[test]
fn it_stands_before_what_is_no_number_of_the_record() {
    let (key, record) = (unsigned(), worked(UNSIGNED));
    for room in [0, 1, 15, 288, 289, 290] {
        let refused = Err(Refusal::UnsignedModule);
        assert_eq!(built(&key, room), refused);
        assert_eq!(lent::written(room, |output| fingerprint::write(&record, output)), refused);
        assert_eq!(lent::written(room, |output| trailed::write(&record, output)), refused);
        assert_eq!(lent::written(room, |output| mail::write(&record, output)), refused);
        let block = mail::block_of(b"PK.ECDH.1", &record);
        assert_eq!(lent::written(room, |output| mail::read(&block, output)), refused);
    }
    let mut line = line_of(&record);
    *line.last_mut().expect("a digit") ^= 1;
    assert_eq!(trailed::read(&line), Err(Refusal::UnsignedModule));
    assert_eq!(trailed::read(&record), Err(Refusal::NoTrailer));
    let named = |name: &[u8]| {
        let block = mail::block_of(name, &record);
        lent::written(1024, |output| mail::read(&block, output))
    };
    assert_eq!(named(b"PK.ECDSA.1"), Err(Refusal::UnknownKind));
    assert_eq!(named(b""), Err(Refusal::NoBegins));
}

/// In the chooser the record's own number comes before 13, and the first record's before the second's.
#[test]
fn the_first_that_is_refused_decides() {
    let [key, signed, centre] = [UNSIGNED, "PUBKEY_SM", "PUBKEY_KMC"].map(worked);
    let refused = |first: &[u8], second: &[u8]| {
        let choice = choose(first, second);
        (choice.answer.map_err(Refusal::number), choice.which)
    };
    for other in [&signed, &centre, &key] {
        assert_eq!(refused(&key, other), (Err(28), 1));
    }
    assert_eq!(refused(&signed, &key), (Err(28), 2));
    assert_eq!(refused(&centre, &key), (Err(28), 2));
    assert_eq!(refused(&signed[1..], &key), (Err(2), 1));
    assert_eq!(refused(&key, &signed[1..]), (Err(28), 1));
}

/// A file that was accepted before has as many lines, and fewer that are accepted.
#[test]
fn in_a_file_it_is_a_line_that_is_not_accepted() {
    let names = ["PUBKEY_KMC", UNSIGNED, "PUBKEY_SM", "PUBKEY_MAN"];
    let plain: Vec<u8> =
        names.iter().flat_map(|name| [worked(name), b"\n".to_vec()].concat()).collect();
    assert_eq!(file::count(&plain), (4, 3));
    let numbers = |line: file::Line| line.answer.map_or_else(Refusal::number, |_| 0);
    assert_eq!(file::lines(&plain).map(numbers).collect::<Vec<_>>(), [0, 28, 0, 0]);
    let lines: Vec<u8> =
        names.iter().flat_map(|name| [line_of(&worked(name)), b"\n".to_vec()].concat()).collect();
    assert_eq!(trailed::count(&lines), (4, 3));
    assert_eq!(trailed::lines(&lines).map(numbers).collect::<Vec<_>>(), [0, 28, 0, 0]);
    // Without its line feed.
    let last = [&worked("PUBKEY_SM")[..], b"\n", &worked(UNSIGNED)].concat();
    assert_eq!(file::lines(&last).map(numbers).collect::<Vec<_>>(), [0, 11]);
    assert_eq!(compare::listing::list(&plain).lines().nth(1), Some("2 303 289 28"));
}
