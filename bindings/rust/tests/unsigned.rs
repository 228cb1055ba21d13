//! The unsigned key of a module, to every call that reads or builds it: number 28, about no field, and nothing is written or handed
//! back.

mod held;

use compare::kind::Kind;
use compare::random::Random;
use compare::sample::{self, Fault, PublicKey, Subject};
use compare::trailed::line_of;
use compare::worked::worked;
use held::cabinet::UNSIGNED;
use held::dates::same_expiry;
use held::fingerprint::same_fingerprint;
use held::keys::{any_key, unsigned_key};
use held::mail::{same_block, same_mail};
use held::reading::same_record;
use held::trailed::{same_trailed, same_trailed_file, same_written};
use held::{lent, numbers, rounds, same_output, Numbers, Seen};
use obscurlane::{
    line_at, lines, newer, put_key, record_field, NewerRefusal, Reason, Totals, CABINET_SIZE,
    LONGEST_RECORD, LONGEST_TRAILED,
};

/// A Subject that is a module.
fn module(random: &mut Random) -> Subject {
    Subject { kind: Kind::Smid, ..Subject::any(random) }
}

/// 003's, and others.
fn keys_of_modules(random: &mut Random) -> Vec<Vec<u8>> {
    let mut keys = vec![worked("PUBKEY_SM_NOSIG")];
    keys.extend((0..rounds().div_ceil(100)).map(|_| {
        let module = module(random);
        unsigned_key(random, &module)
    }));
    keys
}

/// What a build of this record's fields answers with so much room, on both sides.
fn built(record: &[u8], room: usize) -> Result<usize, Numbers> {
    let (name, rest) = record.split_at(record.iter().position(|&byte| byte == b'|').unwrap());
    let fields: Vec<&[u8]> = rest[1..rest.len() - 5].split(|&byte| byte == b'|').collect();
    let (bytes, lens) = (fields.concat(), fields.iter().map(|field| field.len()));
    let (lens, wide): (Vec<usize>, Vec<u64>) = lens.map(|len| (len, len as u64)).unzip();
    same_output(
        room,
        |out| obscurlane::build(name, &bytes, &lens, out),
        |out| compare::build::build(name, &bytes, &wide, out),
        &record,
    )
}

// ---- the calls

#[test]
fn reading() {
    let mut random = Random::with_seed(231);
    for key in keys_of_modules(&mut random) {
        assert_eq!(same_record(&key), Err(UNSIGNED), "{key:?}");
        for wanted in [0, 1, 5, 6, usize::MAX] {
            assert_eq!(numbers(record_field(&key, wanted)), Err(UNSIGNED), "{key:?}");
        }
    }
}

#[test]
fn files() {
    let mut random = Random::with_seed(232);
    let response = worked("VKLOADRESP");
    for key in keys_of_modules(&mut random) {
        let file = [&response[..], b"\n", &key, b"\n", &response, b"\n"].concat();
        let answers: Vec<_> = lines(&file).map(|line| numbers(line.answer)).collect();
        let accepted = Ok(obscurlane::Kind::Response);
        assert_eq!(answers, [accepted, Err(UNSIGNED), accepted]);
        let line = line_at(&file, response.len() + 1).expect("a line");
        assert_eq!((numbers(line.answer), line.bytes), (Err(UNSIGNED), &key[..]));
        assert_eq!(obscurlane::count(&file), Totals { lines: 3, accepted: 2 });
    }
}

/// Whatever the room: 10 comes after it.
#[test]
fn building() {
    let mut random = Random::with_seed(233);
    for key in keys_of_modules(&mut random) {
        for room in (0..LONGEST_RECORD).step_by(37).chain([key.len() - 1, key.len()]) {
            assert_eq!(built(&key, room), Err(UNSIGNED), "{key:?}");
        }
    }
}

#[cfg(feature = "alloc")]
#[test]
fn building_from_parts() {
    let mut random = Random::with_seed(234);
    for key in keys_of_modules(&mut random) {
        let fields: Vec<&[u8]> = key.split(|&byte| byte == b'|').skip(1).take(5).collect();
        let mut out = lent(LONGEST_RECORD);
        let built = obscurlane::build_parts(obscurlane::Kind::Ecdh, &fields, &mut out);
        assert_eq!((numbers(built), out), (Err(UNSIGNED), lent(LONGEST_RECORD)));
    }
}

/// Before 13, and of the first before what is said of the second.
#[test]
fn choosing() {
    let mut random = Random::with_seed(235);
    for key in keys_of_modules(&mut random) {
        for other in [worked("PUBKEY_SM"), worked("PUBKEY_MAN"), key.clone(), Vec::new()] {
            let refusal = newer(&key, &other).unwrap_err();
            assert!(matches!(refusal, NewerRefusal::First(_)));
            assert_eq!(refusal.reason(), Reason::ModuleUnsigned);
        }
        for other in [worked("PUBKEY_SM"), worked("PUBKEY_MAN"), worked("PUBKEY_KMC")] {
            let refusal = newer(&other, &key).unwrap_err();
            assert!(matches!(refusal, NewerRefusal::Second(_)));
            assert_eq!(refusal.reason(), Reason::ModuleUnsigned);
        }
    }
}

/// Before 15, and whatever the room.
#[test]
fn fingerprints() {
    let mut random = Random::with_seed(236);
    for _ in 0..rounds().div_ceil(100) {
        let module = module(&mut random);
        let (issuer, signature) = (Vec::new(), Vec::new());
        let mut key = PublicKey { issuer, signature, ..any_key(&mut random, &module) };
        for room in [0, 15, 16, 64] {
            assert_eq!(same_fingerprint(&key.record(), room), Err(UNSIGNED));
        }
        key.print.rotate_left(1);
        assert_eq!(same_fingerprint(&key.record(), 16), Err(UNSIGNED));
    }
    assert_eq!(same_fingerprint(&worked("PUBKEY_SM_NOSIG"), 16), Err(UNSIGNED));
}

#[test]
fn expiries() {
    let mut random = Random::with_seed(237);
    for key in keys_of_modules(&mut random) {
        assert_eq!(same_expiry(&key), Err(UNSIGNED), "{key:?}");
    }
}

/// After 19 and before 20.
#[test]
fn manufacturers_lines() {
    let mut random = Random::with_seed(238);
    for key in keys_of_modules(&mut random) {
        let mut line = line_of(&key);
        assert_eq!(same_trailed(&line), Err(UNSIGNED), "{key:?}");
        let file = [&line[..], b"\n"].concat();
        assert_eq!(same_trailed_file(&file)[0].0, Err(UNSIGNED), "{key:?}");
        held::change_digit(&mut line, key.len() + 5);
        assert_eq!(same_trailed(&line), Err(UNSIGNED), "{key:?}");
        assert_eq!(same_trailed(&key), Err((19, 0)), "{key:?}");
        for room in [0, key.len(), LONGEST_TRAILED] {
            assert_eq!(same_written(&key, room), Err(UNSIGNED), "{key:?}");
        }
    }
}

/// After 21 and 22, and whatever the room.
#[test]
fn mail() {
    let mut random = Random::with_seed(239);
    for key in keys_of_modules(&mut random) {
        let width = random.between(1, 700);
        let rows: Vec<u8> = key.chunks(width).flat_map(|row| [row, b"\n"].concat()).collect();
        let block = [b"--STS:PK.ECDH.1 BEGINS--\n", &rows[..], b"--STS:PK.ECDH.1 ENDS--\n"];
        for room in [0, key.len() - 1, key.len(), LONGEST_RECORD] {
            assert_eq!(same_mail(&block.concat(), room), Err(UNSIGNED), "{key:?}");
            assert_eq!(same_block(&key, room), Err(UNSIGNED), "{key:?}");
        }
        assert_eq!(same_mail(&block[..2].concat(), LONGEST_RECORD), Err((22, 0)));
        assert_eq!(same_mail(&block[1..].concat(), LONGEST_RECORD), Err((21, 0)));
    }
}

/// Into an empty cabinet; `old.rs` has the others.
#[test]
fn putting() {
    let mut random = Random::with_seed(240);
    for key in keys_of_modules(&mut random) {
        let mut bytes = vec![0; CABINET_SIZE];
        assert_eq!(numbers(put_key(&mut bytes, &key)), Err(UNSIGNED), "{key:?}");
        assert!(bytes.iter().all(|&byte| byte == 0), "{key:?}");
    }
}

// ---- what stays accepted, and what comes before

/// Signed keys of modules, and unsigned ones of centres and manufacturers.
#[test]
fn other_keys_are_accepted() {
    let mut random = Random::with_seed(241);
    for kind in Kind::IDENTITIES.repeat(rounds().div_ceil(100)) {
        let subject = Subject { kind, ..Subject::any(&mut random) };
        let mut keys = vec![any_key(&mut random, &subject).record()];
        if kind != Kind::Smid {
            keys.push(unsigned_key(&mut random, &subject));
        }
        for key in keys {
            assert!(same_record(&key).is_ok(), "{key:?}");
            assert_eq!(built(&key, LONGEST_RECORD), Ok(key.len()), "{key:?}");
            assert!(same_expiry(&key).is_ok(), "{key:?}");
            assert_eq!(same_fingerprint(&key, 16), Ok(()), "{key:?}");
            let mut bytes = vec![0; CABINET_SIZE];
            assert_eq!(numbers(put_key(&mut bytes, &key)), Ok(()), "{key:?}");
        }
    }
}

/// An unsigned key of a module that has another fault too answers that one's number: 1 to 9.
#[test]
fn other_numbers_come_first() {
    let mut random = Random::with_seed(242);
    let mut seen = Seen::default();
    for _ in 0..rounds() {
        let module = module(&mut random);
        let (issuer, signature) = (Vec::new(), Vec::new());
        let mut key = PublicKey { issuer, signature, ..any_key(&mut random, &module) };
        let mut faults = Vec::new();
        match random.below(10) {
            0 => key.issuer = sample::record(&mut random, Kind::Smman),
            1 => key.signature = sample::hex(&mut random, 192),
            2 => key.q.truncate(193),
            3 => key.expiry = sample::missing_day(&mut random),
            4 => key.subject.mid.clear(),
            5 => key.kind = Kind::PkEcdsa,
            _ => {
                let whole =
                    [Fault::Long, Fault::Name, Fault::CheckText, Fault::Check, Fault::Count];
                faults.push(random.one_of(&whole));
            }
        }
        let record = sample::finished(&mut random, key.kind, key.fields(), &faults);
        let answer = same_record(&record);
        assert!(matches!(answer, Err((1..=9, _))), "{record:?}");
        seen.add(&answer);
    }
    seen.expect(1..=9, 20);
}
