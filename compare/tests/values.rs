//! The implementation held against document 01: "Values on each side", the lengths and the
//! plausible errors.

use compare::agreement::{item, join, split};
use compare::build::build;
use compare::crc::crc16;
use compare::file::{count, line_at, Line, Step};
use compare::kind::Kind;
use compare::listing::LONGEST_FILE;
use compare::newer::{choose, newer};
use compare::record::{read_identity, read_record, LONGEST_READ};
use compare::refusal::Refusal;
use compare::sample;
use compare::text::{
    base16, base16_decode, check_text, is_hex, is_ident, is_mac, is_point, is_print, is_sig,
    is_timestamp, LONGEST_IDENT,
};
use compare::worked::worked;

/// A record of these parts, its name first.
fn sealed(mark: u8, parts: &[&[u8]]) -> Vec<u8> {
    sample::join(parts[0], mark, &parts[1..])
}

fn record_number(bytes: &[u8]) -> u8 {
    read_record(bytes).map_or_else(Refusal::number, |_| 0)
}

/// The figures that document 01 states. Everything else takes them from the constants held here.
#[test]
fn limits_are_the_figures_of_document_01() {
    assert_eq!(LONGEST_IDENT, 32, "IDENT: 1 to 32 characters");
    let (others, wrapped_key) = (&Kind::ALL[..7], Kind::WrappedKey);
    assert_eq!(Kind::longest_of(others), 646, "01: no built record is longer than 646 bytes");
    assert_eq!(wrapped_key.longest(), 1024, "E1: building an over-long KEY.1 answers 1");
    assert_eq!(LONGEST_READ, 1024, "1: the record or identity to read is longer than 1,024 bytes");
    assert_eq!(LONGEST_FILE, 65_536, "the lister reads at most 65,536 bytes");
}

#[test]
fn crc() {
    assert_eq!(crc16(b""), 0xFFFF);
    assert_eq!(crc16(&[0]), 0x40BF);
    assert_eq!(crc16(b"123456789"), 0x4B37);
    assert_eq!(check_text(0x4B37), "4B37");
    assert_eq!(check_text(0x000A), "000A");
}

#[test]
fn lists_of_items() {
    let both = [(join(&[b"AB", b"C"]), "020241420143"), (join(&[b"A", b"BC"]), "020141024243")];
    for (list, expected) in both {
        assert_eq!(base16(&list), expected);
    }
    assert_eq!(join(&[b""]), [1, 0]);
    assert_eq!(join(&[]), [0]);
    assert_eq!(split(&[0]), Some(vec![]));
    assert_eq!(item(&[0], 1), Err(Refusal::NoPart));
    assert_eq!(item(&[1, 0], 1), Ok(&[][..]));
    assert_eq!(item(&[1, 0], 0), Err(Refusal::NoPart));
    assert_eq!(item(&[], 1), Err(Refusal::NoPart));
    assert_eq!(item(&[1, 0, 0], 1), Err(Refusal::NoPart));
    let most = [&[7; 255][..]; 255];
    let text = join(&most);
    assert_eq!(text.len(), 1 + 255 * 256);
    assert_eq!(item(&text, 255), Ok(&[7; 255][..]));
    assert_eq!(item(&text, 256), Err(Refusal::NoPart));
}

#[test]
fn timestamps() {
    for good in [
        "00010101T000000Z",
        "99991231T115959Z",
        "99991231T235959Z",
        "20180228T230000Z",
        "20180101T005900Z",
    ] {
        assert!(is_timestamp(good.as_bytes()), "{good}");
    }
    for bad in [
        "",
        "00000101T000000Z",
        "20180001T000000Z",
        "20181301T000000Z",
        "20180100T000000Z",
        "20180132T000000Z",
        "20180231T230000Z",
        "20180101T240000Z",
        "20180101T006000Z",
        "20180101T000060Z",
        "20180101t000000Z",
        "20180101T000000z",
        "20180101T00000Z",
        "20180101T0000000Z",
        "2018 101T000000Z",
        "+0180101T000000Z",
    ] {
        assert!(!is_timestamp(bad.as_bytes()), "{bad}");
    }
}

/// Request E2's days, and both ends of every month.
#[test]
fn days_that_exist() {
    let is_date = |date: &str| is_timestamp(format!("{date}T000000Z").as_bytes());
    let lasts = [31, 28, 31, 30, 31, 30, 31, 31, 30, 31, 30, 31];
    for (month, last) in (1..).zip(lasts) {
        for (day, exists) in [(0, false), (1, true), (last, true), (last + 1, false)] {
            let date = format!("2023{month:02}{day:02}");
            assert_eq!(is_date(&date), exists, "{date}");
        }
    }
    for leap in ["00040229", "19960229", "20000229", "24000229"] {
        assert!(is_date(leap), "{leap}");
    }
    for other in ["20230431", "01000229", "19000229", "20230229", "21000229", "20000230"] {
        assert!(!is_date(other), "{other}");
    }
}

/// Every day from the first to the last, counted by a rule that knows no month's length: from March on,
/// every five months have 153 days.
#[test]
fn all_days_in_a_row() {
    const DAYS_OF_400_YEARS: usize = 146_097;
    let first_of_all = days_since_march_of_year_0(1, 1, 1);
    let (mut number, mut first) = (first_of_all, first_of_all);
    for year in 1..=9999 {
        for month in 1..=12 {
            for day in 1..=31 {
                let text = format!("{year:04}{month:02}{day:02}T000000Z");
                if is_timestamp(text.as_bytes()) {
                    assert_eq!(number, days_since_march_of_year_0(year, month, day), "{text}");
                    number += 1;
                }
            }
        }
        if year % 400 == 0 {
            assert_eq!(number - first, DAYS_OF_400_YEARS, "{year}");
            first = number;
        }
    }
    assert_eq!(number - first_of_all, 3_652_059);
}

fn days_since_march_of_year_0(year: usize, month: usize, day: usize) -> usize {
    let (year, month) = if month > 2 { (year, month - 3) } else { (year - 1, month + 9) };
    365 * year + year / 4 - year / 100 + year / 400 + (153 * month + 2) / 5 + day - 1
}

#[test]
fn hexadecimal() {
    assert!(is_hex(b"0A", 2));
    assert!(!is_hex(b"0a", 2));
    assert!(!is_hex(b"0A", 3));
    assert!(!is_hex(b"0A", (1 << 32) + 2));
    assert!(is_hex(b"", 0));
    assert!(is_mac(&[b'0'; 48]) && !is_mac(&[b'0'; 47]));
    assert!(is_sig(&[b'F'; 192]) && !is_sig(&[b'F'; 193]));
    assert!(is_print(&[b'9'; 16]) && !is_print(&[b'G'; 16]));
    assert!(is_point(&worked("QE")) && !is_point(&[b'0'; 194]));
    for byte in 0..=255 {
        assert_eq!(is_hex(&[byte], 1), matches!(byte, b'0'..=b'9' | b'A'..=b'F'));
    }
    assert_eq!(base16_decode(b"0aff"), None);
    assert_eq!(base16_decode(b"0AF"), None);
    assert_eq!(base16_decode(b"0AFF"), Some(vec![0x0A, 0xFF]));
}

#[test]
fn idents() {
    assert!(is_ident(&[b'a'; LONGEST_IDENT]));
    assert!(!is_ident(&[b'a'; LONGEST_IDENT + 1]));
    assert!(!is_ident(b""));
    assert!(is_ident(b"sts-KeyAgreement-1.2"));
    assert!(is_ident(b"A_-.,"));
    for bad in ["_A", "-A", ".A", ",A", "A A", "A:", "A|", "A#", "A\n", "A\u{e9}"] {
        assert!(!is_ident(bad.as_bytes()), "{bad}");
    }
}

#[test]
fn a_record_of_1024_goes_on_to_test_2_and_1025_answers_1() {
    for (bytes, number) in [(1023, 2), (1024, 2), (1025, 1)] {
        assert_eq!(record_number(&vec![b'x'; bytes]), number);
    }
    for (padding, number) in [(1009, 5), (1010, 1)] {
        let record = sealed(b'|', &[b"PK.ECDH.1", &vec![b'x'; padding]]);
        assert_eq!(record.len(), padding + 15);
        assert_eq!(record_number(&record), number);
    }
}

#[test]
fn short_records() {
    for (bytes, number) in [
        ("", 2),
        ("PK.ECDH.1", 2),
        ("PK.ECDH.1:x", 2),
        ("SMID.1|x", 2),
        ("PK.ECDH.1|", 3),
        ("PK.ECDH.1|x", 3),
        ("PK.ECDH.1|ABC", 3),
        ("PK.ECDH.1|0000", 4),
        ("PK.ECDH.1|abcd", 3),
        ("PK.ECDH.2|x", 2),
        ("|0000", 2),
    ] {
        assert_eq!(record_number(bytes.as_bytes()), number, "{bytes}");
    }
    assert_eq!(record_number(&sealed(b'|', &[b"PK.ECDH.1"])), 5);
    assert_eq!(read_identity(&sealed(b':', &[b"SMID.1"])), Err(Refusal::FieldCount));
}

#[test]
fn the_check_is_over_everything_before_it() {
    let key = worked("PUBKEY_SM");
    let body = &key[..key.len() - 4];
    let with = |check: String| [body, check.as_bytes()].concat();
    let check = crc16(body);
    assert_eq!(record_number(&with(check_text(check))), 0);
    assert_eq!(record_number(&with(check_text(check.swap_bytes()))), 4);
    assert_eq!(record_number(&with(check_text(crc16(&body[10..])))), 4);
    assert_eq!(record_number(&with(check_text(crc16(&body[..body.len() - 1])))), 4);
    let mut small = worked("PUBKEY_KMC");
    small[298..].make_ascii_lowercase();
    assert!(small.ends_with(b"b8f9"));
    assert_eq!(record_number(&small), 3);
}

#[test]
fn identities_inside_a_record() {
    let (q, expiry) = (worked("Q_SM"), b"20300101T000000Z");
    let (sm, kmc, man) = (worked("ID_SM"), worked("ID_KMC"), worked("ID_MAN"));
    let signature = worked("SIG_SM");
    let key = |subject: &[u8], issuer: &[u8], signature: &[u8]| {
        let record = sealed(b'|', &[b"PK.ECDH.1", subject, &q, expiry, issuer, signature]);
        read_record(&record).map(|record| record.kind)
    };
    assert_eq!(key(&kmc, b"", b""), Ok(Kind::PkEcdh));
    assert_eq!(key(&sm, &man, &signature), Ok(Kind::PkEcdh));
    assert_eq!(key(&sm, b"", b""), Err(Refusal::UnsignedModule));
    assert_eq!(key(&kmc, &man, &signature), Ok(Kind::PkEcdh));
    assert_eq!(key(&man, b"", b""), Err(Refusal::WrongIdentity(1)));
    assert_eq!(key(b"", b"", b""), Err(Refusal::NoIdentity(1)));
    assert_eq!(key(&sm, &sm, &signature), Err(Refusal::WrongIdentity(4)));
    assert_eq!(key(&sm, &man[1..], &signature), Err(Refusal::NoIdentity(4)));
    assert_eq!(key(&sm, &man, &signature[1..]), Err(Refusal::WrongText(5)));
    assert_eq!(key(&sm, &man, b""), Err(Refusal::HalfSigned));
    assert_eq!(key(&sm, b"", &signature), Err(Refusal::HalfSigned));
}

#[test]
fn lengths_of_the_longest_records() {
    let built = |kind: &str, fields: &[&[u8]]| {
        let lengths: Vec<u64> = fields.iter().map(|field| field.len() as u64).collect();
        let mut output = vec![0; 1024];
        let length = build(kind.as_bytes(), &fields.concat(), &lengths, &mut output).unwrap();
        output.truncate(length);
        output
    };
    let (long, time) = ([b'M'; LONGEST_IDENT], b"20180101T000000Z");
    let identity = built("SMMAN.1", &[&long, &long, time, &[b'0'; 16]]);
    assert_eq!(identity.len(), "SMMAN.1".len() + long.len() + long.len() + 41);
    assert_eq!(identity.len(), Kind::longest_of(&Kind::IDENTITIES));

    let q = worked("Q_MAN");
    let unsigned = built("PK.ECDSA.1", &[&identity, &q, time, b"", b""]);
    assert_eq!(unsigned.len(), "PK.ECDSA.1".len() + identity.len() + 220);
    let signed = built("PK.ECDSA.1", &[&identity, &q, time, &identity, &[b'0'; 192]]);
    assert_eq!(signed.len(), unsigned.len() + identity.len() + 192);
    assert_eq!(signed.len(), Kind::longest_of(&Kind::PUBLIC_KEYS));
}

#[test]
fn building_wants_the_exact_sum_of_lengths() {
    let bytes = [&[b'A'; 2][..], b"20180101T000000Z", &[b'0'; 16]].concat();
    let number = |kind: &str, lengths: &[u64]| {
        let mut output = [9; 64];
        let answer = build(kind.as_bytes(), &bytes, lengths, &mut output);
        assert!(answer.is_ok() || output == [9; 64]);
        answer.map_or_else(Refusal::number, |_| 0)
    };
    assert_eq!(number("SMID.1", &[1, 1, 16, 16]), 0);
    assert_eq!(number("SMID.1", &[1, 1, 16, 15]), 5);
    assert_eq!(number("SMID.1", &[1, 1, 16, 17]), 5);
    assert_eq!(number("SMID.1", &[2, 16, 16]), 5);
    assert_eq!(number("SMID.1", &[1, 1, 16, 16, 0]), 5);
    assert_eq!(number("SMID.1", &[u64::MAX, u64::MAX, 20, 16]), 5);
    assert_eq!(number("SMID.1", &[(1 << 63) + 1, (1 << 63) + 1, 16, 16]), 5);
    assert_eq!(number("SMID.1", &[]), 5);
    assert_eq!(number("SMID.1", &[0, 2, 16, 16]), 6);
    assert_eq!(number("SMID.2", &[0]), 2);
    assert_eq!(number("SMID.1:", &[1, 1, 16, 16]), 2);
}

#[test]
fn the_file_call() {
    let line = |answer, start, length, next| Step::Read(Line { answer, start, length, next });
    let record = worked("VKLOADRESP");
    let file = [&record[..], b"\n", &[b'x'; 1025], b"\n", &record].concat();
    assert_eq!(line_at(&file, 0), line(Ok(Kind::VkloadResp), 0, 219, 220));
    assert_eq!(line_at(&file, 1), line(Err(Refusal::UnknownKind), 1, 218, 220));
    assert_eq!(line_at(&file, 219), line(Err(Refusal::UnknownKind), 219, 0, 220));
    assert_eq!(line_at(&file, 220), line(Err(Refusal::TooLong), 220, 1025, 1246));
    assert_eq!(line_at(&file, 1246), line(Err(Refusal::Unfinished), 1246, 219, 1465));
    for place in [1465, 1466, 1 << 63, u64::MAX] {
        assert_eq!(line_at(&file, place), Step::Finished { place });
    }
    assert_eq!(count(&file), (3, 1));
    assert_eq!(count(b"\nPK.ECDH.2|x\nabc"), (3, 0), "the lister's example");
}

#[test]
fn the_newer_key() {
    let key = |manufacturer: &[u8], mid: &[u8], gnt: &[u8]| {
        let subject = sealed(b':', &[b"KMCID.1", manufacturer, mid, gnt, &[b'0'; 16]]);
        sealed(b'|', &[b"PK.ECDH.1", &subject, &worked("Q_KMC"), b"20300101T000000Z", b"", b""])
    };
    let old = key(b"A", b"B", b"20180101T235959Z");
    let new = key(b"A", b"B", b"20180102T000000Z");
    assert_eq!(newer(&old, &new), Ok(&new[..]));
    assert_eq!(newer(&new, &old), Ok(&new[..]));
    for other in [key(b"A", b"C", b"20180102T000000Z"), key(b"a", b"B", b"20180102T000000Z")] {
        assert_eq!(newer(&old, &other), Err(Refusal::OtherSubject));
    }
    let which = |first: &[u8], second: &[u8]| choose(first, second).which;
    assert_eq!((which(&old, &new), which(&new, &old), which(&old, &old)), (2, 1, 1));
    assert_eq!((which(&old[1..], &new[..9]), which(&old, &new[..9])), (1, 2));
    assert_eq!(which(&old, &key(b"A", b"C", b"20180102T000000Z")), 0);
    assert_eq!(newer(&old[1..], &new[..9]), Err(Refusal::UnknownKind));
    assert_eq!(newer(&old, &new[..10]), Err(Refusal::NoCheck));
    assert_eq!(newer(&[b'x'; 1025], &new), Err(Refusal::TooLong));
}
