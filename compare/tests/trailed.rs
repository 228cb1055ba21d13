//! The implementation held against request E6: SHA-1, the line that document 003 prints, and where
//! numbers 19 and 20 stand.

mod lent;

use compare::file::{self, Line, Step};
use compare::kind::Kind;
use compare::random::Random;
use compare::record::read_record;
use compare::refusal::Refusal;
use compare::sample::{self, Fault};
use compare::sha1::{published, sha1};
use compare::text::base16;
use compare::trailed::{count, line_at, line_of, lines, read, trailer_of, write};
use compare::worked::{appendix_a, worked, IDENTITIES, RECORDS};

fn kind(line: &[u8]) -> Result<Kind, Refusal> {
    read(line).map(|record| record.kind)
}

fn number(line: &[u8]) -> u8 {
    kind(line).map_or_else(Refusal::number, |_| 0)
}

fn written(record: &[u8], room: usize) -> Result<Vec<u8>, Refusal> {
    lent::written(room, |output| write(record, output))
}

/// The line with another last character of its hash, which is one of a hash too.
fn with_other_hash(mut line: Vec<u8>) -> Vec<u8> {
    let last = line.last_mut().expect("a character");
    *last = if *last == b'0' { b'1' } else { b'0' };
    line
}

/// The line with a small letter at the end of its hash.
fn with_small_letter(mut line: Vec<u8>) -> Vec<u8> {
    *line.last_mut().expect("a character") = b'a';
    line
}

#[test]
fn the_published_examples_come_out() {
    let lengths: Vec<usize> = published().iter().map(|(message, _)| 8 * message.len()).collect();
    assert_eq!(lengths, [0, 24, 448, 896, 8_000_000]);
    for (message, expected) in published() {
        assert_eq!(base16(&sha1(&message)), expected);
    }
}

#[test]
fn the_signed_module_record_of_document_003() {
    let (record, line) = (worked("PUBKEY_SM"), worked("PUBKEY_SM_FILELINE"));
    let printed = "03DEF08D021CE970F7A87E2DD999FE7970B67B5F";
    assert_eq!(worked("PUBKEY_SM_SHA1"), printed.as_bytes());
    assert_eq!(line, [&record[..], b"#", printed.as_bytes()].concat());
    assert_eq!((record.len(), line.len()), (535, 576));

    assert_eq!(trailer_of(&record), line[535..]);
    assert_eq!(read(&line), read_record(&record));
    assert_eq!(written(&record, 576), Ok(line.clone()));
    let file = [&line[..], b"\n"].concat();
    let expected = Line { answer: Ok(Kind::PkEcdh), start: 0, length: 576, next: 577 };
    assert_eq!(line_at(&file, 0), Step::Read(expected));
    assert_eq!(count(&file), (1, 1));
}

/// What else the hash might cover, by Appendix D or beside it.
#[test]
fn no_other_reading_gives_the_hash_in_print() {
    let (record, printed) = (worked("PUBKEY_SM"), worked("PUBKEY_SM_SHA1"));
    let hash = |before: &str, after: &str| {
        let message = [before.as_bytes(), &record, after.as_bytes()].concat();
        base16(&sha1(&message)).into_bytes()
    };
    assert_eq!(hash("", "\n"), printed);
    for after in ["", "#", "\n#", "#\n", "\r\n", "\r", " \n", "\n\n", "\0"] {
        assert_ne!(hash("", after), printed, "{after:?}");
    }
    for before in ["\n", "#", " "] {
        assert_ne!(hash(before, "\n"), printed, "{before:?}");
    }
    let unchecked = [&record[..record.len() - 4], b"\n"].concat();
    assert_ne!(base16(&sha1(&unchecked)).as_bytes(), printed);
}

/// The files of both documents are of another form: one hash behind all lines, over all of them.
#[test]
fn the_hash_of_a_whole_file_comes_out_and_is_no_trailer_of_a_line() {
    for (file, hash) in [(worked("KLF"), "KLF_SHA1"), (appendix_a(), "APPA_SHA1")] {
        let content = &file[..file.len() - 41];
        assert_eq!(base16(&sha1(content)).as_bytes(), worked(hash), "{hash}");
        let numbers: Vec<u8> =
            lines(&file).map(|line| line.answer.map_or_else(Refusal::number, |_| 0)).collect();
        let (last, records) = numbers.split_last().expect("a line");
        assert_eq!(*last, 11, "{hash}");
        assert!(records.iter().all(|&number| number == 19), "{hash}");
    }
    // 003's record as Appendix D would have it, with a line feed before its `#`.
    let (record, hash) = (worked("PUBKEY_SM"), worked("PUBKEY_SM_SHA1"));
    let file = [&record[..], b"\n#", &hash].concat();
    assert_eq!(count(&file), (2, 0));
    assert_eq!(kind(&file), Err(Refusal::NoCheck), "a line feed is no part of a record");
}

#[test]
fn every_record_has_its_line() {
    for name in RECORDS {
        let record = worked(name);
        let line = line_of(&record);
        assert_eq!(line.len(), record.len() + 41, "{name}");
        assert_eq!(read(&line), read_record(&record), "{name}");
        assert_eq!(written(&record, line.len()).as_ref(), Ok(&line), "{name}");
        let field = read(&line).unwrap().fields[0];
        assert!(line.as_ptr_range().contains(&field.as_ptr()), "{name}");
        assert_eq!(kind(&record), Err(Refusal::NoTrailer), "{name}");
        // Our plain files stay.
        assert_eq!(read_record(&line), Err(Refusal::NoCheck), "{name}");
    }
    for name in IDENTITIES {
        assert_eq!(kind(&line_of(&worked(name))), Err(Refusal::UnknownKind), "{name}");
        assert_eq!(written(&worked(name), 1024), Err(Refusal::UnknownKind), "{name}");
    }
}

#[test]
fn a_trailer_is_a_mark_and_forty_capital_digits() {
    let record = worked("VKLOADRESP");
    let hash = trailer_of(&record).split_off(1);
    let text = |parts: &[&[u8]]| parts.concat();
    let none = [
        text(&[&record]),
        text(&[&record, &hash]),
        text(&[&record, b"#", &hash[1..]]),
        text(&[&record, b"#", &hash, b"0"]),
        text(&[&record, b"#0", &hash]),
        text(&[&record, b"# ", &hash]),
        text(&[&record, b":", &hash]),
        text(&[&record, b"#", &hash.to_ascii_lowercase()]),
        text(&[&record, b"#", &hash, b" "]),
        text(&[&record, b"#", &hash, b"\r"]),
        text(&[&record, b"#", &hash, b"\n"]),
        text(&[&record, b"#", &hash, b"#"]),
        text(&[&record, b"#", &hash[1..], b"G"]),
    ];
    for line in none {
        assert_eq!(kind(&line), Err(Refusal::NoTrailer), "{line:?}");
    }
    // What stands before the mark is the record, to its last byte.
    for before in [" ", "\r", "#"] {
        let longer = text(&[&record, before.as_bytes()]);
        for trailer in [trailer_of(&record), trailer_of(&longer)] {
            let line = text(&[&longer, &trailer]);
            assert_eq!(kind(&line), Err(Refusal::NoCheck), "{before:?}");
        }
    }
    assert_eq!((Refusal::NoTrailer.number(), Refusal::NoTrailer.field()), (19, 0));
}

#[test]
fn lines_without_a_record() {
    for line in ["", "#", " ", "\t ", "# a comment", "#0123456789ABCDEF0123456789ABCDEF0123456"] {
        assert!(line.len() < 41);
        assert_eq!(number(line.as_bytes()), 19, "{line:?}");
    }
    for line in [&"0".repeat(41), &" ".repeat(41), &format!("#{} ", "0".repeat(39))] {
        assert_eq!(number(line.as_bytes()), 19, "{line:?}");
    }
    assert_eq!(number(&line_of(b"")), 2, "41 bytes, and no record before them");
    assert_eq!(number(&[b"#", &[b'0'; 40][..]].concat()), 2, "whatever the hash");
}

#[test]
fn every_byte_value_in_every_place_of_a_trailer() {
    let line = worked("PUBKEY_SM_FILELINE");
    for place in 535..576 {
        for byte in 0..=255 {
            let mut changed = line.clone();
            changed[place] = byte;
            let expected = match (place, byte) {
                _ if byte == line[place] => 0,
                (535, _) => 19,
                (_, b'0'..=b'9' | b'A'..=b'F') => 20,
                _ => 19,
            };
            assert_eq!(number(&changed), expected, "{place} {byte}");
        }
    }
    assert_eq!((Refusal::HashDiffers.number(), Refusal::HashDiffers.field()), (20, 0));
}

#[test]
fn each_line_covers_its_own_record() {
    let mut random = Random::with_seed(20);
    for kind in Kind::RECORDS.repeat(10) {
        let [first, second] = [(); 2].map(|()| sample::record(&mut random, kind));
        let line = [&first[..], &trailer_of(&second)].concat();
        assert_eq!(number(&line), 20, "{kind:?}");
        assert_eq!((number(&line_of(&first)), number(&line_of(&second))), (0, 0), "{kind:?}");
        // The second line of a file does not cover the first.
        let both = [&first[..], b"\n", &second, b"\n"].concat();
        let line = [&second[..], b"#", base16(&sha1(&both)).as_bytes()].concat();
        assert_eq!(number(&line), 20, "{kind:?}");
    }
}

/// 19, then the record's own numbers, then 20.
#[test]
fn the_records_own_numbers_stand_between_19_and_20() {
    let mut random = Random::with_seed(21);
    let mut seen = Vec::new();
    for kind in Kind::RECORDS.repeat(10) {
        for &fault in Fault::of(kind) {
            let record = sample::faulty(&mut random, kind, &[fault]);
            let own = read_record(&record).map(|record| record.kind).unwrap_err();
            let line = line_of(&record);
            for line in [line.clone(), with_other_hash(line.clone())] {
                let answer = read(&line).map(|record| record.kind);
                assert_eq!(answer, Err(own), "{fault:?}");
            }
            let without_mark = [&record[..], &line[record.len() + 1..]].concat();
            for line in [record.clone(), without_mark, with_small_letter(line)] {
                assert_eq!(number(&line), 19, "{fault:?}");
            }
            assert_eq!(written(&record, 0), Err(own), "{fault:?}");
            assert_eq!(written(&record, 2000), Err(own), "{fault:?}");
            seen.push(own.number());
        }
        let line = line_of(&sample::record(&mut random, kind));
        assert_eq!(number(&line), 0);
        assert_eq!(number(&with_other_hash(line.clone())), 20);
        assert_eq!(number(&with_small_letter(line)), 19);
    }
    seen.sort();
    seen.dedup();
    assert_eq!(seen, [1, 2, 3, 4, 5, 6, 7, 8, 9, 14, 28]);
}

#[test]
fn the_limit_is_for_the_record_before_the_mark() {
    let mut random = Random::with_seed(22);
    for (length, own) in [(983, 0), (984, 0), (1023, 0), (1024, 0), (1025, 1), (2000, 1)] {
        let fields = sample::wrapped_key_fields(&mut random, length);
        let record = sample::of_kind(Kind::WrappedKey, &fields);
        let line = line_of(&record);
        assert_eq!(line.len(), length + 41);
        assert_eq!(number(&line), own, "{length}");
        let other = if own == 0 { 20 } else { own };
        assert_eq!(number(&with_other_hash(line.clone())), other, "{length}");
        assert_eq!(number(&with_small_letter(line.clone())), 19, "{length}");
        assert_eq!(number(&record), 19, "{length}");
        let room = |room| written(&record, room).map_or_else(Refusal::number, |_| 0);
        assert_eq!((room(length + 41), room(3000)), (own, own), "{length}");
        let short = if own == 0 { 10 } else { own };
        assert_eq!((room(length + 40), room(0)), (short, short), "{length}");
    }
    assert_eq!(number(&line_of(&[b'x'; 1024])), 2);
    assert_eq!(number(&line_of(&[b'x'; 1025])), 1);
    assert_eq!(number(&[b'x'; 1025]), 19);
}

#[test]
fn a_line_needs_exact_room_and_has_no_line_feed() {
    for name in RECORDS {
        let (record, line) = (worked(name), line_of(&worked(name)));
        assert!(!line.contains(&b'\n'), "{name}");
        for room in [line.len(), line.len() + 1, 2 * line.len()] {
            assert_eq!(written(&record, room).as_ref(), Ok(&line), "{name} {room}");
        }
        for room in [0, 1, 41, record.len(), line.len() - 1] {
            assert_eq!(written(&record, room), Err(Refusal::ShortOutput), "{name} {room}");
        }
        assert_eq!(written(&line, 2000), Err(Refusal::NoCheck), "{name}: a line is no record");
    }
}

#[test]
fn a_file_of_lines() {
    let line = |answer, start, length, next| Line { answer, start, length, next };
    let trailed = worked("PUBKEY_SM_FILELINE");
    let plain = worked("PUBKEY_SM");
    let parts: [&[u8]; 8] = [&trailed, b"\n", &plain, b"\n\n", &trailed, b"\r\n", b"#\n", &trailed];
    let file = parts.concat();
    let ok = Ok(Kind::PkEcdh);
    let none = Err(Refusal::NoTrailer);
    let expected = [
        line(ok, 0, 576, 577),
        line(none, 577, 535, 1113),
        line(none, 1113, 0, 1114),
        line(none, 1114, 577, 1692),
        line(none, 1692, 1, 1694),
        line(Err(Refusal::Unfinished), 1694, 576, 2270),
    ];
    assert_eq!(lines(&file).collect::<Vec<_>>(), expected);
    assert_eq!(count(&file), (6, 1));
    // The line begins at the place, also in the middle of one.
    let at = |place| line_at(&file, place);
    assert_eq!(at(1), Step::Read(line(Err(Refusal::UnknownKind), 1, 575, 577)));
    assert_eq!(at(535), Step::Read(line(Err(Refusal::UnknownKind), 535, 41, 577)));
    assert_eq!(at(536), Step::Read(line(none, 536, 40, 577)));
    assert_eq!(at(2269), Step::Read(line(Err(Refusal::Unfinished), 2269, 1, 2270)));
    for place in [2270, 2271, 1 << 63, u64::MAX] {
        assert_eq!(at(place), Step::Finished { place });
    }
    // In a plain file the second line alone is accepted.
    let accepted: Vec<u64> =
        file::lines(&file).filter(|line| line.answer.is_ok()).map(|line| line.start).collect();
    assert_eq!(accepted, [577]);
}

/// Demand 3 for this form: wherever two neighbouring bytes of an accepted line are damaged, the line is
/// refused and those beside it are not. A line feed that is made cuts it in two, both refused.
#[test]
fn two_damaged_neighbours_are_found_and_the_other_lines_stay() {
    let line = line_of(&worked("KEY1_1"));
    let whole = [&line[..], b"\n"].concat();
    for place in 0..line.len() - 1 {
        let (first, second) = (line[place], line[place + 1]);
        let other = |byte: u8| if byte == b'0' { b'1' } else { b'0' };
        for damage in [
            [second, first],
            [other(first), other(second)],
            [b'X', b'X'],
            [b'#', b'#'],
            [b'\n', second],
            [first, b'\n'],
            [b'\n', b'\n'],
            [first ^ 0x80, second],
        ] {
            let mut damaged = whole.clone();
            damaged[place..place + 2].copy_from_slice(&damage);
            let cuts = damaged.iter().filter(|&&byte| byte == b'\n').count();
            let file = [&whole[..], &damaged, &whole].concat();
            let accepted = if damaged == whole { 3 } else { 2 };
            assert_eq!(count(&file), (2 + cuts, accepted), "{place} {damage:?}");
        }
    }
}
