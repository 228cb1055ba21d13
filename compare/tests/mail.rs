//! The implementation held against request E7: the blocks that document 003 prints, the guards of Appendix C,
//! and where numbers 21 and 22 stand.

mod lent;

use compare::kind::Kind;
use compare::mail::{begins_line, block_in_rows, block_of, ends_line, read, write, ROW};
use compare::random::Random;
use compare::record::{read_record, LONGEST_READ};
use compare::refusal::Refusal;
use compare::sample::{self, Cards, Fault};
use compare::worked::{worked, IDENTITIES, RECORDS};

fn written(record: &[u8], room: usize) -> Result<Vec<u8>, Refusal> {
    lent::written(room, |output| write(record, output))
}

fn read_into(text: &[u8], room: usize) -> Result<Vec<u8>, Refusal> {
    lent::written(room, |output| read(text, output))
}

fn read_from(text: &[u8]) -> Result<Vec<u8>, Refusal> {
    read_into(text, LONGEST_READ)
}

fn number(text: &[u8]) -> u8 {
    read_from(text).map_or_else(Refusal::number, |_| 0)
}

/// The block of an accepted record.
fn block(record: &[u8]) -> Vec<u8> {
    let kind = read_record(record).expect("an accepted record").kind;
    block_of(kind.name().as_bytes(), record)
}

/// The lines of a text, each with its line feed.
fn lines_of(text: &[u8]) -> Vec<&[u8]> {
    text.split_inclusive(|&byte| byte == b'\n').collect()
}

/// The record with another check that is one too.
fn with_other_check(mut record: Vec<u8>) -> Vec<u8> {
    let last = record.last_mut().expect("a character");
    *last = if *last == b'0' { b'1' } else { b'0' };
    record
}

#[test]
fn the_blocks_of_document_003() {
    for (name, kind, length) in [
        ("VKLOADREQ", "VKLOAD.REQ.1", 495),
        ("PUBKEY_KMC", "PK.ECDH.1", 355),
        ("PUBKEY_MAN", "PK.ECDSA.1", 589),
    ] {
        let (record, printed) = (worked(name), worked(&format!("MAIL_{name}")));
        assert_eq!(printed.len(), length, "{name}");
        assert_eq!(written(&record, length).as_ref(), Ok(&printed), "{name}");
        assert_eq!(read_into(&printed, record.len()).as_ref(), Ok(&record), "{name}");
        let lines = lines_of(&printed);
        assert_eq!(lines[0], format!("--STS:{kind} BEGINS--\n").as_bytes(), "{name}");
        let last = format!("--STS:{kind} ENDS--\n");
        assert_eq!(lines.last(), Some(&last.as_bytes()), "{name}");
    }
}

#[test]
fn every_record_is_read_from_a_longer_text() {
    for name in RECORDS {
        let (record, block) = (worked(name), block(&worked(name)));
        assert_eq!(written(&record, block.len()).as_ref(), Ok(&block), "{name}");
        for before in ["", "\n", "Dear colleague,\n\n", "--STS:KEY.1 ENDS--\n", "--STS: BEGINS--\n"]
        {
            for after in ["", "\n", "Regards", "--STS:KEY.1 BEGINS--\nx\n--STS:KEY.1 ENDS--\n"] {
                let text = [before.as_bytes(), &block, after.as_bytes()].concat();
                assert_eq!(read_from(&text).as_ref(), Ok(&record), "{name} {before:?} {after:?}");
            }
        }
        let without_last = &block[..block.len() - 1];
        assert_eq!(read_from(without_last).as_ref(), Ok(&record), "{name}");
        assert_eq!(number(&[b"x", &block[..]].concat()), 21, "{name}");
    }
    for name in IDENTITIES {
        let identity = worked(name);
        assert_eq!(written(&identity, 2000), Err(Refusal::UnknownKind), "{name}");
        let kind = &identity[..identity.iter().position(|&byte| byte == b':').unwrap()];
        assert_eq!(read_from(&block_of(kind, &identity)), Err(Refusal::UnknownKind), "{name}");
    }
}

#[test]
fn a_block_has_the_length_that_its_parts_make() {
    let mut random = Random::with_seed(41);
    for kind in Kind::RECORDS.repeat(20) {
        let record = sample::record(&mut random, kind);
        let length = 30 + 2 * kind.name().len() + record.len() + record.len().div_ceil(ROW);
        assert_eq!(block(&record).len(), length, "{kind:?}");
    }
    let longest = Kind::RECORDS.map(|kind| block(&sample::longest_record(&mut random, kind)).len());
    assert_eq!(longest.into_iter().max(), Some(1080));
    assert_eq!(block(&sample::longest_record(&mut random, Kind::WrappedKey)).len(), 1080);
}

/// Whatever the rows; a line feed is dropped and nothing else.
#[test]
fn rows_are_joined_and_only_line_feeds_dropped() {
    for name in ["VKLOADREQ", "VKLOADRESP", "KEY1_1"] {
        let record = &worked(name)[..];
        let kind = read_record(record).unwrap().kind.name().as_bytes();
        for width in 1..=record.len() {
            let rows: Vec<&[u8]> = record.chunks(width).collect();
            assert_eq!(read_from(&block_in_rows(kind, &rows)).as_deref(), Ok(record));
            let with_empty: Vec<&[u8]> = rows.iter().flat_map(|row| [b"", *row, b""]).collect();
            assert_eq!(read_from(&block_in_rows(kind, &with_empty)).as_deref(), Ok(record));
        }
        let (first, second) = record.split_at(ROW);
        for more in ["\r", " ", "\t", "\0", ">"] {
            let more = more.as_bytes();
            let own = |rows: &[&[u8]]| {
                let answer = read_record(&rows.concat()).map(|record| record.kind);
                assert_eq!(read_from(&block_in_rows(kind, rows)).map(|_| ()), answer.map(|_| ()));
                answer.unwrap_err().number()
            };
            assert_eq!(own(&[more, record]), 2, "{name} {more:?}");
            assert_eq!(own(&[first, more, second]), 4, "{name} {more:?}");
            assert_eq!(own(&[record, more]), 3, "{name} {more:?}");
        }
    }
}

#[test]
fn a_line_that_was_lost_or_doubled_is_seen() {
    for name in RECORDS {
        let block = block(&worked(name));
        let lines = lines_of(&block);
        for index in 0..lines.len() {
            let lost = [&lines[..index], &lines[index + 1..]].concat().concat();
            let doubled = [&lines[..=index], &lines[index..]].concat().concat();
            match index {
                0 => assert_eq!(number(&lost), 21, "{name}"),
                _ if index == lines.len() - 1 => {
                    assert_eq!(number(&lost), 22, "{name}");
                    assert_eq!(
                        read_from(&doubled),
                        Ok(worked(name)),
                        "what is behind is passed over"
                    );
                    continue;
                }
                _ => assert!([2, 3, 4].contains(&number(&lost)), "{name} {index}"),
            }
            assert!([2, 3, 4].contains(&number(&doubled)), "{name} {index}");
        }
    }
}

#[test]
fn a_guard_is_a_whole_line() {
    let record = worked("KEY1_1");
    let [begins, ends] = [begins_line(b"KEY.1"), ends_line(b"KEY.1")];
    let text = |begins: &[u8], ends: &[u8]| [begins, b"\n", &record, b"\n", ends].concat();
    assert_eq!(read_from(&text(&begins, &ends)).as_ref(), Ok(&record));
    for (before, after) in
        [(" ", ""), ("", " "), ("", "\r"), ("\r", ""), ("-", ""), ("", "-"), ("> ", "")]
    {
        let around = |line: &[u8]| [before.as_bytes(), line, after.as_bytes()].concat();
        assert_eq!(number(&text(&around(&begins), &ends)), 21, "{before:?} {after:?}");
        assert_eq!(number(&text(&begins, &around(&ends))), 22, "{before:?} {after:?}");
    }
    for place in 0..begins.len() {
        let mut shorter = begins.clone();
        shorter.remove(place);
        // A shorter name is one too, and its ENDS line is missing.
        let expected = if (6..11).contains(&place) { 22 } else { 21 };
        assert_eq!(number(&text(&shorter, &ends)), expected, "{place}");
    }
    for place in 0..ends.len() {
        let mut shorter = ends.clone();
        shorter.remove(place);
        assert_eq!(number(&text(&begins, &shorter)), 22, "{place}");
    }
    assert_eq!(number(&text(&begins.to_ascii_lowercase(), &ends)), 21);
    assert_eq!(number(&text(&begins, &ends.to_ascii_lowercase())), 22);
}

#[test]
fn any_ident_is_a_name_and_only_its_kind_is_read() {
    let record = worked("KEY1_1");
    let [most, more] = [32, 33].map(|length| "X".repeat(length));
    for name in [
        "A", "0", "z-_.,", "key.1", "KEY.2", "KEY.11", "KEY", "SMID.1", "KMCID.1", "SMMAN.1", &most,
    ] {
        let block = block_of(name.as_bytes(), &record);
        assert_eq!(number(&block), 2, "{name}");
        let ends = ends_line(name.as_bytes()).len() + 1;
        assert_eq!(number(&block[..block.len() - ends]), 22, "{name}");
        assert_eq!(number(&[&block[..], &block_of(b"KEY.1", &record)].concat()), 2, "{name}");
    }
    for name in ["", " ", "-", "_A", ".A", ",", "A B", "A:", "A|", "A\r", "\u{e9}", "A\0", &more] {
        let block = block_of(name.as_bytes(), &record);
        assert_eq!(number(&block), 21, "{name}");
        assert_eq!(number(&[&block[..], &block_of(b"KEY.1", &record)].concat()), 0, "{name}");
    }
}

#[test]
fn the_first_block_decides() {
    let [key, other_key, response] = ["KEY1_1", "KEY1_2", "VKLOADRESP"].map(worked);
    let two = |first: &[u8], second: &[u8]| [first, second].concat();
    assert_eq!(read_from(&two(&block(&key), &block(&other_key))).as_ref(), Ok(&key));
    assert_eq!(read_from(&two(&block(&other_key), &block(&key))).as_ref(), Ok(&other_key));
    let damaged = block_of(b"KEY.1", &with_other_check(key.clone()));
    assert_eq!(number(&two(&damaged, &block(&key))), 4);
    // The first is never ended: of one name the other's end is taken, of two names there is none.
    let unended = [&begins_line(b"KEY.1")[..], b"\n", &key, b"\n"].concat();
    assert_eq!(number(&two(&unended, &block(&other_key))), 4);
    assert_eq!(number(&two(&unended, &block(&response))), 22);
    // ENDS lines before the BEGINS line, and those of other names.
    let ends = |name: &[u8]| [&ends_line(name)[..], b"\n"].concat();
    assert_eq!(read_from(&two(&ends(b"KEY.1"), &block(&key))).as_ref(), Ok(&key));
    assert_eq!(number(&two(&ends(b"KEY.1"), &unended)), 22);
    assert_eq!(number(&two(&unended, &ends(b"KEY.2"))), 22);
    assert_eq!(number(&[&unended[..], &ends(b"KEY.2"), &ends(b"KEY.1")].concat()), 3);
    assert_eq!(number(&[&unended[..], &ends(b"KEY.1"), &ends(b"KEY.2")].concat()), 0);
}

#[test]
fn texts_without_a_block() {
    for text in ["", "\n", "x", "--STS:KEY.1 ENDS--\n", "--STS: BEGINS--\n", "--STS:KEY.1 BEGINS"] {
        assert_eq!(number(text.as_bytes()), 21, "{text:?}");
    }
    for text in ["", "\n", "\nKEY.1|", "\n--STS:KEY.1 ENDS", "\n --STS:KEY.1 ENDS--\n"] {
        assert_eq!(number(&[&begins_line(b"KEY.1")[..], text.as_bytes()].concat()), 22, "{text:?}");
    }
    assert_eq!(number(&block_of(b"KEY.1", b"")), 2);
    assert_eq!((Refusal::NoBegins.number(), Refusal::NoBegins.field()), (21, 0));
    assert_eq!((Refusal::NoEnds.number(), Refusal::NoEnds.field()), (22, 0));
}

/// 2 stands in its normal place: the check of a record of another kind is not looked at.
#[test]
fn a_record_of_another_kind_than_named_answers_2() {
    let mut random = Random::with_seed(42);
    for kind in Kind::RECORDS {
        let record = sample::record(&mut random, kind);
        for other in Kind::ALL {
            let name = other.name().as_bytes();
            let own = if other == kind { 0 } else { 2 };
            assert_eq!(number(&block_of(name, &record)), own, "{kind:?} {other:?}");
            let other_check = with_other_check(record.clone());
            let own = if other == kind { 4 } else { 2 };
            assert_eq!(number(&block_of(name, &other_check)), own, "{kind:?} {other:?}");
            assert_eq!(number(&block_of(name, &[b'x'; 1025])), 1);
        }
    }
}

/// 21, 22, then the record's own numbers with their fields, then 10.
#[test]
fn the_records_own_numbers_stand_between_22_and_10() {
    let mut random = Random::with_seed(43);
    let mut seen = Vec::new();
    for kind in Kind::RECORDS.repeat(10) {
        let name = kind.name().as_bytes();
        for &fault in Fault::of(kind) {
            let record = sample::faulty(&mut random, kind, &[fault]);
            let own = read_record(&record).map(|record| record.kind).unwrap_err();
            let block = block_of(name, &record);
            for room in [0, LONGEST_READ] {
                assert_eq!(read_into(&block, room), Err(own), "{fault:?}");
                assert_eq!(written(&record, room), Err(own), "{fault:?}");
            }
            assert_eq!(number(&block[1..]), 21, "{fault:?}");
            assert_eq!(number(&block[..block.len() - 2]), 22, "{fault:?}");
            seen.push(own.number());
        }
    }
    seen.sort();
    seen.dedup();
    assert_eq!(seen, [1, 2, 3, 4, 5, 6, 7, 8, 9, 14, 28]);
}

#[test]
fn the_limit_counts_the_bytes_after_unfolding() {
    let mut random = Random::with_seed(44);
    for (length, own) in [(1023, 0), (1024, 0), (1025, 1), (5000, 1)] {
        let fields = sample::wrapped_key_fields(&mut random, length);
        let record = sample::of_kind(Kind::WrappedKey, &fields);
        for width in [1, 63, 64, 65, length] {
            let rows: Vec<&[u8]> = record.chunks(width).collect();
            let text = block_in_rows(b"KEY.1", &rows);
            assert_eq!(number(&text), own, "{length} {width}");
            let before = vec![b'x'; 70_000];
            assert_eq!(number(&[&before[..], b"\n", &text, &before].concat()), own);
        }
        let many: Vec<&[u8]> = record.chunks(1).flat_map(|row| [row, b"", b"", b""]).collect();
        assert_eq!(number(&block_in_rows(b"KEY.1", &many)), own, "{length}");
        let unnamed = if own == 0 { 2 } else { own };
        assert_eq!(number(&block_of(b"KEY.2", &record)), unnamed, "{length}");
    }
}

#[test]
fn exact_room_is_enough() {
    for name in RECORDS {
        let (record, block) = (worked(name), block(&worked(name)));
        for room in [block.len(), block.len() + 1, 2 * block.len()] {
            assert_eq!(written(&record, room).as_ref(), Ok(&block), "{name} {room}");
        }
        for room in [record.len(), record.len() + 1, 2 * record.len()] {
            assert_eq!(read_into(&block, room).as_ref(), Ok(&record), "{name} {room}");
        }
        for room in [0, 1, record.len(), block.len() - 1] {
            assert_eq!(written(&record, room), Err(Refusal::ShortOutput), "{name} {room}");
        }
        for room in [0, 1, record.len() - 1] {
            assert_eq!(read_into(&block, room), Err(Refusal::ShortOutput), "{name} {room}");
        }
    }
}

/// A row of 64 characters is longer than any guard, and the last row ends with a check: so a block that was
/// written has no guard but its own. In other rows an ENDS line of the name ends the block.
#[test]
fn guards_in_the_attributes_of_a_key() {
    let longest_name = vec![b'X'; 32];
    assert!(begins_line(&longest_name).len() < ROW && ends_line(&longest_name).len() < ROW);
    let mut random = Random::with_seed(45);
    for guard in ["--STS:KEY.1 ENDS--", "--STS:KEY.1 BEGINS--", "--STS:KEY.2 ENDS--"] {
        for filled in 0..2 * ROW {
            let value = [&vec![b'.'; filled], guard.as_bytes()].concat();
            let cards = Cards::required(&mut random).with(b"TXT", value);
            let record = sample::wrapped_key(&mut random, &cards.list());
            assert_eq!(read_from(&block(&record)).as_ref(), Ok(&record), "{guard} {filled}");
            let place = record.windows(guard.len()).position(|part| part == guard.as_bytes());
            let (before, rest) = record.split_at(place.expect("the guard"));
            let (own, after) = rest.split_at(guard.len());
            let text = block_in_rows(b"KEY.1", &[before, own, after]);
            let expected = if guard == "--STS:KEY.1 ENDS--" { 3 } else { 0 };
            assert_eq!(number(&text), expected, "{guard} {filled}");
        }
    }
}
