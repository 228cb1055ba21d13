//! SHA-1, whole and by its state, and manufacturers' record files, held against `compare/`.

mod held;

use compare::kind::Kind;
use compare::random::Random;
use compare::record;
use compare::sample::{self, Cards, Fault};
use compare::sha1::sha1;
use compare::text::base16;
use compare::trailed::{line_of, trailer_of};
use compare::worked::{appendix_a, worked, IDENTITIES, RECORDS};
use held::trailed::{
    any_line, any_record, same_trailed, same_trailed_at, same_trailed_file, same_written,
};
use held::{change_digit, expected, first, hash, rounds, LineNumbers, Numbers, Seen};
use obscurlane::{sha1_of, Reason, Record, Sha1, TRAILER};

// ---- the hash

#[test]
fn published_examples() {
    hash::published_examples::<Sha1>(&[1, 63, 64, 65, 1000]);
}

#[test]
fn every_length_and_every_cut() {
    hash::every_length_and_every_cut::<Sha1>(111);
}

#[test]
fn pieces_of_every_size() {
    hash::pieces_of_every_size::<Sha1>(112);
}

#[test]
fn random_cuts() {
    hash::random_cuts::<Sha1>(113);
}

/// On each side of the ends of blocks.
#[test]
fn every_byte_value() {
    hash::every_byte_value::<Sha1>(&[1, 55, 56, 63, 64, 65, 119, 120, 128]);
}

#[test]
fn a_state_goes_on_in_two_ways() {
    hash::a_state_goes_on_in_two_ways::<Sha1>(114, [66, 67]);
}

#[test]
fn a_state_does_not_show_what_it_was_given() {
    hash::a_state_does_not_show_what_it_was_given::<Sha1>();
}

// ---- right lines

const MISSING: Numbers = (19, 0);
const WRONG: Numbers = (20, 0);

/// The answer to a line, without its fields.
fn answer(line: &[u8]) -> Result<&'static str, Numbers> {
    same_trailed(line).map(|(kind, _)| kind)
}

/// The line is the record's, by the crate's own calls and by the other implementation.
#[test]
fn the_line_of_a_record() {
    let mut random = Random::with_seed(115);
    for _ in 0..rounds().div_ceil(5) {
        for kind in Kind::RECORDS {
            let record = sample::record(&mut random, kind);
            let line = line_of(&record);
            let mut out = vec![0; line.len()];
            assert_eq!(obscurlane::write_trailed(&record, &mut out), Ok(line.len()));
            assert_eq!(out, line);
            let hash = Sha1::begin().add(&record).add(b"\n").end();
            assert_eq!(line[record.len()..], *format!("#{}", base16(&hash)).as_bytes());
            assert_eq!(Record::read_trailed(&line), Record::read(&record));
            assert_eq!(answer(&line), Ok(kind.name()));
        }
    }
}

/// A line that is written stands in a file where it was put, with a line feed behind it.
#[test]
fn a_file_that_is_written() {
    let mut random = Random::with_seed(116);
    for _ in 0..rounds().div_ceil(30) {
        let kinds = [0; 6].map(|_| random.one_of(&Kind::RECORDS));
        let records = kinds.map(|kind| sample::record(&mut random, kind));
        let mut file = Vec::new();
        for record in &records {
            let (start, len) = (file.len(), record.len() + TRAILER);
            file.resize(start + len, 0);
            assert_eq!(obscurlane::write_trailed(record, &mut file[start..]), Ok(len));
            file.push(b'\n');
        }
        let lines = obscurlane::trailed_lines(&file);
        let read = lines.map(|line| Record::read_trailed(line.bytes).expect("accepted").bytes());
        assert!(read.eq(records.iter().map(Vec::as_slice)));
        let names = same_trailed_file(&file).into_iter().map(|(answer, ..)| answer);
        assert!(names.eq(kinds.map(|kind| Ok(kind.name()))));
    }
}

#[test]
fn lines_with_every_room() {
    let mut random = Random::with_seed(117);
    for kind in Kind::RECORDS {
        let record = sample::record(&mut random, kind);
        let needed = record.len() + TRAILER;
        for room in 0..=needed + 2 {
            let fits = if room < needed { Err((10, 0)) } else { Ok(needed) };
            assert_eq!(same_written(&record, room), fits, "{kind:?}");
        }
    }
}

// ---- one thing wrong

#[test]
fn another_character_in_every_place_of_a_trailer() {
    let mut random = Random::with_seed(118);
    for kind in Kind::RECORDS {
        let whole = line_of(&sample::record(&mut random, kind));
        for place in whole.len() - TRAILER..whole.len() {
            let mut line = whole.clone();
            change_digit(&mut line, place);
            let is_mark = place == whole.len() - TRAILER;
            assert_eq!(answer(&line), Err(if is_mark { MISSING } else { WRONG }), "{place}");
            for other in *b"/:@G`afg |\r\0\x80\xFF" {
                line[place] = other;
                assert_eq!(answer(&line), Err(MISSING), "{place}");
            }
        }
    }
}

/// What a hash might cover beside the record and its line feed, and the hash of another record.
#[test]
fn hashes_of_other_bytes() {
    let mut random = Random::with_seed(119);
    for kind in Kind::RECORDS {
        let [record, other] = [0; 2].map(|_| sample::record(&mut random, kind));
        let with = |hashed: &[u8]| {
            let hash = base16(&sha1(hashed));
            [&record[..], b"#", hash.as_bytes()].concat()
        };
        assert_eq!(with(&[&record[..], b"\n"].concat()), line_of(&record));
        for end in [&b""[..], b"\r\n", b"\r", b"\n\n", b"#", b"\n#", b" \n", b"\0"] {
            assert_eq!(answer(&with(&[&record[..], end].concat())), Err(WRONG), "{end:?}");
        }
        for hashed in [&other[..], b"\n", b""] {
            assert_eq!(answer(&with(&[hashed, b"\n"].concat())), Err(WRONG));
        }
        let front = &record[..record.len() - 4];
        assert_eq!(answer(&with(&[front, b"\n"].concat())), Err(WRONG));
    }
}

/// `#` and so many digits behind a record: forty are a trailer, and no others.
#[test]
fn trailers_of_every_length() {
    let record = worked("VKLOADRESP");
    let digits = trailer_of(&record).split_off(1).repeat(3);
    for count in 0..=digits.len() {
        let line = [&record[..], b"#", &digits[..count]].concat();
        let right = if count == TRAILER - 1 { Ok("VKLOAD.RESP.1") } else { Err(MISSING) };
        assert_eq!(answer(&line), right, "{count} digits");
    }
    // shorter than a trailer, and the trailer alone, whose record is empty
    let line = line_of(&record);
    for length in 0..TRAILER {
        assert_eq!(answer(&line[line.len() - length..]), Err(MISSING), "{length} bytes");
    }
    assert_eq!(answer(&line[line.len() - TRAILER..]), Err((2, 0)));
    assert_eq!(answer(&line_of(b"")), Err((2, 0)));
}

/// Lines as others write them.
#[test]
fn comments_blanks_and_carriage_returns() {
    let line = line_of(&worked("KEY1_1"));
    let (record, trailer) = line.split_at(line.len() - TRAILER);
    for other in [
        b"".to_vec(),
        b" ".to_vec(),
        b"# a comment".to_vec(),
        record.to_vec(),
        [&line[..], b" "].concat(),
        [&line[..], b"\r"].concat(),
        [record, &trailer.to_ascii_lowercase()].concat(),
        [record, b"# ", &trailer[1..]].concat(),
    ] {
        assert_eq!(answer(&other), Err(MISSING), "{}", other.escape_ascii());
    }
    // what stands between record and trailer belongs to the record, and what stands before it too
    assert_eq!(answer(&line_of(&[record, b" "].concat())), Err((3, 0)));
    assert_eq!(answer(&line_of(&line)), Err((3, 0)));
    assert_eq!(answer(&line_of(&[b" ", record].concat())), Err((2, 0)));
}

/// `#` and digits in an attribute: the forty-first place from the end decides.
#[test]
fn marks_and_digits_inside_a_record() {
    let mut random = Random::with_seed(120);
    for value in [b"#".to_vec(), trailer_of(b""), trailer_of(b"").repeat(3), vec![b'#'; 41]] {
        let list = Cards::required(&mut random).with(b"XYZ", value).list();
        let record = sample::wrapped_key(&mut random, &list);
        assert_eq!(answer(&line_of(&record)), Ok("KEY.1"));
        assert_eq!(answer(&record), Err(MISSING));
        assert_eq!(same_written(&record, 1065), Ok(record.len() + TRAILER));
    }
}

#[test]
fn identities_are_no_lines() {
    for name in IDENTITIES {
        assert_eq!(answer(&line_of(&worked(name))), Err((2, 0)), "{name}");
        assert_eq!(same_written(&worked(name), 1065), Err((2, 0)), "{name}");
    }
}

// ---- the order of the numbers

/// Every choice of things that are wrong at once: the first in the order decides, and the others are not heard of.
#[test]
fn every_choice_of_faults() {
    let mut random = Random::with_seed(121);
    for faults in (0..32_u8).cycle().take(rounds()) {
        let [unfinished, missing, own, hash, room] =
            [0, 1, 2, 3, 4].map(|bit| faults >> bit & 1 == 1);
        let kind = random.one_of(&Kind::RECORDS);
        let (record, its_own) = if own {
            let fault = random.one_of(Fault::of(kind));
            let record = sample::faulty(&mut random, kind, &[fault]);
            let refusal = expected(record::read_record(&record)).expect_err("it has a fault");
            (record, refusal)
        } else {
            (sample::record(&mut random, kind), (0, 0))
        };
        let mut line = line_of(&record);
        let end = line.len();
        if hash {
            change_digit(&mut line, end - 1 - random.below(TRAILER - 1));
        }
        if missing {
            line[end - 1 - random.below(TRAILER)] = random.one_of(b"Ga \r");
        }
        let of_line = [(missing, MISSING), (own, its_own), (hash, WRONG)];
        assert_eq!(answer(&line).map(|_| ()), first(of_line));

        let file = if unfinished { line.clone() } else { [&line[..], b"\n"].concat() };
        let next = file.len();
        let in_file = [(unfinished, (11, 0)), of_line[0], of_line[1], of_line[2]];
        let found = same_trailed_at(&file, 0).expect("a line");
        assert_eq!((found.0.map(|_| ()), found.1), (first(in_file), 0));
        assert_eq!((found.2, found.3), (line.len(), next));

        let needed = if room { end - 1 } else { end };
        let written = same_written(&record, needed).map(|_| ());
        assert_eq!(written, first([(own, its_own), (room, (10, 0))]));
    }
}

// ---- files

/// The lines that are found by walking, and by asking for the place of each.
#[test]
fn files_of_any_lines() {
    let mut random = Random::with_seed(122);
    let mut seen = Seen::default();
    for _ in 0..rounds() {
        let mut file = Vec::new();
        for _ in 0..random.below(6) {
            file.extend(any_line(&mut random));
            file.extend_from_slice(random.one_of(&[&b"\n"[..], b"\n", b"\n", b"\r\n", b"\n\n"]));
        }
        if random.once_in(3) {
            file.extend(any_line(&mut random));
        }
        file.shrink_to_fit();
        for line in same_trailed_file(&file) {
            seen.add(&line.0);
            assert_eq!(same_trailed_at(&file, line.1), Some(line));
        }
        let anywhere = random.below(file.len() + 2);
        for at in [anywhere, file.len(), file.len() + 1, usize::MAX] {
            same_trailed_at(&file, at);
        }
    }
    seen.expect([0, 1, 2, 3, 4, 5, 6, 7, 8, 9, 11, 14, 19, 20], 9);
}

/// Other bytes in two neighbouring places of a line, or in one, of which none is a line feed.
fn damage(random: &mut Random, line: &mut [u8]) {
    let (place, before) = (random.below(line.len()), line.to_vec());
    while line == before || line.contains(&b'\n') {
        line.copy_from_slice(&before);
        for byte in line[place..].iter_mut().take(2) {
            let any = random.byte();
            *byte = random.one_of(&[*byte, *byte ^ 1, any, b'0', b'F', b'#']);
        }
    }
}

/// Demand 3, with each whole line counting as a line: those that are damaged are refused, and the others answer as before, at the
/// same places.
#[test]
fn damaged_files() {
    let mut random = Random::with_seed(123);
    let mut seen = Seen::default();
    for _ in 0..rounds() {
        let mut file = Vec::new();
        for _ in 0..random.between(1, 4) {
            let kind = random.one_of(&Kind::RECORDS);
            let line = line_of(&sample::record(&mut random, kind));
            file.extend([&line[..], b"\n"].concat());
        }
        let before = same_trailed_file(&file);
        let damaged: Vec<bool> = before.iter().map(|_| random.once_in(2)).collect();
        for (&(_, start, length, _), &is_damaged) in before.iter().zip(&damaged) {
            if is_damaged {
                damage(&mut random, &mut file[start..start + length]);
            }
        }
        let after: Vec<LineNumbers> = same_trailed_file(&file);
        assert_eq!(after.len(), before.len());
        for ((after, before), is_damaged) in after.iter().zip(&before).zip(damaged) {
            assert_eq!((after.1, after.2, after.3), (before.1, before.2, before.3), "{file:?}");
            assert!(if is_damaged { after.0.is_err() } else { after.0 == before.0 }, "{file:?}");
            seen.add(&after.0);
        }
    }
    seen.expect([0, 4, 19, 20], 60);
}

/// One trailer for all lines, in a line of its own without line feed, as Appendix D has it.
#[test]
fn files_of_another_form() {
    let key = [&worked("PUBKEY_SM")[..], b"\n#", &worked("PUBKEY_SM_SHA1")].concat();
    for (file, hash) in
        [(key, "PUBKEY_SM_SHA1"), (worked("KLF"), "KLF_SHA1"), (appendix_a(), "APPA_SHA1")]
    {
        let (lines, trailer) = file.split_at(file.len() - TRAILER);
        assert_eq!(base16(&sha1_of(lines)).as_bytes(), worked(hash), "{hash}");
        assert_eq!(trailer[1..], worked(hash), "{hash}");
        let numbers = same_trailed_file(&file).into_iter().map(|(answer, ..)| answer);
        let numbers: Vec<_> = numbers.collect();
        let (last, records) = numbers.split_last().expect("lines");
        assert_eq!(*last, Err((11, 0)), "{hash}");
        assert!(records.iter().all(|&answer| answer == Err(MISSING)), "{hash}");
    }
}

/// To the calls for plain files a line with a trailer has no check, and to those for manufacturers' files a record has no trailer.
#[test]
fn plain_files_stay_others() {
    for name in RECORDS {
        let record = worked(name);
        let plain = [&record[..], b"\n"].concat();
        let trailed = [&line_of(&record)[..], b"\n"].concat();
        let reason = |line: obscurlane::Line| line.answer.map_err(|refusal| refusal.reason);
        let ours = obscurlane::line_at(&trailed, 0).map(reason);
        assert_eq!(ours, Some(Err(Reason::MissingCheck)), "{name}");
        let ours = obscurlane::trailed_at(&plain, 0).map(reason);
        assert_eq!(ours, Some(Err(Reason::MissingTrailer)), "{name}");
        assert_eq!(obscurlane::count(&plain).accepted, 1, "{name}");
        assert_eq!(obscurlane::count_trailed(&trailed).accepted, 1, "{name}");
    }
}

#[test]
fn a_reader_is_shown_with_its_place() {
    let mut lines = obscurlane::trailed_lines(b"a\xFF\nb");
    let copy = lines.clone();
    assert!(lines.next().is_some());
    assert_eq!(format!("{lines:?}"), "TrailedLines { file: \"a\\xff\\nb\", place: 3 }");
    assert_eq!((copy.place(), copy.count(), lines.count()), (0, 2, 1));
}

/// What is no record is not written, whatever the room.
#[test]
fn writing() {
    let mut random = Random::with_seed(124);
    let mut seen = Seen::default();
    for _ in 0..rounds() {
        let record = any_record(&mut random);
        let needed = record.len() + TRAILER;
        for room in [0, record.len(), needed - 1, needed, needed + 1] {
            seen.add(&same_written(&record, room));
        }
    }
    seen.expect((0..=10).chain([14]), 9);
}
