//! Records by mail, held against `compare/`.

mod held;

use compare::kind::Kind;
use compare::mail::{begins_line, block_in_rows, block_of, ends_line, ROW};
use compare::random::Random;
use compare::record;
use compare::sample::{self, Cards, Fault};
use compare::text::is_ident;
use compare::worked::{worked, IDENTITIES};
use held::mail::{same_block, same_mail};
use held::trailed::any_record;
use held::{expected, first, rounds, Numbers, Seen};
use obscurlane::{Record, LONGEST_MAIL, LONGEST_RECORD};

const NO_BEGINS: Numbers = (21, 0);
const NO_ENDS: Numbers = (22, 0);

/// The answer to a text, with room for every record.
fn answer(text: &[u8]) -> Result<usize, Numbers> {
    same_mail(text, LONGEST_RECORD)
}

fn name(kind: Kind) -> &'static [u8] {
    kind.name().as_bytes()
}

/// A record of each kind, with the length that its block has.
fn records(seed: u64) -> [(Kind, Vec<u8>, usize); 5] {
    let mut random = Random::with_seed(seed);
    Kind::RECORDS.map(|kind| {
        let record = sample::record(&mut random, kind);
        let needed = 30 + 2 * name(kind).len() + record.len() + record.len().div_ceil(64);
        (kind, record, needed)
    })
}

/// The lines of a text, each with its line feed.
fn lines(text: &[u8]) -> Vec<&[u8]> {
    text.split_inclusive(|&byte| byte == b'\n').collect()
}

// ---- right texts

/// The promise: the block that is written, after any text that is empty or ends with a line feed and has no BEGINS line, and before
/// any text, is the record again.
#[test]
fn a_block_is_read_again() {
    let mut random = Random::with_seed(131);
    for _ in 0..rounds().div_ceil(5) {
        for kind in Kind::RECORDS {
            let record = sample::record(&mut random, kind);
            let mut block = [0; LONGEST_MAIL];
            let len = obscurlane::write_mail(&record, &mut block).expect("accepted");
            assert_eq!(block[..len], block_of(name(kind), &record), "{kind:?}");
            let before = sample::text_before(&mut random);
            let behind = sample::mail(&mut random);
            let text = [&before[..], &block[..len], &behind].concat();
            let mut out = [0; LONGEST_RECORD];
            assert_eq!(Record::read_mail(&text, &mut out), Record::read(&record));
            assert_eq!(answer(&text), Ok(record.len()));
        }
    }
}

/// In rows of other lengths, all alike or each of its own, with empty ones between them.
#[test]
fn a_block_of_any_rows_is_read() {
    let mut random = Random::with_seed(132);
    for _ in 0..rounds().div_ceil(5) {
        for kind in Kind::RECORDS {
            let record = sample::record(&mut random, kind);
            let block = sample::folded(&mut random, name(kind), &record);
            let text = [&sample::text_before(&mut random)[..], &block].concat();
            assert_eq!(answer(&text), Ok(record.len()), "{kind:?}");
        }
    }
}

/// From one character to more than a record has.
#[test]
fn rows_of_every_width() {
    for (kind, record, _) in records(133) {
        for width in 1..=1100 {
            let rows: Vec<&[u8]> = record.chunks(width).collect();
            assert_eq!(answer(&block_in_rows(name(kind), &rows)), Ok(record.len()), "{width}");
            let apart: Vec<&[u8]> = rows.iter().flat_map(|row| [&b""[..], row]).collect();
            assert_eq!(answer(&block_in_rows(name(kind), &apart)), Ok(record.len()), "{width}");
        }
    }
}

/// Every record has rows of 64 characters, the last one the rest, and none that is empty.
#[test]
fn rows_that_are_written() {
    let mut random = Random::with_seed(134);
    for length in 250..=LONGEST_RECORD {
        let fields = sample::wrapped_key_fields(&mut random, length);
        let record = sample::of_kind(Kind::WrappedKey, &fields);
        let mut out = [0; LONGEST_MAIL];
        let len = obscurlane::write_mail(&record, &mut out).expect("accepted");
        let lines = lines(&out[..len]);
        let (rows, ends) = lines[1..].split_at(lines.len() - 2);
        assert_eq!(
            (lines[0], ends[0]),
            (&b"--STS:KEY.1 BEGINS--\n"[..], &b"--STS:KEY.1 ENDS--\n"[..])
        );
        let (last, whole) = rows.split_last().expect("a row");
        assert!(whole.iter().all(|row| row.len() == ROW + 1), "{length}");
        assert!((2..=ROW + 1).contains(&last.len()), "{length}");
        assert_eq!(rows.concat().len(), record.len() + rows.len(), "{length}");
    }
}

#[test]
fn every_room() {
    for (kind, record, needed) in records(135) {
        for room in 0..=needed + 2 {
            let fits = if room < needed { Err((10, 0)) } else { Ok(needed) };
            assert_eq!(same_block(&record, room), fits, "{kind:?}");
        }
        let block = block_of(name(kind), &record);
        for room in 0..=record.len() + 2 {
            let fits = if room < record.len() { Err((10, 0)) } else { Ok(record.len()) };
            assert_eq!(same_mail(&block, room), fits, "{kind:?}");
        }
    }
}

// ---- texts that are cut

/// Every front of a text, and every end of it.
#[test]
fn every_cut() {
    for (kind, record, _) in records(136) {
        let block = block_of(name(kind), &record);
        let before = b"Dear vendor,\n\n";
        let text = [&before[..], &block, b"\nThe centre\n"].concat();
        let (begun, ended) = (begins_line(name(kind)).len(), block.len() - 1);
        for cut in 0..=text.len() {
            let front = match cut.checked_sub(before.len()) {
                Some(inside) if inside >= ended => Ok(record.len()),
                Some(inside) if inside >= begun => Err(NO_ENDS),
                _ => Err(NO_BEGINS),
            };
            assert_eq!(answer(&text[..cut]), front, "{cut}");
            let end = if cut <= before.len() { Ok(record.len()) } else { Err(NO_BEGINS) };
            assert_eq!(answer(&text[cut..]), end, "{cut}");
        }
    }
}

/// What vendors lose: one line is lost, or stands twice, or in the place of its neighbour. Only an ENDS line more is nothing.
#[test]
fn every_line() {
    for (kind, record, _) in records(137) {
        let block = block_of(name(kind), &record);
        let whole = lines(&block);
        for at in 0..whole.len() {
            let (is_first, is_last) = (at == 0, at + 1 == whole.len());
            let mut lost = whole.clone();
            lost.remove(at);
            let refused = answer(&lost.concat()).expect_err("a line is lost");
            assert_eq!(refused == NO_BEGINS, is_first, "{kind:?} {at}");
            assert_eq!(refused == NO_ENDS, is_last, "{kind:?} {at}");
            let mut twice = whole.clone();
            twice.insert(at, whole[at]);
            assert_eq!(answer(&twice.concat()).is_ok(), is_last, "{kind:?} {at}");
            let mut swapped = whole.clone();
            if !is_last {
                swapped.swap(at, at + 1);
                assert!(answer(&swapped.concat()).is_err(), "{kind:?} {at}");
            }
        }
    }
}

// ---- lines that are no guards

/// Other bytes around a guard, in the place of its blank, and in another case; and a carriage return.
#[test]
fn guards_are_whole_lines() {
    for (kind, record, _) in records(138) {
        let [begins, ends] = [begins_line(name(kind)), ends_line(name(kind))];
        let text = |begins: &[u8], ends: &[u8]| [begins, b"\n", &record, b"\n", ends].concat();
        assert_eq!(answer(&text(&begins, &ends)), Ok(record.len()));
        for (other_begins, other_ends) in others(&begins).into_iter().zip(others(&ends)) {
            assert_eq!(answer(&text(&other_begins, &ends)), Err(NO_BEGINS), "{other_begins:?}");
            assert_eq!(answer(&text(&begins, &other_ends)), Err(NO_ENDS), "{other_ends:?}");
            // passed over in front, a part of the record inside, and nothing behind
            let whole = block_of(name(kind), &record);
            let before =
                [&other_begins[..], b"\n", &other_ends, b"\n", &whole, &other_ends].concat();
            assert_eq!(answer(&before), Ok(record.len()), "{other_begins:?}");
            let inside = [&begins[..], b"\n", &record, b"\n", &other_ends, b"\n", &ends].concat();
            assert_eq!(answer(&inside), Err((3, 0)), "{other_ends:?}");
        }
    }
}

/// Lines that are nearly this one.
fn others(guard: &[u8]) -> Vec<Vec<u8>> {
    let blank = guard.iter().position(|&byte| byte == b' ').expect("a blank");
    let (front, back) = guard.split_at(blank);
    let mut others = vec![
        guard[1..].to_vec(),
        guard[..guard.len() - 1].to_vec(),
        guard.to_ascii_lowercase(),
        [front, &back[1..]].concat(),
        [front, b" ", back].concat(),
        [front, b"\t", &back[1..]].concat(),
        [front, b":", back].concat(),
        [front, b" 1", back].concat(),
        [&guard[..6], b" ", &guard[6..]].concat(),
        [&guard[..6], b".", &guard[6..]].concat(),
        [&guard[..6], back].concat(),
        [&guard[..5], &guard[6..]].concat(),
        [guard, guard].concat(),
    ];
    for byte in *b" \t\r->.\0\xA0" {
        others.push([&[byte], guard].concat());
        others.push([guard, &[byte]].concat());
    }
    others
}

/// A text whose lines end with a carriage return and a line feed, all of them or some.
#[test]
fn carriage_returns() {
    for (kind, record, _) in records(139) {
        let block = block_of(name(kind), &record);
        let lines = lines(&block);
        let last = lines.len() - 1;
        let returned = |which: &dyn Fn(usize) -> bool| -> Vec<u8> {
            let lines = lines.iter().enumerate().map(|(number, line)| match which(number) {
                true => [&line[..line.len() - 1], b"\r\n"].concat(),
                false => line.to_vec(),
            });
            lines.flatten().collect()
        };
        assert_eq!(answer(&returned(&|_| true)), Err(NO_BEGINS));
        assert_eq!(answer(&returned(&|number| number > 0)), Err(NO_ENDS));
        assert_eq!(answer(&returned(&|number| number == last)), Err(NO_ENDS));
        assert_eq!(answer(&returned(&|number| number == last - 1)), Err((3, 0)));
        assert_eq!(answer(&returned(&|number| number == 1)), Err((4, 0)));
    }
}

// ---- names

/// Of every length: 1 to 32 characters are a name, which no kind has.
#[test]
fn names_of_every_length() {
    let record = worked("KEY1_1");
    for length in 0..=70 {
        let name = vec![b'K'; length];
        let expected = if (1..=32).contains(&length) { (2, 0) } else { NO_BEGINS };
        assert_eq!(answer(&block_of(&name, &record)), Err(expected), "{length}");
    }
}

/// The first BEGINS line decides, whatever it names; only the ENDS line of the same name is its own.
#[test]
fn any_name_decides() {
    let mut random = Random::with_seed(140);
    let (record, right) = (worked("KEY1_1"), block_of(b"KEY.1", &worked("KEY1_1")));
    for _ in 0..rounds() {
        let other = match random.below(4) {
            0 => random.one_of(&Kind::ALL).name().as_bytes().to_vec(),
            1 => sample::damaged_anywhere(&mut random, b"KEY.1", 1),
            _ => sample::any_ident(&mut random),
        };
        if other == b"KEY.1" || !is_ident(&other) {
            continue;
        }
        assert_eq!(answer(&block_of(&other, &record)), Err((2, 0)), "{other:?}");
        let ended = [&block_of(&other, &record)[..], &right].concat();
        assert_eq!(answer(&ended), Err((2, 0)), "{other:?}");
        let open = [&begins_line(&other)[..], b"\n", &right].concat();
        assert_eq!(answer(&open), Err(NO_ENDS), "{other:?}");
        let inside =
            [&begins_line(b"KEY.1")[..], b"\n", &ends_line(&other), b"\n", &right].concat();
        assert_eq!(answer(&inside), Err((2, 0)), "{other:?}");
    }
}

/// Every record under the name of every kind; an identity is no record, under its own name neither.
#[test]
fn records_under_every_name() {
    for (kind, record, _) in records(141) {
        for other in Kind::ALL {
            let expected = if other == kind { Ok(record.len()) } else { Err((2, 0)) };
            assert_eq!(answer(&block_of(name(other), &record)), expected, "{kind:?} {other:?}");
            // told before a check that is missing, or wrong
            let cut = &record[..record.len() - 1];
            let expected = if other == kind { Err((3, 0)) } else { Err((2, 0)) };
            assert_eq!(answer(&block_of(name(other), cut)), expected, "{kind:?} {other:?}");
        }
    }
    for identity in IDENTITIES {
        let bytes = worked(identity);
        for kind in Kind::ALL {
            assert_eq!(answer(&block_of(name(kind), &bytes)), Err((2, 0)), "{identity}");
        }
        assert_eq!(same_block(&bytes, LONGEST_MAIL), Err((2, 0)), "{identity}");
    }
}

// ---- several blocks, and guards inside a record

#[test]
fn the_first_block_decides() {
    let mut random = Random::with_seed(142);
    let mut seen = Seen::default();
    for _ in 0..rounds() {
        let other = random.one_of(&Kind::RECORDS);
        let [first, second] = [any_record(&mut random), sample::record(&mut random, other)];
        let named = first.split(|&byte| byte == b'|').next().filter(|name| is_ident(name));
        let block = sample::folded(&mut random, named.unwrap_or(b"KEY.1"), &first);
        let alone = answer(&block);
        let text = [&block[..], &block_of(name(other), &second)].concat();
        assert_eq!(answer(&text), alone, "{text:?}");
        seen.add(&alone);
    }
    seen.expect((0..=9).chain([14]), 9);
}

/// A wrapped key whose attributes have a guard in them: written and read as any other, and where a row of another folding is its
/// ENDS line, the record ends there.
#[test]
fn guards_inside_a_record() {
    let mut random = Random::with_seed(143);
    for hyphens in 0..2 * ROW {
        for guard in [ends_line(b"KEY.1"), begins_line(b"KEY.1"), ends_line(b"PK.ECDH.1")] {
            let value = [vec![b'-'; hyphens], guard.clone()].concat();
            let list = Cards::required(&mut random).with(b"XYZ", value).list();
            let record = sample::wrapped_key(&mut random, &list);
            let block = block_of(b"KEY.1", &record);
            assert_eq!(same_block(&record, LONGEST_MAIL), Ok(block.len()));
            assert_eq!(answer(&block), Ok(record.len()));
            let windows = record.windows(guard.len());
            let at = windows.take_while(|window| **window != guard).count();
            let (front, rest) = record.split_at(at);
            let (row, behind) = rest.split_at(guard.len());
            let expected =
                if guard == ends_line(b"KEY.1") { Err((3, 0)) } else { Ok(record.len()) };
            assert_eq!(answer(&block_in_rows(b"KEY.1", &[front, row, behind])), expected);
        }
    }
}

// ---- the order of the numbers

/// Every choice of things that are wrong at once: the first in the order decides, and the others are not heard of.
#[test]
fn every_choice_of_faults() {
    let mut random = Random::with_seed(144);
    for faults in (0..64_u8).cycle().take(rounds()) {
        let [no_begins, no_ends, long, other, own, room] =
            [0, 1, 2, 3, 4, 5].map(|bit| faults >> bit & 1 == 1);
        let kind = random.one_of(&Kind::RECORDS);
        let (mut record, its_own) = if own {
            let fault = random.one_of(Fault::of(kind));
            let record = sample::faulty(&mut random, kind, &[fault]);
            let refusal = expected(record::read_record(&record)).expect_err("it has a fault");
            (record, refusal)
        } else {
            (sample::record(&mut random, kind), (0, 0))
        };
        let needed = record.len();
        if long {
            record.resize(LONGEST_RECORD + 1 + random.below(3), b'0');
        }
        let named = if other { &b"KEY.2"[..] } else { name(kind) };
        let block = sample::folded(&mut random, named, &record);
        let mut lines = lines(&block);
        if no_begins {
            lines.remove(0);
        }
        if no_ends {
            lines.pop();
        }
        let text = [&sample::text_before(&mut random)[..], &lines.concat()].concat();
        let order = [
            (no_begins, NO_BEGINS),
            (no_ends, NO_ENDS),
            (long || its_own == (1, 0), (1, 0)),
            (other, (2, 0)),
            (own, its_own),
            (room, (10, 0)),
        ];
        let lent = if room { random.one_of(&[0, needed / 2, needed - 1]) } else { needed };
        assert_eq!(same_mail(&text, lent).map(|_| ()), first(order), "{faults:06b}");
    }
}

/// Texts of every sort: damaged, with lines that are lost, twice or elsewhere, under other names, and cut short.
#[test]
fn any_texts() {
    let mut random = Random::with_seed(145);
    let mut seen = Seen::default();
    for _ in 0..2 * rounds() {
        let text = sample::mail(&mut random);
        seen.add(&answer(&text));
        let cut = random.below(text.len() + 1);
        seen.add(&answer(&text[cut..]));
    }
    seen.expect((0..=9).chain([14]), 9);
    seen.expect([0, 21, 22], 100);
}

/// What is no record is not written, whatever the room.
#[test]
fn writing() {
    let mut random = Random::with_seed(146);
    let mut seen = Seen::default();
    for _ in 0..rounds() {
        let record = any_record(&mut random);
        let needed = record.len() + record.len().div_ceil(64) + 40;
        for room in [0, record.len(), needed - 1, needed, LONGEST_MAIL] {
            seen.add(&same_block(&record, room));
        }
    }
    seen.expect((0..=10).chain([14]), 9);
}

/// Guards, records and other lines in any order.
#[test]
fn texts_without_form() {
    let mut random = Random::with_seed(147);
    let mut seen = Seen::default();
    for _ in 0..rounds() {
        let kind = random.one_of(&Kind::RECORDS);
        let mut text = Vec::new();
        for _ in 0..random.below(12) {
            let piece = match random.below(6) {
                0 => begins_line(name(kind)),
                1 => ends_line(name(kind)),
                2 | 3 => sample::record(&mut random, kind),
                4 => random.bytes(3),
                _ => Vec::new(),
            };
            text.extend([&piece[..], if random.once_in(12) { b"" } else { b"\n" }].concat());
        }
        seen.add(&answer(&text));
    }
    seen.expect([0, 1, 2, 3, 4, 21, 22], 9);
}
