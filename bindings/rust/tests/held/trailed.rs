//! The calls for manufacturers' record files held against those of `compare/`.

use super::reading::{expected_read, read_numbers, ReadNumbers};
use super::{change_digit, expected, expected_line, expected_step, line_numbers, numbers, place};
use super::{same_output, LineNumbers, Numbers};
use compare::kind::Kind;
use compare::random::Random;
use compare::sample::{self, Fault};
use compare::trailed::{self, line_of, trailer_of};
use obscurlane::{trailed_at, trailed_lines, Record, TRAILER};

/// A line alone: both sides answer the same, and what is accepted is the record in front of the trailer, at its place. Gives back
/// the answer.
pub fn same_trailed(line: &[u8]) -> Result<ReadNumbers, Numbers> {
    let read = Record::read_trailed(line);
    if let Ok(record) = &read {
        assert_eq!(place(record.bytes()), place(&line[..line.len() - TRAILER]), "{line:?}");
        assert_eq!(Record::read(record.bytes()), read, "{line:?}");
    }
    let read = numbers(read).map(|record| read_numbers(&record));
    assert_eq!(read, expected(trailed::read(line)).map(expected_read), "{line:?}");
    read
}

/// The line at a place of a file: both sides answer the same. Gives back the answer.
pub fn same_trailed_at(file: &[u8], at: usize) -> Option<LineNumbers> {
    let line = trailed_at(file, at).map(|line| line_numbers(file, line));
    let theirs = expected_step(trailed::line_at(file, at as u64));
    assert_eq!(line, theirs, "place {at} of {file:?}");
    line
}

/// A file, line by line and by its totals: both sides answer the same. Gives back the lines.
pub fn same_trailed_file(file: &[u8]) -> Vec<LineNumbers> {
    let mut lines = trailed_lines(file);
    let mut found = Vec::new();
    assert_eq!(lines.place(), 0);
    for theirs in trailed::lines(file) {
        let line = lines.next().map(|line| line_numbers(file, line));
        assert_eq!(line, Some(expected_line(theirs)), "{file:?}");
        assert_eq!(lines.place(), theirs.next as usize, "{file:?}");
        found.extend(line);
    }
    assert_eq!((lines.next(), lines.next(), lines.place()), (None, None, file.len()), "{file:?}");
    let totals = obscurlane::count_trailed(file);
    assert_eq!((totals.lines, totals.accepted), trailed::count(file), "{file:?}");
    found
}

/// Both sides write the same into an output of this room. Gives back the answer.
pub fn same_written(record: &[u8], room: usize) -> Result<usize, Numbers> {
    same_output(
        room,
        |out| obscurlane::write_trailed(record, out),
        |out| trailed::write(record, out),
        &record,
    )
}

// ---- lines

/// A record, accepted or refused, or anything.
pub fn any_record(random: &mut Random) -> Vec<u8> {
    let kind = random.one_of(&Kind::RECORDS);
    match random.below(6) {
        0 => sample::anything(random),
        1 => {
            let fault = random.one_of(Fault::of(kind));
            sample::faulty(random, kind, &[fault])
        }
        2 => {
            let record = sample::record(random, kind);
            sample::resealed(&sample::damaged_anywhere(random, &record, 1))
        }
        _ => sample::record(random, kind),
    }
}

/// The line of any record, with the right trailer, with another one or with none, whole or damaged.
pub fn any_line(random: &mut Random) -> Vec<u8> {
    let record = any_record(random);
    let mut line = line_of(&record);
    let place = line.len() - 1 - random.below(TRAILER - 1);
    match random.below(10) {
        0 => return record,
        1 => change_digit(&mut line, place),
        2 => line[place] = random.byte(),
        3 => line = [&record[..], &trailer_of(&any_record(random))].concat(),
        4 => line = sample::damaged_anywhere(random, &line, 2),
        5 => line.truncate(place),
        6 => line.push(random.one_of(b"\r #0")),
        _ => {}
    }
    line.shrink_to_fit();
    line
}
