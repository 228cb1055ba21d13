//! Blocks of records by mail in drawn rows, and texts around them.

use super::{any_ident, damaged_anywhere, faulty, line, printable, record, Fault};
use crate::kind::Kind;
use crate::mail::{begins_line, block_in_rows, block_of, ends_line, ROW};
use crate::random::Random;

/// The block of these bytes in rows of drawn lengths: all of one length or each of its own, and empty ones
/// now and then.
pub fn folded(random: &mut Random, name: &[u8], mut bytes: &[u8]) -> Vec<u8> {
    let width = random.one_of(&[ROW - 1, ROW + 1, 72, 76, 80, 128, bytes.len().max(1)]);
    let drawn = random.once_in(2);
    let mut rows = Vec::new();
    while !bytes.is_empty() {
        let length = if drawn { random.between(1, 2 * ROW) } else { width };
        let (row, rest) = bytes.split_at(length.min(bytes.len()));
        rows.push(row);
        if random.once_in(12) {
            rows.push(b"");
        }
        bytes = rest;
    }
    block_in_rows(name, &rows)
}

/// A text that is empty or ends with a line feed, and has no BEGINS line, though lines that are nearly one.
pub fn text_before(random: &mut Random) -> Vec<u8> {
    let mut text = Vec::new();
    for _ in 0..random.below(4) {
        text.extend(line_before(random));
        text.push(b'\n');
    }
    text
}

/// A line that is no BEGINS line.
fn line_before(random: &mut Random) -> Vec<u8> {
    let name = random.one_of(&Kind::RECORDS).name().as_bytes();
    match random.below(8) {
        0 => Vec::new(),
        1 => b"Dear colleague,".to_vec(),
        2 => ends_line(name),
        3 => [&[random.one_of(b" >\t-")], &begins_line(name)[..]].concat(),
        4 => [&begins_line(name)[..], &[random.one_of(b" \r\t-")]].concat(),
        5 => begins_line(name).to_ascii_lowercase(),
        6 => begins_line(&[name, b" ", name].concat()),
        _ => {
            let length = random.below(30);
            printable(random, length)
        }
    }
}

/// A text of any sort: mostly a block after other text and before other text, of an accepted record or of
/// any other bytes, under its kind's name or another one; whole, with another byte or two, or with a line
/// that was lost, doubled or exchanged with the next.
pub fn mail(random: &mut Random) -> Vec<u8> {
    let kind = random.one_of(&Kind::RECORDS);
    let bytes = match random.below(8) {
        0 => line(random),
        1 => {
            let fault = random.one_of(Fault::of(kind));
            faulty(random, kind, &[fault])
        }
        _ => record(random, kind),
    };
    let name = match random.below(16) {
        0 => any_ident(random),
        1 => random.one_of(&Kind::ALL).name().as_bytes().to_vec(),
        _ => kind.name().as_bytes().to_vec(),
    };
    let block = match random.below(3) {
        0 => block_of(&name, &bytes),
        _ => folded(random, &name, &bytes),
    };
    let block = match random.below(6) {
        0 | 1 => {
            let changes = random.between(1, 2);
            damaged_anywhere(random, &block, changes)
        }
        2 => with_other_lines(random, &block),
        _ => block,
    };
    let after = if random.once_in(2) { text_before(random) } else { Vec::new() };
    let mut text = [text_before(random), block, after].concat();
    if random.once_in(6) {
        text.pop();
    }
    text.shrink_to_fit();
    text
}

/// The text with one of its lines lost, doubled, or exchanged with the next; or without a line feed.
fn with_other_lines(random: &mut Random, text: &[u8]) -> Vec<u8> {
    let mut lines: Vec<Vec<u8>> =
        text.split_inclusive(|&byte| byte == b'\n').map(<[u8]>::to_vec).collect();
    let which = random.below(lines.len() - 1);
    match random.below(4) {
        0 => {
            lines.remove(which + random.below(2));
        }
        1 => lines.insert(which, lines[which].clone()),
        2 => lines.swap(which, which + 1),
        _ => {
            lines[which].pop();
        }
    }
    lines.concat()
}

#[cfg(test)]
mod tests {
    use super::*;
    use crate::mail::{read, write};
    use crate::refusal::Refusal;

    fn read_from(text: &[u8]) -> Result<Vec<u8>, Refusal> {
        let mut output = [0; 1024];
        read(text, &mut output).map(|length| output[..length].to_vec())
    }

    #[test]
    fn a_block_is_read_again_in_any_rows_after_any_text_that_is_drawn() {
        let mut random = Random::with_seed(31);
        for kind in Kind::RECORDS.repeat(60) {
            let record = record(&mut random, kind);
            let mut output = [0; 2048];
            let length = write(&record, &mut output).unwrap();
            let in_rows = folded(&mut random, kind.name().as_bytes(), &record);
            for block in [&output[..length], &in_rows] {
                let text =
                    [&text_before(&mut random)[..], block, &text_before(&mut random)].concat();
                assert_eq!(read_from(&text).as_ref(), Ok(&record), "{kind:?}");
            }
        }
    }

    #[test]
    fn the_text_before_has_no_begins_line() {
        let mut random = Random::with_seed(32);
        for _ in 0..2000 {
            let text = text_before(&mut random);
            assert!(text.is_empty() || text.ends_with(b"\n"));
            assert_eq!(read_from(&text), Err(Refusal::NoBegins));
        }
    }

    #[test]
    fn texts_are_of_every_sort() {
        let mut random = Random::with_seed(33);
        let mut seen = [0; 29];
        for _ in 0..4000 {
            let answer = read_from(&mail(&mut random));
            seen[answer.map_or_else(|refusal| usize::from(refusal.number()), |_| 0)] += 1;
        }
        for number in [0, 1, 2, 3, 4, 5, 6, 7, 8, 9, 14, 21, 22, 28] {
            assert!(seen[number] > 0, "{number}");
        }
    }
}
