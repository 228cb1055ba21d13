//! The list of a file, as the lister prints it, and the file that the lister is run on.

use crate::file::{count, lines};
use crate::kind::Kind;
use crate::random::Random;
use crate::record::LONGEST_READ;
use crate::sample::{of_kind, resealed, short_fields, wrapped_key_fields, Signed};
use crate::worked::{worked, UNSIGNED};

/// The longest file that is listed.
pub const LONGEST_FILE: usize = 65_536;

/// What the lister prints: a line for each line of the file and the end, or "too big".
pub fn list(file: &[u8]) -> String {
    if file.len() > LONGEST_FILE {
        return "too big\n".to_owned();
    }
    let mut list = String::new();
    for (index, line) in lines(file).enumerate() {
        let number = line.answer.map_or_else(|refusal| refusal.number(), |_| 0);
        list += &format!("{} {} {} {number}\n", index + 1, line.start, line.length);
    }
    let (lines, accepted) = count(file);
    list + &format!("end {lines} {accepted}\n")
}

/// The seed of the records that are drawn.
const SEED: u64 = 65_536;
/// So many short records stand in the file that it has more than 256 accepted lines.
const SHORT_RECORDS: usize = 257;

/// A file of exactly [`LONGEST_FILE`] bytes: the records of the worked example, whole and damaged,
/// and lines on each side of the limits; then short accepted responses and wrapped keys, empty lines
/// up to the length, and a response without its line feed.
pub fn longest_file() -> Vec<u8> {
    let mut random = Random::with_seed(SEED);
    let mut lines = worked_lines();
    lines.extend(wrapped_keys(&mut random));
    for index in 0..SHORT_RECORDS {
        let kind = if index % 4 == 0 { Kind::VkloadResp } else { Kind::WrappedKey };
        lines.push(of_kind(kind, &short_fields(&mut random, kind, Signed::No)));
    }
    let mut file = joined(&lines);
    let last = worked("VKLOADRESP");
    assert!(file.len() + last.len() <= LONGEST_FILE, "the lines have room");
    file.resize(LONGEST_FILE - last.len(), b'\n');
    file.extend(last);
    file
}

/// The lines of the worked example, the first of them those of document 01's own example.
fn worked_lines() -> Vec<Vec<u8>> {
    let mut lines = vec![Vec::new(), b"PK.ECDH.2|x".to_vec()];
    lines.extend(whole_and_damaged(&worked("PUBKEY_KMC")));
    lines.extend(whole_and_damaged(&worked("PUBKEY_MAN")));
    lines.extend([worked("PUBKEY_SM"), worked(UNSIGNED)]);
    lines.extend(whole_and_damaged(&worked("VKLOADREQ")));
    lines.extend(whole_and_damaged(&worked("VKLOADRESP")));
    lines.extend([worked("ID_SM"), vec![b'A'; 1024], vec![b'A'; 1025], worked("VKLOADREQ")]);
    lines
}

/// The wrapped keys of the worked example, whole and damaged; the first with fields and lists that are
/// not permitted, under a right check; and keys of as many bytes as are read, and of one more.
fn wrapped_keys(random: &mut Random) -> Vec<Vec<u8>> {
    let mut lines = whole_and_damaged(&worked("KEY1_1"));
    lines.extend(whole_and_damaged(&worked("KEY1_2")));
    let key = worked("KEY1_1");
    let text = String::from_utf8(key).expect("a worked key is text");
    for (old, new) in [
        ("|0000", "|000"),
        ("|ACT", "||ACT"),
        ("SGC0000123456;|", "SGC0000123456|"),
        ("KEN255", "KEN256"),
        ("DKG02;", ""),
        ("KRN1;KTC2;", "KTC2;KRN1;"),
        ("6C|", "6|"),
    ] {
        let changed = text.replacen(old, new, 1);
        lines.push(resealed(changed.as_bytes()));
    }
    for length in [LONGEST_READ, LONGEST_READ + 1] {
        lines.push(of_kind(Kind::WrappedKey, &wrapped_key_fields(random, length)));
    }
    lines
}

/// The record; the record with two neighbouring bytes damaged, at the start of its name, at its
/// first mark, behind what first ends a part of a field, at that end, in its last field, at its last
/// mark and in its check; the record again.
fn whole_and_damaged(record: &[u8]) -> Vec<Vec<u8>> {
    let place_of =
        |ends: &[u8]| record.iter().position(|byte| ends.contains(byte)).expect("an end");
    let (mark, inner, end) = (place_of(b"|"), place_of(b":;"), record.len());
    let damaged = |place: usize| {
        let mut damaged = record.to_vec();
        damaged[place..place + 2].fill(b'X');
        damaged
    };
    let mut lines = vec![record.to_vec()];
    lines.extend([0, mark, inner + 3, inner, end - 30, end - 5, end - 3].map(damaged));
    lines.push(record.to_vec());
    lines
}

/// The lines, each with its line feed.
fn joined(lines: &[Vec<u8>]) -> Vec<u8> {
    lines.iter().flat_map(|line| [line, &b"\n"[..]].concat()).collect()
}

#[cfg(test)]
mod tests {
    use super::*;

    #[test]
    fn document_01s_example() {
        let list = list(b"\nPK.ECDH.2|x\nabc");
        assert_eq!(list, "1 0 0 2\n2 1 11 2\n3 13 3 11\nend 3 0\n");
    }

    #[test]
    fn one_byte_more_is_too_big() {
        assert_eq!(list(&[b'\n'; LONGEST_FILE]).lines().last(), Some("end 65536 0"));
        assert_eq!(list(&[b'\n'; LONGEST_FILE + 1]), "too big\n");
    }

    #[test]
    fn the_longest_file_has_many_lines() {
        let file = longest_file();
        let (lines, accepted) = count(&file);
        assert_eq!(file.len(), LONGEST_FILE);
        assert!(lines > 1000, "{lines} lines");
        assert!(accepted > 256, "{accepted} accepted lines");
    }

    #[test]
    fn the_longest_file_has_lines_on_each_side() {
        let list = list(&longest_file());
        let numbers: Vec<&str> = list.lines().filter_map(|line| line.split(' ').nth(3)).collect();
        for number in ["0", "1", "2", "3", "4", "5", "6", "11", "14", "28"] {
            assert!(numbers.contains(&number), "{number}");
        }
    }
}
