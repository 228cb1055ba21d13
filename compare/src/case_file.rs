//! The case file: what a lent output holds before, the heads of the cases, and their strings.

use crate::cases::{lent_before, Case};
use std::cmp::Reverse;
use std::collections::{BTreeSet, HashMap};

/// The call, n, and where label, a, b and c each begin and end.
const HEAD_LENGTH: usize = 1 + 8 + 4 * 2 * 4;

/// From this length on a string is looked for where its first or its last bytes, so many, were first and last
/// written: a record stands in files, and what is left of it around a place stands in the record.
const WINDOW: usize = 24;

/// From this length on a string is looked for everywhere: the long ones are parts of one another that
/// begin with the same digits.
const LONG: usize = 1 << 16;

/// The file of these cases.
pub fn case_file(cases: &[Case]) -> Vec<u8> {
    let labels: Vec<String> = cases.iter().map(Case::label).collect();
    let strings = || cases.iter().zip(&labels).map(|(case, label)| strings_of(case, label));
    let written = Strings::of(strings().flatten());

    let mut file = lent_before().to_vec();
    let end = file.len() + 8 + HEAD_LENGTH * cases.len();
    file.extend((end as u64).to_be_bytes());
    for (case, strings) in cases.iter().zip(strings()) {
        file.push(case.number());
        file.extend(case.n.to_be_bytes());
        for string in strings {
            let start = end + written.places[string];
            for place in [start, start + string.len()] {
                let place = u32::try_from(place).expect("a file of less than 4 GB");
                file.extend(place.to_be_bytes());
            }
        }
    }
    assert_eq!(file.len(), end, "the heads end where the file says");
    file.extend(written.bytes);
    file
}

/// The strings of a case, in the order of its head.
fn strings_of<'a>(case: &'a Case, label: &'a str) -> [&'a [u8]; 4] {
    [label.as_bytes(), &case.a, &case.b, &case.c]
}

/// Strings one behind the other, the longest first; one that was found in those before it is not
/// written again.
#[derive(Default)]
struct Strings<'a> {
    bytes: Vec<u8>,
    places: HashMap<&'a [u8], usize>,
    /// Where so many bytes were first and last written.
    windows: HashMap<[u8; WINDOW], [usize; 2]>,
}

impl<'a> Strings<'a> {
    fn of(strings: impl Iterator<Item = &'a [u8]>) -> Self {
        let mut written = Strings::default();
        let longest_first: BTreeSet<_> =
            strings.map(|string| (Reverse(string.len()), string)).collect();
        for (_, string) in longest_first {
            let place = written.find(string).unwrap_or_else(|| written.append(string));
            written.places.insert(string, place);
        }
        written
    }

    fn find(&self, string: &[u8]) -> Option<usize> {
        if string.len() >= LONG {
            return self.bytes.windows(string.len()).rposition(|part| part == string);
        }
        let first = self.windows.get(string.first_chunk()?).into_iter().flatten().copied();
        let last = self.windows.get(string.last_chunk()?).into_iter().flatten();
        let ending = last.filter_map(|place| (place + WINDOW).checked_sub(string.len()));
        first.chain(ending).find(|&place| self.bytes[place..].starts_with(string))
    }

    fn append(&mut self, string: &[u8]) -> usize {
        let start = self.bytes.len();
        self.bytes.extend_from_slice(string);
        for (place, window) in (start..).zip(string.windows(WINDOW)) {
            let window = window.try_into().expect("a window's bytes");
            self.windows.entry(window).or_insert([place; 2])[1] = place;
        }
        start
    }
}

#[cfg(test)]
mod tests {
    use super::*;
    use crate::calls::Op;
    use crate::cases::Form;
    use crate::plan;

    #[test]
    fn every_case_is_found_again() {
        let cases = plan::all();
        let file = case_file(&cases);
        let number =
            |bytes: &[u8]| bytes.iter().fold(0, |number, &byte| number << 8 | usize::from(byte));
        let mut heads = file[1032..].chunks(HEAD_LENGTH);
        for case in &cases {
            let (op, rest) = heads.next().and_then(<[u8]>::split_first).expect("a head");
            let (n, places) = rest.split_at(8);
            assert_eq!((*op, n), (case.number(), &case.n.to_be_bytes()[..]));
            let places = places.chunks(8).map(|ends| number(&ends[..4])..number(&ends[4..]));
            assert!(places.map(|place| &file[place]).eq(strings_of(case, &case.label())));
        }
    }

    #[test]
    fn heads_name_the_places_of_strings_that_stand_there_once() {
        let case = |n| {
            let [a, b, c] = [&b"ab"[..], b"", b"c"].map(<[u8]>::to_vec);
            Case { op: Op::Crc, form: Form::Once, n, a, b, c }
        };
        let bytes = case_file(&[case(258), case(0)]);
        let (before, rest) = bytes.split_at(1024);
        assert_eq!(before, lent_before());
        let end = 1024 + 8 + 2 * 41;
        assert_eq!(rest[..8], (end as u64).to_be_bytes());
        assert_eq!(rest[8..17], [8, 0, 0, 0, 0, 0, 0, 1, 2]);
        let places: Vec<u8> = [0u32, 6, 6, 8, 9, 9, 8, 9]
            .into_iter()
            .flat_map(|place| (end as u32 + place).to_be_bytes())
            .collect();
        assert_eq!(rest[17..49], places);
        assert_eq!(rest[58..90], places);
        assert_eq!(&rest[90..], b"crc_ofabc");
    }

    #[test]
    fn a_string_may_be_a_part_of_a_longer_one() {
        let digits = vec![b'0'; LONG];
        let [longer, long] = [&b"1234"[..], b"34"].map(|start| [start, &digits, b"5"].concat());
        let letters: Vec<u8> = (b'A'..=b'z').collect();
        let written =
            Strings::of([&letters[4..40], b"C", &long, &letters[..], &longer].into_iter());
        let places: Vec<usize> =
            [&longer[..], &long, &letters, &letters[4..40], b"C"].map(|s| written.places[s]).into();
        let end = longer.len();
        assert_eq!(places, [0, 2, end, end + 4, end + letters.len()]);
        assert_eq!(written.bytes, [&longer[..], &letters, b"C"].concat());
    }
}
