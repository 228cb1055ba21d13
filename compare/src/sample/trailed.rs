//! Lines of manufacturers' files, and files of them.

use super::{faulty, line, record, Fault, HEX_DIGITS};
use crate::kind::Kind;
use crate::random::Random;
use crate::trailed::{line_of, TRAILER_LENGTH};

/// A line of any sort: an accepted record or any other line, with the right trailer, with a damaged one,
/// or with none.
pub fn trailed_line(random: &mut Random) -> Vec<u8> {
    let kind = random.one_of(&Kind::RECORDS);
    let record = match random.below(4) {
        0 => line(random),
        1 => {
            let fault = random.one_of(Fault::of(kind));
            faulty(random, kind, &[fault])
        }
        _ => record(random, kind),
    };
    match random.below(6) {
        0 => record,
        1 => with_other_trailer(random, line_of(&record)),
        2 => [line_of(&record), b"\r".to_vec()].concat(),
        _ => line_of(&record),
    }
}

/// The line with another byte somewhere in its trailer; mostly another digit, so that there is a trailer
/// still.
pub fn with_other_trailer(random: &mut Random, mut line: Vec<u8>) -> Vec<u8> {
    let place = line.len() - random.between(1, TRAILER_LENGTH);
    let before = line[place];
    while line[place] == before {
        line[place] = match random.below(4) {
            0 => random.one_of(b"#| \rag\0\xFF"),
            _ => random.one_of(HEX_DIGITS),
        };
    }
    line
}

/// A file of a few lines; the last has a line feed or not.
pub fn trailed_file(random: &mut Random) -> Vec<u8> {
    let mut file = Vec::new();
    for _ in 0..random.between(1, 7) {
        file.extend(trailed_line(random));
        file.push(b'\n');
    }
    if random.once_in(3) {
        file.pop();
    }
    file.shrink_to_fit();
    file
}

#[cfg(test)]
mod tests {
    use super::*;
    use crate::refusal::Refusal;
    use crate::trailed::{count, read};

    #[test]
    fn lines_are_of_every_sort() {
        let mut random = Random::with_seed(11);
        let mut seen = [0; 29];
        for _ in 0..2000 {
            let line = trailed_line(&mut random);
            seen[read(&line).map_or_else(|refusal| usize::from(refusal.number()), |_| 0)] += 1;
        }
        for number in [0, 1, 2, 3, 4, 5, 6, 7, 8, 9, 14, 19, 20, 28] {
            assert!(seen[number] > 0, "{number}");
        }
    }

    #[test]
    fn another_trailer_is_refused() {
        let mut random = Random::with_seed(12);
        for kind in Kind::RECORDS.repeat(40) {
            let line = line_of(&record(&mut random, kind));
            let answer = read(&with_other_trailer(&mut random, line.clone())).map(|_| ());
            let refused = [Err(Refusal::NoTrailer), Err(Refusal::HashDiffers)];
            assert!(refused.contains(&answer), "{answer:?}");
            assert!(read(&line).is_ok());
        }
    }

    #[test]
    fn files_have_accepted_lines_and_others() {
        let mut random = Random::with_seed(13);
        let totals = (0..100).map(|_| count(&trailed_file(&mut random)));
        let (lines, accepted) = totals.fold((0, 0), |all, one| (all.0 + one.0, all.1 + one.1));
        assert!(0 < accepted && accepted < lines, "{accepted} of {lines}");
    }
}
