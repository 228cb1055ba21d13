//! Request E6: files whose lines are records with their trailers.

use super::long::{Block, MORE};
use super::trailers::{wrong_line_of, LongLines};
use super::Plan;
use crate::calls::Op;
use compare::kind::Kind;
use compare::record::LONGEST_READ;
use compare::sample::{self, Fault, Signed};
use compare::trailed::{line_of, lines, trailer_of, TRAILER_LENGTH};
use compare::worked::{appendix_a, worked, IDENTITIES, RECORDS};

pub fn add(plan: &mut Plan) {
    every_place(plan);
    worked_files(plan);
    other_forms(plan);
    single_lines(plan);
    damaged(plan);
    mixed(plan);
    long_lines(plan);
    unfinished(plan);
    counts(plan);
    long(plan);
    sweeps(plan);
}

impl Plan {
    /// The lines of a file from its first place on, and one step past them; and their number.
    pub(super) fn walk_trailed(&mut self, file: &[u8]) {
        let places: Vec<u64> = lines(file).map(|line| line.start).collect();
        for place in places {
            self.numbered(Op::TrailedLine, place, file);
        }
        self.numbered(Op::TrailedLine, file.len() as u64, file);
        self.call(Op::CountTrailed, file);
    }
}

/// These lines, each with its line feed.
fn ended<T: AsRef<[u8]>>(lines: impl IntoIterator<Item = T>) -> Vec<u8> {
    lines.into_iter().flat_map(|line| [line.as_ref(), b"\n"].concat()).collect()
}

/// A record of this kind in the shortest form.
fn short_record(plan: &mut Plan, kind: Kind) -> Vec<u8> {
    let fields = sample::short_fields(&mut plan.random, kind, Signed::No);
    sample::of_kind(kind, &fields)
}

/// Every place of short files, and places past their end.
fn every_place(plan: &mut Plan) {
    let trailer = ended([trailer_of(b"")]);
    for file in [&[&trailer[..], b"#"].concat()[..], b"", b"\n", b"\n\n", b"#", b"#\n x"] {
        let end = file.len() as u64;
        for place in (0..=end + 1).chain([end + 1000, 1 << 32, 1 << 63, u64::MAX]) {
            plan.numbered(Op::TrailedLine, place, file);
        }
        plan.call(Op::CountTrailed, file);
    }
}

/// Document 003's line with others behind it, and places around the ends of its parts; all worked records
/// and identities.
fn worked_files(plan: &mut Plan) {
    let key = worked("PUBKEY_SM_FILELINE");
    let others = ["PUBKEY_MAN", "PUBKEY_KMC"].map(|name| line_of(&worked(name)));
    let file = ended([&key, &others[0], &others[1]]);
    plan.walk_trailed(&file);
    let (mark, end) = (worked("PUBKEY_SM").len(), key.len());
    let around = [1, 9, 10, mark - 1, mark, mark + 1, end - 1, end, end + 2];
    for place in around.into_iter().map(|place| place as u64).chain([u64::MAX]) {
        plan.numbered(Op::TrailedLine, place, &file[..]);
    }
    let all = |names: &[&str]| ended(names.iter().map(|name| line_of(&worked(name))));
    plan.call(Op::CountTrailed, all(&RECORDS));
    plan.call(Op::CountTrailed, all(&IDENTITIES));
    // The call for plain files knows no trailer.
    plan.numbered(Op::Line, 0, &file[..]);
    plan.call(Op::Reader, &file[..]);
    plan.call(Op::Count, file);
}

/// What Appendix D has and this form has not: one trailer for the whole file, comments and empty lines.
fn other_forms(plan: &mut Plan) {
    let (record, hash) = (worked("PUBKEY_SM"), worked("PUBKEY_SM_SHA1"));
    let of_one = [&record[..], b"\n#", &hash].concat();
    let line_feed = [&of_one[..], b"\n"].concat();
    for file in [worked("KLF"), appendix_a(), of_one, line_feed] {
        plan.walk_trailed(&file);
    }
    let line = line_of(&worked("KEY1_1"));
    let comments = ["# keys of this week", "", " ", "\r", "#"].map(str::as_bytes);
    let [words, empty, blank, returned, mark] = comments;
    plan.walk_trailed(&ended([words, &line, empty, blank, &line, returned, mark, &line]));
}

/// One line of every kind, and of an identity: ended by a line feed, by a carriage return too, by none.
fn single_lines(plan: &mut Plan) {
    for kind in Kind::RECORDS.into_iter().chain([Kind::Smid]) {
        let line = line_of(&short_record(plan, kind));
        for end in ["\n", "\r\n", "", "\r", " \n"] {
            plan.numbered(Op::TrailedLine, 0, [&line[..], end.as_bytes()].concat());
        }
        plan.call(Op::CountTrailed, [&line[..], b"\n\n", &line, b"\r\n", &line].concat());
    }
}

/// What two neighbouring bytes become: both another character, both exchanged, one a line feed, and both
/// the mark of a trailer.
const DAMAGE: [fn([u8; 2]) -> [u8; 2]; 5] = [
    |[_, _]| *b"XX",
    |[first, second]| [other_digit(first), other_digit(second)],
    |[first, second]| [second, first],
    |[first, _]| [first, b'\n'],
    |[_, _]| *b"##",
];

fn other_digit(byte: u8) -> u8 {
    if byte == b'0' {
        b'1'
    } else {
        b'0'
    }
}

/// Two neighbouring bytes damaged in the second of three accepted lines, at places of every sort: in the
/// record, at its last mark, in its check; over the end of the check and the mark of the trailer; over
/// that mark and the first digit; inside the trailer, and at its end.
fn damaged(plan: &mut Plan) {
    let [first, second] = [Kind::VkloadResp, Kind::WrappedKey].map(|kind| short_record(plan, kind));
    let (line, beside) = (ended([line_of(&second)]), ended([line_of(&first)]));
    let (mark, end) = (second.len(), line.len() - 1);
    let in_record = [0, 4, 40, mark - 6, mark - 5, mark - 4, mark - 3];
    let in_trailer = [mark - 1, mark, mark + 1, mark + 20, end - 2];
    for place in in_record.into_iter().chain(in_trailer) {
        for damage in DAMAGE {
            let mut damaged = line.clone();
            let bytes = [damaged[place], damaged[place + 1]];
            damaged[place..place + 2].copy_from_slice(&damage(bytes));
            let file = [&beside[..], &damaged, &line].concat();
            plan.numbered(Op::TrailedLine, beside.len() as u64, &file[..]);
            plan.call(Op::CountTrailed, file);
        }
    }
    // The lines beside it are read as they were.
    let mut damaged = line.clone();
    damaged[mark] = b'X';
    plan.walk_trailed(&[&beside[..], &damaged, &line].concat());
}

/// Plain lines between lines with trailers, lines with wrong trailers and empty lines, by this walk and
/// by the plain one.
fn mixed(plan: &mut Plan) {
    let [key, response] = [Kind::WrappedKey, Kind::VkloadResp].map(|kind| short_record(plan, kind));
    let [key_line, response_line] = [&key, &response].map(|record| line_of(record));
    let (wrong, none) = (wrong_line_of(&key), Vec::new());
    let file = ended([&key, &key_line, &response, &none, &wrong, &response_line, &none, &key_line]);
    plan.walk_trailed(&file);
    plan.walk(&file);
    for _ in 0..4 {
        let file = sample::trailed_file(&mut plan.random);
        plan.walk_trailed(&file);
        let place = plan.random.below(file.len()) as u64;
        plan.numbered(Op::TrailedLine, place, file);
    }
}

/// Around the longest that is read before the mark, and another line behind it.
fn long_lines(plan: &mut Plan) {
    let next = line_of(&worked("KEY1_1"));
    for length in [LONGEST_READ - 1, LONGEST_READ, LONGEST_READ + 1] {
        let fields = sample::wrapped_key_fields(&mut plan.random, length);
        let line = line_of(&sample::of_kind(Kind::WrappedKey, &fields));
        let file = ended([&line, &next]);
        plan.walk_trailed(&file);
        plan.numbered(Op::TrailedLine, 1, file);
    }
    let digits = sample::hex(&mut plan.random, LONGEST_READ + TRAILER_LENGTH + 1);
    plan.walk_trailed(&ended([&digits, &next]));
}

/// Last lines without a line feed: accepted ones but for that, refused ones, and few bytes.
fn unfinished(plan: &mut Plan) {
    let first = ended([line_of(&worked("KEY1_1"))]);
    for kind in Kind::RECORDS {
        let last = line_of(&short_record(plan, kind));
        let file = [&first[..], &last].concat();
        plan.numbered(Op::TrailedLine, first.len() as u64, &file[..]);
        plan.numbered(Op::TrailedLine, file.len() as u64 - 1, &file[..]);
        plan.call(Op::CountTrailed, file);
        plan.call(Op::CountTrailed, last);
        let fault = plan.random.one_of(Fault::of(kind));
        let refused = sample::faulty(&mut plan.random, kind, &[fault]);
        plan.numbered(Op::TrailedLine, 0, line_of(&refused));
    }
    let digits = sample::hex(&mut plan.random, LONGEST_READ + TRAILER_LENGTH + 1);
    for length in [1, 40, 41, 42, LONGEST_READ, digits.len() - 1, digits.len()] {
        plan.numbered(Op::TrailedLine, 0, &digits[..length]);
    }
}

fn counts(plan: &mut Plan) {
    for length in [0, 1, 2, 41, 255, 256] {
        plan.call(Op::CountTrailed, vec![b'\n'; length]);
    }
    for times in [1, 2, 5] {
        plan.call(Op::CountTrailed, ended([line_of(&worked("KEY1_1"))]).repeat(times));
    }
    for _ in 0..4 {
        let file = sample::trailed_file(&mut plan.random);
        plan.call(Op::CountTrailed, file);
    }
}

/// Long lines, a last one among them without a line feed, lines far behind, and many.
fn long(plan: &mut Plan) {
    let LongLines { file, followed, digits, line_end, .. } = LongLines::new();
    let next = line_end + 1;
    let in_first = [0, digits, MORE, digits + MORE, line_end - 1, line_end];
    let feeds = vec![b'\n'; MORE + 2];
    for (file, places) in [
        (&file[..], &[&in_first[..], &[next, next + 1, file.len()]].concat()[..]),
        (&file[digits..], &[0, MORE, next - digits]),
        (&file[..line_end], &[0, digits + MORE]),
        (&followed, &[0, MORE]),
        (&feeds, &[0, MORE - 1, MORE, MORE + 1, MORE + 2]),
        (&Block::new().bytes, &[0, MORE]),
    ] {
        for &place in places {
            plan.numbered(Op::TrailedLine, place as u64, file);
        }
        plan.call(Op::CountTrailed, file);
    }
}

/// Every byte value in a file of two lines: in the first one's record and check, in its trailer, and in
/// place of both line feeds.
fn sweeps(plan: &mut Plan) {
    let record = worked("KEY1_1");
    let line = ended([line_of(&record)]);
    let (mark, feed) = (record.len(), line.len() - 1);
    let file = line.repeat(2);
    for place in [0, mark - 1, mark, mark + 1, mark + 20, feed - 1, feed, feed + 1, file.len() - 1]
    {
        plan.every_byte(Op::CountTrailed, 0, &file, place);
    }
}
