//! Request E7: one record by mail, written, and read again from rows of every sort. Where a block begins and
//! ends is in `guards.rs`.

use super::fingerprints::change_last;
use super::long::{Block, Part, MORE};
use super::trailers::LongLines;
use super::Plan;
use crate::calls::Op;
use compare::kind::{FieldType, Kind};
use compare::mail::{begins_line, block_in_rows, block_of, ends_line, ROW};
use compare::record::LONGEST_READ;
use compare::sample::{self, Fault, ListFault, Signed};
use compare::trailed::line_of;
use compare::worked::{worked, IDENTITIES, RECORDS};

/// Room for any record and any block.
pub(super) const AMPLE: u64 = 1200;

pub fn add(plan: &mut Plan) {
    worked_blocks(plan);
    accepted(plan);
    row_ends(plan);
    rows(plan);
    lines(plan);
    line_ends(plan);
    faults(plan);
    wrong_fields(plan);
    pairs(plan);
    named(plan);
    hardly_records(plan);
    lengths(plan);
    rooms(plan);
    no_records(plan);
    long(plan);
    random(plan);
}

impl Plan {
    /// The reading call with room for any record.
    pub(super) fn read_mail(&mut self, text: impl Into<Vec<u8>>) {
        self.numbered(Op::ReadMail, AMPLE, text);
    }

    /// The writing call with room for any block, and the reading call for this record's block.
    pub(super) fn mailed(&mut self, record: &[u8]) {
        self.numbered(Op::WriteMail, AMPLE, record);
        self.read_mail(block_of(title_of(record), record));
    }
}

/// The name that a record begins with.
pub(super) fn title_of(record: &[u8]) -> &[u8] {
    let end = record.iter().position(|byte| b"|:".contains(byte));
    &record[..end.unwrap_or(record.len())]
}

/// The block of a worked record.
pub(super) fn worked_block(name: &str) -> Vec<u8> {
    let record = worked(name);
    block_of(title_of(&record), &record)
}

/// The lines of a text, each with its line feed.
pub(super) fn lines_of(text: &[u8]) -> Vec<&[u8]> {
    text.split_inclusive(|&byte| byte == b'\n').collect()
}

/// Another kind of records than this one.
pub(super) fn other_kind(kind: Kind) -> Kind {
    let mut after = Kind::RECORDS.into_iter().cycle().skip_while(|other| *other != kind);
    after.nth(1).expect("a next kind")
}

/// A record of this kind in the shortest form.
fn short_record(plan: &mut Plan, kind: Kind) -> Vec<u8> {
    let fields = sample::short_fields(&mut plan.random, kind, Signed::No);
    sample::of_kind(kind, &fields)
}

/// A wrapped key of so many bytes.
fn wrapped_key(plan: &mut Plan, length: usize) -> Vec<u8> {
    let fields = sample::wrapped_key_fields(&mut plan.random, length);
    sample::of_kind(Kind::WrappedKey, &fields)
}

/// Every worked record: written, read, and read from a longer text, with all behind the block and with
/// nothing, not even its last line feed. An identity is none.
fn worked_blocks(plan: &mut Plan) {
    for name in RECORDS {
        plan.mailed(&worked(name));
        let block = worked_block(name);
        let before = &b"Dear colleague,\n\nplease load the following.\n\n"[..];
        let text = [before, &block, b"\nRegards\n--\nThe centre\n"].concat();
        let end = before.len() + block.len();
        plan.read_mail(&text[..end]);
        plan.read_mail(&text[before.len()..end - 1]);
        plan.read_mail(text);
    }
    for name in IDENTITIES {
        plan.mailed(&worked(name));
    }
}

/// Records of every kind, the shortest and the longest.
fn accepted(plan: &mut Plan) {
    for kind in Kind::RECORDS {
        for &signed in Signed::forms(kind) {
            let fields = sample::short_fields(&mut plan.random, kind, signed);
            plan.mailed(&sample::of_kind(kind, &fields));
        }
        let longest = sample::longest_record(&mut plan.random, kind);
        plan.mailed(&longest);
    }
}

/// Records that end on each side of the end of a row.
fn row_ends(plan: &mut Plan) {
    for length in [4 * ROW - 1, 4 * ROW, 4 * ROW + 1, 5 * ROW, LONGEST_READ - ROW] {
        let record = wrapped_key(plan, length);
        plan.mailed(&record);
    }
}

/// Rows of every length, of one character and all in one; empty rows at the start, between and at the end.
fn rows(plan: &mut Plan) {
    for name in ["VKLOADRESP", "KEY1_1"] {
        let record = &worked(name)[..];
        let title = title_of(record);
        for width in [1, 2, 13, ROW - 1, ROW + 1, 72, 76, 2 * ROW, record.len() - 1, record.len()] {
            let rows: Vec<&[u8]> = record.chunks(width).collect();
            plan.read_mail(block_in_rows(title, &rows));
        }
        let halves = record.split_at(record.len() / 2);
        let (but_last, last) = record.split_at(record.len() - 1);
        let (but_check, check) = record.split_at(record.len() - 4);
        let rows: [&[&[u8]]; 9] = [
            &[b"", record],
            &[record, b""],
            &[b"", halves.0, b"", halves.1, b""],
            &[halves.0, b"", b"", b"", halves.1],
            &[but_last, last],
            &[but_check, b"", check],
            &[&record[..1], &record[1..]],
            &[title, &record[title.len()..]],
            &[&record[..=title.len()], &record[title.len() + 1..]],
        ];
        for rows in rows {
            plan.read_mail(block_in_rows(title, rows));
        }
        let every_other: Vec<&[u8]> = record.chunks(ROW).flat_map(|row| [row, b""]).collect();
        plan.read_mail(block_in_rows(title, &every_other));
    }
    for kind in Kind::RECORDS {
        let record = sample::record(&mut plan.random, kind);
        for _ in 0..2 {
            let block = sample::folded(&mut plan.random, kind.name().as_bytes(), &record);
            plan.read_mail(block);
        }
    }
}

/// Each line of a block lost, doubled, exchanged with the next, joined to it, and the last that is there; and
/// something more before each line.
fn lines(plan: &mut Plan) {
    let block = worked_block("VKLOADREQ");
    let lines = lines_of(&block);
    let mut end = 0;
    for (index, line) in lines.iter().enumerate() {
        let (before, after) = (lines[..index].concat(), lines[index + 1..].concat());
        plan.read_mail([&before[..], &after].concat());
        plan.read_mail([&before[..], line, line, &after].concat());
        end += line.len();
        plan.read_mail(&block[..end]);
        if let Some(next) = lines.get(index + 1) {
            let rest = &block[end + next.len()..];
            plan.read_mail([&before[..], next, line, rest].concat());
            plan.read_mail([&block[..end - 1], next, rest].concat());
        }
    }
    let block = worked_block("KEY1_1");
    let lines = lines_of(&block);
    for index in 0..=lines.len() {
        let (before, after) = (lines[..index].concat(), lines[index..].concat());
        for more in [" ", "> ", "Page 1 of 2\n"] {
            plan.read_mail([&before[..], more.as_bytes(), &after].concat());
        }
    }
}

/// Lines that end with a carriage return, with a blank, or with no line feed at all: all of them, the guards,
/// the rows, and single ones. And all lines with a mark of quoting.
fn line_ends(plan: &mut Plan) {
    let block = worked_block("VKLOADRESP");
    let lines = lines_of(&block);
    let last = lines.len() - 1;
    let which: [fn(usize, usize) -> bool; 6] = [
        |_, _| true,
        |index, last| [0, last].contains(&index),
        |index, last| ![0, last].contains(&index),
        |index, _| index == 0,
        |index, last| index == last,
        |index, last| index == last - 1,
    ];
    for end in ["\r\n", "\r", " \n", "\n\r", "=\n"] {
        for which in which {
            let with_end = lines.iter().enumerate().flat_map(|(index, line)| {
                let (text, line_feed) = line.split_at(line.len() - 1);
                [text, if which(index, last) { end.as_bytes() } else { line_feed }].concat()
            });
            plan.read_mail(with_end.collect::<Vec<u8>>());
        }
    }
    for quote in ["> ", ">", " ", "\t"] {
        let quoted = lines.iter().flat_map(|line| [quote.as_bytes(), line].concat());
        plan.read_mail(quoted.collect::<Vec<u8>>());
    }
}

/// Every fault of every kind is found by mail, and when it is written; and without room, for two kinds that
/// have all faults between them. All in one row, so that the case file has the record once.
fn faults(plan: &mut Plan) {
    for kind in Kind::RECORDS {
        for &fault in Fault::of(kind) {
            let record = sample::faulty(&mut plan.random, kind, &[fault]);
            let block = block_in_rows(kind.name().as_bytes(), &[&record]);
            plan.read_mail(&block[..]);
            plan.numbered(Op::WriteMail, AMPLE, &record[..]);
            if [Kind::PkEcdh, Kind::WrappedKey].contains(&kind) {
                plan.numbered(Op::ReadMail, 0, block);
                plan.numbered(Op::WriteMail, 0, record);
            }
        }
    }
}

/// Every field of every kind with a byte too much, an identity of another kind in the place of every identity,
/// and attribute lists of every fault, all under a right check: the number comes with that of the field.
fn wrong_fields(plan: &mut Plan) {
    let mut records = Vec::new();
    for kind in Kind::RECORDS {
        for (index, entry) in kind.fields().iter().enumerate() {
            let signed = Signed::to_fill(kind, index);
            let right = sample::short_fields(&mut plan.random, kind, signed);
            let mut longer = right.clone();
            longer[index].push(b'\x7F');
            records.push(sample::of_kind(kind, &longer));
            if let FieldType::Identity(permitted) = entry.field_type {
                let mut others = Kind::IDENTITIES.into_iter();
                let other = others.find(|other| !permitted.contains(other)).expect("another kind");
                let mut of_another = right;
                of_another[index] = short_record(plan, other);
                records.push(sample::of_kind(kind, &of_another));
            }
        }
    }
    for fault in ListFault::ALL {
        let list = sample::faulty_list(&mut plan.random, fault);
        records.push(sample::wrapped_key(&mut plan.random, &list));
    }
    for record in records {
        plan.read_mail(block_in_rows(title_of(&record), &[&record]));
        plan.numbered(Op::WriteMail, AMPLE, record);
    }
}

/// Two faults at once, in rows as they are written; and where one of the guards is missing too.
fn pairs(plan: &mut Plan) {
    for kind in Kind::RECORDS {
        let name = kind.name().as_bytes();
        for faults in Fault::of(kind).windows(2) {
            let record = sample::faulty(&mut plan.random, kind, faults);
            let block = block_of(name, &record);
            plan.numbered(Op::ReadMail, 0, &block[..]);
            if [Kind::PkEcdh, Kind::WrappedKey].contains(&kind) {
                plan.numbered(Op::ReadMail, 0, &block[begins_line(name).len()..]);
                plan.numbered(Op::ReadMail, 0, &block[..block.len() - ends_line(name).len() - 1]);
            }
        }
    }
}

/// Records under every name but their own, with the right check; with another check and with none; with
/// another name of their own; and too long ones, which hides it.
fn named(plan: &mut Plan) {
    for kind in Kind::RECORDS {
        let record = short_record(plan, kind);
        for other in Kind::ALL.into_iter().filter(|other| *other != kind) {
            plan.read_mail(block_of(other.name().as_bytes(), &record));
        }
        let [mut other_check, mut no_check] = [record.clone(), record.clone()];
        change_last(&mut other_check);
        no_check.pop();
        for (name, record) in [
            (other_kind(kind).name(), &other_check),
            ("KMCID.1", &other_check),
            ("KEY.2", &no_check),
        ] {
            plan.numbered(Op::ReadMail, 0, block_of(name.as_bytes(), record));
        }
    }
    for kind in [Kind::VkloadResp, Kind::WrappedKey] {
        let record = short_record(plan, kind);
        let name = kind.name().as_bytes();
        let rest = &record[name.len()..];
        let renamed = sample::resealed(&[b"KEY.2", rest].concat());
        let with_colon = sample::resealed(&[name, b":", &rest[1..]].concat());
        for (name, record) in [(&b"KEY.2"[..], &renamed), (name, &renamed), (name, &with_colon)] {
            plan.read_mail(block_of(name, record));
        }
    }
    let [most, more] = [LONGEST_READ, LONGEST_READ + 1].map(|length| wrapped_key(plan, length));
    for (name, record) in [("KEY.2", &most), ("KEY.2", &more), ("VKLOAD.RESP.1", &more)] {
        plan.numbered(Op::ReadMail, 0, block_of(name.as_bytes(), record));
    }
}

/// Blocks with few bytes between their guards, and with none.
fn hardly_records(plan: &mut Plan) {
    let fields = ["PK.ECDSA.1||||||", "VKLOAD.RESP.1|||||", "KEY.1||||", "KEY.1|"];
    let sealed = fields.map(|body| sample::sealed(body.as_bytes()));
    let hardly =
        ["", "x", "|", ":", "0000", "KEY.1", "KEY.1:", "KEY.1|", "KEY.1|000", "KEY.1|0000"];
    for record in hardly.map(|text| text.as_bytes().to_vec()).iter().chain(&sealed) {
        plan.read_mail(block_of(b"KEY.1", record));
        plan.numbered(Op::ReadMail, 0, block_of(title_of(record), record));
    }
}

/// As many bytes after unfolding as are read, and one more, in rows of every sort, which do not count. All of
/// them written, too.
fn lengths(plan: &mut Plan) {
    const MOST: usize = LONGEST_READ;
    const NAME: &[u8] = b"KEY.1";
    for (length, widths) in [
        (MOST, &[1, ROW - 1, ROW, MOST][..]),
        (MOST + 1, &[1, ROW, MOST + 1]),
        (MOST + ROW, &[ROW]),
    ] {
        let record = wrapped_key(plan, length);
        for &width in widths {
            let rows: Vec<&[u8]> = record.chunks(width).collect();
            plan.read_mail(block_in_rows(NAME, &rows));
        }
        plan.numbered(Op::ReadMail, 0, block_of(NAME, &record));
        let needed = block_of(NAME, &record).len() as u64;
        for room in [0, length as u64, needed - 1, needed, needed + 1] {
            plan.numbered(Op::WriteMail, room, &record[..]);
        }
    }
    let digits = sample::hex(&mut plan.random, 3 * MOST);
    for length in [MOST, MOST + 1, 3 * MOST] {
        plan.read_mail(block_of(NAME, &digits[..length]));
    }
}

/// Records of every kind into every sort of room.
fn rooms(plan: &mut Plan) {
    for kind in Kind::RECORDS {
        let record = short_record(plan, kind);
        let block = block_of(kind.name().as_bytes(), &record);
        let (length, needed) = (record.len() as u64, block.len() as u64);
        for room in [0, 1, length - 1, length, length + 1, needed, 1024, 2048] {
            plan.numbered(Op::ReadMail, room, &block[..]);
        }
        for room in [0, 1, length, length + 1, needed - 1, needed, needed + 1, 1080, 2048] {
            plan.numbered(Op::WriteMail, room, &record[..]);
        }
    }
}

/// What is no record is not written: a block, a record with its line feed or in two rows, a line with its
/// trailer, and few bytes.
fn no_records(plan: &mut Plan) {
    let record = worked("VKLOADRESP");
    for end in ["\n", "\r\n", " ", "--"] {
        plan.numbered(Op::WriteMail, AMPLE, [&record[..], end.as_bytes()].concat());
    }
    let in_two = [&record[..ROW], b"\n", &record[ROW..]].concat();
    for bytes in [worked_block("VKLOADRESP"), in_two, line_of(&record), record[1..].to_vec()] {
        for room in [0, AMPLE] {
            plan.numbered(Op::WriteMail, room, &bytes[..]);
        }
    }
    for text in ["", "\n", "PK.ECDH.1|", "PK.ECDH.1|0000", "--STS:KEY.1 BEGINS--"] {
        plan.numbered(Op::WriteMail, AMPLE, text);
    }
}

/// More than [`MORE`] bytes behind a block, in it, and before it; and outputs and records that are right only
/// modulo so many. The long strings have those of earlier groups in them.
fn long(plan: &mut Plan) {
    let digits = LongLines::new().followed;
    let feeds = vec![b'\n'; MORE + 2];
    let (key, response) = (worked("KEY1_1"), worked("VKLOADRESP"));
    let (first, second) = response.split_at(100);
    for (name, content) in [
        // A record, more digits, and a trailer.
        (title_of(&key), digits.clone()),
        // A record with empty rows in it.
        (title_of(&response), [first, &feeds, second].concat()),
    ] {
        let parts = [
            &worked_block("KEY1_1")[..],
            &[&begins_line(name)[..], b"\n"].concat(),
            &content,
            &[b"\n", &ends_line(name)[..], b"\n"].concat(),
            &worked_block("VKLOADRESP"),
        ]
        .map(<[u8]>::to_vec);
        let text = parts.concat();
        let ends: Vec<usize> = parts
            .iter()
            .scan(0, |end, part| {
                *end += part.len();
                Some(*end)
            })
            .collect();
        let inside = ends[1] + 200;
        // Behind the block; in it; before it, in one line and in many.
        for (start, end) in [
            (0, text.len()),
            (ends[0], text.len()),
            (ends[0], ends[3]),
            (ends[1], text.len()),
            (inside, text.len()),
            // No ENDS line, and no BEGINS line.
            (ends[0], ends[2]),
            (ends[0], inside + MORE - 200),
            (ends[1], ends[3]),
        ] {
            plan.read_mail(&text[start..end]);
        }
        let length = parts[0].len();
        for room in [MORE, MORE + 161, MORE + 162] {
            plan.numbered(Op::ReadMail, room as u64, &text[..length]);
        }
    }
    let block = Block::new();
    for part in [Part::Request, Part::Key, Part::WrappedKey] {
        for longer in block.longer(part) {
            plan.read_mail(&longer[..]);
            plan.numbered(Op::WriteMail, AMPLE, longer);
        }
    }
    for room in [MORE, MORE + 1, MORE + 204, MORE + 205] {
        plan.numbered(Op::WriteMail, room as u64, &key[..]);
    }
}

/// Texts of every sort, and what may be handed to be written.
fn random(plan: &mut Plan) {
    for _ in 0..120 {
        let text = sample::mail(&mut plan.random);
        plan.read_mail(text);
    }
    for _ in 0..20 {
        let bytes = sample::anything(&mut plan.random);
        plan.numbered(Op::WriteMail, AMPLE, bytes);
    }
}
