//! Request E6: lines of manufacturers' files, read and written one by one.

use super::fingerprints::change_last;
use super::long::{Block, Part, MORE};
use super::Plan;
use crate::calls::Op;
use compare::kind::Kind;
use compare::record::LONGEST_READ;
use compare::sample::{self, Fault, Signed};
use compare::sha1::{sha1, BLOCK_LENGTH};
use compare::sha384::sha384;
use compare::text::base16;
use compare::trailed::{line_of, trailer_of, TRAILER_LENGTH, TRAILER_MARK};
use compare::worked::{worked, IDENTITIES, RECORDS};

/// Room for any line.
const AMPLE: u64 = 1200;

pub fn add(plan: &mut Plan) {
    worked_lines(plan);
    accepted(plan);
    block_ends(plan);
    strange_trailers(plan);
    strange_ends(plan);
    few_bytes(plan);
    mistaken_hashes(plan);
    changed_fields(plan);
    faults(plan);
    lengths(plan);
    long_digits(plan);
    rooms(plan);
    no_records(plan);
    long(plan);
    sweeps_of_trailers(plan);
    sweeps_of_records(plan);
}

impl Plan {
    /// The reading call with the record and a trailer of this hash.
    fn with_hash(&mut self, record: &[u8], hash: &[u8]) {
        self.call(Op::Trailed, [record, &[TRAILER_MARK], hash].concat());
    }
}

/// The hash of a message in the characters of a trailer.
fn hash_of(parts: &[&[u8]]) -> Vec<u8> {
    base16(&sha1(&parts.concat())).into()
}

/// The hash that is right for a record.
fn right_hash(record: &[u8]) -> Vec<u8> {
    trailer_of(record).split_off(1)
}

/// The line of a record with a hash that differs in its last character.
pub(super) fn wrong_line_of(record: &[u8]) -> Vec<u8> {
    let mut line = line_of(record);
    change_last(&mut line);
    line
}

/// What document 003 prints; the lines of all worked records, and the records without their trailers.
fn worked_lines(plan: &mut Plan) {
    plan.call(Op::Trailed, worked("PUBKEY_SM_FILELINE"));
    for name in RECORDS.iter().chain(&IDENTITIES) {
        let record = worked(name);
        plan.call(Op::Trailed, line_of(&record));
        plan.call(Op::Trailed, &record[..]);
        let needed = (record.len() + TRAILER_LENGTH) as u64;
        plan.numbered(Op::WriteTrailed, needed, &record[..]);
        if RECORDS.contains(name) {
            plan.numbered(Op::WriteTrailed, needed - 1, record);
        }
    }
    // A line with a trailer is no record of a plain file.
    for name in ["PUBKEY_SM", "VKLOADRESP", "KEY1_1"] {
        plan.call(Op::Record, line_of(&worked(name)));
    }
}

/// Records of every kind with their trailers: some drawn, the shortest, and the longest.
fn accepted(plan: &mut Plan) {
    for kind in Kind::RECORDS {
        for _ in 0..2 {
            let record = sample::record(&mut plan.random, kind);
            plan.call(Op::Trailed, line_of(&record));
        }
        for &signed in Signed::forms(kind) {
            let fields = sample::short_fields(&mut plan.random, kind, signed);
            plan.call(Op::Trailed, line_of(&sample::of_kind(kind, &fields)));
        }
        let longest = sample::longest_record(&mut plan.random, kind);
        plan.call(Op::Trailed, line_of(&longest));
    }
}

/// Records that the line feed behind them makes end on each side of the end of a block, and of what a last
/// block has room for.
fn block_ends(plan: &mut Plan) {
    for hashed in [55, 56, 57, 63, 64, 65] {
        let length = 3 * BLOCK_LENGTH + hashed - 1;
        let fields = sample::wrapped_key_fields(&mut plan.random, length);
        let record = sample::of_kind(Kind::WrappedKey, &fields);
        plan.call(Op::Trailed, line_of(&record));
        plan.numbered(Op::WriteTrailed, AMPLE, record);
    }
}

/// A right hash behind no mark or another one, a place too early or too late, with a character more or
/// fewer, in other characters, and as bytes.
fn strange_trailers(plan: &mut Plan) {
    let record = &worked("VKLOADRESP")[..];
    let hash = &right_hash(record)[..];
    let (without_last, last) = record.split_at(record.len() - 1);
    let bytes = sha1(&[record, b"\n"].concat());
    let backwards: Vec<u8> = hash.iter().rev().copied().collect();
    let lines: [&[&[u8]]; 20] = [
        &[record, hash],
        &[record, b":", hash],
        &[record, b"|", hash],
        &[record, b" ", hash],
        &[record, b"\n", hash],
        &[record, b"##", hash],
        &[record, b"# ", hash],
        &[record, b"#0", hash],
        &[record, b" #", hash],
        &[record, b"#", &hash[1..]],
        &[record, b"#", &hash[..39]],
        &[record, &hash[..1], b"#", &hash[1..]],
        &[without_last, b"#", last, hash],
        &[without_last, b"#", hash],
        &[record, b"#", &hash.to_ascii_lowercase()],
        &[record, b"#", &backwards],
        &[record, b"#", &bytes],
        &[record, b"#", &bytes, &bytes],
        &[b"#", hash, record],
        &[hash, b"#", record],
    ];
    for parts in lines {
        plan.call(Op::Trailed, parts.concat());
    }
}

/// Something behind the trailer, and between the record and its trailer, there with the hash of the
/// record and with that of all before the mark; two lines in one, and a trailer of a whole line.
fn strange_ends(plan: &mut Plan) {
    let record = &worked("KEY1_1")[..];
    let line = &line_of(record)[..];
    for end in [" ", "\r", "\t", "\x08", "\0", "\n", "#", "0", ";", "\x7F", "  ", "\r\n", " #"] {
        plan.call(Op::Trailed, [line, end.as_bytes()].concat());
    }
    for between in [" ", "\r", "\x08", "\n", "\0", "|", "#", "0"] {
        let longer = [record, between.as_bytes()].concat();
        plan.call(Op::Trailed, line_of(&longer));
        plan.with_hash(&longer, &right_hash(record));
    }
    for start in [" ", "#", "\n", "\0"] {
        let longer = [start.as_bytes(), record].concat();
        plan.call(Op::Trailed, line_of(&longer));
        plan.with_hash(&longer, &right_hash(record));
    }
    plan.call(Op::Trailed, [line, line].concat());
    plan.call(Op::Trailed, [record, line].concat());
    plan.call(Op::Trailed, line_of(line));
    plan.call(Op::Trailed, line_of(&[record, b"\n", record].concat()));
}

/// Comments, blanks, and a trailer alone; and records that are hardly there, with the right trailer and
/// with zeros.
fn few_bytes(plan: &mut Plan) {
    let digits = "0123456789ABCDEF0123456789ABCDEF012345678";
    let lines = ["", "#", "\n", " ", "\r", "##", "# a comment", "#PK.ECDH.1|", "\t \r"];
    let forty = [&digits[..39], &digits[..40], digits];
    let marked = [&digits[..38], &digits[..39], digits].map(|digits| ["#", digits].concat());
    let alike = [b" ", b"#", b"0", b"F", b"\0"].map(|byte| byte.repeat(TRAILER_LENGTH));
    let comment = format!("# a comment that is as long as a trailer {digits}");
    let strings = lines.into_iter().chain(forty).map(str::to_owned).chain(marked).chain([comment]);
    for line in strings.map(String::into_bytes).chain(alike) {
        plan.call(Op::Trailed, line);
    }
    let hardly =
        ["", "x", "#", "|", ":", "PK.ECDH.1", "PK.ECDH.1:", "PK.ECDH.1|", "KEY.1|x", "KEY.1|0000"];
    let sealed = ["PK.ECDSA.1|", "VKLOAD.RESP.1||||", "KEY.1||||"].map(str::as_bytes);
    let sealed = sealed.map(sample::sealed);
    for record in hardly.map(|text| text.as_bytes().to_vec()).iter().chain(&sealed) {
        plan.call(Op::Trailed, line_of(record));
        plan.with_hash(record, &[b'0'; 40]);
    }
}

/// Hashes that a plausible error would take for the right one.
fn mistaken_hashes(plan: &mut Plan) {
    let other = worked("PUBKEY_MAN");
    for name in ["PUBKEY_SM", "KEY1_1"] {
        let record = worked(name);
        for hash in mistaken(&record, &other) {
            plan.with_hash(&record, &hash);
        }
    }
}

/// Of a wrong text: without the line feed, with the mark, or of another line too; and the right hash in
/// another form.
fn mistaken(record: &[u8], other: &[u8]) -> Vec<Vec<u8>> {
    let line = line_of(record);
    let right = sha1(&[record, b"\n"].concat());
    let mut hashes: Vec<Vec<u8>> = [
        &[record][..],
        &[record, b"#"],
        &[record, b"\n#"],
        &[record, b"#\n"],
        &[record, b"\r\n"],
        &[record, b"\n\n"],
        &[record, b" \n"],
        &[record, b"\0"],
        &[b"\n", record],
        &[&record[..record.len() - 4], b"\n"],
        &[&record[..record.len() - 5], b"\n"],
        &[&record[1..], b"\n"],
        &[&record.to_ascii_lowercase(), b"\n"],
        &[other, b"\n"],
        &[other, b"\n", record, b"\n"],
        &[record, b"\n", other, b"\n"],
        &[record, b"\n", record, b"\n"],
        &[&line],
        &[&line, b"\n"],
        &[&right],
        &[b"\n"],
        &[],
    ]
    .map(hash_of)
    .to_vec();
    let words_backwards: Vec<u8> =
        right.chunks(4).flat_map(|word| word.iter().rev().copied()).collect();
    let all_backwards: Vec<u8> = right.iter().rev().copied().collect();
    let longer_hash = &sha384(&[record, b"\n"].concat())[..right.len()];
    for bytes in [&words_backwards, &all_backwards, longer_hash, &[0; 20], &[0xFF; 20]] {
        hashes.push(base16(bytes).into());
    }
    let mut moved = base16(&right).into_bytes();
    moved.rotate_left(1);
    let exchanged = base16(&right).into_bytes().chunks(2).flat_map(|p| [p[1], p[0]]).collect();
    hashes.extend([moved, exchanged]);
    hashes
}

/// A record with one field of another one, and so accepted, under the trailer that was right before.
fn changed_fields(plan: &mut Plan) {
    for kind in Kind::RECORDS {
        let signed = Signed::forms(kind)[0];
        let [fields, others] =
            [(); 2].map(|()| sample::short_fields(&mut plan.random, kind, signed));
        let trailer = trailer_of(&sample::of_kind(kind, &fields));
        for index in 0..fields.len() {
            let mut changed = fields.clone();
            changed[index].clone_from(&others[index]);
            let record = sample::of_kind(kind, &changed);
            plan.call(Op::Trailed, [record, trailer.clone()].concat());
        }
    }
}

/// Every fault of every kind is found with the right trailer, in a file too, and with another hash; without
/// a trailer it is not. Writing finds it, with room; and without, for two kinds that have all faults
/// between them.
fn faults(plan: &mut Plan) {
    for kind in Kind::RECORDS {
        for (index, &fault) in Fault::of(kind).iter().enumerate() {
            let record = sample::faulty(&mut plan.random, kind, &[fault]);
            plan.call(Op::Trailed, line_of(&record));
            plan.call(Op::Trailed, wrong_line_of(&record));
            plan.call(Op::Trailed, without_trailer(&record, index));
            plan.numbered(Op::TrailedLine, 0, [&line_of(&record)[..], b"\n"].concat());
            plan.numbered(Op::WriteTrailed, AMPLE, &record[..]);
            if [Kind::PkEcdh, Kind::WrappedKey].contains(&kind) {
                plan.numbered(Op::WriteTrailed, 0, record);
            }
        }
    }
}

/// The record with something behind it that is nearly its trailer.
fn without_trailer(record: &[u8], which: usize) -> Vec<u8> {
    let hash = &right_hash(record)[..];
    let nearly: [&[&[u8]]; 5] =
        [&[], &[hash], &[b"$", hash], &[b"#", &hash[..39], b"a"], &[b"#", hash, b"\r"]];
    [record, &nearly[which % nearly.len()].concat()].concat()
}

/// As many bytes before the mark as are read, one fewer, and one more, which hides whatever else is
/// wrong; as many with the trailer, and as many more as it has. All of them written, too.
fn lengths(plan: &mut Plan) {
    const MOST: usize = LONGEST_READ;
    for length in [MOST - TRAILER_LENGTH, MOST - 1, MOST, MOST + 1, MOST + TRAILER_LENGTH] {
        let fields = sample::wrapped_key_fields(&mut plan.random, length);
        let record = sample::of_kind(Kind::WrappedKey, &fields);
        plan.call(Op::Trailed, line_of(&record));
        plan.call(Op::Trailed, wrong_line_of(&record));
        for which in [0, 1, 3] {
            plan.call(Op::Trailed, without_trailer(&record, which));
        }
        let needed = (length + TRAILER_LENGTH) as u64;
        for room in [0, length as u64, needed - 1, needed, needed + 1] {
            plan.numbered(Op::WriteTrailed, room, &record[..]);
        }
    }
}

/// Lines of digits around the same lengths, with a trailer and without one, and of a record that is
/// refused for a field.
fn long_digits(plan: &mut Plan) {
    const MOST: usize = LONGEST_READ;
    let digits = sample::hex(&mut plan.random, 4 * MOST);
    for length in [MOST - 1, MOST, MOST + 1, MOST + TRAILER_LENGTH, MOST + 42, 4 * MOST] {
        plan.call(Op::Trailed, &digits[..length]);
    }
    for length in [MOST, MOST + 1] {
        plan.call(Op::Trailed, line_of(&digits[..length]));
        plan.with_hash(&digits[..length], &digits[..40]);
        let padded = sample::padded(&mut plan.random, Kind::PkEcdh, 1, length);
        plan.call(Op::Trailed, line_of(&padded));
        plan.numbered(Op::WriteTrailed, AMPLE, padded);
    }
}

/// Records of every kind into every sort of room.
fn rooms(plan: &mut Plan) {
    const TRAILER: u64 = TRAILER_LENGTH as u64;
    for kind in Kind::RECORDS {
        let fields = sample::short_fields(&mut plan.random, kind, Signed::No);
        let record = sample::of_kind(kind, &fields);
        let length = record.len() as u64;
        let needed = length + TRAILER;
        let beside = [0, 1, TRAILER - 1, TRAILER, length - 1, length, length + 1];
        let rooms = [needed - 1, needed, needed + 1, 2 * needed, 1024];
        for room in beside.into_iter().chain(rooms) {
            plan.numbered(Op::WriteTrailed, room, &record[..]);
        }
    }
}

/// What is no record is not written: a line that has its trailer already, a record with its line feed,
/// and few bytes.
fn no_records(plan: &mut Plan) {
    let record = worked("VKLOADRESP");
    for end in ["\n", "\r\n", " ", "#"] {
        plan.numbered(Op::WriteTrailed, AMPLE, [&record[..], end.as_bytes()].concat());
    }
    for bytes in [line_of(&record), trailer_of(&record), record[1..].to_vec(), b"".to_vec()] {
        for room in [0, AMPLE] {
            plan.numbered(Op::WriteTrailed, room, bytes.clone());
        }
    }
    for text in ["#", "PK.ECDH.1|", "PK.ECDH.1|0000"] {
        plan.numbered(Op::WriteTrailed, AMPLE, text);
    }
}

/// Lines with [`MORE`] digits in them. All long strings of this group and of the files are parts of the
/// two, so that the case file has their bytes once.
pub(super) struct LongLines {
    /// A record with its trailer, the digits, the record again, and a trailer that covers all from the
    /// digits on; a line feed, and an accepted line.
    pub(super) file: Vec<u8>,
    /// The record, the digits, and a trailer that covers the record alone.
    pub(super) followed: Vec<u8>,
    /// Where the record ends at the start of either.
    pub(super) record_end: usize,
    /// Where the digits begin in the file.
    pub(super) digits: usize,
    /// Where its first line ends.
    pub(super) line_end: usize,
}

impl LongLines {
    pub(super) fn new() -> LongLines {
        let record = worked("KEY1_1");
        let zeros = vec![b'0'; MORE];
        let start = line_of(&record);
        let first_line = [start.clone(), line_of(&[&zeros[..], &record].concat())].concat();
        let second_line = line_of(&worked("VKLOADRESP"));
        LongLines {
            file: [&first_line[..], b"\n", &second_line, b"\n"].concat(),
            followed: [&record[..], &zeros, &trailer_of(&record)].concat(),
            record_end: record.len(),
            digits: start.len(),
            line_end: first_line.len(),
        }
    }
}

/// Lines, records and outputs that are right only modulo [`MORE`].
fn long(plan: &mut Plan) {
    let LongLines { file, followed, record_end, digits, line_end } = LongLines::new();
    for line in [
        &file[..line_end],
        // So many digits more behind the mark than a trailer has, with the record and without it.
        &file[..digits + MORE],
        &file[record_end..digits + MORE],
        // So many more before the record, and behind it; and no trailer.
        &file[digits..line_end],
        &followed,
        &followed[record_end..],
        &followed[..record_end + MORE],
    ] {
        plan.call(Op::Trailed, line);
    }
    let block = Block::new();
    for part in [Part::Request, Part::Key, Part::WrappedKey] {
        for longer in block.longer(part) {
            plan.numbered(Op::WriteTrailed, AMPLE, &longer[..]);
            plan.call(Op::Trailed, longer);
        }
    }
    let record = worked("KEY1_1");
    let needed = record.len() + TRAILER_LENGTH;
    for room in [MORE, MORE + 1, MORE + needed - 1, MORE + needed] {
        plan.numbered(Op::WriteTrailed, room as u64, &record[..]);
    }
}

/// Every byte value in every place of a trailer. Some places with a record that is refused, and some with
/// another hash.
fn sweeps_of_trailers(plan: &mut Plan) {
    let record = worked("KEY1_1");
    let line = line_of(&record);
    for place in record.len()..line.len() {
        plan.every_byte(Op::Trailed, 0, &line, place);
    }
    let mut refused = record.clone();
    change_last(&mut refused);
    for line in [line_of(&refused), wrong_line_of(&record), trailer_of(b"")] {
        let mark = line.len() - TRAILER_LENGTH;
        for place in [mark, mark + 1, line.len() - 1] {
            plan.every_byte(Op::Trailed, 0, &line, place);
        }
    }
}

/// Every byte value in a record before its trailer: both ends of the name, the first mark, the start of
/// the first field, the last mark and what stands before it, and the check. The trailer is that of the
/// record as it was.
fn sweeps_of_records(plan: &mut Plan) {
    for (name, kind) in [("PUBKEY_SM", Kind::PkEcdh), ("KEY1_1", Kind::WrappedKey)] {
        let record = worked(name);
        let (mark, end) = (kind.name().len(), record.len());
        let places = [0, mark - 1, mark, mark + 1, end - 6, end - 5];
        for place in places.into_iter().chain(end - 4..end) {
            plan.every_byte(Op::Trailed, 0, &line_of(&record), place);
        }
    }
}
