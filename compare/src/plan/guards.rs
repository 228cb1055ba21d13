//! Request E7: which lines of a text are the guards of a block by mail, and which block is read.

use super::mail::{lines_of, other_kind, title_of, worked_block, AMPLE};
use super::Plan;
use crate::calls::Op;
use compare::kind::Kind;
use compare::mail::{begins_line, block_in_rows, block_of, ends_line, ROW};
use compare::sample::{self, Cards};
use compare::text::LONGEST_IDENT;
use compare::worked::worked;

/// The name of the block that most texts here have.
const NAME: &[u8] = b"KEY.1";

pub fn add(plan: &mut Plan) {
    few_bytes(plan);
    nearly_begins(plan);
    nearly_ends(plan);
    names(plan);
    two_blocks(plan);
    ends_of_others(plan);
    texts_before(plan);
    in_attributes(plan);
    in_rows(plan);
    sweeps_of_guards(plan);
    sweeps_of_names(plan);
    sweeps_of_rows(plan);
}

/// These lines, each with its line feed.
fn ended<T: AsRef<[u8]>>(lines: impl IntoIterator<Item = T>) -> Vec<u8> {
    lines.into_iter().flat_map(|line| [line.as_ref(), b"\n"].concat()).collect()
}

/// No bytes, line feeds, and guards alone, with line feeds and without.
fn few_bytes(plan: &mut Plan) {
    for text in
        ["", "\n", "\n\n", " ", "x", "--", "--STS:", "--STS:\n", " BEGINS--", "--STS: BEGINS--"]
    {
        plan.read_mail(text);
    }
    let [begins, ends] = [begins_line(NAME), ends_line(NAME)];
    for parts in [
        &[&begins[..]][..],
        &[&begins, b"\n"],
        &[&begins, b"\n\n"],
        &[b"\n", &begins],
        &[&begins, &ends],
        &[&begins, b" ", &ends],
        &[&begins, b"\n", &ends],
        &[&begins, b"\n\n", &ends],
        &[&begins, b"\n", &ends, b"\n"],
        &[&begins, b"\n", &begins, b"\n", &ends],
        &[&begins, b"\n", &ends, b"\n", &ends],
        &[&begins, b"\r\n", &ends],
        &[&ends],
        &[&ends, b"\n"],
        &[&ends, b"\n", &begins],
        &[&ends, b"\n", &begins, b"\n"],
    ] {
        plan.read_mail(parts.concat());
    }
    for end in 1..begins.len() {
        plan.read_mail(&begins[..end]);
    }
    let block = worked_block("KEY1_1");
    for end in block.len() - ends.len() - 2..block.len() {
        plan.read_mail(&block[..end]);
    }
}

/// Lines that are no BEGINS line: in its place no block is there, and all of them are passed over before a
/// block.
fn nearly_begins(plan: &mut Plan) {
    let longer_name = "A".repeat(LONGEST_IDENT + 1);
    let long_name = format!("--STS:{longer_name} BEGINS--");
    let lines = [
        " --STS:KEY.1 BEGINS--",
        "\t--STS:KEY.1 BEGINS--",
        "\r--STS:KEY.1 BEGINS--",
        "\0--STS:KEY.1 BEGINS--",
        ">--STS:KEY.1 BEGINS--",
        "--STS:KEY.1 BEGINS-- ",
        "--STS:KEY.1 BEGINS--\r",
        "--STS:KEY.1 BEGINS--\0",
        "--STS:KEY.1 BEGINS--.",
        "--STS:KEY.1 BEGINS--KEY.1|",
        "--STS:KEY.1  BEGINS--",
        "--STS: KEY.1 BEGINS--",
        "--STS:KEY.1BEGINS--",
        "--STS:KEY.1\tBEGINS--",
        "--STS:KEY.1_BEGINS--",
        "--STS:KEY.1|BEGINS--",
        "--STS:KEY.1 BEGINS --",
        "--STS:KEY.1 BEGINS-",
        "--STS:KEY.1 BEGINS---",
        "--STS:KEY.1 BEGINS",
        "--STS:KEY.1 BEGIN--",
        "--STS:KEY.1 BEGINNS--",
        "--STS:KEY.1 STARTS--",
        "--STS:KEY.1 BEGINS==",
        "--STS:KEY.1 begins--",
        "--STS:KEY.1 Begins--",
        "--sts:KEY.1 BEGINS--",
        "--STS:key.1 begins--",
        "-STS:KEY.1 BEGINS--",
        "---STS:KEY.1 BEGINS--",
        "STS:KEY.1 BEGINS--",
        "==STS:KEY.1 BEGINS--",
        "--STS KEY.1 BEGINS--",
        "--STS;KEY.1 BEGINS--",
        "--STS::KEY.1 BEGINS--",
        "--STS6:KEY.1 BEGINS--",
        "--STSA:KEY.1 BEGINS--",
        "--STS: BEGINS--",
        "--STS:BEGINS--",
        "--STS:  BEGINS--",
        "--STS:KEY 1 BEGINS--",
        "--STS:KEY.1 KEY.1 BEGINS--",
        "--STS:KEY.1 BEGINS BEGINS--",
        "--STS:KEY.1 BEGINS-- BEGINS--",
        "--STS:KEY/1 BEGINS--",
        "--STS:.KEY.1 BEGINS--",
        "--STS:-KEY.1 BEGINS--",
        "--STS:_ BEGINS--",
        "--STS:, BEGINS--",
        "--STS:KEY\u{e9} BEGINS--",
        &long_name,
        "--STS:KEY.1 ENDS--",
        "--STS:KEY.1 BEGINS--\r--STS:KEY.1 BEGINS--",
        "-----BEGIN KEY.1-----",
        "BEGINS",
    ];
    for line in lines {
        plan.read_mail([line.as_bytes(), b"\n", &ends_line(NAME)].concat());
    }
    plan.read_mail([ended(lines), worked_block("KEY1_1")].concat());
}

/// Lines that are no ENDS line of this name: in its place the block has no end, and before it some of them are
/// content.
fn nearly_ends(plan: &mut Plan) {
    let block = worked_block("KEY1_1");
    let start = &block[..block.len() - ends_line(NAME).len() - 1];
    let lines = [
        " --STS:KEY.1 ENDS--",
        "\r--STS:KEY.1 ENDS--",
        ">--STS:KEY.1 ENDS--",
        "--STS:KEY.1 ENDS-- ",
        "--STS:KEY.1 ENDS--\r",
        "--STS:KEY.1 ENDS--\0",
        "--STS:KEY.1 ENDS--.",
        "--STS:KEY.1  ENDS--",
        "--STS: KEY.1 ENDS--",
        "--STS:KEY.1ENDS--",
        "--STS:KEY.1\tENDS--",
        "--STS:KEY.1 ENDS --",
        "--STS:KEY.1 ENDS-",
        "--STS:KEY.1 ENDS---",
        "--STS:KEY.1 ENDS",
        "--STS:KEY.1 END--",
        "--STS:KEY.1 ends--",
        "--sts:KEY.1 ENDS--",
        "--STS:key.1 ENDS--",
        "-STS:KEY.1 ENDS--",
        "---STS:KEY.1 ENDS--",
        "--STS;KEY.1 ENDS--",
        "--STS: ENDS--",
        "--STS:ENDS--",
        "--STS:KEY.1 KEY.1 ENDS--",
        "--STS:KEY ENDS--",
        "--STS:KEY. ENDS--",
        "--STS:KEY.2 ENDS--",
        "--STS:KEY.11 ENDS--",
        "--STS:1KEY.1 ENDS--",
        "--STS:EY.1 ENDS--",
        "--STS:KEY,1 ENDS--",
        "--STS:VKLOAD.RESP.1 ENDS--",
        "--STS:KEY.1 BEGINS--",
        "--STS:KEY.1 ENDS--\r--STS:KEY.1 ENDS--",
        "-----END KEY.1-----",
    ];
    for line in lines {
        plan.read_mail([start, line.as_bytes(), b"\n"].concat());
    }
    for lines in [&lines[..1], &lines[4..5], &lines[27..28], &lines[..20], &lines[20..]] {
        plan.read_mail([start, &ended(lines), &ends_line(NAME)].concat());
    }
}

/// Every IDENT is a name, up to the longest one, and not only that of a kind; what is named is no other kind
/// than the one of exactly this name. What is no IDENT makes no guard.
fn names(plan: &mut Plan) {
    let record = worked("KEY1_1");
    let [most, more] =
        [LONGEST_IDENT, LONGEST_IDENT + 1].map(|length| "Key-1_x.,".repeat(4)[..length].to_owned());
    for name in [
        "A",
        "z",
        "0",
        "X-",
        "X--",
        "1.YEK",
        "KEY",
        "KEY.",
        "KEY.2",
        "KEY.1.",
        "KEY.1-",
        "KEY.1,",
        "KEY.11",
        "KEY.1_",
        "key.1",
        "Key.1",
        "KEY,1",
        "KEY-1",
        "PK.ECDH",
        "PK.ECDSA.2",
        "VKLOAD.REQ",
        "VKLOAD.RESP.1.1",
        "BEGINS",
        "ENDS",
        "STS",
        &most,
        &more,
        "",
        "-",
        ".1",
        "KEY 1",
        "KEY.1 ",
        " KEY.1",
        "KEY.1:",
        "KEY.1|",
        "KEY.1\r",
        "\u{e9}",
    ] {
        plan.read_mail(block_of(name.as_bytes(), &record));
    }
    for (index, kind) in Kind::ALL.into_iter().enumerate() {
        let record = sample::record(&mut plan.random, kind);
        let name = kind.name();
        let nearly = [name.to_lowercase(), format!("{name}1"), name[..name.len() - 1].to_owned()];
        plan.read_mail(block_of(nearly[index % nearly.len()].as_bytes(), &record));
    }
}

/// The first of two blocks decides, though it is refused or is never ended; what stands in it is content.
fn two_blocks(plan: &mut Plan) {
    let [key, other_key, response] = ["KEY1_1", "KEY1_2", "VKLOADRESP"].map(worked_block);
    let unended = |block: &[u8]| {
        let lines = lines_of(block);
        lines[..lines.len() - 1].concat()
    };
    let unbegun = |block: &[u8]| lines_of(block)[1..].concat();
    let mut damaged = key.clone();
    damaged[60] ^= 1;
    let long = block_of(NAME, &[b'0'; 1100]);
    let unknown = block_of(b"KEY.2", &worked("KEY1_1"));
    let identity = worked_block("ID_SM");
    let empty = block_of(b"VKLOAD.RESP.1", b"");
    for first in [&key, &response, &damaged, &long, &unknown, &identity, &empty] {
        for second in [&response, &other_key].into_iter().take(1 + usize::from(first == &key)) {
            plan.read_mail([&first[..], second].concat());
            plan.read_mail([&unended(first)[..], second].concat());
        }
    }
    plan.read_mail([unbegun(&key), response.clone()].concat());
    // One in the other, and both across each other.
    let rows = |block: &[u8]| lines_of(block)[1..lines_of(block).len() - 1].concat();
    let [begins, ends] = [begins_line(NAME), ends_line(NAME)].map(|line| ended([line]));
    for text in [
        [&begins[..], &response, &ends].concat(),
        [&begins[..], &rows(&key), &response, &ends].concat(),
        [&begins[..], &response, &rows(&key), &ends].concat(),
        [&begins[..], &key, &ends].concat(),
        [&unended(&response)[..], &begins, &unbegun(&response), &rows(&key), &ends].concat(),
        [&unended(&key)[..], &unended(&response), &ends, &ended([ends_line(b"VKLOAD.RESP.1")])]
            .concat(),
        [&begins[..], &begins, &rows(&key), &ends, &ends].concat(),
        [&key[..], b"\n", &key].concat(),
        [&key[..], &rows(&key), &ends].concat(),
        [&key[..], &ends].concat(),
        [&key[..], &begins].concat(),
    ] {
        plan.read_mail(text);
    }
}

/// ENDS lines before the BEGINS line, and of other names behind it, with the right one and without.
fn ends_of_others(plan: &mut Plan) {
    for kind in Kind::RECORDS {
        let record = sample::record(&mut plan.random, kind);
        let name = kind.name().as_bytes();
        let block = block_of(name, &record);
        let lines = lines_of(&block);
        let (last, start) = lines.split_last().expect("a last line");
        let start = start.concat();
        let other = ended([ends_line(other_kind(kind).name().as_bytes())]);
        let all: [&[&[u8]]; 9] = [
            &[&start, &other],
            &[&start, &other, last],
            &[&start, last, &other],
            &[lines[0], &other, &lines[1..].concat()],
            &[last, &block],
            &[&other, last, &block],
            &[last, &start],
            &[last, &lines[1..].concat()],
            &[last, &start, &other],
        ];
        let most = if kind == Kind::VkloadResp { all.len() } else { 3 };
        for parts in &all[..most] {
            plan.read_mail(parts.concat());
        }
    }
}

/// Text before a block that ends with a line feed changes nothing; text that ends with none hides the BEGINS
/// line.
fn texts_before(plan: &mut Plan) {
    let (block, record) = (worked_block("KEY1_1"), worked("KEY1_2"));
    let records = ended([&record[..], &worked("VKLOADRESP")]);
    for before in
        [&b"\n"[..], b"\n\n\n", b"\0\n", b"\xFF\xFE\n", b"\r\n", b"text\n", b"--\n", &records]
    {
        plan.read_mail([before, &block].concat());
        plan.read_mail([&before[..before.len() - 1], &block].concat());
    }
    for kind in Kind::RECORDS.repeat(2) {
        let record = sample::record(&mut plan.random, kind);
        let before = sample::text_before(&mut plan.random);
        plan.read_mail([before, block_of(kind.name().as_bytes(), &record)].concat());
    }
}

/// An accepted wrapped key with this value of an attribute, and where the value stands in it.
fn key_with(plan: &mut Plan, value: &[u8]) -> (Vec<u8>, usize) {
    let cards = Cards::required(&mut plan.random).with(b"TXT", value);
    let record = sample::wrapped_key(&mut plan.random, &cards.list());
    let place = record.windows(value.len()).position(|part| part == value);
    (record, place.expect("the value in its record"))
}

/// Guards in the attributes of a key. In rows of other lengths one may be a whole line: an ENDS line of the
/// name then ends the block, whatever follows, and all others are content.
fn in_attributes(plan: &mut Plan) {
    for value in [
        "--STS:KEY.1 ENDS--",
        "--STS:KEY.1 BEGINS--",
        "--STS:VKLOAD.RESP.1 ENDS--",
        "--STS:PK.ECDH.1 BEGINS--",
        "--STS:KEY.1 ENDS-- --STS:KEY.1 ENDS--",
        " BEGINS--",
    ] {
        let value = value.as_bytes();
        let (record, place) = key_with(plan, value);
        plan.mailed(&record);
        let (before, rest) = record.split_at(place);
        let (value, after) = rest.split_at(value.len());
        for rows in [
            &[before, value, after][..],
            &[before, b"", value, b"", after],
            &[before, rest],
            &[&before[..place - 1], &record[place - 1..place + value.len()], after],
            &[before, &rest[..value.len() + 1], &after[1..]],
        ] {
            plan.read_mail(block_in_rows(NAME, rows));
        }
        // Without the first line.
        let block = block_in_rows(NAME, &[before, value, after]);
        plan.read_mail(&block[begins_line(NAME).len() + 1..]);
        // What stands before it is a record already.
        let short = worked("KEY1_1");
        plan.read_mail(block_in_rows(NAME, &[&short, value, after]));
        // As a line before a block.
        plan.read_mail([&record[..], b"\n", &worked_block("VKLOADRESP")].concat());
    }
}

/// The same at the start and at the end of a row as it is written, and a whole row that would be a guard if
/// a name were longer.
fn in_rows(plan: &mut Plan) {
    let [ends, begins] = [ends_line(NAME), begins_line(NAME)];
    let wide = |before: &[u8], after: &[u8]| {
        [before, &vec![b'A'; ROW - before.len() - after.len()], after].concat()
    };
    for guard in [
        ends.clone(),
        begins.clone(),
        wide(b"", &ends),
        wide(b"--STS:", b" ENDS--"),
        wide(b"--STS:", b" BEGINS--"),
        wide(b"--STS:KEY.1 ENDS--", b"--STS:KEY.1 ENDS--"),
    ] {
        let (_, place) = key_with(plan, &guard);
        let filled =
            |end: usize| [vec![b'.'; (end + 2 * ROW - place % ROW) % ROW], guard.clone()].concat();
        for value in [filled(0), filled(ROW - guard.len() % ROW)] {
            let (record, place) = key_with(plan, &value);
            let start = place + value.len() - guard.len();
            assert!(start % ROW == 0 || (start + guard.len()) % ROW == 0, "a row of its own");
            plan.mailed(&record);
        }
    }
}

/// Every byte value in every place of both guards, and of the line feeds beside them.
fn sweeps_of_guards(plan: &mut Plan) {
    let text = [b"x\n", &worked_block("KEY1_1")[..], b"x"].concat();
    let begins = 1..2 + begins_line(NAME).len() + 1;
    let ends = text.len() - 3 - ends_line(NAME).len()..text.len() - 1;
    for place in begins.chain(ends) {
        plan.every_byte(Op::ReadMail, AMPLE, &text, place);
    }
    // Behind a block without its last line feed, with a record of another kind, and without room.
    let end = text.len() - 2;
    plan.every_byte(Op::ReadMail, AMPLE, &text[..=end], end);
    plan.every_byte(Op::ReadMail, AMPLE, &text[1..], 0);
    let other = block_of(b"VKLOAD.RESP.1", &worked("KEY1_1"));
    for place in [0, 5, 6, 18, 19, 28] {
        plan.every_byte(Op::ReadMail, 0, &other, place);
        plan.every_byte(Op::ReadMail, 0, &text[2..], place);
    }
}

/// Every byte value in a name: of the first character, of later ones up to the last that there can be, and of
/// one more.
fn sweeps_of_names(plan: &mut Plan) {
    let longest = sample::ident(&mut plan.random, LONGEST_IDENT);
    let longer = sample::ident(&mut plan.random, LONGEST_IDENT + 1);
    for (name, places) in [
        (&b"A"[..], &[0][..]),
        (b"Ab", &[0, 1]),
        (b"KEY.1", &[0, 1, 2, 3, 4]),
        (&longest, &[0, 1, LONGEST_IDENT / 2, LONGEST_IDENT - 1]),
        (&longer, &[0, LONGEST_IDENT]),
    ] {
        for &place in places {
            // With no ENDS line, and with the one of the name as it was.
            let place = b"--STS:".len() + place;
            plan.every_byte(Op::ReadMail, AMPLE, &begins_line(name), place);
            plan.every_byte(Op::ReadMail, AMPLE, &block_of(name, b"x"), place);
        }
    }
}

/// Every byte value in the rows: in line feeds and beside them, in both ends of the record, and in a row of its
/// own behind it.
fn sweeps_of_rows(plan: &mut Plan) {
    for name in ["KEY1_1", "PUBKEY_KMC"] {
        let (record, block) = (worked(name), worked_block(name));
        let title = title_of(&record);
        let first = begins_line(title).len() + 1;
        let feeds = (first..block.len()).filter(|&place| block[place] == b'\n');
        let beside = feeds.take(2).flat_map(|feed| [feed - 1, feed, feed + 1]);
        let mark = first + title.len();
        for place in beside.chain([first, mark - 1, mark, mark + 1]) {
            plan.every_byte(Op::ReadMail, AMPLE, &block, place);
        }
        let ends = ends_line(title).len() + 1;
        let last_feed = block.len() - ends - 1;
        for place in [6, 5, 4, 1, 0].map(|before| last_feed - before) {
            plan.every_byte(Op::ReadMail, 0, &block, place);
        }
        let longer = block_in_rows(title, &[&record, b"x"]);
        plan.every_byte(Op::ReadMail, AMPLE, &longer, longer.len() - ends - 2);
    }
}
