//! Files of records.

use super::Plan;
use crate::calls::Op;
use compare::file::lines;
use compare::kind::Kind;
use compare::record::LONGEST_READ;
use compare::sample::{self, Fault, Place, Signed};
use compare::worked::{worked, IDENTITIES, RECORDS};

pub fn add(plan: &mut Plan) {
    every_place(plan);
    worked_files(plan);
    single_lines(plan);
    long_lines(plan);
    unfinished(plan);
    mixed(plan);
    counts(plan);
}

impl Plan {
    /// The lines of a file from its first place on, and one step past them; and their number.
    pub fn walk(&mut self, file: &[u8]) {
        let places: Vec<u64> = lines(file).map(|line| line.start).collect();
        for place in places {
            self.numbered(Op::Line, place, file);
        }
        self.numbered(Op::Line, file.len() as u64, file);
        self.call(Op::Count, file);
    }
}

/// Every place of short files, and places past their end.
fn every_place(plan: &mut Plan) {
    for file in [
        &b"\nPK.ECDH.2|x\nabc"[..],
        b"",
        b"\n",
        b"\n\n\n",
        b"x",
        b"PK.ECDH.1|\n\n|:\r\n\0\xFF\nVKLOAD.REQ.1|x",
        b"PK.ECDSA.1|4A\n",
    ] {
        let end = file.len() as u64;
        for place in (0..=end + 2).chain([end + 1000, 1 << 32, 1 << 63, u64::MAX - 1, u64::MAX]) {
            plan.numbered(Op::Line, place, file);
        }
        plan.call(Op::Count, file);
    }
}

fn worked_files(plan: &mut Plan) {
    let file = [&worked("PUBKEY_KMC")[..], b"\n", &worked("VKLOADREQ"), b"\n"].concat();
    plan.walk(&file);
    for place in [1, 9, 10, 301, 302, 303, 304, 736, 737, 738, u64::MAX] {
        plan.numbered(Op::Line, place, file.clone());
    }
    plan.call(Op::Count, ended(RECORDS.map(worked)));
    plan.call(Op::Count, ended(IDENTITIES.map(worked)));
}

/// These lines, each with its line feed.
fn ended(lines: impl IntoIterator<Item = Vec<u8>>) -> Vec<u8> {
    lines.into_iter().flat_map(|line| [line, b"\n".to_vec()].concat()).collect()
}

/// One line of every kind: ended by a line feed, by a carriage return too, by none.
fn single_lines(plan: &mut Plan) {
    for kind in Kind::ALL {
        let record = sample::record(&mut plan.random, kind);
        for end in ["\n", "\r\n", "", "\r", " \n", "\n\n"] {
            plan.numbered(Op::Line, 0, [&record[..], end.as_bytes()].concat());
        }
        plan.call(Op::Count, [&record[..], b"\n", &record, b"\r\n", &record].concat());
        for &fault in Fault::of(kind) {
            let line = sample::faulty(&mut plan.random, kind, &[fault]);
            plan.numbered(Op::Line, 0, ended([line]));
        }
    }
}

/// Lines around the longest that are read, and another after them.
fn long_lines(plan: &mut Plan) {
    let next = worked("VKLOADRESP");
    for length in [LONGEST_READ - 1, LONGEST_READ, LONGEST_READ + 1] {
        let record = sample::padded(&mut plan.random, Kind::PkEcdh, 1, length);
        let file = ended([record, next.clone()]);
        plan.walk(&file);
        plan.numbered(Op::Line, 1, file);
        let line = sample::hex(&mut plan.random, length);
        plan.numbered(Op::Line, 0, line.clone());
        plan.walk(&ended([line]));
    }
    let file = ended([vec![b'|'; 2000], next]);
    plan.numbered(Op::Line, 0, file.clone());
    plan.numbered(Op::Line, 2001, file);
}

/// Last lines without a line feed, at every length and with a check that fits.
fn unfinished(plan: &mut Plan) {
    for kind in Kind::RECORDS {
        let last = sample::record(&mut plan.random, kind);
        let first = sample::record(&mut plan.random, Kind::VkloadResp);
        let file = [ended([first]), last.clone()].concat();
        plan.walk(&file);
        plan.walk(&last);
        let place = file.len() - 1;
        plan.numbered(Op::Line, place as u64, file);
    }
    for length in [1, 2, 4, 5, 9, 10, 100, LONGEST_READ, LONGEST_READ + 1, 1100] {
        let bytes: Vec<u8> =
            plan.random.bytes(length).into_iter().filter(|&b| b != b'\n').collect();
        plan.numbered(Op::Line, 0, bytes.clone());
        plan.call(Op::Count, bytes);
    }
}

/// Accepted records with damaged ones and others between them.
fn mixed(plan: &mut Plan) {
    for unfinished in [false, true] {
        let mut file = Vec::new();
        for _ in 0..5 {
            file.extend(ended([sample::line(&mut plan.random)]));
        }
        if unfinished {
            file.pop();
        }
        plan.walk(&file);
        for _ in 0..3 {
            let place = plan.random.below(file.len()) as u64;
            plan.numbered(Op::Line, place, file.clone());
        }
    }
    let fields = sample::short_fields(&mut plan.random, Kind::VkloadResp, Signed::No);
    let short = sample::of_kind(Kind::VkloadResp, &fields);
    let damaged = sample::damaged(&mut plan.random, Kind::VkloadResp, &short, Place::Check, 1);
    plan.walk(&ended([short.clone(), damaged, short.clone(), Vec::new(), short]));
}

fn counts(plan: &mut Plan) {
    for length in [0, 1, 2, 3, 10, 255, 256, 1025] {
        plan.call(Op::Count, vec![b'\n'; length]);
    }
    for length in 1..=12 {
        let bytes = plan.random.bytes_of(b"\nx|", length);
        plan.call(Op::Count, bytes);
    }
    for _ in 0..4 {
        let mut file = Vec::new();
        for _ in 0..plan.random.between(3, 9) {
            file.extend(sample::line(&mut plan.random));
            file.push(b'\n');
        }
        if plan.random.once_in(2) {
            file.pop();
        }
        plan.call(Op::Count, file);
    }
}
