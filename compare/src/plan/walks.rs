//! A reader's first step, and steps from a place.

use super::Plan;
use crate::calls::Op;
use compare::file::lines;
use compare::kind::Kind;
use compare::record::LONGEST_READ;
use compare::sample::{self, Fault, Signed};
use compare::worked::worked;

pub fn add(plan: &mut Plan) {
    for file in files(plan) {
        plan.call(Op::Reader, file.clone());
        steps(plan, &file);
    }
}

/// Files of few lines: empty, unfinished, with carriage returns, of every kind, damaged, too long.
fn files(plan: &mut Plan) -> Vec<Vec<u8>> {
    let texts = [
        "",
        "\n",
        "\n\n\n",
        "x",
        "x\n",
        "\nPK.ECDH.2|x\nabc",
        "\r\n\r",
        "|\n:\n",
        "\0\n\0",
        "a\n\nb",
    ];
    let mut files: Vec<Vec<u8>> = texts.map(Into::into).into();
    let response = worked("VKLOADRESP");
    files.push([&response[..], b"\n"].concat());
    files.push(response.clone());
    for length in [LONGEST_READ, LONGEST_READ + 1] {
        files.push([&vec![b'|'; length][..], b"\n", &response, b"\n"].concat());
    }
    for kind in Kind::ALL {
        let fields = sample::short_fields(&mut plan.random, kind, Signed::No);
        let record = sample::of_kind(kind, &fields);
        files.push([&record[..], b"\n\n", &record, b"\r\n", &record].concat());
        let faults = Fault::of(kind);
        let fault = faults[1 + plan.random.below(faults.len() - 1)];
        let faulty = sample::faulty(&mut plan.random, kind, &[fault]);
        files.push([&faulty[..], b"\n", &record, b"\n"].concat());
    }
    files
}

/// A place in the file, the one after its first line, and one at the end or past it.
fn steps(plan: &mut Plan, file: &[u8]) {
    let end = file.len();
    let inside = plan.random.between(0, end) as u64;
    let second = lines(file).next().map_or(0, |line| line.next);
    let past = plan.random.one_of(&[end as u64, end as u64 + 1, u64::MAX]);
    for place in [inside, second, past] {
        plan.numbered(Op::StepFrom, place, file);
    }
}
