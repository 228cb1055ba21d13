//! Writes the case file and the answers to it: `compare CASES ANSWERS`.
//!
//! The same two files come out every time. The answers are those of this package; another
//! implementation is right when it gives the same.

mod calls;
mod case_file;
mod cases;
mod plan;
mod steps;

use calls::{Op, CALLS};
use case_file::case_file;
use cases::Case;
use std::process::ExitCode;

/// How often each call and each number must occur at least.
const LEAST: usize = 20;
/// The numbers given back: 0 to 28.
const NUMBERS: usize = 29;
/// What `crates/cases` has room for.
const LONGEST_CASE_FILE: usize = 4_194_304;

/// The two files, and how often each call and each number occurs.
struct Written {
    cases: Vec<u8>,
    answers: Vec<u8>,
    counts: String,
}

/// Answers every case.
///
/// # Panics
///
/// When a call or a number occurs too seldom, or there are too few or too many cases.
fn write(plan: &[Case]) -> Written {
    let mut answers = Vec::new();
    let mut calls = [0; CALLS.len()];
    let mut numbers = [0; NUMBERS];
    for case in plan {
        let answer = case.answer();
        let is_block = case.op == Op::WriteMail;
        assert!(is_block || !answer.line.contains(&b'\n'), "an answer is one line");
        answers.extend_from_slice(&answer.line);
        answers.push(b'\n');
        calls[case.op as usize] += 1;
        if let Some(number) = answer.number {
            numbers[usize::from(number)] += 1;
        }
    }

    let mut counts = String::new();
    for (call, count) in CALLS.iter().map(calls::Call::name).zip(calls) {
        assert!(count >= LEAST, "{call} occurs {count} times");
        counts += &format!("calls {call} {count}\n");
    }
    for (number, count) in numbers.into_iter().enumerate() {
        assert!(count >= LEAST, "number {number} occurs {count} times");
        counts += &format!("number {number} {count}\n");
    }

    let cases = case_file(plan);
    assert!((3000..=20_000).contains(&plan.len()), "{} cases", plan.len());
    assert!(cases.len() <= LONGEST_CASE_FILE, "a case file of {} bytes", cases.len());
    Written { cases, answers, counts }
}

fn main() -> ExitCode {
    let arguments: Vec<_> = std::env::args_os().skip(1).collect();
    let [case_file, answer_file] = &arguments[..] else {
        eprintln!("usage: compare CASES ANSWERS");
        return ExitCode::from(2);
    };
    let plan = plan::all();
    let written = write(&plan);
    for (path, bytes) in [(case_file, &written.cases), (answer_file, &written.answers)] {
        if let Err(error) = std::fs::write(path, bytes) {
            eprintln!("{}: {error}", path.to_string_lossy());
            return ExitCode::FAILURE;
        }
    }
    print!("{}", written.counts);
    println!("cases {}", plan.len());
    println!("bytes {} {}", written.cases.len(), written.answers.len());
    ExitCode::SUCCESS
}

#[cfg(test)]
mod tests {
    use super::*;
    use crate::cases::Form;
    use compare::mail::ROW;
    use std::path::Path;

    /// The calls that docs/CONTRACTS.md says are for users. `.ci/tiers` holds that page against the
    /// library's public functions.
    fn calls_for_users() -> Vec<String> {
        let page = Path::new(env!("CARGO_MANIFEST_DIR")).join("../docs/CONTRACTS.md");
        let page = std::fs::read_to_string(page).expect("the page of contracts");
        let rows =
            page.lines().filter_map(|line| line.strip_prefix("| `")?.split_once("` | users |"));
        rows.map(|(call, _)| call.to_owned()).collect()
    }

    /// The names that a call of `CALLS` stands for: `Crc::begin,add,end` is three.
    fn names(call: &calls::Call) -> Vec<String> {
        let (of, names) = match call.name().split_once("::") {
            Some((of, names)) => (format!("{of}::"), names),
            None => (String::new(), call.name()),
        };
        names.split(',').map(|name| format!("{of}{name}")).collect()
    }

    #[test]
    fn exactly_the_calls_for_users_have_cases() {
        let mut for_users = calls_for_users();
        let mut with_cases: Vec<String> = CALLS.iter().flat_map(names).collect();
        for_users.sort();
        // A history makes calls that have cases of their own.
        with_cases.sort();
        with_cases.dedup();
        assert_eq!(with_cases, for_users);
    }

    /// The cases of each call.
    fn by_call(plan: &[Case]) -> impl Iterator<Item = (&'static str, Vec<&Case>)> + '_ {
        CALLS.iter().enumerate().map(|(index, call)| {
            (call.name(), plan.iter().filter(|case| case.op as usize == index).collect())
        })
    }

    #[test]
    fn every_call_is_given_more_bytes_than_a_number_of_two_bytes_can_say() {
        for (call, cases) in by_call(&plan::all()) {
            // The calls of a cabinet are lent n bytes.
            let lent =
                |case: &Case| if steps::CALLS.contains(&case.op) { case.n as usize } else { 0 };
            let of_all = cases.iter().map(|case| case.a.len().max(case.b.len()).max(lent(case)));
            let longest = of_all.max();
            assert!(longest > Some(usize::from(u16::MAX)), "{call}");
        }
    }

    #[test]
    fn every_text_type_and_reading_call_is_given_every_byte_value() {
        for (call, cases) in by_call(&plan::all()) {
            let is_swept = |start| call.starts_with(start);
            let swept = ["is_", "read_", "attribute_place", "check_", "moment_of", "expiry_of"];
            if swept.into_iter().any(is_swept) {
                assert!(cases.iter().any(|case| case.form == Form::EveryByte), "{call}");
            }
        }
    }

    #[test]
    fn the_files_come_out_the_same_every_time() {
        let (first, second) = (write(&plan::all()), write(&plan::all()));
        assert!(first.cases == second.cases);
        assert!(first.answers == second.answers);
    }

    /// A block of a record by mail has a line for each row and each guard.
    #[test]
    fn every_case_has_its_line_and_a_block_its_own() {
        let plan = plan::all();
        let is_block = |case: &&Case| {
            case.op == Op::WriteMail && case.answer().number.is_some_and(|number| number == 0)
        };
        let of_blocks = plan.iter().filter(is_block).map(|case| 2 + case.a.len().div_ceil(ROW));
        let lines = plan.len() + of_blocks.sum::<usize>();
        let answers = write(&plan).answers;
        assert_eq!(answers.iter().filter(|&&byte| byte == b'\n').count(), lines);
    }
}
