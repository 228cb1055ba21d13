//! The cases, group by group. Each group has its own seed, so that a change in one leaves the
//! others as they are.

mod admissions;
mod agreement;
mod alphabets;
mod attic;
mod attributes;
mod building;
mod cabinets;
mod confirmations;
mod dates;
mod expiries;
mod fields;
mod files;
mod fingerprints;
mod guards;
mod hashes;
mod histories;
mod hmacs;
mod lists;
mod long;
mod mail;
mod moments;
mod newer;
mod old;
mod places;
mod pool;
mod reading;
mod sha1;
mod stored;
mod trailed_files;
mod trailers;
mod types;
mod unsigned;
mod walks;
mod wrapped;

use crate::calls::Op;
use crate::cases::{Case, Form};
use compare::random::Random;

/// The cases so far, and the numbers that the group at work draws.
pub struct Plan {
    cases: Vec<Case>,
    random: Random,
}

/// All cases, in order.
pub fn all() -> Vec<Case> {
    let groups: &[fn(&mut Plan)] = &[
        types::add,
        reading::add,
        fields::add,
        building::add,
        agreement::add,
        files::add,
        newer::add,
        walks::add,
        places::add,
        newer::which,
        alphabets::add,
        long::add,
        wrapped::add,
        lists::add,
        attributes::add,
        dates::add,
        hashes::add,
        fingerprints::add,
        hmacs::add,
        confirmations::add,
        sha1::add,
        trailers::add,
        trailed_files::add,
        mail::add,
        guards::add,
        cabinets::add,
        histories::add,
        moments::add,
        expiries::add,
        stored::add,
        admissions::add,
        unsigned::add,
        old::add,
    ];
    let mut plan = Plan { cases: Vec::new(), random: Random::with_seed(0) };
    for (seed, add) in (1..).zip(groups) {
        plan.random = Random::with_seed(seed);
        add(&mut plan);
    }
    plan.cases
}

impl Plan {
    fn case(&mut self, op: Op, n: u64, a: Vec<u8>, b: Vec<u8>, c: Vec<u8>) {
        self.cases.push(Case { op, form: Form::Once, n, a, b, c });
    }

    /// A call that is given bytes.
    fn call(&mut self, op: Op, a: impl Into<Vec<u8>>) {
        self.case(op, 0, a.into(), Vec::new(), Vec::new());
    }

    /// A call that is given bytes and a number.
    fn numbered(&mut self, op: Op, n: u64, a: impl Into<Vec<u8>>) {
        self.case(op, n, a.into(), Vec::new(), Vec::new());
    }

    /// A call that is given two byte strings.
    fn pair(&mut self, op: Op, a: impl Into<Vec<u8>>, b: impl Into<Vec<u8>>) {
        self.case(op, 0, a.into(), b.into(), Vec::new());
    }

    /// A building call with fields and their own lengths.
    fn build(&mut self, room: usize, name: impl Into<Vec<u8>>, fields: &[Vec<u8>]) {
        let lengths: Vec<u64> = fields.iter().map(|field| field.len() as u64).collect();
        self.build_of(room, name, fields.concat(), &lengths);
    }

    /// A building call with field bytes and any lengths, as many as `crates/cases` takes.
    fn build_of(&mut self, room: usize, name: impl Into<Vec<u8>>, bytes: Vec<u8>, lengths: &[u64]) {
        assert!(lengths.len() <= 8, "at most eight lengths");
        let lengths = lengths.iter().flat_map(|length| length.to_be_bytes()).collect();
        self.case(Op::Build, room as u64, name.into(), bytes, lengths);
    }
}
