//! Request E8: histories, calls on one cabinet one after another. Those with admissions are in `admissions.rs`.

use super::pool::{Pool, SUBJECTS};
use super::Plan;
use crate::calls::Op;
use crate::steps::{Part, Step};
use compare::cabinet::PLACES;
use compare::random::Random;

/// How many histories are drawn, and the steps of each after it is full.
const DRAWN: usize = 20;
const STEPS: usize = 200;

pub fn add(plan: &mut Plan) {
    let pool = Pool::new();
    orders(plan, &pool);
    waves(plan, &pool);
    for index in 0..DRAWN {
        let steps = drawn(&mut plan.random, &pool, [4, 8, 16][index % 3]);
        plan.history(&pool, steps);
    }
}

impl Plan {
    /// A history whose steps take their parts from a text.
    pub(super) fn history(
        &mut self,
        text: &impl AsRef<[u8]>,
        steps: impl IntoIterator<Item = Step>,
    ) {
        let c = steps.into_iter().flat_map(Step::bytes).collect();
        self.case(Op::Filing, 0, text.as_ref().to_vec(), Vec::new(), c);
    }
}

pub(super) const NOTHING: Part = Part { start: 0, end: 0 };

/// A step of a history that asks how many there are.
fn counted() -> Step {
    Step::Call(Op::CountKeys, NOTHING)
}

/// The numbers below a limit, in any order.
pub(super) fn in_any_order(random: &mut Random, limit: usize) -> Vec<usize> {
    let mut all: Vec<usize> = (0..limit).collect();
    for index in (1..limit).rev() {
        all.swap(index, random.below(index + 1));
    }
    all
}

/// All places are filled, one more is refused, all are removed in another order, and filled again in a third.
fn orders(plan: &mut Plan, pool: &Pool) {
    let put = |subject: usize| Step::Call(Op::PutKey, pool.keys[subject].first);
    let remove = |subject: usize| Step::Call(Op::RemoveKey, pool.keys[subject].identity);
    let [out, again] = [(); 2].map(|()| in_any_order(&mut plan.random, PLACES));
    let mut steps: Vec<Step> = (0..=PLACES).map(put).collect();
    steps.extend(out.into_iter().map(remove));
    steps.extend([remove(0), counted()]);
    steps.extend(again.into_iter().map(put));
    steps.extend([put(PLACES), counted(), Step::Call(Op::CheckCabinet, NOTHING)]);
    steps.extend((0..8).map(|subject| Step::Call(Op::KeyPlace, pool.keys[subject].identity)));
    steps.extend([Step::Call(Op::MakeCabinet, NOTHING), counted(), remove(9)]);
    plan.history(pool, steps);
}

/// Of a full cabinet some are removed at a time, and others take their places.
fn waves(plan: &mut Plan, pool: &Pool) {
    let mut steps: Vec<Step> =
        pool.keys[..PLACES].iter().map(|keys| Step::Call(Op::PutKey, keys.first)).collect();
    for size in [1, 2, 5, 12, 24] {
        let order = in_any_order(&mut plan.random, SUBJECTS);
        let removed = order[..size + SUBJECTS - PLACES].iter();
        steps.extend(removed.map(|&who| Step::Call(Op::RemoveKey, pool.keys[who].identity)));
        let order = in_any_order(&mut plan.random, SUBJECTS);
        let put = order[..2 * size + 8].iter();
        steps.extend(put.map(|&who| Step::Call(Op::PutKey, pool.keys[who].later)));
        steps.push(counted());
    }
    plan.history(pool, steps);
}

/// All places are filled, and then come steps of every sort; one in so many puts and removals is a removal.
fn drawn(random: &mut Random, pool: &Pool, removal: usize) -> Vec<Step> {
    let order = in_any_order(random, SUBJECTS);
    let put = |&who: &usize| Step::Call(Op::PutKey, pool.keys[who].first);
    let mut steps: Vec<Step> = order[..PLACES].iter().map(put).collect();
    steps.extend((0..STEPS).map(|_| drawn_step(random, pool, removal)));
    steps
}

fn drawn_step(random: &mut Random, pool: &Pool, removal: usize) -> Step {
    let keys = &pool.keys[random.below(SUBJECTS)];
    match random.below(32) {
        0 => Step::Call(Op::CheckCabinet, NOTHING),
        1 | 2 => counted(),
        3..=5 => Step::Call(Op::KeyPlace, keys.identity),
        6..=8 => Step::Call(Op::FindKey, keys.identity),
        9 => Step::Call(Op::PutKey, random.one_of(&pool.no_keys)),
        10 => {
            let op = random.one_of(&[Op::RemoveKey, Op::KeyPlace, Op::FindKey]);
            Step::Call(op, random.one_of(&pool.no_identities))
        }
        11 if random.once_in(24) => Step::Call(Op::MakeCabinet, NOTHING),
        12 => Step::Call(Op::PutKey, random.one_of(&pool.longest)),
        _ if random.once_in(removal) => Step::Call(Op::RemoveKey, keys.identity),
        _ => {
            let later = [keys.first, keys.first, keys.later];
            let choices = [&later[..], &keys.not_later].concat();
            Step::Call(Op::PutKey, random.one_of(&choices))
        }
    }
}

#[cfg(test)]
mod tests {
    use crate::calls::Op;
    use crate::plan;
    use std::collections::BTreeMap;

    /// Every number that a history can have comes often.
    #[test]
    fn histories_have_all_numbers() {
        let mut counts = BTreeMap::new();
        let plan = plan::all();
        for case in plan.iter().filter(|case| case.op == Op::Filing) {
            for (op, number) in case.numbers_of_history() {
                *counts.entry((op.call().name(), number)).or_insert(0) += 1;
            }
        }
        for (name, number, least) in [
            ("put_key", 0, 1000),
            ("put_key", 24, 300),
            ("put_key", 25, 150),
            ("put_key", 2, 10),
            ("put_key", 6, 5),
            ("put_key", 7, 5),
            ("remove_key", 0, 300),
            ("remove_key", 26, 100),
            ("remove_key", 4, 5),
            ("key_place", 0, 200),
            ("key_place", 26, 50),
            ("find_key", 0, 200),
            ("find_key", 26, 50),
            ("count_keys", 0, 200),
            ("admit", 0, 500),
            ("admit", 26, 200),
            ("admit", 27, 500),
            ("admit", 2, 20),
            ("admit", 4, 5),
            ("admit", 6, 5),
            ("admit", 9, 5),
        ] {
            let count = counts.get(&(name, number)).copied().unwrap_or(0);
            assert!(count >= least, "{name} {number}: {count}");
        }
        assert!(counts.keys().all(|&(_, number)| number != 23));
        assert!(counts.values().sum::<usize>() >= 5000);
    }
}
