//! Request E11: cabinets in which old records lie, unsigned keys of modules that were put under earlier rules. No call
//! puts one in, so all of them are written.

use super::attic::{Attic, CROWD, MODULES, TVPS};
use super::histories::{in_any_order, NOTHING};
use super::pool::{hold, number, number_of, tvp, write, GNTS, NEAR_NAMES};
use super::Plan;
use crate::calls::Op;
use crate::steps::{Part, Step};
use compare::cabinet::{NUMBER_AT, PLACES, SIZE, START, TVP_AT, WIDTH};
use compare::kind::Kind;
use compare::random::Random;
use compare::sample::{self, PublicKey, Subject};
use compare::text::PRINT_DIGITS;
use compare::worked::{worked, UNSIGNED};

pub fn add(plan: &mut Plan) {
    let attic = Attic::new(&mut plan.random);
    every_call(plan, &attic);
    replacements(plan, &attic);
    tvps(plan, &attic);
    removals(plan, &attic);
    names(plan, &attic);
    twins(plan, &attic);
    own_refusals(plan, &attic);
    images(plan, &attic);
    never_accepted(plan, &attic);
    numbers(plan, &attic);
    full(plan, &attic);
    every_byte(plan);
    for index in 0..HISTORIES {
        let image = image(&mut plan.random, &attic, index);
        let calls = drawn(&mut plan.random, &attic);
        step_by_step(plan, &attic, &image, &calls);
    }
}

/// How many histories are drawn, and the calls of each.
const HISTORIES: usize = 9;
const CALLS: usize = 32;

/// Every call on 003's old key, alone in a place, and on what each change makes of it.
fn every_call(plan: &mut Plan, attic: &Attic) {
    let module = &attic.modules[0];
    let put = |part| Step::Call(Op::PutKey, part);
    let remove = Step::Call(Op::RemoveKey, module.identity);
    let admit = Step::Call(Op::Admit, module.requests[3]);
    for place in [0, 63] {
        let held = attic.held(0, place, 0);
        let changes: [&[Step]; 10] = [
            &[],
            &[admit],
            &[put(module.old[0])],
            &[put(module.old[1])],
            &[put(module.signed[0])],
            &[put(module.signed[1])],
            &[put(module.signed[2])],
            &[put(module.signed[2]), admit],
            &[remove],
            &[remove, put(module.signed[0])],
        ];
        for change in changes {
            let steps = [&held[..], change].concat();
            let later = attic.bytes(module.signed[3]);
            plan.file_all(&attic.text, SIZE, &steps, [later, &worked("ID_SM")]);
        }
    }
    plan.file(&attic.text, Op::MakeCabinet, &attic.held(0, 5, 3), b"");
    // Bytes of another length are no cabinet, whatever is put.
    for room in [SIZE - 1, SIZE + 1] {
        let parts = [module.old[0], module.identity].map(|part| attic.bytes(part));
        plan.file_all(&attic.text, room, &attic.held(0, 5, 3), parts);
    }
}

/// Keys of every time on old and on signed keys of every time; an unsigned one is refused whatever is there.
fn replacements(plan: &mut Plan, attic: &Attic) {
    for (module, place) in attic.modules.iter().zip([63, 0, 17]) {
        let there = [module.old[0], module.old[1], module.signed[1]];
        for held in there {
            for new in module.signed.into_iter().chain(module.old) {
                plan.file(&attic.text, Op::PutKey, &hold(held, place), attic.bytes(new));
            }
        }
        for new in module.old {
            plan.file(&attic.text, Op::PutKey, &[], attic.bytes(new));
        }
    }
}

/// A replacement keeps the TVP of the old record, and a removal drops it; until then no request is admitted.
fn tvps(plan: &mut Plan, attic: &Attic) {
    for time in 0..TVPS.len() {
        let index = time % MODULES;
        let module = &attic.modules[index];
        let held = attic.held(index, time * 9, time);
        let replaced = [&held[..], &[Step::Call(Op::PutKey, module.signed[2])]].concat();
        let refused = [&held[..], &[Step::Call(Op::PutKey, module.signed[1])]].concat();
        let removed = Step::Call(Op::RemoveKey, module.identity);
        let again = [&held[..], &[removed, Step::Call(Op::PutKey, module.signed[0])]].concat();
        for &request in &module.requests {
            for steps in [&replaced, &again] {
                plan.file(&attic.text, Op::Admit, steps, attic.bytes(request));
            }
        }
        for steps in [&held, &refused] {
            for request in [0, 3, 5] {
                let request = module.requests[request];
                plan.file(&attic.text, Op::Admit, steps, attic.bytes(request));
            }
        }
        plan.file(&attic.text, Op::FindKey, &replaced, attic.bytes(module.identity));
    }
}

/// A removed old record leaves zeros, which the next first put takes, of its own Subject or of another.
fn removals(plan: &mut Plan, attic: &Attic) {
    let other = &attic.modules[1];
    for place in [0, 40, 63] {
        let mut steps = [attic.held(0, place, 4), attic.held(1, place ^ 1, 1)].concat();
        plan.file(&attic.text, Op::RemoveKey, &steps, &worked("ID_SM"));
        steps.push(Step::Call(Op::RemoveKey, attic.modules[0].identity));
        for op in [Op::RemoveKey, Op::KeyPlace, Op::FindKey] {
            plan.file(&attic.text, op, &steps, &worked("ID_SM"));
        }
        plan.file(&attic.text, Op::CountKeys, &steps, b"");
        plan.file(&attic.text, Op::PutKey, &steps, &worked("PUBKEY_SM"));
        plan.file(&attic.text, Op::PutKey, &steps, &worked(UNSIGNED));
        plan.file(&attic.text, Op::PutKey, &steps, attic.bytes(other.signed[2]));
        plan.file(&attic.text, Op::RemoveKey, &steps, attic.bytes(other.identity));
    }
}

/// An old record is named by kind, Manufacturer and MID, whatever GNT and Fingerprint the identity has.
fn names(plan: &mut Plan, attic: &Attic) {
    let steps = [attic.held(0, 11, 2), attic.held(1, 12, 3)].concat();
    let subject = &attic.modules[0].subject;
    let mut named: Vec<Subject> =
        GNTS.map(|gnt| Subject { gnt: gnt.into(), ..subject.clone() }).to_vec();
    named.extend([Kind::Smman, Kind::Kmcid].map(|kind| Subject { kind, ..subject.clone() }));
    named.extend(NEAR_NAMES.map(|(manufacturer, mid)| Subject {
        manufacturer: manufacturer.into(),
        mid: mid.into(),
        ..subject.clone()
    }));
    for subject in named {
        let identity = subject.identity(sample::hex(&mut plan.random, PRINT_DIGITS));
        for op in [Op::RemoveKey, Op::FindKey] {
            plan.file(&attic.text, op, &steps, &identity);
        }
    }
}

/// Unsigned keys of a centre and of a manufacturer with the names of an old record are put, found and left alone.
fn twins(plan: &mut Plan, attic: &Attic) {
    let module = &attic.modules[0];
    for (&twin, place) in attic.twins.iter().zip([3, 60]) {
        let held = attic.held(0, 30, 3);
        plan.file(&attic.text, Op::PutKey, &held, attic.bytes(twin));
        let steps = [&held[..], &hold(twin, place)].concat();
        let identity = PublicKey::of_record(attic.bytes(twin)).fields().swap_remove(0);
        for identity in [&identity[..], attic.bytes(module.identity)] {
            for op in [Op::KeyPlace, Op::FindKey, Op::RemoveKey] {
                plan.file(&attic.text, op, &steps, identity);
            }
        }
        plan.file(&attic.text, Op::Admit, &steps, attic.bytes(module.requests[5]));
        for key in module.signed {
            plan.file(&attic.text, Op::PutKey, &steps, attic.bytes(key));
        }
    }
}

/// A record's own refusals, 28 among them, come before 24, and 23 before them.
fn own_refusals(plan: &mut Plan, attic: &Attic) {
    let module = &attic.modules[0];
    let held = attic.held(0, 8, 3);
    for &part in &attic.no_keys {
        plan.file(&attic.text, Op::PutKey, &held, attic.bytes(part));
    }
    let mut wrong = worked("ID_SM");
    let last = wrong.last_mut().expect("a character");
    *last = b'0';
    for op in [Op::RemoveKey, Op::KeyPlace, Op::FindKey] {
        plan.file(&attic.text, op, &held, &wrong);
        plan.file(&attic.text, op, &held, attic.bytes(module.old[0]));
    }
    plan.file(&attic.text, Op::Admit, &held, attic.bytes(module.old[0]));
    let spoiled = [&held[..], &[Step::Write(attic.letter, 9 * WIDTH)]].concat();
    let parts = [module.old[1], module.identity].map(|part| attic.bytes(part));
    plan.file_all(&attic.text, SIZE, &spoiled, parts);
}

/// Bytes that are no cabinet, though an old record stands in them.
fn images(plan: &mut Plan, attic: &Attic) {
    let module = &attic.modules[0];
    let [one, other] = module.old;
    let length = one.end - one.start;
    let at = |part, byte: usize| Step::Write(part, 20 * WIDTH + byte);
    let beside = |more: &[Step]| [&hold(one, 20)[..], more].concat();
    let images = [
        // Two of the same names.
        beside(&hold(one, 21)),
        beside(&hold(other, 0)),
        beside(&hold(module.signed[1], 63)),
        beside(&hold(module.signed[3], 19)),
        // Something behind it, a zero in it, another check, and no line feed.
        beside(&[at(attic.letter, length)]),
        beside(&[at(attic.letter, length + 1)]),
        beside(&[at(attic.letter, TVP_AT - 1)]),
        beside(&[at(attic.zero, length - 1)]),
        beside(&[at(attic.zero, 0)]),
        beside(&[at(attic.letter, length - 1)]),
        vec![at(one, 1), hold(one, 20)[1]],
        // Without its TVP, without its number, and without both.
        vec![write(one, 20)],
        vec![write(one, 20), number(number_of(one), 20)],
        vec![write(one, 20), tvp(attic.tvps[0], 20)],
    ];
    for image in &images {
        let later = attic.bytes(module.signed[3]);
        plan.file_all(&attic.text, SIZE, image, [later, &worked("ID_SM")]);
    }
    for &part in &attic.no_tvps {
        let image = beside(&[tvp(part, 20)]);
        plan.file(&attic.text, Op::CheckCabinet, &image, b"");
        plan.file(&attic.text, Op::Admit, &image, attic.bytes(module.requests[5]));
    }
}

/// What the rules up to E10 refuse in a place, alone and beside an old record.
fn never_accepted(plan: &mut Plan, attic: &Attic) {
    let old = hold(attic.modules[0].old[0], 20);
    let fits = |part: &&Part| part.end - part.start <= TVP_AT;
    for (index, &part) in attic.no_keys.iter().filter(fits).enumerate() {
        plan.file(&attic.text, Op::CheckCabinet, &hold(part, index), b"");
        let steps = [old, hold(part, index + 21)].concat();
        plan.file(&attic.text, Op::CountKeys, &steps, b"");
    }
}

/// The number of an old record is that of its Expiry, as of any.
fn numbers(plan: &mut Plan, attic: &Attic) {
    let module = &attic.modules[0];
    for (index, &other) in attic.mistaken.iter().enumerate() {
        let place = [0, 63, 31][index % 3];
        let steps =
            [&attic.held(0, place, index % TVPS.len())[..], &[number(other, place)]].concat();
        plan.file(&attic.text, Op::CheckCabinet, &steps, b"");
        plan.file(&attic.text, Op::RemoveKey, &steps, attic.bytes(module.identity));
        let again = [&steps[..], &[number(number_of(module.old[0]), place)]].concat();
        plan.file(&attic.text, Op::CheckCabinet, &again, b"");
    }
}

/// All places occupied, all of them by old records, every second, or one: there is room for no other Subject, and the
/// old ones give their places to their own.
fn full(plan: &mut Plan, attic: &Attic) {
    let is_old: [fn(usize) -> bool; 5] = [
        |_| true,
        |place| place % 2 == 0,
        |place| place == 0,
        |place| place == 31,
        |place| place == 63,
    ];
    for is_old in is_old {
        let key = |place: usize| {
            let head = &attic.crowd[place];
            hold(if is_old(place) { head.old } else { head.signed }, place)
        };
        let steps: Vec<Step> = (0..PLACES).flat_map(key).collect();
        for op in [Op::CheckCabinet, Op::CountKeys] {
            plan.file(&attic.text, op, &steps, b"");
        }
        let other = &attic.crowd[PLACES];
        for part in [other.signed, other.old, attic.twins[0], attic.modules[0].signed[1]] {
            plan.file(&attic.text, Op::PutKey, &steps, attic.bytes(part));
        }
        for place in [0, 1, 31, 63] {
            let head = &attic.crowd[place];
            for op in [Op::FindKey, Op::KeyPlace, Op::RemoveKey] {
                plan.file(&attic.text, op, &steps, attic.bytes(head.identity));
            }
            plan.file(&attic.text, Op::PutKey, &steps, attic.bytes(head.signed));
            plan.file(&attic.text, Op::PutKey, &steps, attic.bytes(head.old));
            let removed = [&steps[..], &[Step::Call(Op::RemoveKey, head.identity)]].concat();
            plan.file(&attic.text, Op::PutKey, &removed, attic.bytes(other.signed));
        }
    }
}

/// Every byte value in a place with an old record: in its first byte, behind it, in its number, and in its Subject, its
/// Expiry and its marks, with the check made right again; the number of the last sort is 0.
fn every_byte(plan: &mut Plan) {
    let key = worked(UNSIGNED);
    let number = compare::moment::expiry_of(&worked("PUBKEY_SM")).expect("a key").to_be_bytes();
    let place = [&key[..], &vec![0; TVP_AT - key.len()], &START, &number].concat();
    for byte in [0, key.len() - 1, key.len(), TVP_AT - 1].into_iter().chain(NUMBER_AT..WIDTH) {
        plan.every_byte(Op::CheckCabinet, [0, 63, 31][byte % 3], &place, byte);
    }
    let expiry = b"19930101T000000Z".to_vec();
    let key = PublicKey { expiry, ..PublicKey::of_record(&key) }.record();
    let end = key.len() - 4;
    for byte in [10, 16, end - 3, end - 2, end - 1] {
        plan.every_byte_checked(Op::CheckCabinet, 2, &key, byte);
    }
}

/// An image of an earlier release: keys of modules, mostly old, with any TVP and in any places, and some of the crowd,
/// which fills every third image.
fn image(random: &mut Random, attic: &Attic, index: usize) -> Vec<Step> {
    let mut places = in_any_order(random, PLACES).into_iter();
    let mut steps = Vec::new();
    for (module, place) in attic.modules[1..].iter().zip(&mut places) {
        let keys = [module.old[0], module.old[0], module.old[1], module.signed[1]];
        steps.extend(hold(random.one_of(&keys), place));
        steps.push(tvp(random.one_of(&attic.tvps), place));
    }
    let heads = if index % 3 == 0 { PLACES } else { 6 };
    for (head, place) in attic.crowd[..heads].iter().zip(places) {
        steps.extend(hold(random.one_of(&[head.old, head.signed]), place));
    }
    steps
}

/// Calls of every sort; most of them are about the modules with keys of several times.
fn drawn(random: &mut Random, attic: &Attic) -> Vec<(Op, Part)> {
    let call = |_| {
        let module = &attic.modules[random.below(MODULES)];
        let head = &attic.crowd[random.below(CROWD)];
        match random.below(24) {
            0 => (Op::CheckCabinet, NOTHING),
            1 => (Op::CountKeys, NOTHING),
            2 => (Op::KeyPlace, module.identity),
            3 => (Op::FindKey, module.identity),
            4 => (Op::FindKey, head.identity),
            5 => (Op::PutKey, random.one_of(&module.old)),
            6 => (Op::PutKey, random.one_of(&[head.old, attic.twins[0], attic.twins[1]])),
            7 => (Op::PutKey, random.one_of(&attic.no_keys)),
            8..=10 => (Op::PutKey, head.signed),
            11 => (Op::RemoveKey, head.identity),
            12 => (Op::RemoveKey, module.identity),
            13..=17 => (Op::Admit, random.one_of(&module.requests)),
            _ => (Op::PutKey, random.one_of(&module.signed)),
        }
    };
    (0..CALLS).map(call).collect()
}

/// Each call of a history on what all before it made of the image. A case has the steps before its call, so that
/// every answer is seen, and all bytes after it.
fn step_by_step(plan: &mut Plan, attic: &Attic, image: &[Step], calls: &[(Op, Part)]) {
    let mut steps = image.to_vec();
    for &(op, part) in calls {
        plan.file(&attic.text, op, &steps, attic.bytes(part));
        if [Op::PutKey, Op::RemoveKey, Op::Admit].contains(&op) {
            steps.push(Step::Call(op, part));
        }
    }
}
