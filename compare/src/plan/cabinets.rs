//! Request E8: the centre's key cabinet. Many calls one after another are in `histories.rs`, the numbers in its
//! places in `stored.rs`, and the TVPs in `admissions.rs`.

use super::long::{Block, Part as LongPart, MORE};
use super::pool::{hold, write, Pool, GNTS, NEAR_NAMES, SUBJECTS};
use super::Plan;
use crate::calls::Op;
use crate::steps::{Part, Step};
use compare::cabinet::{NUMBER_AT, PLACES, SIZE, START, TVP_AT, WIDTH};
use compare::kind::Kind;
use compare::moment::moment_of;
use compare::sample::{self, PublicKey, Subject};
use compare::text::PRINT_DIGITS;
use compare::worked::worked;

pub fn add(plan: &mut Plan) {
    let pool = Pool::new();
    worked_keys(plan, &pool);
    making(plan, &pool);
    lengths(plan, &pool);
    counts(plan, &pool);
    full(plan, &pool);
    free_places(plan, &pool);
    removals(plan, &pool);
    replacements(plan, &pool);
    names(plan, &pool);
    own_refusals(plan, &pool);
    images(plan, &pool);
    twins(plan, &pool);
    longest(plan, &pool);
    every_byte(plan);
    long(plan, &pool);
    damaged(plan, &pool);
}

/// The calls that take an identity.
const BY_IDENTITY: [Op; 3] = [Op::RemoveKey, Op::KeyPlace, Op::FindKey];

/// The keys of document 003, each put and then found by its identity; the module's unsigned one is refused.
fn worked_keys(plan: &mut Plan, pool: &Pool) {
    let [centre, manufacturer, bare, module] = pool.worked;
    let put = |part| Step::Call(Op::PutKey, part);
    for part in pool.worked {
        plan.file(pool, Op::PutKey, &[], pool.bytes(part));
    }
    let three = [centre, manufacturer, module].map(put);
    for steps in [&three[..], &three[1..], &[put(bare)], &[put(module)], &[]] {
        plan.file(pool, Op::CountKeys, steps, b"");
        for name in ["ID_KMC", "ID_MAN", "ID_SM", "APPA_ID_KMC"] {
            for op in BY_IDENTITY {
                plan.file(pool, op, steps, &worked(name));
            }
        }
        for part in [bare, module] {
            plan.file(pool, Op::PutKey, steps, pool.bytes(part));
        }
    }
}

/// Cabinets are made of what is one, of other bytes, and not of another length.
fn making(plan: &mut Plan, pool: &Pool) {
    let ones: Vec<Step> = (0..PLACES).map(|place| write(pool.ones, place)).collect();
    for steps in [&[][..], &pool.lowest(1), &pool.full(), &ones, &ones[..1], &ones[63..]] {
        for room in [SIZE, SIZE - 1, SIZE + 1] {
            plan.file_in(room, pool, Op::MakeCabinet, steps, b"");
        }
    }
    for room in [0, 1, WIDTH, SIZE - WIDTH, SIZE + WIDTH] {
        plan.file_in(room, pool, Op::MakeCabinet, &ones[..2], b"");
    }
}

/// Bytes of another length are no cabinet, whatever the record and the identity are.
fn lengths(plan: &mut Plan, pool: &Pool) {
    let steps = pool.lowest(3);
    let good = [pool.record(70), pool.identity(1)];
    for room in [SIZE, SIZE - 1, SIZE + 1, 0, 1, WIDTH, SIZE - WIDTH, SIZE + WIDTH] {
        plan.file_all(pool, room, &steps, good);
    }
    for room in [SIZE - 1, SIZE + 1, 0] {
        plan.file_all(pool, room, &[], [b"x", b"x"]);
        plan.file_all(pool, room, &pool.full(), [pool.record(0), pool.identity(70)]);
    }
}

/// As many places occupied as there can be.
fn counts(plan: &mut Plan, pool: &Pool) {
    for count in 0..=PLACES {
        plan.file(pool, Op::CountKeys, &pool.lowest(count), b"");
    }
    // One alone.
    for place in [0, 1, 31, 32, 62, 63] {
        let steps = pool.shelf([(place, place)]);
        plan.file(pool, Op::CountKeys, &steps, b"");
    }
}

/// With all places occupied: every Subject is found, or is none of these; another is not put in, one of these
/// is when it is later, and stays in its place.
fn full(plan: &mut Plan, pool: &Pool) {
    let steps = pool.full();
    plan.file(pool, Op::CheckCabinet, &steps, b"");
    for subject in 0..SUBJECTS {
        plan.file(pool, Op::KeyPlace, &steps, pool.identity(subject));
    }
    for subject in (0..SUBJECTS).step_by(5) {
        plan.file(pool, Op::FindKey, &steps, pool.identity(subject));
        plan.file(pool, Op::RemoveKey, &steps, pool.identity(subject));
    }
    for keys in pool.keys[..PLACES].iter().step_by(3) {
        plan.file(pool, Op::PutKey, &steps, pool.bytes(keys.first));
        plan.file(pool, Op::PutKey, &steps, pool.bytes(keys.later));
        for &not_later in &keys.not_later {
            plan.file(pool, Op::PutKey, &steps, pool.bytes(not_later));
        }
    }
    for keys in &pool.keys[PLACES..] {
        plan.file(pool, Op::PutKey, &steps, pool.bytes(keys.first));
        plan.file(pool, Op::PutKey, &steps, pool.bytes(keys.later));
    }
    // The same by puts, one after another, and one more.
    let puts: Vec<Step> =
        pool.keys[..PLACES].iter().map(|keys| Step::Call(Op::PutKey, keys.first)).collect();
    plan.file(pool, Op::PutKey, &puts, pool.record(PLACES));
    plan.file(pool, Op::PutKey, &puts[..PLACES - 1], pool.record(PLACES));
    plan.file(pool, Op::CountKeys, &puts, b"");
}

/// A first put takes the lowest free place.
fn free_places(plan: &mut Plan, pool: &Pool) {
    let free: [&[usize]; 10] =
        [&[0], &[63], &[31], &[0, 63], &[62, 63], &[5, 9], &[1, 2, 3], &[8, 16, 32], &[0, 1], &[]];
    for free in free {
        let taken = (0..PLACES).filter(|place| !free.contains(place));
        let steps = pool.shelf(taken.map(|place| (place, place)));
        for subject in [70, 79] {
            plan.file(pool, Op::PutKey, &steps, pool.record(subject));
        }
        // One of those in it does not move to a lower place.
        plan.file(pool, Op::PutKey, &steps, pool.bytes(pool.keys[40].later));
        plan.file(pool, Op::CountKeys, &steps, b"");
    }
}

/// What was removed is free again: zeros, which the next put takes.
fn removals(plan: &mut Plan, pool: &Pool) {
    for place in [0, 1, 17, 31, 32, 62, 63] {
        plan.file(pool, Op::RemoveKey, &pool.full(), pool.identity(place));
        plan.file(pool, Op::RemoveKey, &pool.shelf([(3, place)]), pool.identity(3));
        let mut steps = pool.full();
        steps.push(Step::Call(Op::RemoveKey, pool.keys[place].identity));
        plan.file(pool, Op::PutKey, &steps, pool.record(75));
        for op in BY_IDENTITY {
            plan.file(pool, op, &steps, pool.identity(place));
        }
        // After the removal an earlier one is a first put.
        let subject = place / 6 * 6;
        let keys = &pool.keys[subject];
        let mut steps = pool.shelf([(subject, place)]);
        steps.push(Step::Call(Op::RemoveKey, keys.identity));
        plan.file(pool, Op::PutKey, &steps, pool.bytes(keys.not_later[0]));
    }
}

/// A key replaces one of its Subject where its GNT is later, and not where it is equal or earlier.
fn replacements(plan: &mut Plan, pool: &Pool) {
    for (place, keys) in [0, 63, 31, 5].into_iter().cycle().zip(pool.keys.iter().step_by(12)) {
        let all = [keys.not_later[0], keys.first, keys.not_later[1], keys.later];
        for new in all {
            for old in all {
                plan.file(pool, Op::PutKey, &hold(old, place), pool.bytes(new));
            }
        }
    }
    // Times that differ in each of their digits.
    let key = PublicKey::of_record(pool.bytes(pool.worked[0]));
    for place in (0..4).chain([5, 7, 10, 12, 14]) {
        let mut gnt = b"20180110T120000Z".to_vec();
        for step in [1, -1] {
            let digit = gnt[place].wrapping_add_signed(step);
            if digit.is_ascii_digit() {
                gnt[place] = digit;
                let subject = Subject { gnt: gnt.clone(), ..key.subject.clone() };
                let key = PublicKey { subject, ..key.clone() };
                plan.file(pool, Op::PutKey, &hold(pool.worked[0], 5), &key.record());
            }
            gnt = b"20180110T120000Z".to_vec();
        }
    }
}

/// What is found by an identity: the same kind, Manufacturer and MID, whatever GNT and Fingerprint it has.
fn names(plan: &mut Plan, pool: &Pool) {
    let subject = PublicKey::of_record(pool.bytes(pool.worked[3])).subject;
    let steps = [hold(pool.worked[3], 11), hold(pool.worked[0], 12)].concat();
    let mut named = |subject: Subject| {
        let print = sample::hex(&mut plan.random, PRINT_DIGITS);
        let identity = subject.identity(print);
        for op in BY_IDENTITY {
            plan.file(pool, op, &steps, &identity);
        }
    };
    for gnt in GNTS {
        named(Subject { gnt: gnt.into(), ..subject.clone() });
    }
    for kind in [Kind::Smman, Kind::Kmcid] {
        named(Subject { kind, ..subject.clone() });
    }
    for (manufacturer, mid) in NEAR_NAMES {
        let (manufacturer, mid) = (manufacturer.into(), mid.into());
        named(Subject { manufacturer, mid, ..subject.clone() });
    }
}

/// A record's own refusals come before 24 and 25, and an identity's own before 26.
fn own_refusals(plan: &mut Plan, pool: &Pool) {
    for (index, &part) in pool.no_keys.iter().enumerate() {
        let steps = if index % 2 == 0 { pool.full() } else { Vec::new() };
        plan.file(pool, Op::PutKey, &steps, pool.bytes(part));
    }
    for (index, &part) in pool.no_identities.iter().enumerate() {
        let steps = if index % 2 == 0 { pool.lowest(5) } else { Vec::new() };
        plan.file(pool, BY_IDENTITY[index % 3], &steps, pool.bytes(part));
    }
    // A key that would be 24 or 25, and an identity of what is there, each with another check.
    let with_other_check = |mut bytes: Vec<u8>| {
        let last = bytes.last_mut().expect("a character");
        *last = if *last == b'0' { b'1' } else { b'0' };
        bytes
    };
    for subject in [0, 40, 70] {
        let record = with_other_check(pool.record(subject).to_vec());
        plan.file(pool, Op::PutKey, &pool.full(), &record);
        let identity = with_other_check(pool.identity(subject).to_vec());
        for op in BY_IDENTITY {
            plan.file(pool, op, &pool.full(), &identity);
        }
        // An identity is not put, and a record names nobody.
        plan.file(pool, Op::PutKey, &pool.full(), pool.identity(subject));
        plan.file(pool, Op::KeyPlace, &pool.full(), pool.record(subject));
    }
}

/// Bytes that are no cabinet, each of them for every call: 23 before all.
fn images(plan: &mut Plan, pool: &Pool) {
    let (key, other) = (pool.keys[1].first, pool.keys[4].first);
    let length = key.end - key.start;
    // One byte of the text: a letter of the key's name, and its line feed.
    let letter = Part { start: key.start, end: key.start + 1 };
    let line_feed = Part { start: key.end, end: key.end + 1 };
    let zero = Part { start: pool.zeros.start, end: pool.zeros.start + 1 };
    let at = |part, place: usize, byte: usize| Step::Write(part, place * WIDTH + byte);
    // Keys in places, and more written over them.
    let with = |keys: &[(Part, usize)], more: &[Step]| -> Vec<Step> {
        let held = keys.iter().flat_map(|&(key, place)| hold(key, place));
        held.chain(more.iter().copied()).collect()
    };
    let mut images: Vec<Vec<Step>> = vec![
        // Something behind the zeros, and right behind the record.
        with(&[(key, 0)], &[at(letter, 0, length + 1)]),
        with(&[(key, 0)], &[at(letter, 0, TVP_AT - 1)]),
        with(&[(key, 63)], &[at(letter, 63, TVP_AT - 1)]),
        with(&[(key, 5)], &[at(line_feed, 5, length)]),
        [&[write(pool.ones, 2)][..], &hold(key, 2)].concat(),
        // A free place that is none.
        vec![at(letter, 7, 0)],
        vec![at(letter, 7, WIDTH - 1)],
        with(&[(key, 0)], &[at(letter, 63, WIDTH - 1)]),
        // A record that begins with a zero, or not at the start of its place, or goes over its end.
        with(&[(key, 3)], &[at(zero, 3, 0)]),
        vec![at(key, 3, 1), hold(key, 3)[1]],
        vec![at(key, 3, WIDTH - 100), hold(key, 3)[1]],
        // A zero in it, and less than all of it.
        with(&[(key, 3)], &[at(zero, 3, length / 2)]),
        with(&[(key, 3)], &[at(zero, 3, length - 1)]),
        // A wrong check, and another letter.
        with(&[(key, 3)], &[at(letter, 3, length - 1)]),
        with(&[(key, 3)], &[at(line_feed, 3, 40)]),
        // A record twice; two keys of one Subject.
        with(&[(key, 0), (key, 1)], &[]),
        with(&[(key, 0), (key, 63)], &[]),
        with(&[(key, 62), (other, 30), (key, 63)], &[]),
        with(&[(key, 8), (pool.keys[1].later, 9)], &[]),
        with(&[(pool.worked[2], 20), (pool.worked[3], 4)], &[]),
        // The last of all places.
        [&pool.lowest(63)[..], &hold(pool.keys[0].later, 63)].concat(),
        [&pool.full()[..], &[at(letter, 63, TVP_AT - 1)]].concat(),
        (0..PLACES).map(|place| write(pool.ones, place)).collect(),
    ];
    // What is no public key, in a place: records of other kinds, an identity, and one with each fault.
    let fits = |part: &&Part| (1..=WIDTH).contains(&(part.end - part.start));
    let no_keys: Vec<Part> = pool.no_keys.iter().filter(fits).copied().collect();
    images.extend(no_keys.iter().rev().take(6).map(|&part| with(&[(key, 0), (part, 40)], &[])));
    for image in &images {
        plan.file_all(pool, SIZE, image, [pool.record(70), pool.identity(1)]);
    }
    for &part in no_keys.iter().rev().skip(6) {
        plan.file(pool, Op::CheckCabinet, &hold(part, 40), b"");
    }
    // 23 before the refusals of what is put or named.
    plan.file_all(pool, SIZE, &images[0], [b"x", b"x"]);
    plan.file_all(pool, SIZE, &images[15], [pool.record(1), pool.identity(4)]);
    // Each damage made good again.
    let spoiled = with(&[(key, 0)], &[at(letter, 0, TVP_AT - 1)]);
    let again = [&spoiled[..], &[write(pool.zeros, 0)], &hold(key, 0)].concat();
    plan.file_all(pool, SIZE, &again, [pool.record(70), pool.identity(1)]);
    plan.file(pool, Op::MakeCabinet, &images[0], b"");
}

/// Subjects that differ in one character or in their kind are not one: neighbours of the pool.
fn twins(plan: &mut Plan, pool: &Pool) {
    for first in (0..SUBJECTS - 1).step_by(3) {
        let steps = pool.shelf([(first, 63), (first + 1, 0)]);
        plan.file(pool, Op::CheckCabinet, &steps, b"");
    }
    // As many of the others as there is room for.
    plan.file(pool, Op::CheckCabinet, &pool.shelf((SUBJECTS - PLACES..SUBJECTS).zip(0..)), b"");
}

/// The longest key of each kind.
fn longest(plan: &mut Plan, pool: &Pool) {
    for part in pool.longest {
        let record = pool.bytes(part);
        let key = PublicKey::of_record(record);
        let identity = key.subject.identity(key.print.clone());
        plan.file(pool, Op::PutKey, &[], record);
        for place in [0, 63] {
            plan.file_all(pool, SIZE, &hold(part, place), [record, &identity]);
        }
        let spoiled = [&[write(pool.ones, 1)][..], &hold(part, 1)].concat();
        plan.file(pool, Op::CheckCabinet, &spoiled, b"");
    }
}

/// Every byte value in a place with a record: behind it, in its TVP and its number, in its first byte, and in its names
/// and its Expiry, with the check made right again; and in a free place. The number of the last sort is 0.
fn every_byte(plan: &mut Plan) {
    let key = PublicKey::of_record(&worked("PUBKEY_KMC"));
    for (expiry, from) in [("20210110T120000Z", 0), ("19000301T000000Z", 1)] {
        let key = PublicKey { expiry: expiry.into(), ..key.clone() }.record();
        let zeros = vec![0; TVP_AT - key.len()];
        let place = [&key[..], &zeros, &START, &number_bytes(expiry)].concat();
        let behind = [0, key.len() - 1, key.len(), key.len() + 1, TVP_AT - 2, TVP_AT - 1];
        for (index, byte) in behind.into_iter().chain(NUMBER_AT..WIDTH).enumerate().skip(from) {
            plan.every_byte(Op::CheckCabinet, [0, 63, 31][index % 3], &place, byte);
        }
    }
    for byte in [0, 1, TVP_AT - 1, TVP_AT, NUMBER_AT - 1, NUMBER_AT, WIDTH - 1] {
        plan.every_byte(Op::CheckCabinet, 63, &[0; WIDTH], byte);
    }
    let expiry = b"19930101T000000Z".to_vec();
    let key = PublicKey { expiry, ..key }.record();
    let end = key.len() - 4 - "|||".len();
    for byte in [3, 9, 40, 100].into_iter().chain(end - 16..end) {
        plan.every_byte_checked(Op::CheckCabinet, 2, &key, byte);
    }
}

/// The bytes of the number of a TIMESTAMP.
fn number_bytes(timestamp: &str) -> [u8; 8] {
    moment_of(timestamp.as_bytes()).expect("a TIMESTAMP").to_be_bytes()
}

/// Records and identities that are right only modulo [`MORE`], and lent bytes that are.
fn long(plan: &mut Plan, pool: &Pool) {
    let block = Block::new();
    let steps = hold(pool.worked[3], 1);
    for longer in block.longer(LongPart::Key) {
        plan.file(pool, Op::PutKey, &steps, &longer);
    }
    for longer in block.longer(LongPart::Identity) {
        for op in BY_IDENTITY {
            plan.file(pool, op, &steps, &longer);
        }
    }
    for room in [SIZE - MORE, SIZE - MORE + 1, SIZE + 1] {
        plan.file_all(pool, room, &steps, [pool.record(0), pool.identity(0)]);
    }
}

/// One byte of a cabinet is another, anywhere, near a record's end or at the end of a place.
fn damaged(plan: &mut Plan, pool: &Pool) {
    for turn in 0..60 {
        let subject = plan.random.below(SUBJECTS);
        let place = plan.random.below(PLACES);
        let Part { start, end } = pool.keys[subject].first;
        let byte = match turn % 3 {
            0 => plan.random.below(end - start),
            1 => plan.random.between(end - start, end - start + 2),
            _ => plan.random.between(end - start, WIDTH - 1),
        };
        let with = plan.random.below(pool.text.len());
        let other = Step::Write(Part { start: with, end: with + 1 }, place * WIDTH + byte);
        let steps = [&hold(pool.keys[subject].first, place)[..], &[other]].concat();
        let op = [Op::CheckCabinet, Op::CountKeys, Op::FindKey][turn / 3 % 3];
        plan.file(pool, op, &steps, pool.identity(subject));
    }
}
