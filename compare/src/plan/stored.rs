//! Request E9: the number of Expiry in the places of a cabinet, and the order of times by their numbers.

use super::expiries::ends;
use super::moments::at;
use super::pool::{hold, number, number_of, tvp, tvp_of, write, Pool, Text};
use super::Plan;
use crate::calls::Op;
use crate::steps::{Part, Step};
use compare::cabinet::{NUMBER_AT, SIZE, TVP_AT, WIDTH};
use compare::kind::Kind;
use compare::moment::moment_of;
use compare::random::Random;
use compare::sample::{self, PublicKey, Signed, Subject};
use compare::text::PRINT_DIGITS;

pub fn add(plan: &mut Plan) {
    let shelf = Shelf::new(&mut plan.random);
    right(plan, &shelf);
    wrong(plan, &shelf);
    wrong_for_every_call(plan, &shelf);
    between(plan, &shelf);
    free(plan, &shelf);
    without(plan);
    replaced(plan, &shelf);
    later(plan);
    flipped(plan);
}

/// The key of one Subject that expires at one time.
struct Timed {
    key: Part,
    identity: Part,
    seconds: i64,
    /// A later key of the same Subject that expires at another time.
    next: Part,
    /// Numbers that an error would write for this one; some may be the right one.
    wrong: Vec<Part>,
}

/// Keys that expire at the ends of the range, around its start and far from it, in one text, and numbers.
struct Shelf {
    text: Text,
    keys: Vec<Timed>,
    /// Records that end around the TVP and the number, up to the whole place.
    long: Vec<Part>,
    /// A letter.
    letter: Part,
}

impl Shelf {
    fn new(random: &mut Random) -> Shelf {
        let mut text = Text::default();
        let mut keys = Vec::new();
        let times = ends();
        for (index, time) in times.iter().enumerate() {
            let kind = Kind::IDENTITIES[index % 3];
            let mid = format!("{index:08}").into_bytes();
            let gnt = b"20180110T120000Z".to_vec();
            let subject = Subject { kind, manufacturer: b"Prism".to_vec(), mid, gnt };
            let mut key = PublicKey::of(random, subject.clone(), Signed::No);
            key.expiry = time.clone().into_bytes();
            let part = text.add_key(key.record());
            key.subject.gnt = b"20180110T120001Z".to_vec();
            key.expiry = times[(index + 5) % times.len()].clone().into_bytes();
            let next = text.add_key(key.record());
            let identity = text.add(subject.identity(sample::hex(random, PRINT_DIGITS)));
            let seconds = moment_of(time.as_bytes()).expect("a TIMESTAMP");
            keys.push(Timed { key: part, identity, seconds, next, wrong: Vec::new() });
        }
        for index in 0..keys.len() {
            let other = keys[(index + 1) % keys.len()].seconds;
            let wrong = mistaken(keys[index].seconds, other);
            keys[index].wrong = wrong.map(|number| text.add(number.to_be_bytes())).to_vec();
        }
        let mut long = |length| text.add(sample::padded(random, Kind::PkEcdh, 4, length));
        let lengths = [NUMBER_AT - 1, NUMBER_AT, NUMBER_AT + 1, WIDTH - 1, WIDTH];
        let mut long = lengths.map(&mut long).to_vec();
        let letter = text.add(b"x");
        let mut longer = |length| text.add_key(sample::padded(random, Kind::PkEcdh, 4, length));
        long.extend([TVP_AT - 1, TVP_AT, TVP_AT + 1].map(&mut longer));
        Shelf { text, keys, long, letter }
    }

    fn bytes(&self, part: Part) -> &[u8] {
        &self.text.0[part.start..part.end]
    }
}

/// What could be taken for a number: off by one, little-endian, of another record, without a sign, in four bytes with
/// and without a sign, none, and since another day or in another measure.
pub(super) fn mistaken(right: i64, other: i64) -> [i64; 15] {
    [
        right + 1,
        right - 1,
        right.swap_bytes(),
        other,
        0,
        -right,
        !right,
        right & 0xFFFF_FFFF,
        right as i32 as i64,
        right ^ i64::MIN,
        right + 725_846_400,
        right + 62_861_443_200,
        right / 86_400,
        right << 8,
        right.wrapping_mul(1000),
    ]
}

/// Put, found, removed, and refused once more, each with its number.
fn right(plan: &mut Plan, shelf: &Shelf) {
    for (place, timed) in shelf.keys.iter().enumerate() {
        plan.file(&shelf.text, Op::PutKey, &[], shelf.bytes(timed.key));
        let steps = hold(timed.key, place);
        plan.file(&shelf.text, Op::CheckCabinet, &steps, b"");
        plan.file(&shelf.text, Op::PutKey, &steps, shelf.bytes(timed.key));
        plan.file(&shelf.text, Op::RemoveKey, &steps, shelf.bytes(timed.identity));
        plan.file(&shelf.text, Op::FindKey, &steps, shelf.bytes(timed.identity));
    }
    let all: Vec<Step> =
        shelf.keys.iter().zip(0..).flat_map(|(timed, place)| hold(timed.key, place)).collect();
    let last = &shelf.keys[shelf.keys.len() - 1];
    plan.file_all(
        &shelf.text,
        SIZE,
        &all,
        [last.next, last.identity].map(|part| shelf.bytes(part)),
    );
}

/// Numbers that are not what the text says: 23.
fn wrong(plan: &mut Plan, shelf: &Shelf) {
    for (index, timed) in shelf.keys.iter().enumerate() {
        let place = [0, 63, 31][index % 3];
        // All of them for every third time.
        let count = if index % 3 == 1 { timed.wrong.len() } else { 5 };
        for &other in &timed.wrong[..count] {
            let steps = [&hold(timed.key, place)[..], &[number(other, place)]].concat();
            plan.file(&shelf.text, Op::CheckCabinet, &steps, b"");
        }
    }
}

/// 23 before all: the calls on a cabinet in which one number of several is wrong.
fn wrong_for_every_call(plan: &mut Plan, shelf: &Shelf) {
    let [first, other] = [&shelf.keys[6], &shelf.keys[11]];
    for (timed, beside) in [(first, other), (other, first)] {
        for &wrong in &timed.wrong[..5] {
            let mut steps = [hold(beside.key, 7), hold(timed.key, 63)].concat();
            steps.push(number(wrong, 63));
            let parts = [beside.next, beside.identity].map(|part| shelf.bytes(part));
            plan.file_all(&shelf.text, SIZE, &steps, parts);
        }
    }
    // The numbers of two places exchanged, and made right again.
    let mut steps = [hold(first.key, 1), hold(other.key, 2)].concat();
    let [one, two] = [first.key, other.key].map(number_of);
    steps.extend([number(two, 1), number(one, 2)]);
    plan.file(&shelf.text, Op::CheckCabinet, &steps, b"");
    steps.extend([number(one, 1), number(two, 2)]);
    plan.file(&shelf.text, Op::CheckCabinet, &steps, b"");
}

/// Something before the TVP, and texts that leave no room for it or for the number.
fn between(plan: &mut Plan, shelf: &Shelf) {
    let start = |byte: usize| Step::Write(shelf.letter, 9 * WIDTH + byte);
    for index in [6, 7, 13] {
        let timed = &shelf.keys[index];
        let length = timed.key.end - timed.key.start;
        for byte in [length, length + 1, 600, TVP_AT - 8, TVP_AT - 1] {
            let steps = [&hold(timed.key, 9)[..], &[start(byte)]].concat();
            plan.file(&shelf.text, Op::CheckCabinet, &steps, b"");
        }
        // The number one byte and eight bytes too early, and with it the TVP.
        for early in [1, 8] {
            let dated = tvp(tvp_of(timed.key), 9);
            let alone = Step::Write(number_of(timed.key), 9 * WIDTH + NUMBER_AT - early);
            let both = Step::Write(hold(timed.key, 9)[1].part(), 9 * WIDTH + TVP_AT - early);
            for steps in [&[dated, alone][..], &[alone, dated], &[both], &[both, dated]] {
                let steps = [&[write(timed.key, 9)], steps].concat();
                plan.file(&shelf.text, Op::CheckCabinet, &steps, b"");
            }
        }
        // And the record at the end of its place, or over the bytes of the number or of the TVP.
        for byte in [WIDTH - length, NUMBER_AT - length, NUMBER_AT, TVP_AT - length, TVP_AT] {
            let fits = length.min(WIDTH - byte);
            let part = Part { start: timed.key.start, end: timed.key.start + fits };
            let moved = Step::Write(part, 9 * WIDTH + byte);
            plan.file(&shelf.text, Op::CheckCabinet, &[moved], b"");
            let steps = [&hold(timed.key, 9)[..], &[moved]].concat();
            plan.file(&shelf.text, Op::CheckCabinet, &steps, b"");
        }
    }
    for &long in &shelf.long {
        plan.file(&shelf.text, Op::CheckCabinet, &[write(long, 9)], b"");
        for index in [6, 13] {
            // With a number behind it, and with a TVP before that.
            let key = shelf.keys[index].key;
            let steps = [write(long, 9), number(number_of(key), 9)];
            plan.file(&shelf.text, Op::CheckCabinet, &steps, b"");
            let steps = [write(long, 9), hold(key, 9)[1]];
            plan.file(&shelf.text, Op::CountKeys, &steps, b"");
        }
    }
}

/// A free place has no TVP and no number, not even those of the record that was in it.
fn free(plan: &mut Plan, shelf: &Shelf) {
    for byte in TVP_AT..WIDTH {
        let steps = [Step::Write(shelf.letter, 63 * WIDTH + byte)];
        plan.file(&shelf.text, Op::CheckCabinet, &steps, b"");
    }
    for timed in shelf.keys.iter().step_by(2) {
        let [record, both] = hold(timed.key, 0);
        let its = number(number_of(timed.key), 0);
        plan.file(&shelf.text, Op::CheckCabinet, &[its], b"");
        let removed = Step::Call(Op::RemoveKey, timed.identity);
        plan.file(&shelf.text, Op::CountKeys, &[record, both, removed], b"");
        plan.file(&shelf.text, Op::CheckCabinet, &[record, both, removed, its], b"");
        plan.file(&shelf.text, Op::CheckCabinet, &[record, both, removed, both], b"");
    }
}

/// Images as they were without numbers, and the same with a TVP.
fn without(plan: &mut Plan) {
    let pool = Pool::new();
    let records = |count: usize| -> Vec<Step> {
        pool.keys[..count].iter().zip(0..).map(|(keys, place)| write(keys.first, place)).collect()
    };
    for count in [1, 2, 64] {
        plan.file_all(&pool, SIZE, &records(count), [pool.record(70), pool.identity(0)]);
    }
    for part in pool.worked {
        plan.file(&pool, Op::CheckCabinet, &[write(part, 3)], b"");
        let steps = [write(part, 3), tvp(tvp_of(part), 3)];
        plan.file(&pool, Op::CheckCabinet, &steps, b"");
    }
    // All but one have it.
    for place in [0, 31, 63] {
        let mut steps = pool.full();
        steps.push(number(Part { end: pool.zeros.start + 8, ..pool.zeros }, place));
        plan.file(&pool, Op::CheckCabinet, &steps, b"");
    }
}

/// A replacement has its own number, and what is refused leaves the old one.
fn replaced(plan: &mut Plan, shelf: &Shelf) {
    for (index, timed) in shelf.keys.iter().enumerate() {
        let place = [63, 0, 5][index % 3];
        plan.file(&shelf.text, Op::PutKey, &hold(timed.key, place), shelf.bytes(timed.next));
        plan.file(&shelf.text, Op::PutKey, &hold(timed.next, place), shelf.bytes(timed.key));
        let put = Step::Call(Op::PutKey, timed.next);
        let steps = [&hold(timed.key, place)[..], &[put]].concat();
        plan.file(&shelf.text, Op::CheckCabinet, &steps, b"");
        plan.file(&shelf.text, Op::RemoveKey, &steps, shelf.bytes(timed.identity));
    }
}

/// Which of two keys is the newer, and which replaces the other, where the GNTs have numbers of either sign, and of
/// more than four bytes.
fn later(plan: &mut Plan) {
    let numbers = [-1, 0, 1, 255, 256, -256, -257, 1 << 31, (1 << 31) - 1, 1 << 32, (1 << 32) + 1];
    let more = [-(1 << 31), -(1 << 31) - 1, -(1 << 32), -62_861_443_200, 252_676_454_399];
    let times: Vec<String> = numbers.into_iter().chain(more).map(at).collect();
    let subject = Subject::any(&mut plan.random);
    let mut text = Text::default();
    let mut parts = Vec::new();
    for time in &times {
        let subject = Subject { gnt: time.clone().into_bytes(), ..subject.clone() };
        let key = PublicKey::of(&mut plan.random, subject, Signed::No);
        parts.push(text.add_key(key.record()));
    }
    for (index, &old) in parts.iter().enumerate() {
        for step in [1, 2, 5] {
            let new = parts[(index + step) % parts.len()];
            let [first, second] = [old, new].map(|part| text.0[part.start..part.end].to_vec());
            plan.file(&text, Op::PutKey, &hold(old, 4), &second);
            plan.file(&text, Op::PutKey, &hold(new, 4), &first);
            plan.pair(Op::NewerOf, &first[..], &second[..]);
            plan.pair(Op::NewerOf, second, first);
        }
    }
}

/// One bit of a number is another.
fn flipped(plan: &mut Plan) {
    let pool = Pool::new();
    let mut text = Text(pool.text);
    for bit in 0..64 {
        let subject = plan.random.below(pool.keys.len());
        let place = plan.random.below(64);
        let key = pool.keys[subject].first;
        let right = number_of(key);
        let right = text.0[right.start..right.end].try_into().expect("eight bytes");
        let other = text.add((i64::from_be_bytes(right) ^ 1 << bit).to_be_bytes());
        let steps = [&hold(key, place)[..], &[number(other, place)]].concat();
        let op = [Op::CheckCabinet, Op::CountKeys, Op::KeyPlace][bit % 3];
        let identity = pool.keys[subject].identity;
        let identity = text.0[identity.start..identity.end].to_vec();
        plan.file(&text, op, &steps, &identity);
    }
}
