//! Wrapped keys as records: the lengths of their fields and their own, read and built; the calls that
//! do not take them; and files of them.

use super::Plan;
use crate::calls::Op;
use compare::attributes::CARD_END;
use compare::kind::Kind;
use compare::record::LONGEST_READ;
use compare::sample::{self, Cards, Fault, ListFault, Signed};
use compare::text::{LONGEST_PROTECTED, NONCE_DIGITS, SHORTEST_PROTECTED};
use compare::worked::{appendix_a, worked, WRAPPED_KEYS};

const NAME: &str = "KEY.1";

pub fn add(plan: &mut Plan) {
    field_lengths(plan);
    marks_inside(plan);
    lengths_read(plan);
    lengths_built(plan);
    refused_before_the_length(plan);
    other_calls(plan);
    worked_files(plan);
    lines(plan);
}

/// Fields of a key in the shortest form.
fn short_fields(plan: &mut Plan) -> Vec<Vec<u8>> {
    sample::short_fields(&mut plan.random, Kind::WrappedKey, Signed::No)
}

/// Digits of the nonce and of the protected key, on each side of their limits.
fn field_lengths(plan: &mut Plan) {
    let nonces = [0, NONCE_DIGITS - 1, NONCE_DIGITS, NONCE_DIGITS + 1, 2 * NONCE_DIGITS];
    const LEAST: usize = SHORTEST_PROTECTED;
    const MOST: usize = LONGEST_PROTECTED;
    let keys = [0, 2, LEAST - 2, LEAST - 1, LEAST, LEAST + 1, LEAST + 2, 49];
    let longer = [MOST - 2, MOST - 1, MOST, MOST + 1, MOST + 2, 2 * MOST];
    let of_keys = keys.into_iter().chain(longer).map(|digits| (2, digits));
    for (index, digits) in nonces.map(|digits| (0, digits)).into_iter().chain(of_keys) {
        let mut fields = short_fields(plan);
        fields[index] = sample::hex(&mut plan.random, digits);
        plan.call(Op::Record, sample::of_kind(Kind::WrappedKey, &fields));
    }
    for digits in [LEAST - 2, LEAST - 1, LEAST, MOST, MOST + 1, MOST + 2] {
        let mut fields = short_fields(plan);
        fields[2] = sample::hex(&mut plan.random, digits);
        plan.build(LONGEST_READ, NAME, &fields);
    }
}

/// The mark, and what is not printable, in a list that is built; and no list.
fn marks_inside(plan: &mut Plan) {
    for byte in *b"|\n\0\x1F\x7F\x80\xFF" {
        let mut fields = short_fields(plan);
        let place = plan.random.between(0, fields[1].len());
        fields[1].insert(place, byte);
        plan.build(LONGEST_READ, NAME, &fields);
    }
    let mut fields = short_fields(plan);
    fields[1].clear();
    for room in [0, LONGEST_READ] {
        plan.build(room, NAME, &fields);
    }
}

/// As many bytes as are read, one fewer, and one more, which hides whatever else is wrong.
fn lengths_read(plan: &mut Plan) {
    for length in [LONGEST_READ - 1, LONGEST_READ, LONGEST_READ + 1] {
        let fields = sample::wrapped_key_fields(&mut plan.random, length);
        let key = sample::of_kind(Kind::WrappedKey, &fields);
        plan.call(Op::Record, key.clone());
        for number in [0, 1, 2, 3, 4] {
            plan.numbered(Op::RecordField, number, key.clone());
            plan.numbered(Op::RecordPlace, number, key.clone());
        }
        for number in [0, 1, 8, 9, 99] {
            plan.numbered(Op::Attribute, number, key.clone());
            plan.numbered(Op::AttributePlace, number, key.clone());
        }
        for op in [Op::AttributeNamed, Op::AttributeNamedPlace] {
            plan.pair(op, key.clone(), "SGC");
        }
        // Lines of this length, and the next one.
        plan.walk(&[&key[..], b"\n", &worked("KEY1_1"), b"\n"].concat());
    }
    let mut fields = sample::wrapped_key_fields(&mut plan.random, LONGEST_READ + 1);
    fields[1].pop();
    fields[2].push(b'0');
    plan.call(Op::Record, sample::of_kind(Kind::WrappedKey, &fields));
}

/// The same, built: one byte more is too long in any room.
fn lengths_built(plan: &mut Plan) {
    const ENOUGH: usize = LONGEST_READ;
    for (length, rooms) in [
        (ENOUGH, &[0, 1, ENOUGH - 1, ENOUGH, ENOUGH + 1, 2 * ENOUGH][..]),
        (ENOUGH + 1, &[0, 1, ENOUGH - 1, ENOUGH, ENOUGH + 1, 2 * ENOUGH]),
        (3 * ENOUGH / 2, &[0, ENOUGH, 2 * ENOUGH]),
    ] {
        let fields = sample::wrapped_key_fields(&mut plan.random, length);
        for &room in rooms {
            plan.build(room, NAME, &fields);
        }
    }
    let shortest = short_fields(plan);
    let needed = sample::of_kind(Kind::WrappedKey, &shortest).len();
    for room in [0, needed - 1, needed, needed + 1] {
        plan.build(room, NAME, &shortest);
    }
}

/// Too long to be built, and refused for something that comes before: the number of fields, a field,
/// the list; with room and without.
fn refused_before_the_length(plan: &mut Plan) {
    let fields = sample::wrapped_key_fields(&mut plan.random, LONGEST_READ + 1);
    let mut no_end = fields.clone();
    let list = &mut no_end[1];
    let last = list.len() - 1;
    list[last] = b'~';
    let mut wrong_nonce = fields.clone();
    wrong_nonce[0][0] = b'g';
    let mut wrong_key = no_end.clone();
    wrong_key[2].push(b'0');
    for wrong in [&no_end[..], &wrong_nonce, &wrong_key, &fields[1..]] {
        for room in [0, LONGEST_READ + 1] {
            plan.build(room, NAME, wrong);
        }
    }
}

/// The identity calls, the texts and the chooser know no wrapped key, accepted or refused.
fn other_calls(plan: &mut Plan) {
    let key = worked("KEY1_1");
    let mut bad = vec![worked("APPA_KEY1_4_AS_PRINTED")];
    for fault in [Fault::CheckText, Fault::Text, Fault::Attributes] {
        bad.push(sample::faulty(&mut plan.random, Kind::WrappedKey, &[fault]));
    }
    let public_key = worked("PUBKEY_KMC");
    for key in bad.iter().chain([&key]) {
        plan.call(Op::Identity, key.clone());
        plan.call(Op::Record, key.clone());
        for op in [Op::IdentityField, Op::IdentityPlace, Op::RecordField, Op::RecordPlace] {
            plan.numbered(op, 2, key.clone());
        }
        for op in [Op::SharedInfo, Op::ModuleText, Op::CentreText] {
            plan.numbered(op, LONGEST_READ as u64, key.clone());
        }
        for op in [Op::Newer, Op::NewerOf] {
            plan.pair(op, key.clone(), public_key.clone());
            plan.pair(op, public_key.clone(), key.clone());
            plan.pair(op, key.clone(), key.clone());
        }
    }
}

/// The key load files of both documents: every line, by each call.
fn worked_files(plan: &mut Plan) {
    let printed = [&worked("APPA_KEY1_4_AS_PRINTED")[..], b"\n", &worked("KEY1_2"), b"\n"].concat();
    for file in [appendix_a(), worked("KLF"), printed] {
        plan.walk(&file);
        let places: Vec<u64> = compare::file::lines(&file).map(|line| line.start).collect();
        for place in places {
            plan.numbered(Op::StepFrom, place, file.clone());
        }
    }
    for name in WRAPPED_KEYS {
        let key = worked(name);
        for end in ["\n", "\r\n", ""] {
            plan.call(Op::Reader, [&key[..], end.as_bytes()].concat());
        }
    }
}

/// Permitted lists and each fault of theirs, line by line, with a line feed in a list among them.
fn lines(plan: &mut Plan) {
    let mut file = Vec::new();
    for fault in ListFault::ALL {
        let good = Cards::required(&mut plan.random).list();
        let bad = sample::faulty_list(&mut plan.random, fault);
        for list in [good, bad] {
            file.extend(sample::wrapped_key(&mut plan.random, &list));
            file.push(b'\n');
        }
    }
    let mut cut = worked("KEY1_1");
    let place = cut.iter().position(|&byte| byte == CARD_END).expect("a card");
    cut[place] = b'\n';
    file.extend(cut);
    file.push(b'\n');
    plan.walk(&file);
}
