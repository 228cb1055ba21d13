//! The building call.

use super::Plan;
use compare::kind::{FieldType, Kind};
use compare::record::{read, LONGEST_READ};
use compare::sample::{self, Fault, Signed};
use compare::text::LONGEST_IDENT;
use compare::worked::{worked, IDENTITIES, RECORDS};

/// Room for any record.
const AMPLE: usize = LONGEST_READ;

pub fn add(plan: &mut Plan) {
    worked_records(plan);
    every_room(plan);
    some_rooms(plan);
    wrong_types(plan);
    faults(plan);
    half_signed(plan);
    whole_records(plan);
    long_fields(plan);
    wrong_lengths(plan);
    wrapping_lengths(plan);
    unknown_names(plan);
}

fn worked_records(plan: &mut Plan) {
    for name in IDENTITIES.iter().chain(&RECORDS) {
        let bytes = worked(name);
        let record = read(&bytes, &Kind::ALL).expect("worked records are accepted");
        let fields: Vec<Vec<u8>> = record.fields.iter().map(|field| field.to_vec()).collect();
        plan.build(bytes.len(), record.kind.name(), &fields);
        plan.build(bytes.len() - 1, record.kind.name(), &fields);
    }
}

/// Every room from none to just enough, and one byte more.
fn every_room(plan: &mut Plan) {
    for kind in [Kind::Smid, Kind::Kmcid] {
        let fields = sample::short_fields(&mut plan.random, kind, Signed::No);
        let needed = sample::of_kind(kind, &fields).len();
        for room in 0..=needed + 1 {
            plan.build(room, kind.name(), &fields);
        }
    }
}

fn some_rooms(plan: &mut Plan) {
    for kind in Kind::ALL {
        for &signed in Signed::forms(kind) {
            let fields = sample::fields(&mut plan.random, kind, signed);
            let needed = sample::of_kind(kind, &fields).len();
            for room in [0, 1, needed - 1, needed, needed + 1, AMPLE] {
                plan.build(room, kind.name(), &fields);
            }
        }
        for _ in 0..4 {
            let signed = Signed::any(&mut plan.random);
            let fields = sample::fields(&mut plan.random, kind, signed);
            let needed = sample::of_kind(kind, &fields).len();
            let room = plan.random.between(needed - 5, needed + 5);
            plan.build(room, kind.name(), &fields);
        }
    }
    // The longest public key.
    let lengths = [LONGEST_IDENT; 2];
    let subject = sample::with_idents(&mut plan.random, Kind::Smman, [0, 1], lengths);
    let mut fields = sample::fields(&mut plan.random, Kind::PkEcdsa, Signed::Yes);
    (fields[0], fields[3]) = (subject.clone(), subject);
    let longest = Kind::PkEcdsa.longest();
    for room in [longest - 1, longest, longest + 1] {
        plan.build(room, Kind::PkEcdsa.name(), &fields);
    }
}

/// In the place of every field: nothing, another type, an identity of any kind where one belongs,
/// and a byte that no field has.
fn wrong_types(plan: &mut Plan) {
    let types = [
        FieldType::Ident,
        FieldType::Timestamp,
        FieldType::Print,
        FieldType::Point,
        FieldType::Sig,
        FieldType::Mac,
    ];
    for kind in Kind::ALL {
        for index in 0..kind.fields().len() {
            let signed = Signed::to_fill(kind, index);
            let good = sample::short_fields(&mut plan.random, kind, signed);
            let mut wrong = vec![Vec::new()];
            for _ in 0..2 {
                let field_type = plan.random.one_of(&types);
                wrong.push(sample::of_type(&mut plan.random, field_type));
            }
            if matches!(kind.fields()[index].field_type, FieldType::Identity(_)) {
                for inner in Kind::IDENTITIES {
                    wrong.push(sample::record(&mut plan.random, inner));
                }
            }
            let mut strange = good[index].clone();
            let place = plan.random.below(strange.len());
            strange[place] = plan.random.one_of(b":|#\n\0\x80 ");
            wrong.push(strange);
            for field in wrong {
                let mut fields = good.clone();
                fields[index] = field;
                let room = plan.random.one_of(&[AMPLE, AMPLE, AMPLE, 0]);
                plan.build(room, kind.name(), &fields);
            }
        }
    }
}

/// Each fault that fields can have, every two together, and each with too little room.
fn faults(plan: &mut Plan) {
    let found = [Fault::Text, Fault::Inner, Fault::InnerKind, Fault::Half, Fault::Attributes];
    for kind in Kind::RECORDS {
        let faults: Vec<Fault> =
            Fault::of(kind).iter().copied().filter(|fault| found.contains(fault)).collect();
        for (index, &first) in faults.iter().enumerate() {
            for &second in &faults[index..] {
                let fields = sample::faulty_fields(&mut plan.random, kind, &[first, second]);
                let room = plan.random.one_of(&[0, 100, AMPLE]);
                plan.build(room, kind.name(), &fields);
            }
            // One field too few hides any of them.
            let mut fields = sample::faulty_fields(&mut plan.random, kind, &[first]);
            fields.pop();
            plan.build(AMPLE, kind.name(), &fields);
        }
    }
}

fn half_signed(plan: &mut Plan) {
    for kind in Kind::PUBLIC_KEYS {
        for empty in [3, 4] {
            let mut fields = sample::fields(&mut plan.random, kind, Signed::Yes);
            fields[empty].clear();
            plan.build(AMPLE, kind.name(), &fields);
            plan.build(0, kind.name(), &fields);
        }
    }
}

/// An accepted record in the place of an identity is none.
fn whole_records(plan: &mut Plan) {
    for (kind, index) in
        [(Kind::PkEcdsa, 0), (Kind::PkEcdh, 3), (Kind::VkloadReq, 1), (Kind::VkloadResp, 0)]
    {
        for inner in [Kind::PkEcdh, Kind::VkloadResp] {
            let mut fields = sample::short_fields(&mut plan.random, kind, Signed::Yes);
            fields[index] = sample::record(&mut plan.random, inner);
            plan.build(AMPLE, kind.name(), &fields);
        }
    }
}

/// Fields at and over their limits, an identity of more bytes than are read among them.
fn long_fields(plan: &mut Plan) {
    for length in [LONGEST_IDENT - 1, LONGEST_IDENT, LONGEST_IDENT + 1, 2 * LONGEST_IDENT, 200] {
        for (kind, index) in
            [(Kind::Smman, 0), (Kind::Kmcid, 1), (Kind::VkloadReq, 3), (Kind::VkloadReq, 4)]
        {
            let mut fields = sample::fields(&mut plan.random, kind, Signed::Yes);
            fields[index] = sample::ident(&mut plan.random, length);
            plan.build(AMPLE, kind.name(), &fields);
        }
    }
    for length in [LONGEST_READ - 1, LONGEST_READ, LONGEST_READ + 1, 1500] {
        let long = sample::padded(&mut plan.random, Kind::Smman, 3, length);
        for index in [0, 3] {
            let mut fields = sample::fields(&mut plan.random, Kind::PkEcdsa, Signed::Yes);
            fields[index] = long.clone();
            plan.build(AMPLE, Kind::PkEcdsa.name(), &fields);
        }
    }
}

/// Lengths whose sum, or whose number, is wrong.
fn wrong_lengths(plan: &mut Plan) {
    for kind in [Kind::Smid, Kind::PkEcdh, Kind::VkloadReq, Kind::VkloadResp, Kind::WrappedKey] {
        let fields = sample::short_fields(&mut plan.random, kind, Signed::No);
        let bytes = fields.concat();
        let right: Vec<u64> = fields.iter().map(|field| field.len() as u64).collect();
        let plain = [Vec::new(), vec![bytes.len() as u64], vec![0; right.len()]];
        for list in plain.into_iter().chain(changed_lengths(&right)).chain(other_numbers(&right)) {
            plan.build_of(AMPLE, kind.name(), bytes.clone(), &list);
        }
        let mut shorter = bytes.clone();
        shorter.pop();
        plan.build_of(AMPLE, kind.name(), shorter, &right);
        plan.build_of(0, kind.name(), [&bytes[..], b"0"].concat(), &right);
        plan.build_of(AMPLE, kind.name(), Vec::new(), &right);
        plan.build_of(AMPLE, kind.name(), Vec::new(), &[]);
    }
}

/// As many lengths as are right: the sum is wrong by one, or it is right and the places are wrong.
fn changed_lengths(right: &[u64]) -> Vec<Vec<u64>> {
    let mut lists = Vec::new();
    for change in [|length: &mut u64| *length += 1, |length: &mut u64| *length -= 1] {
        for index in [0, 1, 2] {
            let mut list = right.to_vec();
            change(&mut list[index]);
            lists.push(list);
        }
    }
    let mut moved = right.to_vec();
    moved[0] -= 1;
    moved[1] += 1;
    lists.push(moved);
    lists.push(right.iter().rev().copied().collect());
    lists
}

/// Too few lengths and too many: the sum is still right in the first three lists, and wrong in the
/// others.
fn other_numbers(right: &[u64]) -> [Vec<u64>; 5] {
    let last = right.len() - 1;
    let mut fewer = right[..last].to_vec();
    fewer[last - 1] += right[last];
    let mut again = right.repeat(2);
    again.truncate(8);
    [fewer, [right, &[0]].concat(), [&[0], right].concat(), right[..last].to_vec(), again]
}

/// Lengths whose sum is right only after it has wrapped round.
fn wrapping_lengths(plan: &mut Plan) {
    const HALF: u64 = 1 << 63;
    const MOST: u64 = u64::MAX;
    for kind in [Kind::Smman, Kind::Kmcid, Kind::PkEcdsa, Kind::VkloadReq, Kind::WrappedKey] {
        let fields = sample::short_fields(&mut plan.random, kind, Signed::No);
        let bytes = fields.concat();
        let right: Vec<u64> = fields.iter().map(|field| field.len() as u64).collect();
        // What is added, modulo 2 to the 64th, to the lengths of the first four fields.
        for added in [
            [HALF, HALF, 0, 0],
            [0, 0, HALF, HALF],
            [HALF, 0, HALF, 0],
            [1 << 62, 1 << 62, 1 << 62, 1 << 62],
            [0u64.wrapping_sub(right[0] + 1), right[0] + 1, 0, 0],
            [
                0u64.wrapping_sub(right[0] + 1),
                0u64.wrapping_sub(right[1] + 1),
                right[0] + right[1] + 2,
                0,
            ],
            [1 << 32, 0, 0, 0],
            [1 << 16, 0, 0, 0],
            [1 << 8, 0, 0, 0],
            [0, 1 << 32, 0u64.wrapping_sub(1 << 32), 0],
        ] {
            let mut list = right.clone();
            for (length, added) in list.iter_mut().zip(added) {
                *length = length.wrapping_add(added);
            }
            plan.build_of(AMPLE, kind.name(), bytes.clone(), &list);
        }
        let mut list = right.clone();
        list[..2].fill(MOST);
        plan.build_of(AMPLE, kind.name(), bytes.clone(), &list);
        plan.build_of(AMPLE, kind.name(), bytes.clone(), &vec![MOST; right.len()]);
        plan.build_of(0, kind.name(), Vec::new(), &vec![HALF; right.len() / 2 * 2]);
    }
}

/// Names that are nearly a kind's.
const UNKNOWN_NAMES: &[&str] = &[
    "",
    "S",
    "SMID",
    "SMID.",
    "SMID.1:",
    "SMID.1|",
    ":SMID.1",
    "SMID.10",
    "SMID.2",
    "smid.1",
    "SMAN.1",
    "KMC.1",
    "PK.ECDH",
    "PK.ECDH.1|",
    "PK.ECDSA.2",
    "VKLOAD.REQ.2",
    "VKLOAD",
    "KEY",
    "KEY.",
    "KEY.1|",
    "KEY.2",
    "key.1",
    "\n",
    "SMID.1\0",
    "SMID.1\n",
    " SMID.1",
    "SMMAN.1SMID.1",
];

fn unknown_names(plan: &mut Plan) {
    let fields = sample::short_fields(&mut plan.random, Kind::Smid, Signed::No);
    for &name in UNKNOWN_NAMES {
        plan.build(AMPLE, name, &fields);
    }
    for name in ["SMID.9", ""] {
        plan.build(0, name, &fields);
        plan.build(AMPLE, name, &[]);
        plan.build_of(AMPLE, name, b"abc".to_vec(), &[u64::MAX, u64::MAX]);
    }
    plan.build(AMPLE, vec![b'S'; 300], &fields);
}
