//! The three texts of a load request, and the reading of items.

use super::Plan;
use crate::calls::Op;
use compare::agreement::join;
use compare::kind::Kind;
use compare::record::{read_record, LONGEST_READ};
use compare::sample::{self, Fault, Place, Signed};
use compare::text::{LONGEST_IDENT, POINT_DIGITS};
use compare::worked::{worked, IDENTITIES, RECORDS};

const TEXTS: [Op; 3] = [Op::SharedInfo, Op::ModuleText, Op::CentreText];

/// Room for any text.
const AMPLE: u64 = 1024;

pub fn add(plan: &mut Plan) {
    texts(plan);
    other_records(plan);
    refused_requests(plan);
    items_of_worked_texts(plan);
    items_of_lists(plan);
    small_texts(plan);
    large_texts(plan);
}

/// The length of a text of an accepted request.
fn needed(op: Op, request: &[u8]) -> u64 {
    let fields = read_record(request).expect("an accepted request").fields;
    let length = |number: usize| fields[number - 1].len() + 1;
    let ids_and_time = length(1) + length(2) + length(3);
    let point = POINT_DIGITS / 2 + 1;
    (1 + ids_and_time
        + match op {
            Op::SharedInfo => 10,
            Op::ModuleText => 4 + point + length(4) + length(5),
            _ => 3 + point,
        }) as u64
}

fn texts(plan: &mut Plan) {
    let mut requests = vec![worked("VKLOADREQ")];
    requests.push(sample::record(&mut plan.random, Kind::VkloadReq));
    let short = sample::short_fields(&mut plan.random, Kind::VkloadReq, Signed::Yes);
    requests.push(sample::of_kind(Kind::VkloadReq, &short));
    requests.push(longest_request(plan));
    for request in requests {
        for op in TEXTS {
            let needed = needed(op, &request);
            for room in [0, 1, needed - 1, needed, needed + 1, AMPLE] {
                plan.numbered(op, room, request.clone());
            }
        }
    }
    for _ in 0..6 {
        let request = sample::record(&mut plan.random, Kind::VkloadReq);
        for op in TEXTS {
            let least = needed(op, &request) as usize - 30;
            let room = plan.random.between(least, least + 60) as u64;
            plan.numbered(op, room, request.clone());
        }
    }
}

/// A request with every IDENT at its longest.
fn longest_request(plan: &mut Plan) -> Vec<u8> {
    let mut identity =
        |kind: Kind| sample::with_idents(&mut plan.random, kind, [0, 1], [LONGEST_IDENT; 2]);
    let (module, centre) = (identity(Kind::Smid), identity(Kind::Kmcid));
    let mut fields = sample::fields(&mut plan.random, Kind::VkloadReq, Signed::Yes);
    (fields[0], fields[1]) = (module, centre);
    fields[3] = sample::ident(&mut plan.random, LONGEST_IDENT);
    fields[4] = sample::ident(&mut plan.random, LONGEST_IDENT);
    sample::of_kind(Kind::VkloadReq, &fields)
}

/// Everything but a request is no kind that these calls read, its check right or wrong.
fn other_records(plan: &mut Plan) {
    for name in IDENTITIES.iter().chain(&RECORDS).filter(|&&name| name != "VKLOADREQ") {
        let op = plan.random.one_of(&TEXTS);
        plan.numbered(op, AMPLE, worked(name));
    }
    for op in TEXTS {
        for kind in Kind::ALL.into_iter().filter(|&kind| kind != Kind::VkloadReq) {
            let record = sample::record(&mut plan.random, kind);
            let place = plan.random.one_of(&[Place::Check, Place::FirstField]);
            let damaged = sample::damaged(&mut plan.random, kind, &record, place, 1);
            plan.numbered(op, AMPLE, record);
            plan.numbered(op, 0, damaged);
        }
        for bytes in ["", "VKLOAD.REQ.1", "VKLOAD.REQ.1:x", "VKLOAD.REQ.1|x", "VKLOAD.RESP.1|x"] {
            plan.numbered(op, AMPLE, bytes);
        }
    }
}

fn refused_requests(plan: &mut Plan) {
    for op in TEXTS {
        for &fault in Fault::of(Kind::VkloadReq) {
            let request = sample::faulty(&mut plan.random, Kind::VkloadReq, &[fault]);
            let room = plan.random.one_of(&[0, AMPLE]);
            plan.numbered(op, room, request);
        }
        for place in Place::ALL {
            let request = sample::record(&mut plan.random, Kind::VkloadReq);
            let damaged = sample::damaged(&mut plan.random, Kind::VkloadReq, &request, place, 1);
            plan.numbered(op, AMPLE, sample::resealed(&damaged));
        }
        let long = sample::padded(&mut plan.random, Kind::VkloadReq, 5, LONGEST_READ + 1);
        plan.numbered(op, AMPLE, long);
    }
}

fn items_of_worked_texts(plan: &mut Plan) {
    for name in ["SHAREDINFO", "MACDATA_SM", "MACDATA_KMC"] {
        let text = worked(name);
        let count = u64::from(text[0]);
        for number in (0..=count + 1).chain([255, 256, 257, (1 << 32) + 1, 1 << 63, u64::MAX]) {
            plan.numbered(Op::Item, number, text.clone());
        }
        for _ in 0..8 {
            let end = plan.random.below(text.len());
            let number = plan.random.between(1, count as usize) as u64;
            plan.numbered(Op::Item, number, &text[..end]);
        }
        for end in [1, 2, text.len() - 17, text.len() - 1] {
            plan.numbered(Op::Item, 1, &text[..end]);
        }
        for more in [&b"\0"[..], b"A", b"\x01A", b"\0\0"] {
            plan.numbered(Op::Item, 1, [&text[..], more].concat());
        }
        for count in [0, text[0] - 1, text[0] + 1, 255] {
            let mut text = text.clone();
            text[0] = count;
            plan.numbered(Op::Item, 1, text.clone());
            text.push(0);
            plan.numbered(Op::Item, u64::from(count), text);
        }
        for change in [-1i8, 1] {
            let mut text = text.clone();
            text[1] = text[1].wrapping_add_signed(change);
            plan.numbered(Op::Item, 1, text);
        }
    }
    plan.numbered(Op::Item, 1, worked("VKLOADREQ"));
    plan.numbered(Op::Item, 1, worked("KLF"));
}

/// Lists of random items, whole, cut and extended.
fn items_of_lists(plan: &mut Plan) {
    for _ in 0..25 {
        let count = plan.random.between(0, 9);
        let items: Vec<Vec<u8>> = (0..count)
            .map(|_| {
                let length = plan.random.between(0, 12);
                plan.random.bytes(length)
            })
            .collect();
        let items: Vec<&[u8]> = items.iter().map(Vec::as_slice).collect();
        let text = join(&items);
        for number in [1, count] {
            plan.numbered(Op::Item, number as u64, text.clone());
        }
        let number = plan.random.between(0, count + 1) as u64;
        plan.numbered(Op::Item, number, text.clone());
        let end = plan.random.below(text.len());
        plan.numbered(Op::Item, number, &text[..end]);
        plan.numbered(Op::Item, number, [text, vec![0]].concat());
    }
    for length in 0..30 {
        let mut bytes = plan.random.bytes(length);
        if let Some(count) = bytes.first_mut() {
            *count %= 3;
        }
        plan.numbered(Op::Item, 1, bytes);
    }
}

/// Every text of up to four bytes out of 0, 1 and 2.
fn small_texts(plan: &mut Plan) {
    let mut texts: Vec<Vec<u8>> = vec![Vec::new()];
    for _ in 0..=4 {
        for text in &texts {
            let number = 1 + (text.len() as u64 + u64::from(text.last() == Some(&0))) % 2;
            plan.numbered(Op::Item, number, text.clone());
        }
        texts = texts
            .iter()
            .flat_map(|text| (0..3).map(|byte| [&text[..], &[byte]].concat()))
            .collect();
    }
    for text in ["\x02\x02AB\x01C", "\x02\x01A\x02BC"] {
        for number in 0..4 {
            plan.numbered(Op::Item, number, text);
        }
    }
}

/// The most items, the longest items, and both.
fn large_texts(plan: &mut Plan) {
    let empty: &[u8] = &[];
    let long = plan.random.bytes(255);
    let one = plan.random.bytes(1);
    let full = |item, count: usize| join(&vec![item; count]);

    for (text, numbers) in [
        (full(empty, 255), &[1, 255, 256, 0][..]),
        (full(&one, 255), &[1, 254, 255, 256]),
        (full(&one, 254), &[254, 255]),
        (full(&long, 1), &[1, 2]),
        (full(&long, 3), &[3, 4]),
        (full(&long, 6), &[6]),
        (join(&[empty, &long, empty, &long, &one]), &[1, 2, 3, 4, 5, 6]),
    ] {
        for &number in numbers {
            plan.numbered(Op::Item, number, text.clone());
        }
        plan.numbered(Op::Item, 1, &text[..text.len() - 1]);
        plan.numbered(Op::Item, 1, [&text[..], &[0]].concat());
    }
    plan.numbered(Op::Item, 255, fullest_text());
}

/// As many items as there can be, each as long as it can be: every byte value but the line feed.
pub fn fullest_text() -> Vec<u8> {
    let item: Vec<u8> = (0..=255).filter(|&byte| byte != b'\n').collect();
    join(&[&item[..]; 255])
}
