//! Fields and items as start and length.

use super::Plan;
use crate::calls::Op;
use compare::agreement;
use compare::kind::Kind;
use compare::sample::{self, Fault};
use compare::worked::{worked, IDENTITIES, RECORDS};

pub fn add(plan: &mut Plan) {
    fields(plan);
    refused(plan);
    items(plan);
}

/// Every field of the worked records, and the numbers around them.
fn fields(plan: &mut Plan) {
    for (op, most, names) in
        [(Op::IdentityPlace, 4, &IDENTITIES[..]), (Op::RecordPlace, 7, &RECORDS[..])]
    {
        for name in names {
            for number in 0..=most + 1 {
                plan.numbered(op, number, worked(name));
            }
        }
    }
}

/// A refused record stands nowhere, whatever the number.
fn refused(plan: &mut Plan) {
    for (op, kind) in [(Op::IdentityPlace, Kind::Smid), (Op::RecordPlace, Kind::VkloadResp)] {
        for (number, &fault) in (0..).zip(Fault::of(kind)) {
            let record = sample::faulty(&mut plan.random, kind, &[fault]);
            plan.numbered(op, number % 3, record);
        }
    }
}

/// Every item of the worked texts, and of bytes that are none.
fn items(plan: &mut Plan) {
    let mut output = [0; 1024];
    let request = worked("VKLOADREQ");
    for text in [agreement::shared_info, agreement::module_text, agreement::centre_text] {
        let length = text(&request, &mut output).expect("the worked request has texts");
        for number in 0..=8 {
            plan.numbered(Op::ItemPlace, number, &output[..length]);
        }
    }
    for bytes in [&b""[..], b"\0", b"\0\0", b"\x01\0", b"\x01\x02A", b"\x02\x01A\0", b"\x01\x01AB"]
    {
        for number in [1, 2] {
            plan.numbered(Op::ItemPlace, number, bytes);
        }
    }
}
