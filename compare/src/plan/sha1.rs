//! SHA-1: of one slice, and by a state that is given pieces.

use super::hashes::every_value;
use super::long::{Block, Part, MORE};
use super::Plan;
use crate::calls::Op;
use compare::sha1::{self, BLOCK_LENGTH};
use std::ops::RangeInclusive;

/// Lengths up to the end of the first block and a little beyond, and those around the end of the second.
const LENGTHS: [RangeInclusive<usize>; 2] = [0..=66, 117..=130];

/// Lengths on each side of the end of a block, and of what a last block has room for.
const ENDS: [usize; 9] = [55, 56, 63, 64, 65, 119, 120, 127, 128];

/// The bytes of each piece that a state is given; 0 is for one piece. Some of them meet the ends of
/// blocks, or of what a last block has room for, and some fall on each side.
const PIECES: [u64; 15] = [1, 2, 7, 16, 31, 55, 56, 57, 63, 64, 65, 100, 127, 128, 0];

pub fn add(plan: &mut Plan) {
    published(plan);
    let text = every_value(plan, 4 * BLOCK_LENGTH);
    lengths(plan, &text);
    pieces(plan, &text);
    alike(plan);
    long(plan);
}

/// The messages whose hashes are published, but the one of a million letters.
fn published(plan: &mut Plan) {
    for (message, _) in &sha1::published()[..4] {
        plan.call(Op::Sha1, message.as_slice());
        plan.numbered(Op::Sha1State, 1, message.as_slice());
    }
}

/// All of these lengths, from the start of the text; for a state up to its end.
fn lengths(plan: &mut Plan, text: &[u8]) {
    let lengths = || LENGTHS.into_iter().flatten();
    for length in lengths() {
        plan.call(Op::Sha1, &text[..length]);
    }
    for (length, piece) in lengths().zip(PIECES.into_iter().cycle()) {
        plan.numbered(Op::Sha1State, piece, &text[text.len() - length..]);
    }
}

/// Several sorts of pieces in messages that end where it matters; and a cut at every place around the
/// end of the first block.
fn pieces(plan: &mut Plan, text: &[u8]) {
    for length in ENDS {
        for piece in [1, 3, 55, 56, 63, 64, 65, 0] {
            plan.numbered(Op::Sha1State, piece, &text[..length]);
        }
    }
    for piece in BLOCK_LENGTH - 8..=BLOCK_LENGTH + 8 {
        plan.numbered(Op::Sha1State, piece as u64, text);
    }
}

/// Bytes that are all alike, on each side of what a last block has room for.
fn alike(plan: &mut Plan) {
    for byte in [0, 0x80, 0xFF] {
        for length in [55, 56, 120] {
            plan.call(Op::Sha1, vec![byte; length]);
        }
    }
}

/// More bits, and then more bytes, than a number of two bytes can say.
fn long(plan: &mut Plan) {
    let block = Block::new();
    let [followed, preceded] = block.longer(Part::Request);
    for message in [&block.bytes, &followed, &preceded] {
        plan.call(Op::Sha1, &message[..]);
    }
    let bits = MORE / 8;
    let lengths = [bits - 1, bits, bits + 1, MORE + 55, MORE + 56, MORE + 63, MORE + 64];
    for length in lengths {
        plan.call(Op::Sha1, &block.bytes[..length]);
    }
    for (message, piece) in [
        (&block.bytes[..], 0),
        (&followed, 63),
        (&preceded, MORE),
        (&block.bytes[..bits], 64),
        (&block.bytes[..MORE + 64], MORE + 1),
    ] {
        plan.numbered(Op::Sha1State, piece as u64, message);
    }
}
