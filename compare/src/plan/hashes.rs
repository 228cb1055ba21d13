//! SHA-384: of one slice, and by a state that is given pieces.

use super::long::{Block, Part, MORE};
use super::Plan;
use crate::calls::Op;
use compare::sha384::{self, BLOCK_LENGTH};

/// The longest of the lengths that are all there: beyond the second block, and what its end needs.
const LONGEST: usize = 300;

/// The bytes of each piece that a state is given; 0 is for one piece. Some of them meet the ends of
/// blocks, or of what a last block has room for, and some fall on each side.
const PIECES: [u64; 17] = [1, 2, 7, 16, 63, 64, 65, 111, 112, 113, 127, 128, 129, 200, 255, 256, 0];

pub fn add(plan: &mut Plan) {
    published(plan);
    let text = every_value(plan, LONGEST);
    lengths(plan, &text);
    pieces(plan, &text);
    alike(plan);
    long(plan);
}

/// The messages whose hashes are published, but the one of a million letters.
fn published(plan: &mut Plan) {
    for (message, _) in &sha384::published()[..3] {
        plan.call(Op::Sha384, message.as_slice());
        plan.numbered(Op::Sha384State, 1, message.as_slice());
    }
}

/// Bytes of every value in any order, and more of them up to this length.
pub(super) fn every_value(plan: &mut Plan, length: usize) -> Vec<u8> {
    let mut left: Vec<u8> = (0..=255).collect();
    let mut text = Vec::new();
    while !left.is_empty() {
        text.push(left.swap_remove(plan.random.below(left.len())));
    }
    let more = plan.random.bytes(length - text.len());
    text.extend(more);
    text
}

/// Every length, from the start of the text; for a state up to its end.
fn lengths(plan: &mut Plan, text: &[u8]) {
    for length in 0..=LONGEST {
        plan.call(Op::Sha384, &text[..length]);
    }
    for (length, piece) in (0..=LONGEST).zip(PIECES.into_iter().cycle()) {
        plan.numbered(Op::Sha384State, piece, &text[LONGEST - length..]);
    }
}

/// Each sort of piece in messages that end at the end of a block or behind it; and a cut at every place
/// around the end of the first block.
fn pieces(plan: &mut Plan, text: &[u8]) {
    for piece in PIECES {
        for length in [BLOCK_LENGTH, 2 * BLOCK_LENGTH + 1] {
            plan.numbered(Op::Sha384State, piece, &text[..length]);
        }
    }
    for piece in BLOCK_LENGTH - 8..=BLOCK_LENGTH + 8 {
        plan.numbered(Op::Sha384State, piece as u64, text);
    }
}

/// Bytes that are all alike, on each side of what a last block has room for.
fn alike(plan: &mut Plan) {
    for byte in [0, 0x80, 0xFF] {
        for length in [1, 111, 112, 128, 239, 240] {
            plan.call(Op::Sha384, vec![byte; length]);
        }
    }
}

/// More bytes than a number of two bytes can say.
fn long(plan: &mut Plan) {
    let block = Block::new();
    let [followed, preceded] = block.longer(Part::Request);
    for message in [&block.bytes, &followed, &preceded] {
        plan.call(Op::Sha384, &message[..]);
    }
    for (message, piece) in [(&block.bytes, 0), (&followed, 127), (&preceded, MORE)] {
        plan.numbered(Op::Sha384State, piece as u64, &message[..]);
    }
}
