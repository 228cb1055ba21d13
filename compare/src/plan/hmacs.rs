//! HMAC-SHA-384-192 of any key and any text.

use super::long::{Block, Part, MORE};
use super::Plan;
use crate::calls::Op;
use compare::confirm::KEY_LENGTH;
use compare::hmac;
use compare::sha384::{sha384, BLOCK_LENGTH, HASH_LENGTH};
use compare::worked::worked;

/// No bytes and one; around the bytes of a MacKey, of a hash and of a block; and more than a block.
const KEYS: [usize; 12] = [0, 1, 23, 24, 25, 47, 48, 49, 127, 128, 129, 200];

/// Texts around the ends of blocks, and around what a last block has room for. The key has a block of
/// its own before them, so that they are the ends of the whole too.
const TEXTS: [usize; 13] = [0, 1, 110, 111, 112, 127, 128, 129, 239, 240, 255, 256, 257];

pub fn add(plan: &mut Plan) {
    published(plan);
    worked_tags(plan);
    lengths(plan);
    trailing_zeros(plan);
    hashed_keys(plan);
    alike(plan);
    changed_keys(plan);
    long(plan);
}

fn published(plan: &mut Plan) {
    for hmac::Example { key, text, .. } in hmac::published() {
        plan.pair(Op::Hmac, key, text);
    }
}

/// The secrets of document 003 with its texts.
fn worked_tags(plan: &mut Plan) {
    for key in ["MACKEY", "KEK", "DKM", "Z"] {
        for text in ["MACDATA_SM", "MACDATA_KMC"] {
            plan.pair(Op::Hmac, worked(key), worked(text));
        }
    }
}

/// Keys and texts of all these lengths: the end of some bytes, and their start. A key as long as MacKey
/// and the keys on both sides of a block's end have all the texts, and the others some of them.
fn lengths(plan: &mut Plan) {
    const WITH_ALL: [usize; 3] = [KEY_LENGTH, BLOCK_LENGTH, BLOCK_LENGTH + 1];
    let bytes = plan.random.bytes(300);
    for key in KEYS {
        let step = if WITH_ALL.contains(&key) { 1 } else { 4 };
        for text in TEXTS.into_iter().step_by(step) {
            plan.pair(Op::Hmac, &bytes[bytes.len() - key..], &bytes[..text]);
        }
    }
}

/// Keys that differ only in zeros at their end are the same up to a block, and not beyond it; zeros at
/// their start count, and those of a text.
fn trailing_zeros(plan: &mut Plan) {
    const ENDS: [usize; 6] = [25, 48, BLOCK_LENGTH - 1, BLOCK_LENGTH, BLOCK_LENGTH + 1, 200];
    let text = worked("MACDATA_KMC");
    let key = worked("MACKEY");
    for length in ENDS {
        let zeros = vec![0; length - key.len()];
        plan.pair(Op::Hmac, [&key[..], &zeros].concat(), &text[..]);
        plan.pair(Op::Hmac, [&zeros[..], &key].concat(), &text[..]);
    }
    for length in [0, 1, key.len(), BLOCK_LENGTH, BLOCK_LENGTH + 1] {
        plan.pair(Op::Hmac, vec![0; length], &text[..]);
    }
    for zeros in 1..4 {
        plan.pair(Op::Hmac, &key[..], [&text[..], &vec![0; zeros]].concat());
    }
}

/// A key of more than a block, and its hash; a key of a whole block is not that of its hash.
fn hashed_keys(plan: &mut Plan) {
    let text = worked("MACDATA_SM");
    let bytes = plan.random.bytes(2 * BLOCK_LENGTH + 1);
    for length in [BLOCK_LENGTH, BLOCK_LENGTH + 1, 2 * BLOCK_LENGTH, 2 * BLOCK_LENGTH + 1] {
        let key = &bytes[..length];
        plan.pair(Op::Hmac, key, &text[..]);
        let hash = sha384(key);
        plan.pair(Op::Hmac, hash, &text[..]);
        plan.pair(Op::Hmac, &hash[..KEY_LENGTH], &text[..]);
    }
}

/// Keys whose bytes are all alike: those that a mask is made of leave nothing of it.
fn alike(plan: &mut Plan) {
    for byte in [0x36, 0x5C, 0x36 ^ 0x5C, 0x80, 0xFF] {
        for length in [KEY_LENGTH, BLOCK_LENGTH, BLOCK_LENGTH + 1] {
            plan.pair(Op::Hmac, vec![byte; length], "Hi There");
        }
    }
}

/// Every byte of a MacKey changed, and some of a key that fills a block.
fn changed_keys(plan: &mut Plan) {
    let text = worked("MACDATA_SM");
    for place in 0..KEY_LENGTH {
        let mut key = worked("MACKEY");
        key[place] ^= 1 << (place % 8);
        plan.pair(Op::Hmac, key, &text[..]);
    }
    for place in [0, KEY_LENGTH, HASH_LENGTH, 63, 64, BLOCK_LENGTH - 1] {
        let mut key = text[..BLOCK_LENGTH].to_vec();
        key[place] ^= 0x80;
        plan.pair(Op::Hmac, key, &text[..]);
    }
}

/// More bytes than a number of two bytes can say: of the key, of the text, and of both.
fn long(plan: &mut Plan) {
    let block = Block::new();
    let [followed, preceded] = block.longer(Part::Request);
    let (key, text) = (worked("MACKEY"), worked("MACDATA_SM"));
    for longer in [&block.bytes, &followed, &preceded] {
        plan.pair(Op::Hmac, &longer[..], &text[..]);
        plan.pair(Op::Hmac, &key[..], &longer[..]);
    }
    for length in [0, KEY_LENGTH, BLOCK_LENGTH, BLOCK_LENGTH + 1] {
        plan.pair(Op::Hmac, &block.bytes[..MORE + length], &text[..]);
        plan.pair(Op::Hmac, &key[..], &block.bytes[..MORE + length]);
    }
    plan.pair(Op::Hmac, preceded, followed);
}
