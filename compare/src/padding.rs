//! How FIPS 180-4 ends a message, the same for hashes with blocks of either length.

/// The message, a bit 1, bits 0, and the number of its bits in the last eighth of a block: whole blocks,
/// as few as can be.
pub fn padded(message: &[u8], block_length: usize) -> Vec<u8> {
    let count_length = block_length / 8;
    let mut padded = [message, &[0x80]].concat();
    while padded.len() % block_length != block_length - count_length {
        padded.push(0);
    }
    let bits = (8 * message.len() as u128).to_be_bytes();
    padded.extend_from_slice(&bits[bits.len() - count_length..]);
    padded
}

#[cfg(test)]
mod tests {
    use super::padded;

    #[test]
    fn a_last_block_has_room_for_what_ends_the_message() {
        for (block, full) in [(64, 55), (128, 111)] {
            let blocks = |length: usize| padded(&vec![0; length], block).len() / block;
            assert_eq!((blocks(0), blocks(full), blocks(full + 1)), (1, 1, 2), "{block}");
            assert_eq!((blocks(block), blocks(block + full)), (2, 2), "{block}");
            assert_eq!(blocks(block + full + 1), 3, "{block}");
        }
    }

    #[test]
    fn the_message_its_mark_and_its_bits() {
        let ended = padded(&[0xFF; 40], 64);
        assert_eq!(ended[..41], [&[0xFF; 40][..], &[0x80]].concat());
        assert_eq!(ended[41..], [&[0; 21][..], &[1, 0x40]].concat());
    }
}
