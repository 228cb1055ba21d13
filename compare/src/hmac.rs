//! HMAC of SHA-384, as FIPS 198-1 defines it, and HMAC-SHA-384-192 of clause 6.3: its first 192 bits.

use crate::sha384::{sha384, BLOCK_LENGTH, HASH_LENGTH};

/// The bytes of a tag.
pub const TAG_LENGTH: usize = 24;
/// What the bytes of the key are combined with before the text.
const INNER_MASK: u8 = 0x36;
/// What they are combined with before the hash of both.
const OUTER_MASK: u8 = 0x5C;

/// HMAC-SHA-384-192: the first bytes of the HMAC.
pub fn tag(key: &[u8], text: &[u8]) -> [u8; TAG_LENGTH] {
    *hmac(key, text).first_chunk().expect("more bytes than are kept")
}

/// All bytes of the HMAC. The key and the text have any length, more than clause 6.3 permits too.
pub fn hmac(key: &[u8], text: &[u8]) -> [u8; HASH_LENGTH] {
    let masked = |mask| block_of(key).map(|byte| byte ^ mask);
    let inner = sha384(&[&masked(INNER_MASK)[..], text].concat());
    sha384(&[&masked(OUTER_MASK)[..], &inner].concat())
}

/// The key as one block: its hash if it is longer than that, and zeros behind it.
fn block_of(key: &[u8]) -> [u8; BLOCK_LENGTH] {
    let mut block = [0; BLOCK_LENGTH];
    if key.len() > BLOCK_LENGTH {
        block[..HASH_LENGTH].copy_from_slice(&sha384(key));
    } else {
        block[..key.len()].copy_from_slice(key);
    }
    block
}

/// One example that is published.
pub struct Example {
    pub key: Vec<u8>,
    pub text: Vec<u8>,
    /// The HMAC, or its first bytes, in hexadecimal characters.
    pub hmac: &'static str,
}

/// The HMACs of RFC 4231's test cases, in its order. The fifth is published cut to 128 bits.
const PUBLISHED: [&str; 7] = [
    "AFD03944D84895626B0825F4AB46907F15F9DADBE4101EC682AA034C7CEBC59C\
     FAEA9EA9076EDE7F4AF152E8B2FA9CB6",
    "AF45D2E376484031617F78D2B58A6B1B9C7EF464F5A01B47E42EC3736322445E\
     8E2240CA5E69E2C78B3239ECFAB21649",
    "88062608D3E6AD8A0AA2ACE014C8A86F0AA635D947AC9FEBE83EF4E55966144B\
     2A5AB39DC13814B94E3AB6E101A34F27",
    "3E8A69B7783C25851933AB6290AF6CA77A9981480850009CC5577C6E1F573B4E\
     6801DD23C4A7D679CCF8A386C674CFFB",
    "3ABF34C3503B2A23A46EFC619BAEF897",
    "4ECE084485813E9088D2C63A041BC5B44F9EF1012A2B588F3CD11F05033AC4C6\
     0C2EF6AB4030FE8296248DF163F44952",
    "6617178E941F020D351E2F254E8FD32C602420FEB0B8FB9ADCCEBB82461E99C5\
     A678CC31E799176D3860E6110C46523E",
];

/// The test cases of RFC 4231.
pub fn published() -> Vec<Example> {
    let given: [(Vec<u8>, &[u8]); 7] = [
        (vec![0x0B; 20], b"Hi There"),
        (b"Jefe".to_vec(), b"what do ya want for nothing?"),
        (vec![0xAA; 20], &[0xDD; 50]),
        ((1..=25).collect(), &[0xCD; 50]),
        (vec![0x0C; 20], b"Test With Truncation"),
        (vec![0xAA; 131], b"Test Using Larger Than Block-Size Key - Hash Key First"),
        (
            vec![0xAA; 131],
            b"This is a test using a larger than block-size key and a larger than block-size data. \
              The key needs to be hashed before being used by the HMAC algorithm.",
        ),
    ];
    let examples = given.into_iter().zip(PUBLISHED);
    examples.map(|((key, text), hmac)| Example { key, text: text.to_vec(), hmac }).collect()
}

#[cfg(test)]
mod tests {
    use super::*;
    use crate::text::base16;

    #[test]
    fn published_examples() {
        for Example { key, text, hmac: expected } in published() {
            let all = base16(&hmac(&key, &text));
            assert!(all.starts_with(expected), "{all}");
            assert_eq!(base16(&tag(&key, &text)), all[..2 * TAG_LENGTH]);
        }
    }

    #[test]
    fn a_key_is_hashed_from_129_bytes_on() {
        let key = vec![7; BLOCK_LENGTH + 1];
        assert_eq!(block_of(&key[1..])[..], key[1..]);
        let hashed = [&sha384(&key)[..], &[0; BLOCK_LENGTH - HASH_LENGTH]].concat();
        assert_eq!(block_of(&key)[..], hashed);
    }
}
