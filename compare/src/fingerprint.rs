//! Fingerprints of public keys.

use crate::build::put;
use crate::kind::Kind;
use crate::record::{read, read_identity};
use crate::refusal::Refusal;
use crate::sha384::sha384;
use crate::text::{base16, PRINT_DIGITS};

/// The byte behind each piece that is hashed.
const PIECE_END: u8 = b':';

/// What the Fingerprint of an identity binds to a point: its kind's name, and the fields before it.
pub type Bound<'a> = [&'a [u8]; 4];

/// The text whose hash begins with the Fingerprint of this identity and this point.
pub fn hash_input(identity: Bound, q: &[u8]) -> Vec<u8> {
    identity.iter().chain([&q]).flat_map(|piece| [piece, &[PIECE_END][..]].concat()).collect()
}

/// The Fingerprint of this identity and this point: the first eight bytes of the hash.
pub fn fingerprint(identity: Bound, q: &[u8]) -> Vec<u8> {
    base16(&sha384(&hash_input(identity, q))[..PRINT_DIGITS / 2]).into()
}

/// The Fingerprint in the Subject of a public key, and the one that would be right.
fn said_and_right(public_key: &[u8]) -> Result<(&[u8], Vec<u8>), Refusal> {
    let key = read(public_key, &Kind::PUBLIC_KEYS)?;
    let subject = read_identity(key.fields[0]).expect("an accepted key has an accepted Subject");
    let [manufacturer, mid, gnt, said] = subject.fields[..] else {
        unreachable!("an accepted identity has four fields");
    };
    let name = subject.kind.name().as_bytes();
    Ok((said, fingerprint([name, manufacturer, mid, gnt], key.fields[1])))
}

/// Refuses a public key with another Fingerprint than the right one; all other kinds are unknown here.
pub fn check(public_key: &[u8]) -> Result<(), Refusal> {
    let (said, right) = said_and_right(public_key)?;
    if said == right {
        Ok(())
    } else {
        Err(Refusal::FingerprintDiffers)
    }
}

/// Writes the Fingerprint that would be right to the start of `output` and gives back its length,
/// whatever the Subject says.
pub fn write(public_key: &[u8], output: &mut [u8]) -> Result<usize, Refusal> {
    let (_, right) = said_and_right(public_key)?;
    put(&right, output)
}
