//! Request E5: the keys that Z and a load request give, and whether the tag of the request, or of the
//! response to it, is right.

use crate::agreement::{centre_text, module_text, shared_info, text_of};
use crate::build::put;
use crate::hmac::tag;
use crate::kind::Kind;
use crate::record::{read, Record};
use crate::refusal::Refusal;
use crate::sha384::{sha384, HASH_LENGTH};
use crate::text::base16;

/// The bytes of Z: two coordinates.
pub const Z_LENGTH: usize = 96;
/// The bytes of MacKey, and those of KEK.
pub const KEY_LENGTH: usize = 24;
/// The counter of clause 6.4, which one hash is enough for.
const COUNTER: [u8; 4] = [0, 0, 0, 1];

/// A refusal, and whose it is.
#[derive(Clone, Copy, Debug, PartialEq, Eq)]
pub struct Refused {
    pub refusal: Refusal,
    /// 1 for what the request is refused for by itself, 2 for the response; 0 for all else.
    pub which: u64,
}

impl From<Refusal> for Refused {
    /// A refusal that is not about one record by itself.
    fn from(refusal: Refusal) -> Refused {
        Refused { refusal, which: 0 }
    }
}

/// KDF-X963-SHA-384 for exactly 384 bits.
pub fn derive(z: &[u8], shared_info: &[u8]) -> [u8; HASH_LENGTH] {
    sha384(&[z, &COUNTER, shared_info].concat())
}

/// The two keys of an accepted request.
#[derive(Clone, Copy, Debug, PartialEq, Eq)]
pub struct Keys {
    pub mac_key: [u8; KEY_LENGTH],
    pub kek: [u8; KEY_LENGTH],
}

impl Keys {
    /// Those under this Z, whatever its length.
    ///
    /// # Panics
    ///
    /// When the request is refused; its tags panic then too.
    pub fn of(z: &[u8], request: &[u8]) -> Keys {
        let derived = derive(z, &text_of(shared_info, request));
        let mac_key = *derived.first_chunk().expect("the first half");
        Keys { mac_key, kek: *derived.last_chunk().expect("the second half") }
    }

    /// The MacTag that is right in the request, as characters.
    pub fn module_tag(&self, request: &[u8]) -> Vec<u8> {
        base16(&tag(&self.mac_key, &text_of(module_text, request))).into()
    }

    /// The MacTag that is right in a response to the request, as characters.
    pub fn centre_tag(&self, request: &[u8]) -> Vec<u8> {
        base16(&tag(&self.mac_key, &text_of(centre_text, request))).into()
    }
}

/// Writes MacKey and KEK to the starts of two outputs, if the request's MacTag is right; with a refusal
/// both outputs stay as they were.
pub fn request(
    z: &[u8],
    request: &[u8],
    mac_key: &mut [u8],
    kek: &mut [u8],
) -> Result<(), Refused> {
    let asked = accepted(request, Kind::VkloadReq, 1)?;
    check_z(z)?;
    if mac_key.len() < KEY_LENGTH || kek.len() < KEY_LENGTH {
        return Err(Refusal::ShortOutput.into());
    }
    let keys = Keys::of(z, request);
    check_tag(asked.fields[6], &keys.module_tag(request))?;
    put(&keys.mac_key, mac_key)?;
    put(&keys.kek, kek)?;
    Ok(())
}

/// Says whether the response answers this request and its MacTag is right; the request's own MacTag is
/// not looked at.
pub fn response(z: &[u8], request: &[u8], response: &[u8]) -> Result<(), Refused> {
    let asked = accepted(request, Kind::VkloadReq, 1)?;
    let answered = accepted(response, Kind::VkloadResp, 2)?;
    check_z(z)?;
    let [id_sm, id_kmc, tvp] = [0, 1, 2].map(|index| asked.fields[index]);
    if answered.fields[..3] != [id_kmc, id_sm, tvp] {
        return Err(Refusal::OtherRequest.into());
    }
    check_tag(answered.fields[3], &Keys::of(z, request).centre_tag(request))
}

/// A record of this kind alone.
fn accepted(bytes: &[u8], kind: Kind, which: u64) -> Result<Record<'_>, Refused> {
    read(bytes, &[kind]).map_err(|refusal| Refused { refusal, which })
}

fn check_z(z: &[u8]) -> Result<(), Refused> {
    if z.len() == Z_LENGTH {
        Ok(())
    } else {
        Err(Refusal::WrongZ.into())
    }
}

fn check_tag(said: &[u8], right: &[u8]) -> Result<(), Refused> {
    if said == right {
        Ok(())
    } else {
        Err(Refusal::TagDiffers.into())
    }
}
