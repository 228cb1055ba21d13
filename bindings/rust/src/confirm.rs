//! The tags that confirm a key agreement.

use crate::{sys, Reason, Refusal};
use core::error::Error;
use core::fmt;

/// Why a request or a response does not confirm a key agreement.
#[derive(Clone, Copy, Debug, PartialEq, Eq, Hash)]
#[non_exhaustive]
pub enum ConfirmRefusal {
    /// The request is refused.
    Request(Refusal),
    /// The response is refused, and the request is a load request.
    Response(Refusal),
    /// Z has not [`Z_BYTES`](crate::Z_BYTES) bytes.
    WrongZ,
    /// The response answers another request: ID_KMC, ID_SM or TVP of the two differ.
    OtherRequest,
    /// An output has fewer than [`KEY_BYTES`](crate::KEY_BYTES) bytes.
    ShortOutput,
    /// The tag differs.
    WrongTag,
}

impl ConfirmRefusal {
    /// The reason; 10, 16, 17 or 18 where neither record is refused by itself.
    #[must_use]
    pub const fn reason(self) -> Reason {
        match self {
            ConfirmRefusal::Request(refusal) | ConfirmRefusal::Response(refusal) => refusal.reason,
            ConfirmRefusal::WrongZ => Reason::WrongZ,
            ConfirmRefusal::OtherRequest => Reason::OtherRequest,
            ConfirmRefusal::ShortOutput => Reason::ShortOutput,
            ConfirmRefusal::WrongTag => Reason::WrongTag,
        }
    }
}

impl fmt::Display for ConfirmRefusal {
    fn fmt(&self, f: &mut fmt::Formatter<'_>) -> fmt::Result {
        match self {
            ConfirmRefusal::Request(refusal) => write!(f, "the request: {refusal}"),
            ConfirmRefusal::Response(refusal) => write!(f, "the response: {refusal}"),
            _ => Refusal { reason: self.reason(), field: None }.fmt(f),
        }
    }
}

impl Error for ConfirmRefusal {}

/// Whether the MacTag of a load request is right for Z, the shared value of a key agreement. Where it is, MacKey and KEK stand at
/// the fronts of the two outputs, [`KEY_BYTES`](crate::KEY_BYTES) bytes each; a refusal leaves both as they were.
///
/// The keys are the first and the last 24 bytes of the SHA-384 of Z, of the bytes 00 00 00 01 and of SharedInfo. The right MacTag
/// is, as HEX(48), the tag of the module text under MacKey ([`hmac_of`](crate::hmac_of)).
///
/// Z, MacKey and KEK are secret. What is promised of the time that the call takes, and of bytes that it leaves on the stack,
/// stands in `docs/TRUST.md` of the repository: a tag is compared over all of its 24 bytes, whichever differs first; beyond its
/// length, no branch depends on Z but the answer, accepted or reason 18; and bytes of keys are not wiped from the stack.
///
/// ```
/// use obscurlane::{confirm_request, ConfirmRefusal, KEY_BYTES};
///
/// let z = b"\xB0\x8E\xA3\x5D\x0C\xDB\xD0\x85\xC2\x2D\x20\xC7\x6F\x2E\xC6\x5B\x69\xF4\xE5\x62\xB9\x39\x2C\xA5\
///     \x14\x19\x94\x46\x4C\x3C\x7E\xC9\x57\x44\x77\xD0\x6A\xC8\x1F\x06\x19\xC8\x5D\xAE\x87\xE6\xD3\x59\
///     \x2B\xB3\xE1\x05\x66\x2B\x92\x41\xA3\x19\x0E\xF6\x0F\x79\xC7\x2B\xC1\xEF\x11\xC1\xF9\xE6\x72\x20\
///     \x37\x5B\x95\x1C\xE9\x08\xDD\x47\xF5\x64\x10\x9C\xA1\x63\xC5\x9B\xA9\x4A\x38\x13\xA7\x9E\xFE\xA0";
/// let request = b"VKLOAD.REQ.1|SMID.1:Prism:06000001:20180120T090000Z:320C265FDC769D3E:8EFF|\
///     KMCID.1:sts-KeyAgreement-1.2:TEST1:20180110T120000Z:4712CFF444570C8A:4C31|20180125T150000Z|\
///     Prism-VSM-1|STS6-001|0473E2C294EE44A17A5668ABE67C1F93CBDBCE38DEF4848584C279047A8DDCFFBAE8857\
///     C2CCC101A50E4ADB1ECDE9E14735B8CBFA88D18BD25F247DF0014298F48BB11CA8415320E7AF7172B0B20D5C00D5\
///     7D04E33D07343EDE185299CF2CA1E10|BE6CB4AC631E12EEB5D3F85496042A3274FEAB0477935778|F6B3";
/// let (mut mac_key, mut kek) = ([0; KEY_BYTES], [0; KEY_BYTES]);
/// confirm_request(z, request, &mut mac_key, &mut kek)?;
/// assert_eq!(mac_key[..4], [0x82, 0x33, 0x4C, 0xBC]);
/// assert_eq!(kek[..4], [0x99, 0x81, 0x2E, 0x6B]);
///
/// // a mistyped request, and one that was made under another key
/// let mut mistyped = request.to_vec();
/// mistyped[20] ^= 1;
/// let refusal = confirm_request(z, &mistyped, &mut mac_key, &mut kek).unwrap_err();
/// assert_eq!(refusal.to_string(), "the request: 4: the check differs");
/// let refusal = confirm_request(&[7; 96], request, &mut mac_key, &mut kek).unwrap_err();
/// assert_eq!(refusal, ConfirmRefusal::WrongTag);
/// # Ok::<(), ConfirmRefusal>(())
/// ```
///
/// # Errors
///
/// The request's refusal (reason 2 for a record of another kind), then that Z is of another length, then that an output is too
/// short, then that the tag differs.
#[inline]
pub fn confirm_request(
    z: &[u8],
    request: &[u8],
    mac_key: &mut [u8],
    kek: &mut [u8],
) -> Result<(), ConfirmRefusal> {
    check(&sys::confirm_request(z, request, mac_key, kek))
}

/// Whether the MacTag of a load response is right for Z and for the request that it answers: the tag of the request's centre text
/// under MacKey. The request's own MacTag is not looked at, and no key is handed out. Z is secret as in [`confirm_request`].
///
/// ```
/// use obscurlane::{confirm_response, ConfirmRefusal};
///
/// # let z = b"\xB0\x8E\xA3\x5D\x0C\xDB\xD0\x85\xC2\x2D\x20\xC7\x6F\x2E\xC6\x5B\x69\xF4\xE5\x62\xB9\x39\x2C\xA5\
/// #     \x14\x19\x94\x46\x4C\x3C\x7E\xC9\x57\x44\x77\xD0\x6A\xC8\x1F\x06\x19\xC8\x5D\xAE\x87\xE6\xD3\x59\
/// #     \x2B\xB3\xE1\x05\x66\x2B\x92\x41\xA3\x19\x0E\xF6\x0F\x79\xC7\x2B\xC1\xEF\x11\xC1\xF9\xE6\x72\x20\
/// #     \x37\x5B\x95\x1C\xE9\x08\xDD\x47\xF5\x64\x10\x9C\xA1\x63\xC5\x9B\xA9\x4A\x38\x13\xA7\x9E\xFE\xA0";
/// # let request = b"VKLOAD.REQ.1|SMID.1:Prism:06000001:20180120T090000Z:320C265FDC769D3E:8EFF|\
/// #     KMCID.1:sts-KeyAgreement-1.2:TEST1:20180110T120000Z:4712CFF444570C8A:4C31|20180125T150000Z|\
/// #     Prism-VSM-1|STS6-001|0473E2C294EE44A17A5668ABE67C1F93CBDBCE38DEF4848584C279047A8DDCFFBAE8857\
/// #     C2CCC101A50E4ADB1ECDE9E14735B8CBFA88D18BD25F247DF0014298F48BB11CA8415320E7AF7172B0B20D5C00D5\
/// #     7D04E33D07343EDE185299CF2CA1E10|BE6CB4AC631E12EEB5D3F85496042A3274FEAB0477935778|F6B3";
/// let response = b"VKLOAD.RESP.1|KMCID.1:sts-KeyAgreement-1.2:TEST1:20180110T120000Z:4712CFF444570C8A:4C31|\
///     SMID.1:Prism:06000001:20180120T090000Z:320C265FDC769D3E:8EFF|20180125T150000Z|\
///     7E6DEC39AFE13B846C59B26EB059186BC521BCAD63718467|D743";
/// confirm_response(z, request, response)?;
/// assert_eq!(confirm_response(&z[1..], request, response), Err(ConfirmRefusal::WrongZ));
///
/// // the response of another agreement
/// let other = b"VKLOAD.RESP.1|KMCID.1:Prism:K0001:20160418T121717Z:52204DE9EEFA6EB8:E7BF|\
///     SMID.1:Prism:94000507:20160506T095338Z:F184871DC4F23CB0:1F8C|20160506T122741Z|\
///     C9A5161F864E1978435A2CEAA611930F37824EDCE6252CEC|71CC";
/// assert_eq!(confirm_response(z, request, other), Err(ConfirmRefusal::OtherRequest));
/// # Ok::<(), ConfirmRefusal>(())
/// ```
///
/// # Errors
///
/// The request's refusal, then the response's (reason 2 for a record of another kind), then that Z is of another length, then that
/// the response answers another request, then that the tag differs.
#[inline]
pub fn confirm_response(z: &[u8], request: &[u8], response: &[u8]) -> Result<(), ConfirmRefusal> {
    check(&sys::confirm_response(z, request, response))
}

#[inline]
fn check(confirmed: &sys::Confirmed) -> Result<(), ConfirmRefusal> {
    match confirmed.no {
        0 => Ok(()),
        _ => Err(refusal(confirmed)),
    }
}

#[cold]
fn refusal(confirmed: &sys::Confirmed) -> ConfirmRefusal {
    let refusal = Refusal::new(confirmed.no, confirmed.field);
    match (confirmed.which, refusal.reason) {
        (1, _) => ConfirmRefusal::Request(refusal),
        (2, _) => ConfirmRefusal::Response(refusal),
        (0, Reason::WrongZ) => ConfirmRefusal::WrongZ,
        (0, Reason::OtherRequest) => ConfirmRefusal::OtherRequest,
        (0, Reason::ShortOutput) => ConfirmRefusal::ShortOutput,
        (0, Reason::WrongTag) => ConfirmRefusal::WrongTag,
        (which, reason) => unreachable!("{reason} is no refusal of record {which} of the two"),
    }
}
