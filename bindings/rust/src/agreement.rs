//! The key agreement texts of a load request, and the items of a text.

use crate::building::length;
use crate::{sys, Refusal};

/// Writes SharedInfo of a load request from the front of `out` and gives back its length: `STS.KAA.1`, ID_SM, ID_KMC, TVP. A
/// refusal leaves `out` as it was.
///
/// ```
/// use obscurlane::{shared_info, text_item, Reason, LONGEST_SHARED_INFO};
///
/// let request = b"VKLOAD.REQ.1|SMID.1:Prism:06000001:20180120T090000Z:320C265FDC769D3E:8EFF|\
///     KMCID.1:sts-KeyAgreement-1.2:TEST1:20180110T120000Z:4712CFF444570C8A:4C31|20180125T150000Z|\
///     Prism-VSM-1|STS6-001|0473E2C294EE44A17A5668ABE67C1F93CBDBCE38DEF4848584C279047A8DDCFFBAE8857\
///     C2CCC101A50E4ADB1ECDE9E14735B8CBFA88D18BD25F247DF0014298F48BB11CA8415320E7AF7172B0B20D5C00D5\
///     7D04E33D07343EDE185299CF2CA1E10|BE6CB4AC631E12EEB5D3F85496042A3274FEAB0477935778|F6B3";
/// let mut out = [0; LONGEST_SHARED_INFO];
/// let len = shared_info(request, &mut out)?;
/// assert_eq!(len, 163);
/// assert_eq!(text_item(&out[..len], 1), Ok(&b"STS.KAA.1"[..]));
/// assert_eq!(shared_info(request, &mut out[..162]).unwrap_err().reason, Reason::ShortOutput);
/// # Ok::<(), obscurlane::Refusal>(())
/// ```
///
/// # Errors
///
/// The request's own refusal, reason 2 for a record of another kind; reason 10 after every other.
#[inline]
pub fn shared_info(request: &[u8], out: &mut [u8]) -> Result<usize, Refusal> {
    length(&sys::shared_info(request, out))
}

/// The same for the module text: `U_2`, ID_SM, ID_KMC, QE as 97 decoded bytes, TVP, HWID, FWID.
///
/// ```
/// use obscurlane::{module_text, text_item, LONGEST_MODULE_TEXT};
///
/// # let request = b"VKLOAD.REQ.1|SMID.1:Prism:06000001:20180120T090000Z:320C265FDC769D3E:8EFF|\
/// #     KMCID.1:sts-KeyAgreement-1.2:TEST1:20180110T120000Z:4712CFF444570C8A:4C31|20180125T150000Z|\
/// #     Prism-VSM-1|STS6-001|0473E2C294EE44A17A5668ABE67C1F93CBDBCE38DEF4848584C279047A8DDCFFBAE8857\
/// #     C2CCC101A50E4ADB1ECDE9E14735B8CBFA88D18BD25F247DF0014298F48BB11CA8415320E7AF7172B0B20D5C00D5\
/// #     7D04E33D07343EDE185299CF2CA1E10|BE6CB4AC631E12EEB5D3F85496042A3274FEAB0477935778|F6B3";
/// let mut out = [0; LONGEST_MODULE_TEXT];
/// let len = module_text(request, &mut out)?;
/// assert_eq!(len, 276);
/// assert_eq!(text_item(&out[..len], 4)?.len(), 97);
/// # Ok::<(), obscurlane::Refusal>(())
/// ```
///
/// # Errors
///
/// As [`shared_info`].
#[inline]
pub fn module_text(request: &[u8], out: &mut [u8]) -> Result<usize, Refusal> {
    length(&sys::module_text(request, out))
}

/// The same for the centre text: `V2`, ID_KMC, ID_SM, TVP, QE as 97 decoded bytes.
///
/// ```
/// use obscurlane::{centre_text, text_item, LONGEST_CENTRE_TEXT};
///
/// # let request = b"VKLOAD.REQ.1|SMID.1:Prism:06000001:20180120T090000Z:320C265FDC769D3E:8EFF|\
/// #     KMCID.1:sts-KeyAgreement-1.2:TEST1:20180110T120000Z:4712CFF444570C8A:4C31|20180125T150000Z|\
/// #     Prism-VSM-1|STS6-001|0473E2C294EE44A17A5668ABE67C1F93CBDBCE38DEF4848584C279047A8DDCFFBAE8857\
/// #     C2CCC101A50E4ADB1ECDE9E14735B8CBFA88D18BD25F247DF0014298F48BB11CA8415320E7AF7172B0B20D5C00D5\
/// #     7D04E33D07343EDE185299CF2CA1E10|BE6CB4AC631E12EEB5D3F85496042A3274FEAB0477935778|F6B3";
/// let mut out = [0; LONGEST_CENTRE_TEXT];
/// let len = centre_text(request, &mut out)?;
/// assert_eq!(len, 254);
/// assert_eq!(text_item(&out[..len], 1), Ok(&b"V2"[..]));
/// # Ok::<(), obscurlane::Refusal>(())
/// ```
///
/// # Errors
///
/// As [`shared_info`].
#[inline]
pub fn centre_text(request: &[u8], out: &mut [u8]) -> Result<usize, Refusal> {
    length(&sys::centre_text(request, out))
}

/// An item of a key agreement text, counted from 1, as a part of the text's own bytes. The text may be any list of items
/// and has no limit of length.
///
/// ```
/// use obscurlane::text_item;
///
/// let text = b"\x02\x02AB\x01C";
/// assert_eq!(text_item(text, 1), Ok(&b"AB"[..]));
/// assert_eq!(text_item(text, 2), Ok(&b"C"[..]));
/// assert_eq!(text_item(text, 3).unwrap_err().reason.number(), 12);
/// ```
///
/// # Errors
///
/// Reason 12 where the bytes are no such text or have no such item.
#[inline]
pub fn text_item(text: &[u8], wanted: usize) -> Result<&[u8], Refusal> {
    let item = sys::text_item(text, wanted);
    Refusal::check(item.no, 0)?;
    Ok(&text[item.start..item.start + item.len])
}
