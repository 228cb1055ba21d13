//! The keys in a cabinet, one by one.

use crate::field::public_key;
use crate::show::Text;
use crate::{check_cabinet, Record, Refusal, CABINET_NUMBER_AT, CABINET_TVP_AT, CABINET_WIDTH};
use core::fmt;
use core::iter::FusedIterator;
use core::slice::ChunksExact;

/// A public key in a cabinet, old or not.
///
/// ```
/// use obscurlane::{held_keys, Identity, Reason, Record};
/// # use obscurlane::{CABINET_NUMBER_AT, CABINET_SIZE, CABINET_TVP_AT, CABINET_WIDTH};
/// # let key = b"PK.ECDH.1|SMID.1:Prism:06000001:20180120T090000Z:320C265FDC769D3E:8EFF|04795CF0B4D74920C64A\
/// #     6879504A6DE9CA788076D946D2F70F8981C01137752C7C050DC6FA61C2CB3D77EFE4275826857CC286805608F43C2E9A\
/// #     C8752600D99FE92CCFB7E146742F0DC9C74CEF6568CBB75AB075D2DFED2EE5531554FA844B8DBC|99991231T115959Z|||ECD4";
/// # let mut stored = vec![0; CABINET_SIZE];
/// # stored[..key.len()].copy_from_slice(key);
/// # stored[CABINET_TVP_AT..CABINET_NUMBER_AT].copy_from_slice(b"20180125T150000Z");
/// # stored[CABINET_NUMBER_AT..CABINET_WIDTH].copy_from_slice(&252_676_411_199_i64.to_be_bytes());
///
/// // bytes that version 0.11 stored, with the unsigned key of a module: which keys have to be replaced?
/// for held in held_keys(&stored)?.filter(|held| held.is_old()) {
///     let Identity { manufacturer, mid, gnt, .. } = Identity::read(held.subject())?;
///     assert_eq!((manufacturer, mid), (&b"Prism"[..], &b"06000001"[..]));
///     assert_eq!((gnt, held.tvp), (&b"20180120T090000Z"[..], &b"20180125T150000Z"[..]));
///     assert_eq!(held.expiry, 252_676_411_199);
///     assert_eq!(Record::read(held.record).unwrap_err().reason, Reason::ModuleUnsigned);
/// }
/// # assert_eq!(held_keys(&stored)?.filter(|held| held.is_old()).count(), 1);
/// # Ok::<(), obscurlane::Refusal>(())
/// ```
#[derive(Clone, Copy, PartialEq, Eq, Hash)]
pub struct HeldKey<'a> {
    /// The record, a part of the cabinet's bytes.
    pub record: &'a [u8],
    /// The last TVP that was accepted for its module, a part of the cabinet's bytes; `19930101T000000Z` where none was.
    pub tvp: &'a [u8],
    /// The seconds from 19930101T000000Z to its Expiry.
    pub expiry: i64,
}

impl<'a> HeldKey<'a> {
    /// Whether it is old: the unsigned key of a module, which stays in its place and is refused today, with reason 28. It is there to
    /// be replaced, by a signed key with a later GNT, or to be taken out; [`Cabinet::find`](crate::Cabinet::find) and
    /// [`Cabinet::admit`](crate::Cabinet::admit) do not see it.
    ///
    /// This reads the record.
    #[must_use]
    pub fn is_old(&self) -> bool {
        Record::read(self.record).is_err()
    }

    /// Its Subject, a part of the record, of an old key too: [`Identity::read`](crate::Identity::read) gives the names and the GNT in
    /// it, and [`Cabinet::remove`](crate::Cabinet::remove) takes the key out by it.
    #[must_use]
    pub fn subject(&self) -> &'a [u8] {
        let mut parts = self.record.split(|&byte| byte == b'|');
        parts.nth(public_key::SUBJECT).unwrap_or_default()
    }
}

/// The record and the TVP as text, and whether it is old.
impl fmt::Debug for HeldKey<'_> {
    fn fmt(&self, f: &mut fmt::Formatter<'_>) -> fmt::Result {
        f.debug_struct("HeldKey")
            .field("record", &Text(self.record))
            .field("tvp", &Text(self.tvp))
            .field("expiry", &self.expiry)
            .field("is_old", &self.is_old())
            .finish()
    }
}

/// The keys of a cabinet, in the order of their places: what [`held_keys`] and [`Cabinet::keys`](crate::Cabinet::keys) hand back.
#[derive(Clone)]
pub struct HeldKeys<'a> {
    places: ChunksExact<'a, u8>,
}

const TVP_BYTES: usize = CABINET_NUMBER_AT - CABINET_TVP_AT;

/// What stands in a place of a cabinet; nothing in a free one.
fn held(place: &[u8]) -> Option<HeldKey<'_>> {
    let (front, number) = place.split_last_chunk()?;
    let (front, tvp) = front.split_last_chunk::<TVP_BYTES>()?;
    let record = front.split(|&byte| byte == 0).next()?;
    let expiry = i64::from_be_bytes(*number);
    (!record.is_empty()).then_some(HeldKey { record, tvp, expiry })
}

impl<'a> Iterator for HeldKeys<'a> {
    type Item = HeldKey<'a>;

    #[inline]
    fn next(&mut self) -> Option<HeldKey<'a>> {
        self.places.find_map(held)
    }
}

impl FusedIterator for HeldKeys<'_> {}

/// The keys that are left.
impl fmt::Debug for HeldKeys<'_> {
    fn fmt(&self, f: &mut fmt::Formatter<'_>) -> fmt::Result {
        f.debug_list().entries(self.clone()).finish()
    }
}

/// All keys of the cabinet in these bytes, in the order of their places, old ones too, each with the last TVP of its module and the
/// seconds of its Expiry as they stand in the place: the bytes are asked once whether they are a cabinet, and no record is read
/// again.
///
/// ```
/// use obscurlane::{held_keys, put_key, Reason, CABINET_SIZE};
///
/// let key = b"PK.ECDH.1|SMID.1:Prism:06000001:20180120T090000Z:320C265FDC769D3E:8EFF|04795CF0B4D74920C64A\
///     6879504A6DE9CA788076D946D2F70F8981C01137752C7C050DC6FA61C2CB3D77EFE4275826857CC286805608F43C2E9A\
///     C8752600D99FE92CCFB7E146742F0DC9C74CEF6568CBB75AB075D2DFED2EE5531554FA844B8DBC|99991231T115959Z|\
///     SMMAN.1:Prism:A:20180115T140000Z:105717ACA4A50852:8B04|8E36C1BBF029875C57985D107DE41293FE2ACC8526C3\
///     3CD7056AC4F4595F4768569E0560A9C85FC6310F77FC8A0C7E5839B12D5A3498E3AAF1C9E8DEA974B554EC64DCAA54670969\
///     7D67695770EAE4CF9937CD62E6AB726DB35BD5C7CAD23774|4971";
/// let mut cabinet = vec![0; CABINET_SIZE];
/// assert_eq!(held_keys(&cabinet)?.count(), 0);
/// put_key(&mut cabinet, key)?;
/// for held in held_keys(&cabinet)? {
///     assert_eq!((held.record, held.expiry), (&key[..], 252_676_411_199));
///     assert_eq!(held.tvp, b"19930101T000000Z");
/// }
///
/// // another number is no cabinet
/// cabinet[1023] ^= 1;
/// assert_eq!(held_keys(&cabinet).unwrap_err().reason, Reason::NotCabinet);
/// # Ok::<(), obscurlane::Refusal>(())
/// ```
///
/// # Errors
///
/// Reason 23 where the bytes are no cabinet.
#[inline]
pub fn held_keys(cabinet: &[u8]) -> Result<HeldKeys<'_>, Refusal> {
    check_cabinet(cabinet)?;
    Ok(HeldKeys { places: cabinet.chunks_exact(CABINET_WIDTH) })
}
