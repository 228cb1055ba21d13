//! The centre's key cabinet: up to 64 public keys in 65,536 lent bytes, each with the last TVP of its module.

use crate::record::part;
use crate::{held_keys, sys, HeldKeys, Refusal};
use core::fmt;

/// The centre's key cabinet: up to [`CABINET_PLACES`](crate::CABINET_PLACES) public keys in
/// [`CABINET_SIZE`](crate::CABINET_SIZE) lent bytes.
///
/// Each of its places of [`CABINET_WIDTH`](crate::CABINET_WIDTH) bytes is free, and then all zeros; or it starts with a public key
/// that [`Record::read`](crate::Record::read) accepts, or refuses with reason 28, has zeros after it, from
/// [`CABINET_TVP_AT`](crate::CABINET_TVP_AT) on the last TVP that was accepted for its module, and in its last eight bytes, from
/// [`CABINET_NUMBER_AT`](crate::CABINET_NUMBER_AT) on, the seconds of its Expiry, in big endian and two's complement. No two of the
/// records share Subject kind, Manufacturer and MID: by these three a key is found, replaced and taken out, and the module of a
/// load request is found. The lent bytes are all that there is of a cabinet, so that a program may store them and open them again.
/// All other memory is no cabinet, and so is one with keys that was stored before version 0.11, in which zeros stand where the TVPs
/// do: its records are put into one that is made empty.
///
/// A record in a place that is refused with reason 28 is old: the unsigned key of a module, from when such a key was accepted, up to
/// version 0.11. It stays in its place until it is replaced or taken out, and counts as any other; [`find`](Cabinet::find) and
/// [`admit`](Cabinet::admit) refuse its module with reason 26. [`keys`](Cabinet::keys) has it among the others, and
/// [`HeldKey::is_old`](crate::HeldKey::is_old) tells it from them. No call puts an old record in.
///
/// A request is admitted once, for as long as the key of its module is there: a key that is replaced leaves the TVP to the one that
/// takes its place, and a key that is taken out takes it along. So no two requests of a module that were admitted since the latest
/// first put of its key share a TVP, and what was admitted before that put is forgotten.
///
/// Every call asks first whether the bytes are a cabinet, and so reads every record in it again. A refused call leaves all of them
/// as they were, and one that changes a place leaves all others. While a `Cabinet` borrows the bytes, nothing else writes them; a
/// program that keeps the bytes itself calls [`put_key`] and the others on them.
///
/// ```
/// use obscurlane::{build, Cabinet, Reason, CABINET_SIZE, LONGEST_IDENTITY, LONGEST_RECORD};
///
/// // the identity of a module with this GNT, and its key, signed by its manufacturer
/// fn identity(gnt: &str) -> Vec<u8> {
///     let mut out = [0; LONGEST_IDENTITY];
///     let fields = format!("Prism06000001{gnt}320C265FDC769D3E");
///     let len = build(b"SMID.1", fields.as_bytes(), &[5, 8, 16, 16], &mut out).unwrap();
///     out[..len].to_vec()
/// }
/// fn key(gnt: &str) -> Vec<u8> {
///     let (subject, mut out) = (identity(gnt), [0; LONGEST_RECORD]);
///     let issuer = b"SMMAN.1:Prism:A:20180115T140000Z:105717ACA4A50852:8B04";
///     let fields = [&subject[..], b"04", &[b'A'; 192], b"20310110T120000Z", issuer, &[b'B'; 192]].concat();
///     let lens = [subject.len(), 194, 16, issuer.len(), 192];
///     let len = build(b"PK.ECDH.1", &fields, &lens, &mut out).unwrap();
///     out[..len].to_vec()
/// }
/// let (old, new) = (key("20180120T090000Z"), key("20190120T090000Z"));
///
/// let mut bytes = vec![0xFF; CABINET_SIZE];
/// let mut cabinet = Cabinet::make(&mut bytes)?;
/// cabinet.put(&old)?;
///
/// // a later key takes the place of the one before, and no other does
/// cabinet.put(&new)?;
/// assert_eq!(cabinet.put(&old).unwrap_err().reason, Reason::NotLater);
/// assert_eq!(cabinet.count(), Ok(1));
///
/// // found by kind, Manufacturer and MID, whatever the GNT
/// assert_eq!(cabinet.find(&identity("19930101T000000Z"))?, new);
///
/// // which keys expire within 30 days?
/// let now = obscurlane::moment_of(b"20301231T120000Z").unwrap();
/// let soon = cabinet.keys()?.filter(|key| key.expiry - now < 30 * 86_400);
/// assert!(soon.map(|key| key.record).eq([new.as_slice()]));
///
/// // the bytes are the cabinet
/// assert_eq!(obscurlane::find_key(&bytes, &identity("19930101T000000Z")), Ok(&new[..]));
/// let mut cabinet = Cabinet::open(&mut bytes)?;
/// cabinet.remove(&identity("20180120T090000Z"))?;
/// assert!(bytes.iter().all(|&byte| byte == 0));
/// # Ok::<(), obscurlane::Refusal>(())
/// ```
#[derive(PartialEq, Eq)]
pub struct Cabinet<'a> {
    bytes: &'a mut [u8],
}

impl<'a> Cabinet<'a> {
    /// Makes the lent bytes an empty cabinet, whatever they were.
    ///
    /// ```
    /// use obscurlane::{Cabinet, Reason, CABINET_SIZE};
    ///
    /// let mut bytes = vec![0xA5; CABINET_SIZE];
    /// assert_eq!(Cabinet::make(&mut bytes)?.count(), Ok(0));
    /// assert_eq!(Cabinet::make(&mut bytes[1..]).unwrap_err().reason, Reason::NotCabinet);
    /// # Ok::<(), obscurlane::Refusal>(())
    /// ```
    ///
    /// # Errors
    ///
    /// Reason 23 for bytes of another length than [`CABINET_SIZE`](crate::CABINET_SIZE), which stay as they were.
    #[inline]
    pub fn make(bytes: &'a mut [u8]) -> Result<Cabinet<'a>, Refusal> {
        make_cabinet(bytes)?;
        Ok(Cabinet { bytes })
    }

    /// Opens bytes that are a cabinet, as those that were stored.
    ///
    /// ```
    /// use obscurlane::{Cabinet, Reason, CABINET_SIZE};
    ///
    /// let mut bytes = vec![0; CABINET_SIZE];
    /// assert!(Cabinet::open(&mut bytes).is_ok());
    /// bytes[1023] = b' ';
    /// assert_eq!(Cabinet::open(&mut bytes).unwrap_err().reason, Reason::NotCabinet);
    /// ```
    ///
    /// # Errors
    ///
    /// Reason 23 for all other bytes.
    #[inline]
    pub fn open(bytes: &'a mut [u8]) -> Result<Cabinet<'a>, Refusal> {
        check_cabinet(bytes)?;
        Ok(Cabinet { bytes })
    }

    /// Puts a public key in. Where the cabinet has one of the same Subject kind, Manufacturer and MID, old or not, it is replaced in
    /// its place, and the TVP there stays; else it is a first put: the lowest free place is taken, with the TVP 19930101T000000Z.
    ///
    /// # Errors
    ///
    /// The record's own refusal (reasons 1 to 9, and 28), reason 2 for a record that is no public key; then reason 24 where the GNT of
    /// its Subject is earlier than that of the key to replace, or equal; then reason 25 where there is none to replace and no place
    /// is free. A full cabinet takes replacements.
    #[inline]
    pub fn put(&mut self, record: &[u8]) -> Result<(), Refusal> {
        put_key(self.bytes, record)
    }

    /// Takes out the public key of this identity's kind, Manufacturer and MID, old or not: its place is all zeros afterwards, the
    /// TVP with it, and is used again. So requests of the module that were admitted before are admitted again once its key is put in
    /// again. The identity must be accepted; its GNT and Fingerprint are ignored.
    ///
    /// # Errors
    ///
    /// The identity's own refusal (reasons 1 to 6), then reason 26 where there is no such key.
    #[inline]
    pub fn remove(&mut self, identity: &[u8]) -> Result<(), Refusal> {
        remove_key(self.bytes, identity)
    }

    /// Admits a load request, once: the key of its module, by kind, Manufacturer and MID of its ID_SM, is in the cabinet, and the
    /// TVP is later than the last one that was accepted for that module. It is then stored in the key's place, and no other byte
    /// changes. GNT and Fingerprint of ID_SM are ignored.
    ///
    /// The MacTag is not looked at: [`confirm_request`](crate::confirm_request) comes first, because a TVP that was admitted is
    /// used up, and a forged request with a late one would lock its module out. And the changed [`bytes`](Cabinet::bytes) are
    /// stored before the request is answered, because an older copy of them admits again what they refuse.
    ///
    /// # Errors
    ///
    /// The request's own refusal (reasons 1 to 7, or 9), reason 2 for a record that is no load request; then reason 26 where the key
    /// of its module is not there, or is old; then reason 27 where its TVP is earlier than the one that is stored, or equal.
    #[inline]
    pub fn admit(&mut self, request: &[u8]) -> Result<(), Refusal> {
        admit(self.bytes, request)
    }

    /// The public key of this identity's kind, Manufacturer and MID, a part of the lent bytes. The identity must be accepted; its
    /// GNT and Fingerprint are ignored.
    ///
    /// # Errors
    ///
    /// As [`Cabinet::remove`], and reason 26 where the key is old too.
    #[inline]
    pub fn find(&self, identity: &[u8]) -> Result<&[u8], Refusal> {
        find_key(self.bytes, identity)
    }

    /// How many keys the cabinet has, old ones with them.
    ///
    /// # Errors
    ///
    /// None while the cabinet is borrowed, because only its calls write the bytes: reason 23 is for bytes that something else has
    /// written.
    #[inline]
    pub fn count(&self) -> Result<usize, Refusal> {
        count_keys(self.bytes)
    }

    /// All keys of the cabinet in the order of their places, old ones too, each with the last TVP of its module and the seconds of
    /// its Expiry as they stand in the place.
    ///
    /// # Errors
    ///
    /// As [`Cabinet::count`].
    #[inline]
    pub fn keys(&self) -> Result<HeldKeys<'_>, Refusal> {
        held_keys(self.bytes)
    }

    /// The lent bytes, to store them or to compare them.
    #[must_use]
    #[inline]
    pub fn bytes(&self) -> &[u8] {
        self.bytes
    }
}

/// How many keys it has.
impl fmt::Debug for Cabinet<'_> {
    fn fmt(&self, f: &mut fmt::Formatter<'_>) -> fmt::Result {
        f.debug_struct("Cabinet").field("count", &self.count()).finish_non_exhaustive()
    }
}

/// The answer of a call that changes a cabinet, or asks whether it is one.
#[inline]
fn filed(filed: &sys::Filed) -> Result<(), Refusal> {
    Refusal::check(filed.no, filed.field)
}

/// Makes the lent bytes an empty cabinet, whatever they were, as [`Cabinet::make`] does.
///
/// ```
/// use obscurlane::{make_cabinet, Reason, CABINET_SIZE};
///
/// let mut bytes = vec![0xA5; CABINET_SIZE];
/// assert_eq!(make_cabinet(&mut bytes[1..]).unwrap_err().reason, Reason::NotCabinet);
/// assert_eq!(make_cabinet(&mut bytes), Ok(()));
/// assert!(bytes.iter().all(|&byte| byte == 0));
/// ```
///
/// # Errors
///
/// Reason 23 for bytes of another length than [`CABINET_SIZE`](crate::CABINET_SIZE), which stay as they were.
#[inline]
pub fn make_cabinet(cabinet: &mut [u8]) -> Result<(), Refusal> {
    filed(&sys::make_cabinet(cabinet))
}

/// Whether the bytes are a cabinet. [`Cabinet::open`] asks the same and lets the cabinet be changed.
///
/// ```
/// use obscurlane::{check_cabinet, Reason, CABINET_SIZE};
///
/// assert_eq!(check_cabinet(&[0; CABINET_SIZE]), Ok(()));
/// assert_eq!(check_cabinet(&[0; CABINET_SIZE + 1]).unwrap_err().reason, Reason::NotCabinet);
/// ```
///
/// # Errors
///
/// Reason 23 where they are none.
#[inline]
pub fn check_cabinet(cabinet: &[u8]) -> Result<(), Refusal> {
    filed(&sys::check_cabinet(cabinet))
}

/// How many keys the cabinet in these bytes has, old ones with them.
///
/// ```
/// use obscurlane::{count_keys, Reason, CABINET_SIZE};
///
/// assert_eq!(count_keys(&[0; CABINET_SIZE]), Ok(0));
/// assert_eq!(count_keys(b"").unwrap_err().reason, Reason::NotCabinet);
/// ```
///
/// # Errors
///
/// Reason 23 where they are no cabinet.
#[inline]
pub fn count_keys(cabinet: &[u8]) -> Result<usize, Refusal> {
    let counted = sys::count_keys(cabinet);
    Refusal::check(counted.no, 0).map(|()| counted.count)
}

/// Puts a public key into the cabinet in these bytes: [`Cabinet::put`].
///
/// ```
/// use obscurlane::{put_key, Reason, CABINET_SIZE};
///
/// let key = b"PK.ECDH.1|SMID.1:Prism:06000001:20180120T090000Z:320C265FDC769D3E:8EFF|04795CF0B4D74920C64A\
///     6879504A6DE9CA788076D946D2F70F8981C01137752C7C050DC6FA61C2CB3D77EFE4275826857CC286805608F43C2E9A\
///     C8752600D99FE92CCFB7E146742F0DC9C74CEF6568CBB75AB075D2DFED2EE5531554FA844B8DBC|99991231T115959Z|\
///     SMMAN.1:Prism:A:20180115T140000Z:105717ACA4A50852:8B04|8E36C1BBF029875C57985D107DE41293FE2ACC8526C3\
///     3CD7056AC4F4595F4768569E0560A9C85FC6310F77FC8A0C7E5839B12D5A3498E3AAF1C9E8DEA974B554EC64DCAA54670969\
///     7D67695770EAE4CF9937CD62E6AB726DB35BD5C7CAD23774|4971";
/// let mut cabinet = vec![0; CABINET_SIZE];
/// assert_eq!(put_key(&mut cabinet, key), Ok(()));
/// assert_eq!(put_key(&mut cabinet, key).unwrap_err().reason, Reason::NotLater);
/// assert!(cabinet.starts_with(key));
/// ```
///
/// # Errors
///
/// Reason 23 where the bytes are no cabinet, then as [`Cabinet::put`].
#[inline]
pub fn put_key(cabinet: &mut [u8], record: &[u8]) -> Result<(), Refusal> {
    filed(&sys::put_key(cabinet, record))
}

/// Takes the public key of an identity's kind, Manufacturer and MID out of the cabinet in these bytes: [`Cabinet::remove`].
///
/// ```
/// use obscurlane::{remove_key, Reason, CABINET_SIZE};
///
/// let identity = b"SMID.1:Prism:06000001:20180120T090000Z:320C265FDC769D3E:8EFF";
/// let mut cabinet = vec![0; CABINET_SIZE];
/// assert_eq!(remove_key(&mut cabinet, identity).unwrap_err().reason, Reason::NotThere);
/// ```
///
/// # Errors
///
/// Reason 23 where the bytes are no cabinet, then as [`Cabinet::remove`].
#[inline]
pub fn remove_key(cabinet: &mut [u8], identity: &[u8]) -> Result<(), Refusal> {
    filed(&sys::remove_key(cabinet, identity))
}

/// Admits a load request to the cabinet in these bytes, once: [`Cabinet::admit`].
///
/// ```
/// use obscurlane::{admit, put_key, Reason, CABINET_NUMBER_AT, CABINET_SIZE, CABINET_TVP_AT};
///
/// let key = b"PK.ECDH.1|SMID.1:Prism:06000001:20180120T090000Z:320C265FDC769D3E:8EFF|04795CF0B4D74920C64A\
///     6879504A6DE9CA788076D946D2F70F8981C01137752C7C050DC6FA61C2CB3D77EFE4275826857CC286805608F43C2E9A\
///     C8752600D99FE92CCFB7E146742F0DC9C74CEF6568CBB75AB075D2DFED2EE5531554FA844B8DBC|99991231T115959Z|\
///     SMMAN.1:Prism:A:20180115T140000Z:105717ACA4A50852:8B04|8E36C1BBF029875C57985D107DE41293FE2ACC8526C3\
///     3CD7056AC4F4595F4768569E0560A9C85FC6310F77FC8A0C7E5839B12D5A3498E3AAF1C9E8DEA974B554EC64DCAA54670969\
///     7D67695770EAE4CF9937CD62E6AB726DB35BD5C7CAD23774|4971";
/// let request = b"VKLOAD.REQ.1|SMID.1:Prism:06000001:20180120T090000Z:320C265FDC769D3E:8EFF|\
///     KMCID.1:sts-KeyAgreement-1.2:TEST1:20180110T120000Z:4712CFF444570C8A:4C31|20180125T150000Z|\
///     Prism-VSM-1|STS6-001|0473E2C294EE44A17A5668ABE67C1F93CBDBCE38DEF4848584C279047A8DDCFFBAE8857C2CCC1\
///     01A50E4ADB1ECDE9E14735B8CBFA88D18BD25F247DF0014298F48BB11CA8415320E7AF7172B0B20D5C00D57D04E33D07343E\
///     DE185299CF2CA1E10|BE6CB4AC631E12EEB5D3F85496042A3274FEAB0477935778|F6B3";
/// let mut cabinet = vec![0; CABINET_SIZE];
/// assert_eq!(admit(&mut cabinet, request).unwrap_err().reason, Reason::NotThere);
/// put_key(&mut cabinet, key)?;
///
/// // delivered a second time, it is refused
/// assert_eq!(admit(&mut cabinet, request), Ok(()));
/// assert_eq!(admit(&mut cabinet, request).unwrap_err().reason, Reason::TvpNotLater);
/// assert_eq!(cabinet[CABINET_TVP_AT..CABINET_NUMBER_AT], *b"20180125T150000Z");
/// # Ok::<(), obscurlane::Refusal>(())
/// ```
///
/// # Errors
///
/// Reason 23 where the bytes are no cabinet, then as [`Cabinet::admit`].
#[inline]
pub fn admit(cabinet: &mut [u8], request: &[u8]) -> Result<(), Refusal> {
    filed(&sys::admit(cabinet, request))
}

/// The public key of an identity's kind, Manufacturer and MID, a part of the cabinet's bytes: [`Cabinet::find`] for bytes that are
/// only read.
///
/// ```
/// use obscurlane::{find_key, Reason, CABINET_SIZE};
///
/// let identity = b"SMID.1:Prism:06000001:20180120T090000Z:320C265FDC769D3E:8EFF";
/// let reason = |cabinet| find_key(cabinet, identity).unwrap_err().reason;
/// assert_eq!(reason(&[0; CABINET_SIZE][..]), Reason::NotThere);
/// assert_eq!(reason(&[b' '; CABINET_SIZE]), Reason::NotCabinet);
/// ```
///
/// # Errors
///
/// Reason 23 where the bytes are no cabinet, then as [`Cabinet::find`].
#[inline]
pub fn find_key<'a>(cabinet: &'a [u8], identity: &[u8]) -> Result<&'a [u8], Refusal> {
    part(cabinet, &sys::find_key(cabinet, identity))
}
