//! Lengths: the longest inputs that are taken, outputs that are always enough, and those of a cabinet.

/// The header's own numbers, which the build script takes over as C writes them.
#[allow(clippy::manual_div_ceil)]
mod header {
    include!(concat!(env!("OUT_DIR"), "/lengths.rs"));
}

/// The longest bytes that are read as a record or identity.
pub const LONGEST_READ: usize = header::LONGEST_READ;
/// The longest IDENT.
pub const LONGEST_IDENT: usize = header::LONGEST_IDENT;
/// The longest identity that is built or accepted.
pub const LONGEST_IDENTITY: usize = header::LONGEST_IDENTITY;
/// The longest public key that is built or accepted. Only a `KEY.1` can be longer.
pub const LONGEST_PUBKEY: usize = header::LONGEST_PUBKEY;
/// The longest record that is built or accepted, a `KEY.1`.
pub const LONGEST_RECORD: usize = header::LONGEST_RECORD;
/// The longest SharedInfo.
pub const LONGEST_SHARED_INFO: usize = header::LONGEST_SHARED_INFO;
/// The longest module text.
pub const LONGEST_MODULE_TEXT: usize = header::LONGEST_MODULE_TEXT;
/// The longest centre text.
pub const LONGEST_CENTRE_TEXT: usize = header::LONGEST_CENTRE_TEXT;
/// The longest Fingerprint: all have this length.
pub const LONGEST_FINGERPRINT: usize = header::LONGEST_FINGERPRINT;
/// Z, the shared value of a key agreement, has just so many bytes.
pub const Z_BYTES: usize = header::Z_BYTES;
/// MacKey and KEK have so many each: an output for one of them is enough with these.
pub const KEY_BYTES: usize = header::KEY_BYTES;
/// A manufacturer's line has so many bytes behind its record: `#` and HEX(40).
pub const TRAILER: usize = header::TRAILER;
/// The longest manufacturer's line that is written or accepted, without its line feed.
pub const LONGEST_TRAILED: usize = header::LONGEST_TRAILED;
/// The longest block that is written, a `KEY.1`, with a line feed behind every line.
pub const LONGEST_MAIL: usize = header::LONGEST_MAIL;
/// The places of a cabinet.
pub const CABINET_PLACES: usize = header::CABINET_PLACES;
/// The bytes of each place.
pub const CABINET_WIDTH: usize = header::CABINET_WIDTH;
/// The bytes of a cabinet, which are the only length that it has.
pub const CABINET_SIZE: usize = header::CABINET_SIZE;
/// Where the last TVP begins in an occupied place: the sixteen bytes before the number.
pub const CABINET_TVP_AT: usize = header::CABINET_TVP_AT;
/// Where the number of Expiry begins in an occupied place: its last eight bytes.
pub const CABINET_NUMBER_AT: usize = header::CABINET_NUMBER_AT;
