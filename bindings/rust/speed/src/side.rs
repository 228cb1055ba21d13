//! What is measured: the same calls on every side.

/// A refusal's number, and the number of the field that it is about, 0 where it is about none.
pub type Refusal = (u8, usize);

pub const TOO_LONG: Refusal = (1, 0);
pub const UNKNOWN_KIND: Refusal = (2, 0);
pub const MISSING_CHECK: Refusal = (3, 0);
pub const WRONG_CHECK: Refusal = (4, 0);
pub const WRONG_COUNT: Refusal = (5, 0);
pub const UNPAIRED: Refusal = (8, 0);
pub const SHORT_OUTPUT: Refusal = (10, 0);
pub const UNFINISHED: Refusal = (11, 0);
pub const MISSING_PART: Refusal = (12, 0);
pub const WRONG_ATTRIBUTES: Refusal = (14, 0);
pub const WRONG_FINGERPRINT: Refusal = (15, 0);
pub const WRONG_Z: Refusal = (16, 0);
pub const OTHER_REQUEST: Refusal = (17, 0);
pub const WRONG_TAG: Refusal = (18, 0);
pub const MISSING_TRAILER: Refusal = (19, 0);
pub const WRONG_HASH: Refusal = (20, 0);
pub const MISSING_BEGINS: Refusal = (21, 0);
pub const MISSING_ENDS: Refusal = (22, 0);
pub const NOT_CABINET: Refusal = (23, 0);
pub const NOT_LATER: Refusal = (24, 0);
pub const NO_PLACE: Refusal = (25, 0);
pub const NOT_THERE: Refusal = (26, 0);
pub const TVP_NOT_LATER: Refusal = (27, 0);
pub const MODULE_UNSIGNED: Refusal = (28, 0);

/// A refusal, and the record whose own it is: 1 the request, 2 the response, 0 neither.
pub type NamedRefusal = (u8, Refusal);

/// How many fields a record has at most.
pub const MOST_FIELDS: usize = 7;

/// The fields of a record, empty past its last one.
pub type Fields<'a> = [&'a [u8]; MOST_FIELDS];

/// A line of a file.
#[derive(Debug, PartialEq)]
pub struct Line {
    pub start: usize,
    pub len: usize,
    pub next: usize,
    /// The kind, as its row in the table.
    pub answer: Result<usize, Refusal>,
}

/// Slices that are hashed one behind the other.
pub type Pieces<'a> = [&'a [u8]; 3];

/// So many bytes of a Subject stand from its Fingerprint on: this, a mark and the check.
pub const PRINT_TO_END: usize = 16 + 1 + 4;

/// So many stand from its GNT on, which has sixteen characters and a mark.
pub const GNT_TO_END: usize = 16 + 1 + PRINT_TO_END;

/// The TVP of a module of which no request was admitted.
pub const FIRST_TVP: &[u8; 16] = b"19930101T000000Z";

/// Where Expiry stands among the fields of a public key.
pub const EXPIRY: usize = 2;

/// Which call reads.
#[derive(Clone, Copy)]
pub enum Reads {
    Identities,
    Records,
}

/// The calls that are measured. Kinds are rows of the table.
pub trait Side {
    const NAME: &'static str;

    fn crc_of(bytes: &[u8]) -> u16;
    fn read(reads: Reads, bytes: &[u8]) -> Result<usize, Refusal>;
    /// Reads, and hands back all fields.
    fn read_fields(reads: Reads, bytes: &[u8]) -> Result<(usize, Fields<'_>), Refusal>;
    /// Reads, and hands back one field, counted from 1.
    fn record_field(record: &[u8], wanted: usize) -> Result<&[u8], Refusal>;
    /// Reads a wrapped key, and hands back the attribute of this name.
    fn attribute_named<'a>(record: &'a [u8], name: &[u8]) -> Result<&'a [u8], Refusal>;
    fn line_at(file: &[u8], place: usize) -> Option<Line>;
    fn build(name: &[u8], bytes: &[u8], lens: &[usize], out: &mut [u8]) -> Result<usize, Refusal>;
    fn shared_info(request: &[u8], out: &mut [u8]) -> Result<usize, Refusal>;
    fn module_text(request: &[u8], out: &mut [u8]) -> Result<usize, Refusal>;
    fn centre_text(request: &[u8], out: &mut [u8]) -> Result<usize, Refusal>;
    fn sha384_of(bytes: &[u8]) -> [u8; 48];
    /// The hash by a state that is begun, given one piece after another, and ended.
    fn hash_of(pieces: Pieces<'_>) -> [u8; 48];
    /// Reads a public key, and compares the Fingerprint in its Subject with the right one.
    fn check_fingerprint(record: &[u8]) -> Result<(), Refusal>;
    fn hmac_of(key: &[u8], text: &[u8]) -> [u8; 24];
    /// Reads a load request, and compares its MacTag with the right one; then writes MacKey and KEK.
    fn confirm_request(
        z: &[u8],
        request: &[u8],
        mac_key: &mut [u8],
        kek: &mut [u8],
    ) -> Result<(), NamedRefusal>;
    /// Reads a load request and the response to it, and compares the response's MacTag with the right one.
    fn confirm_response(z: &[u8], request: &[u8], response: &[u8]) -> Result<(), NamedRefusal>;
    fn sha1_of(bytes: &[u8]) -> [u8; 20];
    /// The line at a place of a manufacturer's file, with its trailer.
    fn trailed_at(file: &[u8], place: usize) -> Option<Line>;
    /// Reads a record, and writes it with its trailer.
    fn write_trailed(record: &[u8], out: &mut [u8]) -> Result<usize, Refusal>;
    /// Reads a record, and writes its block.
    fn write_mail(record: &[u8], out: &mut [u8]) -> Result<usize, Refusal>;
    /// Finds the record in a text, reads it, and writes it.
    fn read_mail(text: &[u8], out: &mut [u8]) -> Result<usize, Refusal>;
    /// The seconds from 19930101T000000Z to a TIMESTAMP; none of any other text.
    fn moment_of(text: &[u8]) -> Option<i64>;
    /// Reads a public key, and hands back the seconds of its Expiry.
    fn expiry_of(record: &[u8]) -> Result<i64, Refusal>;
    /// Whether the bytes are a cabinet, which each of the calls below asks first.
    fn check_cabinet(cabinet: &[u8]) -> Result<(), Refusal>;
    fn put_key(cabinet: &mut [u8], record: &[u8]) -> Result<(), Refusal>;
    fn remove_key(cabinet: &mut [u8], identity: &[u8]) -> Result<(), Refusal>;
    /// Admits a load request, and stores its TVP.
    fn admit(cabinet: &mut [u8], request: &[u8]) -> Result<(), Refusal>;
    fn find_key<'a>(cabinet: &'a [u8], identity: &[u8]) -> Result<&'a [u8], Refusal>;
}
