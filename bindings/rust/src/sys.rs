//! The C interface, and the only module with `unsafe`: the structs and functions of `bindings/c/obscurlane.h`, and for each
//! function one of Rust that takes slices.
//!
//! Why this is sound: a slice is valid for its length and never null, a `&mut` overlaps nothing, and the library is proved to
//! stay within the lengths that it is given, to write nothing but its outputs and to keep no pointer. A function without
//! pointers takes any numbers.

#![allow(unsafe_code)]

/// What reading answers: the number, the field that it is about, the kind, and of every field where it starts, its length,
/// and the kind of an identity.
#[derive(Clone, Copy)]
#[repr(C)]
pub struct Answer {
    pub no: u8,
    pub field: u8,
    pub kind: usize,
    pub starts: [usize; 7],
    pub lens: [usize; 7],
    pub kinds: [usize; 7],
}

/// Where one field, attribute or key in a cabinet stands.
#[repr(C)]
pub struct Place {
    pub no: u8,
    pub field: u8,
    pub start: usize,
    pub len: usize,
}

/// What was written from the front of an output.
#[repr(C)]
pub struct Written {
    pub no: u8,
    pub field: u8,
    pub len: usize,
}

/// Where an item of a text stands.
#[repr(C)]
pub struct Item {
    pub no: u8,
    pub start: usize,
    pub len: usize,
}

/// What stands at a place of a file, or, without `line`, that it is finished.
#[repr(C)]
pub struct Line {
    pub line: bool,
    pub no: u8,
    pub field: u8,
    pub kind: usize,
    pub start: usize,
    pub len: usize,
    pub next: usize,
}

/// The numbers of lines and of accepted lines.
#[repr(C)]
pub struct Totals {
    pub lines: usize,
    pub accepted: usize,
}

/// What a check says.
#[repr(C)]
pub struct Checked {
    pub no: u8,
    pub field: u8,
}

/// What a call says that changes a cabinet, or asks whether it is one.
#[repr(C)]
pub struct Filed {
    pub no: u8,
    pub field: u8,
}

/// Whether a text is a TIMESTAMP, and its seconds since 19930101T000000Z.
#[repr(C)]
pub struct Moment {
    pub valid: bool,
    pub seconds: i64,
}

/// The seconds of Expiry of a public key.
#[repr(C)]
pub struct Expiry {
    pub no: u8,
    pub field: u8,
    pub seconds: i64,
}

/// How many places of a cabinet are occupied.
#[repr(C)]
pub struct Counted {
    pub no: u8,
    pub count: usize,
}

/// The bytes of a hash.
#[repr(C)]
pub struct Digest {
    pub bytes: [u8; 48],
}

/// The bytes of a shorter hash.
#[repr(C)]
pub struct Sha1Digest {
    pub bytes: [u8; 20],
}

/// The bytes of a tag.
#[repr(C)]
pub struct Tag {
    pub bytes: [u8; 24],
}

/// What is said of a request or a response, and with a refusal of its own which of the two is refused.
#[repr(C)]
pub struct Confirmed {
    pub no: u8,
    pub field: u8,
    pub which: u8,
}

/// A hash value.
#[derive(Clone, Copy, PartialEq, Eq, Hash)]
#[repr(C)]
pub struct Sha384Words {
    pub a: u64,
    pub b: u64,
    pub c: u64,
    pub d: u64,
    pub e: u64,
    pub f: u64,
    pub g: u64,
    pub h: u64,
}

/// The bytes that a hash was given so far: the hash value of their whole blocks, those that wait for one, and how many there were.
#[derive(Clone, Copy, PartialEq, Eq, Hash)]
#[repr(C)]
pub struct Sha384State {
    pub hash: Sha384Words,
    pub block: [u8; 128],
    pub low: u64,
    pub high: u64,
}

/// The hash value of SHA-1.
#[derive(Clone, Copy, PartialEq, Eq, Hash)]
#[repr(C)]
pub struct Sha1Words {
    pub a: u32,
    pub b: u32,
    pub c: u32,
    pub d: u32,
    pub e: u32,
}

/// What SHA-1 was given so far, in the same way.
#[derive(Clone, Copy, PartialEq, Eq, Hash)]
#[repr(C)]
pub struct Sha1State {
    pub hash: Sha1Words,
    pub block: [u8; 64],
    pub count: u64,
}

/// Which of two records is the newer, or is refused.
#[repr(C)]
pub struct Choice {
    pub no: u8,
    pub field: u8,
    pub which: u8,
}

extern "C" {
    fn obscurlane_crc_begin() -> u16;
    fn obscurlane_crc_add(state: u16, byte: u8) -> u16;
    fn obscurlane_crc_end(state: u16) -> u16;
    fn obscurlane_crc_of(bytes: *const u8, bytes_len: usize) -> u16;

    fn obscurlane_is_ident(s: *const u8, s_len: usize) -> bool;
    fn obscurlane_is_timestamp(s: *const u8, s_len: usize) -> bool;
    fn obscurlane_is_hex(n: usize, s: *const u8, s_len: usize) -> bool;
    fn obscurlane_is_point(s: *const u8, s_len: usize) -> bool;
    fn obscurlane_is_sig(s: *const u8, s_len: usize) -> bool;
    fn obscurlane_is_mac(s: *const u8, s_len: usize) -> bool;
    fn obscurlane_is_print(s: *const u8, s_len: usize) -> bool;

    fn obscurlane_read_identity(identity: *const u8, identity_len: usize) -> Answer;
    fn obscurlane_read_record(record: *const u8, record_len: usize) -> Answer;
    fn obscurlane_identity_field(identity: *const u8, identity_len: usize, wanted: usize) -> Place;
    fn obscurlane_record_field(record: *const u8, record_len: usize, wanted: usize) -> Place;
    fn obscurlane_attribute(record: *const u8, record_len: usize, wanted: usize) -> Place;
    fn obscurlane_attribute_named(
        record: *const u8,
        record_len: usize,
        name: *const u8,
        name_len: usize,
    ) -> Place;

    fn obscurlane_build(
        kind: *const u8,
        kind_len: usize,
        bytes: *const u8,
        bytes_len: usize,
        lens: *const usize,
        lens_len: usize,
        out: *mut u8,
        out_len: usize,
    ) -> Written;
    fn obscurlane_shared_info(
        request: *const u8,
        request_len: usize,
        out: *mut u8,
        out_len: usize,
    ) -> Written;
    fn obscurlane_module_text(
        request: *const u8,
        request_len: usize,
        out: *mut u8,
        out_len: usize,
    ) -> Written;
    fn obscurlane_centre_text(
        request: *const u8,
        request_len: usize,
        out: *mut u8,
        out_len: usize,
    ) -> Written;
    fn obscurlane_text_item(text: *const u8, text_len: usize, wanted: usize) -> Item;

    fn obscurlane_line_at(file: *const u8, file_len: usize, place: usize) -> Line;
    fn obscurlane_reader_new(file: *const u8, file_len: usize) -> usize;
    fn obscurlane_reader_step(file: *const u8, file_len: usize, place: *mut usize) -> Line;
    fn obscurlane_count(file: *const u8, file_len: usize) -> Totals;
    fn obscurlane_read_trailed(line: *const u8, line_len: usize) -> Answer;
    fn obscurlane_trailed_at(file: *const u8, file_len: usize, place: usize) -> Line;
    fn obscurlane_count_trailed(file: *const u8, file_len: usize) -> Totals;
    fn obscurlane_write_trailed(
        record: *const u8,
        record_len: usize,
        out: *mut u8,
        out_len: usize,
    ) -> Written;

    fn obscurlane_write_mail(
        record: *const u8,
        record_len: usize,
        out: *mut u8,
        out_len: usize,
    ) -> Written;
    fn obscurlane_read_mail(
        text: *const u8,
        text_len: usize,
        out: *mut u8,
        out_len: usize,
    ) -> Written;

    fn obscurlane_newer(
        first: *const u8,
        first_len: usize,
        second: *const u8,
        second_len: usize,
    ) -> Choice;

    fn obscurlane_moment_of(s: *const u8, s_len: usize) -> Moment;
    fn obscurlane_expiry_of(record: *const u8, record_len: usize) -> Expiry;

    fn obscurlane_make_cabinet(cabinet: *mut u8, cabinet_len: usize) -> Filed;
    fn obscurlane_check_cabinet(cabinet: *const u8, cabinet_len: usize) -> Filed;
    fn obscurlane_count_keys(cabinet: *const u8, cabinet_len: usize) -> Counted;
    fn obscurlane_put_key(
        cabinet: *mut u8,
        cabinet_len: usize,
        record: *const u8,
        record_len: usize,
    ) -> Filed;
    fn obscurlane_remove_key(
        cabinet: *mut u8,
        cabinet_len: usize,
        identity: *const u8,
        identity_len: usize,
    ) -> Filed;
    fn obscurlane_admit(
        cabinet: *mut u8,
        cabinet_len: usize,
        request: *const u8,
        request_len: usize,
    ) -> Filed;
    fn obscurlane_find_key(
        cabinet: *const u8,
        cabinet_len: usize,
        identity: *const u8,
        identity_len: usize,
    ) -> Place;

    fn obscurlane_check_fingerprint(record: *const u8, record_len: usize) -> Checked;
    fn obscurlane_write_fingerprint(
        record: *const u8,
        record_len: usize,
        out: *mut u8,
        out_len: usize,
    ) -> Written;
    fn obscurlane_sha384_of(bytes: *const u8, bytes_len: usize) -> Digest;
    fn obscurlane_sha384_begin() -> Sha384State;
    fn obscurlane_sha384_add(state: Sha384State, bytes: *const u8, bytes_len: usize)
        -> Sha384State;
    fn obscurlane_sha384_end(state: Sha384State) -> Digest;

    fn obscurlane_sha1_of(bytes: *const u8, bytes_len: usize) -> Sha1Digest;
    fn obscurlane_sha1_begin() -> Sha1State;
    fn obscurlane_sha1_add(state: Sha1State, bytes: *const u8, bytes_len: usize) -> Sha1State;
    fn obscurlane_sha1_end(state: Sha1State) -> Sha1Digest;

    fn obscurlane_hmac_of(key: *const u8, key_len: usize, text: *const u8, text_len: usize) -> Tag;
    fn obscurlane_confirm_request(
        z: *const u8,
        z_len: usize,
        request: *const u8,
        request_len: usize,
        mac_key: *mut u8,
        mac_key_len: usize,
        kek: *mut u8,
        kek_len: usize,
    ) -> Confirmed;
    fn obscurlane_confirm_response(
        z: *const u8,
        z_len: usize,
        request: *const u8,
        request_len: usize,
        response: *const u8,
        response_len: usize,
    ) -> Confirmed;
}

// ---- the check

#[inline]
pub fn crc_begin() -> u16 {
    // SAFETY: nothing is given.
    unsafe { obscurlane_crc_begin() }
}

#[inline]
pub fn crc_add(state: u16, byte: u8) -> u16 {
    // SAFETY: numbers alone.
    unsafe { obscurlane_crc_add(state, byte) }
}

#[inline]
pub fn crc_end(state: u16) -> u16 {
    // SAFETY: a number alone.
    unsafe { obscurlane_crc_end(state) }
}

#[inline]
pub fn crc_of(bytes: &[u8]) -> u16 {
    // SAFETY: a slice's pointer and length.
    unsafe { obscurlane_crc_of(bytes.as_ptr(), bytes.len()) }
}

// ---- the text types

#[inline]
pub fn is_ident(s: &[u8]) -> bool {
    // SAFETY: a slice's pointer and length.
    unsafe { obscurlane_is_ident(s.as_ptr(), s.len()) }
}

#[inline]
pub fn is_timestamp(s: &[u8]) -> bool {
    // SAFETY: a slice's pointer and length.
    unsafe { obscurlane_is_timestamp(s.as_ptr(), s.len()) }
}

#[inline]
pub fn is_hex(n: usize, s: &[u8]) -> bool {
    // SAFETY: a slice's pointer and length.
    unsafe { obscurlane_is_hex(n, s.as_ptr(), s.len()) }
}

#[inline]
pub fn is_point(s: &[u8]) -> bool {
    // SAFETY: a slice's pointer and length.
    unsafe { obscurlane_is_point(s.as_ptr(), s.len()) }
}

#[inline]
pub fn is_sig(s: &[u8]) -> bool {
    // SAFETY: a slice's pointer and length.
    unsafe { obscurlane_is_sig(s.as_ptr(), s.len()) }
}

#[inline]
pub fn is_mac(s: &[u8]) -> bool {
    // SAFETY: a slice's pointer and length.
    unsafe { obscurlane_is_mac(s.as_ptr(), s.len()) }
}

#[inline]
pub fn is_print(s: &[u8]) -> bool {
    // SAFETY: a slice's pointer and length.
    unsafe { obscurlane_is_print(s.as_ptr(), s.len()) }
}

// ---- reading

#[inline]
pub fn read_identity(identity: &[u8]) -> Answer {
    // SAFETY: a slice's pointer and length.
    unsafe { obscurlane_read_identity(identity.as_ptr(), identity.len()) }
}

#[inline]
pub fn read_record(record: &[u8]) -> Answer {
    // SAFETY: a slice's pointer and length.
    unsafe { obscurlane_read_record(record.as_ptr(), record.len()) }
}

#[inline]
pub fn identity_field(identity: &[u8], wanted: usize) -> Place {
    // SAFETY: a slice's pointer and length.
    unsafe { obscurlane_identity_field(identity.as_ptr(), identity.len(), wanted) }
}

#[inline]
pub fn record_field(record: &[u8], wanted: usize) -> Place {
    // SAFETY: a slice's pointer and length.
    unsafe { obscurlane_record_field(record.as_ptr(), record.len(), wanted) }
}

#[inline]
pub fn attribute(record: &[u8], wanted: usize) -> Place {
    // SAFETY: a slice's pointer and length.
    unsafe { obscurlane_attribute(record.as_ptr(), record.len(), wanted) }
}

#[inline]
pub fn attribute_named(record: &[u8], name: &[u8]) -> Place {
    // SAFETY: slices' pointers and lengths, which are only read.
    unsafe { obscurlane_attribute_named(record.as_ptr(), record.len(), name.as_ptr(), name.len()) }
}

// ---- building, and the key agreement texts

#[inline]
pub fn build(kind: &[u8], bytes: &[u8], lens: &[usize], out: &mut [u8]) -> Written {
    // SAFETY: slices' pointers and lengths, and `out` overlaps nothing.
    unsafe {
        obscurlane_build(
            kind.as_ptr(),
            kind.len(),
            bytes.as_ptr(),
            bytes.len(),
            lens.as_ptr(),
            lens.len(),
            out.as_mut_ptr(),
            out.len(),
        )
    }
}

#[inline]
pub fn shared_info(request: &[u8], out: &mut [u8]) -> Written {
    // SAFETY: slices' pointers and lengths, and `out` overlaps nothing.
    unsafe { obscurlane_shared_info(request.as_ptr(), request.len(), out.as_mut_ptr(), out.len()) }
}

#[inline]
pub fn module_text(request: &[u8], out: &mut [u8]) -> Written {
    // SAFETY: slices' pointers and lengths, and `out` overlaps nothing.
    unsafe { obscurlane_module_text(request.as_ptr(), request.len(), out.as_mut_ptr(), out.len()) }
}

#[inline]
pub fn centre_text(request: &[u8], out: &mut [u8]) -> Written {
    // SAFETY: slices' pointers and lengths, and `out` overlaps nothing.
    unsafe { obscurlane_centre_text(request.as_ptr(), request.len(), out.as_mut_ptr(), out.len()) }
}

#[inline]
pub fn text_item(text: &[u8], wanted: usize) -> Item {
    // SAFETY: a slice's pointer and length.
    unsafe { obscurlane_text_item(text.as_ptr(), text.len(), wanted) }
}

// ---- files, manufacturers' files, records by mail, and the newer of two keys

#[inline]
pub fn line_at(file: &[u8], place: usize) -> Line {
    // SAFETY: a slice's pointer and length.
    unsafe { obscurlane_line_at(file.as_ptr(), file.len(), place) }
}

#[inline]
pub fn reader_new(file: &[u8]) -> usize {
    // SAFETY: a slice's pointer and length.
    unsafe { obscurlane_reader_new(file.as_ptr(), file.len()) }
}

#[inline]
pub fn reader_step(file: &[u8], place: &mut usize) -> Line {
    // SAFETY: a slice's pointer and length, and a number that overlaps nothing.
    unsafe { obscurlane_reader_step(file.as_ptr(), file.len(), place) }
}

#[inline]
pub fn count(file: &[u8]) -> Totals {
    // SAFETY: a slice's pointer and length.
    unsafe { obscurlane_count(file.as_ptr(), file.len()) }
}

#[inline]
pub fn read_trailed(line: &[u8]) -> Answer {
    // SAFETY: a slice's pointer and length.
    unsafe { obscurlane_read_trailed(line.as_ptr(), line.len()) }
}

#[inline]
pub fn trailed_at(file: &[u8], place: usize) -> Line {
    // SAFETY: a slice's pointer and length.
    unsafe { obscurlane_trailed_at(file.as_ptr(), file.len(), place) }
}

#[inline]
pub fn count_trailed(file: &[u8]) -> Totals {
    // SAFETY: a slice's pointer and length.
    unsafe { obscurlane_count_trailed(file.as_ptr(), file.len()) }
}

#[inline]
pub fn write_trailed(record: &[u8], out: &mut [u8]) -> Written {
    // SAFETY: slices' pointers and lengths, and `out` overlaps nothing.
    unsafe { obscurlane_write_trailed(record.as_ptr(), record.len(), out.as_mut_ptr(), out.len()) }
}

#[inline]
pub fn write_mail(record: &[u8], out: &mut [u8]) -> Written {
    // SAFETY: slices' pointers and lengths, and `out` overlaps nothing.
    unsafe { obscurlane_write_mail(record.as_ptr(), record.len(), out.as_mut_ptr(), out.len()) }
}

#[inline]
pub fn read_mail(text: &[u8], out: &mut [u8]) -> Written {
    // SAFETY: slices' pointers and lengths, and `out` overlaps nothing.
    unsafe { obscurlane_read_mail(text.as_ptr(), text.len(), out.as_mut_ptr(), out.len()) }
}

#[inline]
pub fn newer(first: &[u8], second: &[u8]) -> Choice {
    // SAFETY: slices' pointers and lengths, which are only read.
    unsafe { obscurlane_newer(first.as_ptr(), first.len(), second.as_ptr(), second.len()) }
}

// ---- dates as numbers

#[inline]
pub fn moment_of(s: &[u8]) -> Moment {
    // SAFETY: a slice's pointer and length.
    unsafe { obscurlane_moment_of(s.as_ptr(), s.len()) }
}

#[inline]
pub fn expiry_of(record: &[u8]) -> Expiry {
    // SAFETY: a slice's pointer and length.
    unsafe { obscurlane_expiry_of(record.as_ptr(), record.len()) }
}

// ---- the key cabinet

#[inline]
pub fn make_cabinet(cabinet: &mut [u8]) -> Filed {
    // SAFETY: a slice's pointer and length, which overlaps nothing.
    unsafe { obscurlane_make_cabinet(cabinet.as_mut_ptr(), cabinet.len()) }
}

#[inline]
pub fn check_cabinet(cabinet: &[u8]) -> Filed {
    // SAFETY: a slice's pointer and length.
    unsafe { obscurlane_check_cabinet(cabinet.as_ptr(), cabinet.len()) }
}

#[inline]
pub fn count_keys(cabinet: &[u8]) -> Counted {
    // SAFETY: a slice's pointer and length.
    unsafe { obscurlane_count_keys(cabinet.as_ptr(), cabinet.len()) }
}

#[inline]
pub fn put_key(cabinet: &mut [u8], record: &[u8]) -> Filed {
    // SAFETY: slices' pointers and lengths, and `cabinet` overlaps nothing.
    unsafe {
        obscurlane_put_key(cabinet.as_mut_ptr(), cabinet.len(), record.as_ptr(), record.len())
    }
}

#[inline]
pub fn remove_key(cabinet: &mut [u8], identity: &[u8]) -> Filed {
    // SAFETY: slices' pointers and lengths, and `cabinet` overlaps nothing.
    unsafe {
        obscurlane_remove_key(
            cabinet.as_mut_ptr(),
            cabinet.len(),
            identity.as_ptr(),
            identity.len(),
        )
    }
}

#[inline]
pub fn admit(cabinet: &mut [u8], request: &[u8]) -> Filed {
    // SAFETY: slices' pointers and lengths, and `cabinet` overlaps nothing.
    unsafe {
        obscurlane_admit(cabinet.as_mut_ptr(), cabinet.len(), request.as_ptr(), request.len())
    }
}

#[inline]
pub fn find_key(cabinet: &[u8], identity: &[u8]) -> Place {
    // SAFETY: slices' pointers and lengths, which are only read.
    unsafe {
        obscurlane_find_key(cabinet.as_ptr(), cabinet.len(), identity.as_ptr(), identity.len())
    }
}

// ---- the Fingerprint of a public key, SHA-384 and SHA-1

#[inline]
pub fn check_fingerprint(record: &[u8]) -> Checked {
    // SAFETY: a slice's pointer and length.
    unsafe { obscurlane_check_fingerprint(record.as_ptr(), record.len()) }
}

#[inline]
pub fn write_fingerprint(record: &[u8], out: &mut [u8]) -> Written {
    // SAFETY: slices' pointers and lengths, and `out` overlaps nothing.
    unsafe {
        obscurlane_write_fingerprint(record.as_ptr(), record.len(), out.as_mut_ptr(), out.len())
    }
}

#[inline]
pub fn sha384_of(bytes: &[u8]) -> Digest {
    // SAFETY: a slice's pointer and length.
    unsafe { obscurlane_sha384_of(bytes.as_ptr(), bytes.len()) }
}

#[inline]
pub fn sha384_begin() -> Sha384State {
    // SAFETY: nothing is given.
    unsafe { obscurlane_sha384_begin() }
}

#[inline]
pub fn sha384_add(state: Sha384State, bytes: &[u8]) -> Sha384State {
    // SAFETY: numbers, and a slice's pointer and length.
    unsafe { obscurlane_sha384_add(state, bytes.as_ptr(), bytes.len()) }
}

#[inline]
pub fn sha384_end(state: Sha384State) -> Digest {
    // SAFETY: numbers alone.
    unsafe { obscurlane_sha384_end(state) }
}

#[inline]
pub fn sha1_of(bytes: &[u8]) -> Sha1Digest {
    // SAFETY: a slice's pointer and length.
    unsafe { obscurlane_sha1_of(bytes.as_ptr(), bytes.len()) }
}

#[inline]
pub fn sha1_begin() -> Sha1State {
    // SAFETY: nothing is given.
    unsafe { obscurlane_sha1_begin() }
}

#[inline]
pub fn sha1_add(state: Sha1State, bytes: &[u8]) -> Sha1State {
    // SAFETY: numbers, and a slice's pointer and length.
    unsafe { obscurlane_sha1_add(state, bytes.as_ptr(), bytes.len()) }
}

#[inline]
pub fn sha1_end(state: Sha1State) -> Sha1Digest {
    // SAFETY: numbers alone.
    unsafe { obscurlane_sha1_end(state) }
}

// ---- HMAC, and the tags of a key agreement

#[inline]
pub fn hmac_of(key: &[u8], text: &[u8]) -> Tag {
    // SAFETY: slices' pointers and lengths, which are only read.
    unsafe { obscurlane_hmac_of(key.as_ptr(), key.len(), text.as_ptr(), text.len()) }
}

#[inline]
pub fn confirm_request(z: &[u8], request: &[u8], mac_key: &mut [u8], kek: &mut [u8]) -> Confirmed {
    // SAFETY: slices' pointers and lengths, and `mac_key` and `kek` overlap nothing.
    unsafe {
        obscurlane_confirm_request(
            z.as_ptr(),
            z.len(),
            request.as_ptr(),
            request.len(),
            mac_key.as_mut_ptr(),
            mac_key.len(),
            kek.as_mut_ptr(),
            kek.len(),
        )
    }
}

#[inline]
pub fn confirm_response(z: &[u8], request: &[u8], response: &[u8]) -> Confirmed {
    // SAFETY: slices' pointers and lengths, which are only read.
    unsafe {
        obscurlane_confirm_response(
            z.as_ptr(),
            z.len(),
            request.as_ptr(),
            request.len(),
            response.as_ptr(),
            response.len(),
        )
    }
}
