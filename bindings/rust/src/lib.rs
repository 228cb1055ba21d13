#![cfg_attr(feature = "alloc", doc = include_str!("../README.md"))]
#![cfg_attr(
    not(feature = "alloc"),
    doc = "Obscurlane without a heap: all of it but `build_parts`."
)]
#![no_std]
#![deny(missing_docs)]
#![deny(unsafe_code)]

#[cfg(feature = "alloc")]
extern crate alloc;

mod agreement;
mod attributes;
mod building;
mod cabinet;
mod check;
mod confirm;
mod dates;
pub mod field;
mod files;
mod fingerprint;
mod hash;
mod held;
mod hmac;
mod kind;
mod lengths;
mod mail;
mod newer;
mod record;
mod refusal;
mod show;
mod sys;
mod trailed;
mod types;
mod views;

pub use agreement::{centre_text, module_text, shared_info, text_item};
pub use attributes::{attribute, attribute_named, Card, Cards};
pub use building::build;
#[cfg(feature = "alloc")]
pub use building::build_parts;
pub use cabinet::{
    admit, check_cabinet, count_keys, find_key, make_cabinet, put_key, remove_key, Cabinet,
};
pub use check::{crc_of, Crc};
pub use confirm::{confirm_request, confirm_response, ConfirmRefusal};
pub use dates::{expiry_of, moment_of};
pub use files::{count, line_at, lines, Line, Lines, Totals};
pub use fingerprint::{check_fingerprint, write_fingerprint};
pub use hash::{sha1_of, sha384_of, Sha1, Sha384};
pub use held::{held_keys, HeldKey, HeldKeys};
pub use hmac::hmac_of;
pub use kind::Kind;
pub use lengths::{
    CABINET_NUMBER_AT, CABINET_PLACES, CABINET_SIZE, CABINET_TVP_AT, CABINET_WIDTH, KEY_BYTES,
    LONGEST_CENTRE_TEXT, LONGEST_FINGERPRINT, LONGEST_IDENT, LONGEST_IDENTITY, LONGEST_MAIL,
    LONGEST_MODULE_TEXT, LONGEST_PUBKEY, LONGEST_READ, LONGEST_RECORD, LONGEST_SHARED_INFO,
    LONGEST_TRAILED, TRAILER, Z_BYTES,
};
pub use mail::{read_mail, write_mail};
pub use newer::{newer, NewerRefusal};
pub use record::{identity_field, record_field, Field, Fields, Record};
pub use refusal::{Reason, Refusal};
pub use trailed::{count_trailed, trailed_at, trailed_lines, write_trailed, TrailedLines};
pub use types::{is_hex, is_ident, is_mac, is_point, is_print, is_sig, is_timestamp};
pub use views::{Identity, InnerIdentity, PublicKey, Request, Response, View, WrappedKey};
