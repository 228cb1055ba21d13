//! A second implementation of the record format, made from its documents alone.
//!
//! It covers identities, public keys, load requests, load responses and wrapped keys: reading,
//! checking and building them, the attributes of a wrapped key, the three key agreement texts of a
//! load request, the walk over a file of records and its list, the choice of the newer of two public
//! keys, SHA-384, the Fingerprint of a public key, HMAC-SHA-384-192, the keys and confirmation tags
//! of a load request and its response, SHA-1, manufacturers' record files, records by mail, the
//! centre's key cabinet with the load requests that it admits, and Expiry as a number. What it takes
//! inside is its own: only the library's calls for users and its lister are answered.
//!
//! It shares no line with the library that it is held against, and it is written for plain
//! reading rather than for proof: slices, iterators, `Result`. Two implementations that come from
//! the same documents by different ways and give the same answers are unlikely to share a slip.
//!
//! | Module | Holds |
//! |---|---|
//! | [`text`] | the text types and Base 16 |
//! | [`crc`] | CRC16-MODBUS |
//! | [`kind`] | the table of the eight kinds |
//! | [`refusal`] | the numbers given back |
//! | [`record`] | reading of identities and records, and of single fields |
//! | [`attributes`] | attribute lists of wrapped keys, and single attributes |
//! | [`build`] | building |
//! | [`agreement`] | key agreement texts |
//! | [`mod@file`] | files of records |
//! | [`listing`] | the list of a file, and the file that the lister is run on |
//! | [`newer`] | the chooser |
//! | [`sha384`] | SHA-384 |
//! | [`fingerprint`] | fingerprints of public keys |
//! | [`hmac`] | HMAC-SHA-384-192 |
//! | [`confirm`] | MacKey, KEK and confirmation tags |
//! | [`sha1`] | SHA-1 |
//! | [`trailed`] | manufacturers' record files, whose lines have a trailer |
//! | [`mail`] | one record by mail, between its guards |
//! | [`cabinet`] | the centre's key cabinet, and which load requests it admits |
//! | [`moment`] | dates and Expiry as numbers of seconds |
//! | [`random`] | the numbers that inputs are drawn by |
//! | [`sample`] | inputs: permitted records, faults, damage |
//! | [`worked`] | the worked values of the documents |

mod frame;
mod padding;

pub mod agreement;
pub mod attributes;
pub mod build;
pub mod cabinet;
pub mod confirm;
pub mod crc;
pub mod file;
pub mod fingerprint;
pub mod hmac;
pub mod kind;
pub mod listing;
pub mod mail;
pub mod moment;
pub mod newer;
pub mod random;
pub mod record;
pub mod refusal;
pub mod sample;
pub mod sha1;
pub mod sha384;
pub mod text;
pub mod trailed;
pub mod worked;
