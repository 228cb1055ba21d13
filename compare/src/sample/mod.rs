//! Samples, drawn by numbers: permitted texts, fields and records, records with faults, damage to
//! them, and whatever else a call may be handed. The cases and the tests of `bindings/rust` are made
//! of them.

mod cards;
mod damage;
mod exchange;
mod fault;
mod flips;
mod input;
mod list_fault;
mod mail;
mod public_key;
mod subject;
mod trailed;

pub use cards::{printable, wrapped_key, wrapped_key_fields, Cards};
pub use damage::{damaged, damaged_anywhere, Place};
pub use exchange::Exchange;
pub use fault::{faulty, faulty_fields, finished, with_a_wrong_field, Fault};
pub use flips::{
    damaged_line, flip, flipped, flips_between, for_drawn_flips, for_every_flip, odd,
    other_trailer, unnoticed, with_other_neighbours, Unnoticed,
};
pub use input::{anything, file, line};
pub use list_fault::{faulty_list, ListFault};
pub use mail::{folded, mail, text_before};
pub use public_key::PublicKey;
pub use subject::Subject;
pub use trailed::{trailed_file, trailed_line, with_other_trailer};

use crate::crc::crc16;
use crate::frame::body_of;
use crate::kind::{Field, FieldType, Kind};
use crate::random::Random;
use crate::record::LONGEST_READ;
use crate::text::{
    check_text, days_of, LONGEST_IDENT, LONGEST_PROTECTED, MAC_DIGITS, NONCE_DIGITS, POINT_DIGITS,
    PRINT_DIGITS, SHORTEST_PROTECTED, SIG_DIGITS,
};

const LETTERS_AND_DIGITS: &[u8] = b"ABCDEFGHIJKLMNOPQRSTUVWXYZabcdefghijklmnopqrstuvwxyz0123456789";
const LATER_IN_IDENT: &[u8] =
    b"ABCDEFGHIJKLMNOPQRSTUVWXYZabcdefghijklmnopqrstuvwxyz0123456789_-.,_-.,";
const HEX_DIGITS: &[u8] = b"0123456789ABCDEF";

/// An IDENT of this length, which is not 0; beyond [`LONGEST_IDENT`] it is none.
pub fn ident(random: &mut Random, length: usize) -> Vec<u8> {
    let mut text = random.bytes_of(LETTERS_AND_DIGITS, 1);
    text.extend(random.bytes_of(LATER_IN_IDENT, length - 1));
    text
}

/// An IDENT, mostly short; one character and as many as there can be are frequent.
pub fn any_ident(random: &mut Random) -> Vec<u8> {
    let length = match random.below(8) {
        0 => 1,
        1 => LONGEST_IDENT,
        2 => random.between(2, LONGEST_IDENT - 1),
        _ => random.between(2, 9),
    };
    ident(random, length)
}

/// A TIMESTAMP; each part is at a limit now and then.
pub fn timestamp(random: &mut Random) -> Vec<u8> {
    let (year, month) = (part(random, 1, 9999), part(random, 1, 12));
    let day = part(random, 1, days_of(year, month));
    at_some_time(random, year, month, day)
}

/// A text that would be a TIMESTAMP if every month had 31 days.
pub fn missing_day(random: &mut Random) -> Vec<u8> {
    let (year, month) = (part(random, 1, 9999), random.one_of(&[2, 2, 4, 6, 9, 11]));
    let day = part(random, days_of(year, month) + 1, 31);
    at_some_time(random, year, month, day)
}

/// A number from `least` to `most`; one of the two now and then.
fn part(random: &mut Random, least: usize, most: usize) -> usize {
    match random.below(8) {
        0 => least,
        1 => most,
        _ => random.between(least, most),
    }
}

fn at_some_time(random: &mut Random, year: usize, month: usize, day: usize) -> Vec<u8> {
    let (hour, minute, second) = (part(random, 0, 23), part(random, 0, 59), part(random, 0, 59));
    format!("{year:04}{month:02}{day:02}T{hour:02}{minute:02}{second:02}Z").into()
}

/// HEX(`length`).
pub fn hex(random: &mut Random, length: usize) -> Vec<u8> {
    random.bytes_of(HEX_DIGITS, length)
}

/// A POINT.
pub fn point(random: &mut Random) -> Vec<u8> {
    [b"04".to_vec(), hex(random, POINT_DIGITS - 2)].concat()
}

/// A protected key; the shortest and the longest are frequent.
pub fn protected(random: &mut Random) -> Vec<u8> {
    let digits = match random.below(4) {
        0 => SHORTEST_PROTECTED,
        1 => LONGEST_PROTECTED,
        _ => 2 * random.between(SHORTEST_PROTECTED / 2, LONGEST_PROTECTED / 2),
    };
    hex(random, digits)
}

/// A text of this type.
pub fn of_type(random: &mut Random, field_type: FieldType) -> Vec<u8> {
    match field_type {
        FieldType::Ident => any_ident(random),
        FieldType::Timestamp => timestamp(random),
        FieldType::Print => hex(random, PRINT_DIGITS),
        FieldType::Point => point(random),
        FieldType::Sig => hex(random, SIG_DIGITS),
        FieldType::Mac => hex(random, MAC_DIGITS),
        FieldType::Nonce => hex(random, NONCE_DIGITS),
        FieldType::Attributes => Cards::any(random).list(),
        FieldType::Protected => protected(random),
        FieldType::Identity(kinds) => {
            let kind = random.one_of(kinds);
            record(random, kind)
        }
    }
}

/// Whether the fields that may be empty are filled.
#[derive(Clone, Copy, PartialEq, Eq)]
pub enum Signed {
    Yes,
    No,
}

impl Signed {
    /// Both for a public key; a kind without fields that may be empty has only one form.
    pub fn forms(kind: Kind) -> &'static [Signed] {
        if Kind::PUBLIC_KEYS.contains(&kind) {
            &[Signed::Yes, Signed::No]
        } else {
            &[Signed::No]
        }
    }

    /// Signed only if the field at this index would be empty otherwise.
    pub fn to_fill(kind: Kind, index: usize) -> Signed {
        if kind.fields()[index].may_be_empty {
            Signed::Yes
        } else {
            Signed::No
        }
    }

    /// One of the two; the longer records are the rarer ones.
    pub fn any(random: &mut Random) -> Signed {
        if random.once_in(4) {
            Signed::Yes
        } else {
            Signed::No
        }
    }
}

/// Permitted fields of a kind; a wrapped key has as many bytes as are read now and then.
pub fn fields(random: &mut Random, kind: Kind, signed: Signed) -> Vec<Vec<u8>> {
    if kind == Kind::WrappedKey && random.once_in(32) {
        longest_fields(random, kind)
    } else {
        usual_fields(random, kind, signed)
    }
}

/// The fields of a kind as they are permitted together: the Subject of an unsigned key for key agreement is a centre.
fn entries(kind: Kind, signed: Signed) -> Vec<Field> {
    let mut entries = kind.fields().to_vec();
    if kind == Kind::PkEcdh && signed == Signed::No {
        entries[0].field_type = FieldType::Identity(&[Kind::Kmcid]);
    }
    entries
}

/// Permitted fields of a kind, to which some bytes can be added before the record is too long.
fn usual_fields(random: &mut Random, kind: Kind, signed: Signed) -> Vec<Vec<u8>> {
    let entries = entries(kind, signed).into_iter();
    entries
        .map(|entry| match entry.field_type {
            _ if entry.may_be_empty && signed == Signed::No => Vec::new(),
            field_type => of_type(random, field_type),
        })
        .collect()
}

/// Permitted fields of a kind, in the shortest form: every IDENT has one character, and a wrapped
/// key has the required attributes alone.
pub fn short_fields(random: &mut Random, kind: Kind, signed: Signed) -> Vec<Vec<u8>> {
    let entries = entries(kind, signed).into_iter();
    entries
        .map(|entry| match entry.field_type {
            _ if entry.may_be_empty && signed == Signed::No => Vec::new(),
            FieldType::Ident => ident(random, 1),
            FieldType::Attributes => Cards::required(random).list(),
            FieldType::Protected => hex(random, SHORTEST_PROTECTED),
            FieldType::Identity(kinds) => {
                let kind = random.one_of(kinds);
                of_kind(kind, &short_fields(random, kind, signed))
            }
            field_type => of_type(random, field_type),
        })
        .collect()
}

/// Permitted fields of a kind, in the longest form: every IDENT has as many characters as it can,
/// of two permitted identities it is the longer one, and a wrapped key has as many bytes as are read.
pub fn longest_fields(random: &mut Random, kind: Kind) -> Vec<Vec<u8>> {
    match kind {
        Kind::WrappedKey => wrapped_key_fields(random, LONGEST_READ),
        _ => kind.fields().iter().map(|entry| longest_of_type(random, entry.field_type)).collect(),
    }
}

/// A text of this type with as many bytes as it can have, where it has a longest length of its own.
fn longest_of_type(random: &mut Random, field_type: FieldType) -> Vec<u8> {
    match field_type {
        FieldType::Ident => ident(random, LONGEST_IDENT),
        FieldType::Identity(kinds) => {
            let kind = kinds.iter().copied().max_by_key(|kind| kind.longest());
            longest_record(random, kind.expect("a permitted kind"))
        }
        field_type => of_type(random, field_type),
    }
}

/// A record of a kind with as many bytes as it can have.
pub fn longest_record(random: &mut Random, kind: Kind) -> Vec<u8> {
    let fields = longest_fields(random, kind);
    of_kind(kind, &fields)
}

/// A record or identity whose IDENTs at these two indices have these lengths.
pub fn with_idents(
    random: &mut Random,
    kind: Kind,
    indices: [usize; 2],
    lengths: [usize; 2],
) -> Vec<u8> {
    let mut fields = fields(random, kind, Signed::Yes);
    for (index, length) in indices.into_iter().zip(lengths) {
        fields[index] = ident(random, length);
    }
    of_kind(kind, &fields)
}

/// An accepted record or identity; a public key is signed or not by chance.
pub fn record(random: &mut Random, kind: Kind) -> Vec<u8> {
    let signed = Signed::any(random);
    let fields = fields(random, kind, signed);
    of_kind(kind, &fields)
}

/// A record of these fields, whatever they are, under the name and mark of the kind.
pub fn of_kind(kind: Kind, fields: &[Vec<u8>]) -> Vec<u8> {
    join(kind.name().as_bytes(), kind.mark(), fields)
}

/// Name and fields, each ended by the mark, and the check.
pub fn join(name: &[u8], mark: u8, fields: &[impl AsRef<[u8]>]) -> Vec<u8> {
    let mut body = [name, &[mark]].concat();
    for field in fields {
        body.extend_from_slice(field.as_ref());
        body.push(mark);
    }
    sealed(&body)
}

/// The body and its check.
pub fn sealed(body: &[u8]) -> Vec<u8> {
    [body, check_text(crc16(body)).as_bytes()].concat()
}

/// The record with its last four bytes made the right check again.
pub fn resealed(record: &[u8]) -> Vec<u8> {
    sealed(body_of(record))
}

/// A record or identity of exactly this length that has the right name, marks and check, and one
/// field far too long.
pub fn padded(random: &mut Random, kind: Kind, field: usize, length: usize) -> Vec<u8> {
    let mut fields = usual_fields(random, kind, Signed::No);
    let missing = length - of_kind(kind, &fields).len();
    fields[field].extend(random.bytes_of(LETTERS_AND_DIGITS, missing));
    of_kind(kind, &fields)
}

#[cfg(test)]
mod tests {
    use super::*;
    use crate::build::build;
    use crate::record::read;
    use crate::text::is_timestamp;

    #[test]
    fn samples_are_accepted_and_the_builder_gives_the_same_bytes() {
        let mut random = Random::with_seed(1);
        for kind in Kind::ALL.repeat(40) {
            let signed = Signed::any(&mut random);
            for fields in [
                fields(&mut random, kind, signed),
                short_fields(&mut random, kind, signed),
                longest_fields(&mut random, kind),
            ] {
                let record = of_kind(kind, &fields);
                assert_eq!(read(&record, &[kind]).map(|record| record.kind), Ok(kind));
                assert!(record.len() <= kind.longest());
                let lengths: Vec<u64> = fields.iter().map(|field| field.len() as u64).collect();
                let mut output = vec![0; record.len()];
                let built = build(kind.name().as_bytes(), &fields.concat(), &lengths, &mut output);
                assert_eq!(built, Ok(record.len()));
                assert_eq!(output, record);
            }
        }
    }

    #[test]
    fn nothing_but_the_day_is_wrong_where_a_day_is_missing() {
        let mut random = Random::with_seed(8);
        for _ in 0..500 {
            let mut text = missing_day(&mut random);
            assert!(!is_timestamp(&text) && text[6..8] <= b"31"[..], "{text:?}");
            text[6..8].copy_from_slice(b"01");
            assert!(is_timestamp(&text), "{text:?}");
        }
    }

    #[test]
    fn the_longest_record_of_a_kind_is_as_long_as_the_table_allows() {
        let mut random = Random::with_seed(4);
        for kind in Kind::ALL {
            assert_eq!(longest_record(&mut random, kind).len(), kind.longest(), "{kind:?}");
        }
    }
}
