//! Reading of identities and records, and of single fields.

use crate::attributes;
use crate::frame::{body_of, check_no, mark_after, title_of};
use crate::kind::{FieldType, Kind};
use crate::refusal::Refusal;
use crate::text;

/// The longest record or identity that is read, and the longest record that is built.
pub const LONGEST_READ: usize = 1024;

/// An accepted record or identity; its fields are parts of the bytes it was read from.
#[derive(Clone, Debug, PartialEq, Eq)]
pub struct Record<'a> {
    pub kind: Kind,
    pub fields: Vec<&'a [u8]>,
}

impl<'a> Record<'a> {
    /// The field with this number, counted from 1.
    pub fn field(&self, number: u64) -> Option<&'a [u8]> {
        let index = usize::try_from(number.checked_sub(1)?).ok()?;
        self.fields.get(index).copied()
    }

    /// The kind of the identity that a field is, counted from 0; none for a text and for an empty field.
    pub fn inner(&self, index: usize) -> Option<Kind> {
        let entry = self.kind.fields().get(index)?;
        let is_identity = matches!(entry.field_type, FieldType::Identity(_));
        let field = self.fields.get(index).filter(|_| is_identity)?;
        read_identity(field).ok().map(|identity| identity.kind)
    }
}

/// The identity call.
pub fn read_identity(bytes: &[u8]) -> Result<Record<'_>, Refusal> {
    read(bytes, &Kind::IDENTITIES)
}

/// The record call.
pub fn read_record(bytes: &[u8]) -> Result<Record<'_>, Refusal> {
    read(bytes, &Kind::RECORDS)
}

/// The field call for identities.
pub fn identity_field(bytes: &[u8], number: u64) -> Result<&[u8], Refusal> {
    read_identity(bytes)?.field(number).ok_or(Refusal::NoPart)
}

/// The field call for records.
pub fn record_field(bytes: &[u8], number: u64) -> Result<&[u8], Refusal> {
    read_record(bytes)?.field(number).ok_or(Refusal::NoPart)
}

/// Reads a record of one of the wanted kinds; all other kinds are unknown here.
pub fn read<'a>(bytes: &'a [u8], wanted: &[Kind]) -> Result<Record<'a>, Refusal> {
    let record = read_up_to_e10(bytes, wanted)?;
    check_signed(record.kind, &record.fields)?;
    Ok(record)
}

/// The same by the rules up to request E10, by which the records were read that lie in cabinets.
pub(crate) fn read_up_to_e10<'a>(bytes: &'a [u8], wanted: &[Kind]) -> Result<Record<'a>, Refusal> {
    if bytes.len() > LONGEST_READ {
        return Err(Refusal::TooLong);
    }

    let title = title_of(bytes);
    let kind = Kind::from_name(title)
        .filter(|kind| wanted.contains(kind) && kind.mark() == mark_after(bytes))
        .ok_or(Refusal::UnknownKind)?;

    check_no(kind.mark(), bytes)?;
    let body = body_of(bytes);

    // Each field is ended by the mark, so nothing may stand behind the last one.
    let mut fields: Vec<&[u8]> =
        body[title.len() + 1..].split(|&byte| byte == kind.mark()).collect();
    fields.pop();
    if fields.len() != kind.fields().len() {
        return Err(Refusal::FieldCount);
    }
    check_fields(kind, &fields)?;
    Ok(Record { kind, fields })
}

/// Holds the right number of fields against the table: each by itself from left to right, then
/// those that may be empty against each other, then the cards of an attribute list.
pub(crate) fn check_fields(kind: Kind, fields: &[&[u8]]) -> Result<(), Refusal> {
    let mut some_empty = false;
    let mut some_filled = false;
    for (number, (entry, field)) in (1..).zip(kind.fields().iter().zip(fields)) {
        if entry.may_be_empty && field.is_empty() {
            some_empty = true;
        } else {
            check_field(entry.field_type, field, number)?;
            some_filled |= entry.may_be_empty;
        }
    }
    if some_empty && some_filled {
        return Err(Refusal::HalfSigned);
    }
    let mut lists = kind
        .fields()
        .iter()
        .zip(fields)
        .filter(|(entry, _)| entry.field_type == FieldType::Attributes);
    if lists.any(|(_, list)| !attributes::is_permitted(list)) {
        return Err(Refusal::WrongAttributes);
    }
    Ok(())
}

/// Request E11, after all else that is asked of fields: a module's key for key agreement is signed. One without
/// a Signature has no Issuer either.
pub(crate) fn check_signed(kind: Kind, fields: &[&[u8]]) -> Result<(), Refusal> {
    match fields {
        [subject, .., b""] if kind == Kind::PkEcdh && is_module(subject) => {
            Err(Refusal::UnsignedModule)
        }
        _ => Ok(()),
    }
}

fn is_module(identity: &[u8]) -> bool {
    read_identity(identity).is_ok_and(|identity| identity.kind == Kind::Smid)
}

/// Holds one field against its type.
pub(crate) fn check_field(field_type: FieldType, field: &[u8], number: u8) -> Result<(), Refusal> {
    let fits = match field_type {
        FieldType::Ident => text::is_ident(field),
        FieldType::Timestamp => text::is_timestamp(field),
        FieldType::Print => text::is_print(field),
        FieldType::Point => text::is_point(field),
        FieldType::Sig => text::is_sig(field),
        FieldType::Mac => text::is_mac(field),
        FieldType::Nonce => text::is_nonce(field),
        FieldType::Attributes => text::is_printable(field),
        FieldType::Protected => text::is_protected(field),
        FieldType::Identity(permitted) => {
            let identity = read_identity(field).map_err(|_| Refusal::NoIdentity(number))?;
            return if permitted.contains(&identity.kind) {
                Ok(())
            } else {
                Err(Refusal::WrongIdentity(number))
            };
        }
    };
    if fits {
        Ok(())
    } else {
        Err(Refusal::WrongText(number))
    }
}
