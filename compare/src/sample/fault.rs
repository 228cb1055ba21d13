//! Records with something wrong with them.

use super::{
    damaged, damaged_anywhere, faulty_list, fields, hex, join, missing_day, of_kind, of_type,
    record, usual_fields, ListFault, Place, Signed,
};
use crate::crc::crc16;
use crate::frame::CHECK_LENGTH;
use crate::kind::{FieldType, Kind};
use crate::random::Random;
use crate::record::LONGEST_READ;
use crate::text::{check_text, LONGEST_IDENT};

/// One thing wrong with a record.
#[derive(Clone, Copy, Debug, PartialEq, Eq)]
pub enum Fault {
    /// Longer than is read.
    Long,
    /// A name that is in no table.
    Name,
    /// A check that is not hexadecimal.
    CheckText,
    /// Another check.
    Check,
    /// One field more or fewer.
    Count,
    /// A field that is not of its text type.
    Text,
    /// An identity field that is no accepted identity.
    Inner,
    /// An identity field of a kind not permitted there.
    InnerKind,
    /// Only one of Issuer and Signature.
    Half,
    /// A module's key for key agreement without Issuer and Signature.
    Unsigned,
    /// An attribute list that is not permitted.
    Attributes,
}

impl Fault {
    /// The faults that a record of this kind can have.
    pub fn of(kind: Kind) -> &'static [Fault] {
        const ALL: &[Fault] = &[
            Fault::Long,
            Fault::Name,
            Fault::CheckText,
            Fault::Check,
            Fault::Count,
            Fault::Text,
            Fault::Inner,
            Fault::InnerKind,
            Fault::Half,
            Fault::Unsigned,
        ];
        match kind {
            Kind::Smman | Kind::Smid | Kind::Kmcid => &ALL[..6],
            Kind::VkloadReq | Kind::VkloadResp => &ALL[..8],
            Kind::PkEcdsa => &ALL[..9],
            Kind::PkEcdh => ALL,
            Kind::WrappedKey => &[
                Fault::Long,
                Fault::Name,
                Fault::CheckText,
                Fault::Check,
                Fault::Count,
                Fault::Text,
                Fault::Attributes,
            ],
        }
    }
}

/// Fields of a kind with these faults, as far as fields can have them; the number stays right.
pub fn faulty_fields(random: &mut Random, kind: Kind, faults: &[Fault]) -> Vec<Vec<u8>> {
    let has = |fault| faults.contains(&fault);
    let mut fields = signed_so(random, kind, has(Fault::Half), has(Fault::Unsigned));
    let entries = kind.fields().iter().map(|entry| entry.field_type).zip(0..);
    let (identities, texts): (Vec<_>, Vec<_>) =
        entries.partition(|(field_type, _)| matches!(field_type, FieldType::Identity(_)));
    if has(Fault::Inner) || has(Fault::InnerKind) {
        let (FieldType::Identity(permitted), index) = random.one_of(&identities) else {
            unreachable!("one of the identity fields");
        };
        let mut inner = random.one_of(permitted);
        while has(Fault::InnerKind) && permitted.contains(&inner) {
            inner = random.one_of(&Kind::IDENTITIES);
        }
        fields[index] = record(random, inner);
        if has(Fault::Inner) {
            fields[index] = damaged(random, inner, &fields[index], Place::Anywhere, 1);
            fields[index].retain(|byte| !b"|\n".contains(byte));
        }
    }
    if has(Fault::Attributes) {
        let fault = random.one_of(&ListFault::ALL);
        fields[1] = faulty_list(random, fault);
    }
    if has(Fault::Text) {
        let (field_type, index) = random.one_of(&texts);
        fields[index] = wrong_of_type(random, field_type);
    }
    fields
}

/// Fields of a kind that are permitted, but for what is wrong with their Issuer and Signature. Half of them come before
/// none, so both together are half of a module's.
fn signed_so(random: &mut Random, kind: Kind, half: bool, unsigned: bool) -> Vec<Vec<u8>> {
    let signed = match (half, unsigned) {
        (true, _) => Signed::Yes,
        (_, true) => Signed::No,
        _ => Signed::any(random),
    };
    let mut fields = usual_fields(random, kind, signed);
    if unsigned {
        fields[0] = record(random, Kind::Smid);
    }
    if half {
        fields[random.between(3, 4)].clear();
    }
    fields
}

/// A text that is nearly of this type, which is no identity.
fn wrong_of_type(random: &mut Random, field_type: FieldType) -> Vec<u8> {
    match field_type {
        FieldType::Ident => {
            let letters = ('A'..='Z').chain('0'..='9').cycle();
            let long: String = letters.take(LONGEST_IDENT + 1).collect();
            random.one_of(&["_A", "A B", "A\u{e9}", &long, ""]).into()
        }
        FieldType::Timestamp if random.once_in(4) => missing_day(random),
        FieldType::Timestamp => {
            random.one_of(&["20180101T240000Z", "20180132T000000Z", "00000101T000000Z"]).into()
        }
        FieldType::Attributes => {
            let list = of_type(random, field_type);
            let strange = random.one_of(b"\0\t\x1F\x7F\x80\xE9\xFF");
            random.one_of(&[&b""[..], &[&list[..], &[strange]].concat()]).to_vec()
        }
        _ => {
            let mut text = of_type(random, field_type);
            text.pop();
            if random.once_in(2) {
                text.push(b'a');
            }
            text
        }
    }
}

/// A record with these faults.
pub fn faulty(random: &mut Random, kind: Kind, faults: &[Fault]) -> Vec<u8> {
    let fields = faulty_fields(random, kind, faults);
    finished(random, kind, fields, faults)
}

/// A record of these fields, whatever they are, with those of the faults that no single field has.
pub fn finished(
    random: &mut Random,
    kind: Kind,
    mut fields: Vec<Vec<u8>>,
    faults: &[Fault],
) -> Vec<u8> {
    let has = |fault| faults.contains(&fault);
    if has(Fault::Count) {
        if random.once_in(2) {
            fields.push(hex(random, 16));
        } else {
            fields.pop();
        }
    }
    if has(Fault::Long) {
        let missing = (LONGEST_READ + 1).saturating_sub(of_kind(kind, &fields).len());
        let last = fields.len() - 1;
        fields[last].extend(hex(random, missing + 12));
    }
    let mut name = kind.name().as_bytes().to_vec();
    if has(Fault::Name) {
        let last = name.len() - 1;
        name[last] = b'2';
    }
    let mut record = join(&name, kind.mark(), &fields);
    let end = record.len();
    if has(Fault::Check) {
        let wrong = crc16(&record[..end - CHECK_LENGTH]) ^ 1;
        record[end - CHECK_LENGTH..].copy_from_slice(check_text(wrong).as_bytes());
    }
    if has(Fault::CheckText) {
        record[end - random.between(1, CHECK_LENGTH)] = b'g';
    }
    record
}

/// A record with the right name, marks and check, and something else in the place of one field:
/// nothing, a text of another type, a byte more, or a damaged byte.
pub fn with_a_wrong_field(random: &mut Random, kind: Kind) -> Vec<u8> {
    let signed = random.one_of(&[Signed::Yes, Signed::No]);
    let mut fields = fields(random, kind, signed);
    let index = random.below(fields.len());
    match random.below(4) {
        0 => fields[index].clear(),
        1 => {
            let other = random.one_of(&Kind::ALL);
            let field_type = random.one_of(other.fields()).field_type;
            fields[index] = of_type(random, field_type);
        }
        2 => fields[index].push(b'A'),
        _ => fields[index] = damaged_anywhere(random, &fields[index], 1),
    }
    of_kind(kind, &fields)
}

#[cfg(test)]
mod tests {
    use super::*;
    use crate::record::read;
    use crate::refusal::Refusal;

    #[test]
    fn each_fault_alone_gives_its_number() {
        let mut random = Random::with_seed(3);
        for kind in Kind::ALL.repeat(20) {
            for &fault in Fault::of(kind) {
                let record = faulty(&mut random, kind, &[fault]);
                let expected = match fault {
                    Fault::Long => 1,
                    Fault::Name => 2,
                    Fault::CheckText => 3,
                    Fault::Check => 4,
                    Fault::Count => 5,
                    Fault::Text => 6,
                    Fault::Inner => 7,
                    Fault::InnerKind => 9,
                    Fault::Half => 8,
                    Fault::Unsigned => 28,
                    Fault::Attributes => 14,
                };
                let number = read(&record, &[kind]).map_or_else(Refusal::number, |_| 0);
                assert_eq!(number, expected, "{fault:?}");
            }
        }
    }
}
