//! The numbers given back.

/// Why a call refuses. Fields are numbered from 1.
#[derive(Clone, Copy, Debug, PartialEq, Eq)]
pub enum Refusal {
    /// 1: longer than 1,024 bytes, or built it would be.
    TooLong,
    /// 2: no kind that this call takes, or not with its mark.
    UnknownKind,
    /// 3: no check stands at the end.
    NoCheck,
    /// 4: the check differs.
    CheckDiffers,
    /// 5: wrong number of fields, or of field bytes.
    FieldCount,
    /// 6: this field is not of its text type.
    WrongText(u8),
    /// 7: this field is no accepted identity.
    NoIdentity(u8),
    /// 8: only one of Issuer and Signature is empty.
    HalfSigned,
    /// 9: this field is an identity of a kind not permitted there.
    WrongIdentity(u8),
    /// 10: the output is too short.
    ShortOutput,
    /// 11: the last line has bytes and no line feed.
    Unfinished,
    /// 12: no such item, field or attribute.
    NoPart,
    /// 13: the two Subjects are not one entity.
    OtherSubject,
    /// 14: an attribute list that clause 7.5.1 or Appendix B does not permit.
    WrongAttributes,
    /// 15: the Fingerprint in the Subject is not that of the public key.
    FingerprintDiffers,
    /// 16: Z is not 96 bytes.
    WrongZ,
    /// 17: the response's identities or TVP differ from the request's.
    OtherRequest,
    /// 18: the tag differs.
    TagDiffers,
    /// 19: no trailer stands at the end of the line.
    NoTrailer,
    /// 20: the SHA-1 in the trailer is not that of the record.
    HashDiffers,
    /// 21: no BEGINS line stands in the text.
    NoBegins,
    /// 22: no ENDS line of the name in the first BEGINS line stands behind it.
    NoEnds,
    /// 23: the lent bytes are no cabinet, and to make one they are not 65,536.
    NoCabinet,
    /// 24: the record's GNT is not later than that of the record it would replace.
    NotLater,
    /// 25: no place is free.
    NoPlace,
    /// 26: the cabinet has no record to find or to remove, or none of the module whose request it is.
    NotThere,
    /// 27: the request's TVP is not later than the last one accepted for its module.
    TvpNotLater,
    /// 28: a module's key for key agreement that nobody signed.
    UnsignedModule,
}

impl Refusal {
    /// The number of this refusal.
    pub fn number(self) -> u8 {
        match self {
            Refusal::TooLong => 1,
            Refusal::UnknownKind => 2,
            Refusal::NoCheck => 3,
            Refusal::CheckDiffers => 4,
            Refusal::FieldCount => 5,
            Refusal::WrongText(_) => 6,
            Refusal::NoIdentity(_) => 7,
            Refusal::HalfSigned => 8,
            Refusal::WrongIdentity(_) => 9,
            Refusal::ShortOutput => 10,
            Refusal::Unfinished => 11,
            Refusal::NoPart => 12,
            Refusal::OtherSubject => 13,
            Refusal::WrongAttributes => 14,
            Refusal::FingerprintDiffers => 15,
            Refusal::WrongZ => 16,
            Refusal::OtherRequest => 17,
            Refusal::TagDiffers => 18,
            Refusal::NoTrailer => 19,
            Refusal::HashDiffers => 20,
            Refusal::NoBegins => 21,
            Refusal::NoEnds => 22,
            Refusal::NoCabinet => 23,
            Refusal::NotLater => 24,
            Refusal::NoPlace => 25,
            Refusal::NotThere => 26,
            Refusal::TvpNotLater => 27,
            Refusal::UnsignedModule => 28,
        }
    }

    /// The number of the field that is at fault, 0 where none is named.
    pub fn field(self) -> u8 {
        match self {
            Refusal::WrongText(field)
            | Refusal::NoIdentity(field)
            | Refusal::WrongIdentity(field) => field,
            _ => 0,
        }
    }
}
