//! The calls: what each is named and how it is answered, one line for each.

use crate::cases::{Answer, Case};
use compare::crc::crc16;
use compare::sha1::sha1;
use compare::sha384::sha384;
use compare::{
    agreement, attributes, build, confirm, file, fingerprint, hmac, mail, moment, newer, record,
    text, trailed,
};

/// One call of the library.
pub struct Call {
    /// What its lines begin with: the call's own name, and a space where a text comes next.
    pub label: &'static str,
    pub answer: fn(&Case) -> Answer,
}

impl Call {
    pub fn name(&self) -> &'static str {
        self.label.trim_end()
    }
}

/// Makes the calls' enumeration and their table from lines of variant, label, and how the call is
/// answered.
macro_rules! calls {
    ($($op:ident $label:literal $answer:expr;)*) => {
        /// The calls, numbered from 1 in this order.
        #[derive(Clone, Copy, Debug, PartialEq, Eq)]
        pub enum Op {
            $($op),*
        }

        /// What there is to say of each.
        pub const CALLS: &[Call] = &[$(Call { label: $label, answer: $answer }),*];
    };
}

// A new call goes to the end, because its place is its number.
calls! {
    Ident "is_ident" |case| case.flag(text::is_ident(&case.a));
    Timestamp "is_timestamp" |case| case.flag(text::is_timestamp(&case.a));
    Hex "is_hex" |case| case.flag(text::is_hex(&case.a, case.n));
    Point "is_point" |case| case.flag(text::is_point(&case.a));
    Sig "is_sig" |case| case.flag(text::is_sig(&case.a));
    Mac "is_mac" |case| case.flag(text::is_mac(&case.a));
    Print "is_print" |case| case.flag(text::is_print(&case.a));
    Crc "crc_of" |case| case.values(&[crc16(&case.a).into()]);
    CrcState "Crc::begin,add,end" |case| case.values(&[crc16(&case.a).into()]);
    Identity "read_identity" |case| case.read(record::read_identity(&case.a));
    Record "read_record" |case| case.read(record::read_record(&case.a));
    IdentityField "identity_field " |case| case.text(record::identity_field(&case.a, case.n));
    RecordField "record_field " |case| case.text(record::record_field(&case.a, case.n));
    Item "text_item" |case| case.part(agreement::item(&case.a, case.n));
    Newer "newer" |case| case.part(newer::newer(&case.a, &case.b));
    IdentityPlace "identity_place" |case| case.place(record::identity_field(&case.a, case.n));
    RecordPlace "record_place" |case| case.place(record::record_field(&case.a, case.n));
    ItemPlace "item_place" |case| case.place(agreement::item(&case.a, case.n));
    NewerOf "newer_of" |case| case.choice(newer::choose(&case.a, &case.b));
    Line "line_at" |case| case.line(file::line_at(&case.a, case.n));
    StepFrom "step_from" |case| case.line(file::line_at(&case.a, case.n));
    Reader "Reader::new,step" |case| case.line(file::line_at(&case.a, 0));
    Count "count" |case| case.totals(file::count(&case.a));
    SharedInfo "shared_info" |case| {
        case.output(|output| agreement::shared_info(&case.a, output))
    };
    ModuleText "module_text" |case| {
        case.output(|output| agreement::module_text(&case.a, output))
    };
    CentreText "centre_text" |case| {
        case.output(|output| agreement::centre_text(&case.a, output))
    };
    Build "build " |case| {
        case.built(|output| build::build(&case.a, &case.b, &case.numbers(), output))
    };
    Attribute "attribute " |case| case.text(attributes::attribute(&case.a, case.n));
    AttributePlace "attribute_place" |case| case.place(attributes::attribute(&case.a, case.n));
    AttributeNamed "attribute_named " |case| {
        case.text(attributes::attribute_named(&case.a, &case.b))
    };
    AttributeNamedPlace "attribute_named_place" |case| {
        case.place(attributes::attribute_named(&case.a, &case.b))
    };
    Sha384 "sha384_of" |case| case.values(&sha384(&case.a).map(u64::from));
    Sha384State "Sha384::begin,add,end" |case| case.values(&sha384(&case.a).map(u64::from));
    CheckFingerprint "check_fingerprint" |case| case.verdict(fingerprint::check(&case.a));
    WriteFingerprint "write_fingerprint" |case| {
        case.output(|output| fingerprint::write(&case.a, output))
    };
    Hmac "hmac_of" |case| case.values(&hmac::tag(&case.a, &case.b).map(u64::from));
    ConfirmRequest "confirm_request" |case| {
        case.keys(|mac_key, kek| confirm::request(&case.a, &case.b, mac_key, kek))
    };
    ConfirmResponse "confirm_response" |case| {
        case.confirmed(confirm::response(&case.a, &case.b, &case.c))
    };
    Sha1 "sha1_of" |case| case.values(&sha1(&case.a).map(u64::from));
    Sha1State "Sha1::begin,add,end" |case| case.values(&sha1(&case.a).map(u64::from));
    Trailed "read_trailed" |case| case.read(trailed::read(&case.a));
    TrailedLine "trailed_at" |case| case.line(trailed::line_at(&case.a, case.n));
    CountTrailed "count_trailed" |case| case.totals(trailed::count(&case.a));
    WriteTrailed "write_trailed " |case| {
        case.built(|output| trailed::write(&case.a, output))
    };
    WriteMail "write_mail " |case| case.built(|output| mail::write(&case.a, output));
    ReadMail "read_mail " |case| case.built(|output| mail::read(&case.a, output));
    MakeCabinet "make_cabinet" Case::filed;
    CheckCabinet "check_cabinet" Case::filed;
    CountKeys "count_keys" Case::filed;
    PutKey "put_key" Case::filed;
    RemoveKey "remove_key" Case::filed;
    KeyPlace "key_place" Case::filed;
    FindKey "find_key" Case::filed;
    Filing "make_cabinet,check_cabinet,count_keys,put_key,remove_key,key_place,find_key,admit" Case::history;
    MomentOf "moment_of" |case| case.moment(moment::moment_of(&case.a));
    ExpiryOf "expiry_of" |case| case.expiry(moment::expiry_of(&case.a));
    Admit "admit" Case::filed;
}

impl Op {
    /// The number of the call in the case file.
    pub fn number(self) -> u8 {
        self as u8 + 1
    }

    pub fn call(self) -> &'static Call {
        &CALLS[self as usize]
    }
}
