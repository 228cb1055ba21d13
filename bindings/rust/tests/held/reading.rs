//! Readings held against those of `compare/`: number and field, and of what is accepted every field, by number, by name and in
//! order.

use super::{expected, numbers, place, Numbers};
use compare::kind::FieldType;
use compare::record;
use obscurlane::{Identity, InnerIdentity, PublicKey, Record, Request, Response, View, WrappedKey};

/// A field: its number, its name, its place, and the name of the kind of identity that it is.
pub type FieldNumbers = (usize, &'static str, (*const u8, usize), Option<&'static str>);
/// The name of a record's kind, and its fields.
pub type ReadNumbers = (&'static str, Vec<FieldNumbers>);

/// The fields by name, each with the kind of identity that it is.
fn by_name<'a>(record: &Record<'a>) -> Vec<(&'a [u8], Option<obscurlane::Kind>)> {
    let text = |text: &'a [u8]| (text, None);
    let inner = |inner: InnerIdentity<'a>| (inner.bytes, Some(inner.kind));
    match record.view() {
        View::Identity(Identity { kind, manufacturer, mid, gnt, fingerprint }) => {
            assert_eq!(kind, record.kind());
            [manufacturer, mid, gnt, fingerprint].map(text).to_vec()
        }
        View::PublicKey(PublicKey { kind, subject, q, expiry, issuer, signature }) => {
            assert_eq!(kind, record.kind());
            let (issuer, signature) = (issuer.map_or(text(b""), inner), signature.unwrap_or(b""));
            vec![inner(subject), text(q), text(expiry), issuer, text(signature)]
        }
        View::Request(Request { id_sm, id_kmc, tvp, hwid, fwid, qe, mac_tag }) => {
            let texts = [tvp, hwid, fwid, qe, mac_tag].map(text);
            [inner(id_sm), inner(id_kmc)].into_iter().chain(texts).collect()
        }
        View::Response(Response { id_kmc, id_sm, tvp, mac_tag }) => {
            vec![inner(id_kmc), inner(id_sm), text(tvp), text(mac_tag)]
        }
        View::WrappedKey(WrappedKey { nonce, attributes, protected_key }) => {
            [nonce, attributes, protected_key].map(text).to_vec()
        }
        other => panic!("{other:?} is not tried"),
    }
}

/// What the crate read: the same by number, by name, and in order.
pub fn read_numbers(record: &Record<'_>) -> ReadNumbers {
    assert!(record.fields().map(|field| (field.bytes, field.identity)).eq(by_name(record)));
    let fields = record.fields().map(|field| {
        assert_eq!(record.field(field.number).map(place), Some(place(field.bytes)));
        (field.number, field.name, place(field.bytes), field.identity.map(|kind| kind.name()))
    });
    (record.kind().name(), fields.collect())
}

/// What `compare/` read.
pub fn expected_read(record: record::Record<'_>) -> ReadNumbers {
    let entries = record.kind.fields().iter().zip(&record.fields);
    let fields = (1..).zip(entries).map(|(number, (entry, field))| {
        let is_identity = matches!(entry.field_type, FieldType::Identity(_)) && !field.is_empty();
        let inner = is_identity.then(|| record::read_identity(field).expect("accepted with it"));
        (number, entry.name, place(field), inner.map(|inner| inner.kind.name()))
    });
    (record.kind.name(), fields.collect())
}

/// The identity call: both sides answer the same. Gives back the answer.
pub fn same_identity(bytes: &[u8]) -> Result<ReadNumbers, Numbers> {
    let read = numbers(Record::read_identity(bytes)).map(|read| read_numbers(&read));
    assert_eq!(read, expected(record::read_identity(bytes)).map(expected_read), "{bytes:?}");
    read
}

/// The same for the record call.
pub fn same_record(bytes: &[u8]) -> Result<ReadNumbers, Numbers> {
    let read = numbers(Record::read(bytes)).map(|read| read_numbers(&read));
    assert_eq!(read, expected(record::read_record(bytes)).map(expected_read), "{bytes:?}");
    read
}
