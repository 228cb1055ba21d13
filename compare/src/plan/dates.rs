//! Request E2: days that exist in their month and days that do not, wherever a date stands.

use super::reading::reader;
use super::Plan;
use crate::calls::Op;
use compare::kind::{FieldType, Kind};
use compare::record::LONGEST_READ;
use compare::sample::{self, Cards, Signed};

/// A field of a kind, by its index.
type Place = (Kind, usize);

const GNT: usize = 2;
const OF_IDENTITIES: [Place; 3] = [(Kind::Smman, GNT), (Kind::Smid, GNT), (Kind::Kmcid, GNT)];
/// The identities in records.
const INSIDE: [Place; 8] = [
    (Kind::PkEcdsa, 0),
    (Kind::PkEcdsa, 3),
    (Kind::PkEcdh, 0),
    (Kind::PkEcdh, 3),
    (Kind::VkloadReq, 0),
    (Kind::VkloadReq, 1),
    (Kind::VkloadResp, 0),
    (Kind::VkloadResp, 1),
];
const EXPIRY: [Place; 2] = [(Kind::PkEcdsa, 2), (Kind::PkEcdh, 2)];
const TVP: [Place; 2] = [(Kind::VkloadReq, 2), (Kind::VkloadResp, 2)];
const PLACES: [&[Place]; 4] = [&OF_IDENTITIES, &INSIDE, &EXPIRY, &TVP];

/// The day of the request, and a day that only leap years have.
const MISSING: &str = "20230431T000000Z";
const LEAP: &str = "20000229T000000Z";

pub fn add(plan: &mut Plan) {
    every_date(plan);
    every_place(plan);
    attributes(plan);
    other_calls(plan);
    drawn(plan);
}

/// The last day of every month and the one behind it; 29 February of years by 4, by 100 and by 400; and
/// document 01's last of all days.
fn dates() -> Vec<String> {
    let lasts = [31, 28, 31, 30, 31, 30, 31, 31, 30, 31, 30, 31];
    let ends = (1..).zip(lasts).flat_map(|(month, last)| {
        [last, last + 1].map(|day| format!("2023{month:02}{day:02}T000000Z"))
    });
    let years = ["0004", "0100", "0400", "1900", "1996", "2000", "2100", "2400", "9996"];
    let leaps = years.map(|year| format!("{year}0229T235959Z"));
    ends.chain(leaps).chain(["99991231T115959Z".into()]).collect()
}

/// Short fields with this date in one place: by itself, or as the GNT of an identity that is right
/// otherwise.
fn dated(plan: &mut Plan, (kind, index): Place, date: &[u8]) -> Vec<Vec<u8>> {
    let signed = Signed::to_fill(kind, index);
    let mut fields = sample::short_fields(&mut plan.random, kind, signed);
    fields[index] = match kind.fields()[index].field_type {
        FieldType::Identity(kinds) => {
            let inner = plan.random.one_of(kinds);
            let parts = dated(plan, (inner, GNT), date);
            sample::of_kind(inner, &parts)
        }
        _ => date.to_vec(),
    };
    fields
}

impl Plan {
    /// A record or an identity with this date in one place, read and built.
    fn date(&mut self, place: Place, date: impl AsRef<[u8]>) {
        let fields = dated(self, place, date.as_ref());
        self.call(reader(place.0), sample::of_kind(place.0, &fields));
        self.build(LONGEST_READ, place.0.name(), &fields);
    }
}

/// Each date by itself, as the GNT of an identity, inside a record, as Expiry and as TVP.
fn every_date(plan: &mut Plan) {
    for (turn, date) in dates().into_iter().enumerate() {
        plan.call(Op::Timestamp, &date[..]);
        for places in PLACES {
            plan.date(places[turn % places.len()], &date);
        }
    }
}

/// Every place, with a day that does not exist and with one that does.
fn every_place(plan: &mut Plan) {
    for place in PLACES.concat() {
        for date in [MISSING, LEAP] {
            plan.date(place, date);
        }
    }
}

/// Of a wrapped key: the names whose values are dates, and one that Appendix B does not define.
fn attributes(plan: &mut Plan) {
    for name in [b"ACT", b"BDT", b"IUT", b"EXP"] {
        for date in [MISSING, LEAP, "20230228T235959Z", "20230229T000000Z"] {
            let list = Cards::required(&mut plan.random).with(name, date).list();
            let key = sample::wrapped_key(&mut plan.random, &list);
            plan.call(Op::Record, &key[..]);
            for op in [Op::AttributeNamed, Op::AttributeNamedPlace] {
                plan.pair(op, &key[..], &name[..]);
            }
            let mut fields = sample::short_fields(&mut plan.random, Kind::WrappedKey, Signed::No);
            fields[1] = list;
            plan.build(LONGEST_READ, Kind::WrappedKey.name(), &fields);
        }
    }
}

/// The calls that read first: for a field, a text, the newer key, and the lines of a file.
fn other_calls(plan: &mut Plan) {
    for date in [MISSING, LEAP] {
        let mut of = |place: Place| {
            let fields = dated(plan, place, date.as_bytes());
            sample::of_kind(place.0, &fields)
        };
        let (identity, request) = (of(OF_IDENTITIES[1]), of(TVP[0]));
        let (key, other) = (of(EXPIRY[1]), of(INSIDE[2]));
        for number in [0, 3, 5] {
            plan.numbered(Op::IdentityField, number, &identity[..]);
            plan.numbered(Op::IdentityPlace, number, &identity[..]);
            plan.numbered(Op::RecordField, number, &request[..]);
            plan.numbered(Op::RecordPlace, number, &request[..]);
        }
        for op in [Op::SharedInfo, Op::ModuleText, Op::CentreText] {
            plan.numbered(op, LONGEST_READ as u64, &request[..]);
        }
        for op in [Op::Newer, Op::NewerOf] {
            plan.pair(op, &key[..], &other[..]);
            plan.pair(op, &other[..], &key[..]);
            plan.pair(op, &key[..], &key[..]);
        }
        plan.walk(&[&key[..], b"\n", &other, b"\n", &request, b"\n"].concat());
    }
}

/// Any days that do not exist.
fn drawn(plan: &mut Plan) {
    for place in PLACES.concat() {
        let date = sample::missing_day(&mut plan.random);
        plan.call(Op::Timestamp, &date[..]);
        plan.date(place, date);
    }
}
