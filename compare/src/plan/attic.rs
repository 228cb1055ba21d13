//! Old records, signed keys that may replace them, and what stands in a cabinet beside them, in one text.

use super::admissions::request_of;
use super::pool::{hold, tvp, Text, GNTS};
use super::stored::mistaken;
use crate::steps::{Part, Step};
use compare::cabinet::PLACES;
use compare::kind::Kind;
use compare::moment::moment_of;
use compare::random::Random;
use compare::sample::{self, Fault, PublicKey, Signed, Subject};
use compare::text::PRINT_DIGITS;
use compare::worked::{worked, UNSIGNED};

/// How many modules there are with keys of several times, and how many Subjects that a cabinet can be filled with.
pub(super) const MODULES: usize = 4;
pub(super) const CROWD: usize = PLACES + 2;

/// The GNTs of a module's keys: before, at and after that of the old one.
const TIMES: [&str; 4] =
    ["20180120T085959Z", "20180120T090000Z", "20180120T090001Z", "20190120T090000Z"];

/// TVPs that stand in places, and those of requests.
pub(super) const TVPS: [&str; 6] = [
    "19930101T000000Z",
    "19930101T000001Z",
    "20180125T145959Z",
    "20180125T150000Z",
    "20180125T150001Z",
    "99991231T235959Z",
];

/// TVPs that no place has.
const NO_TVPS: [&[u8; 16]; 7] = [
    &[0; 16],
    &[b' '; 16],
    b"19921231T235959Z",
    b"19930431T000000Z",
    b"20190229T000000Z",
    b"19930101T000000z",
    b"19930101T240000Z",
];

/// One module: the first is that of document 003.
pub(super) struct Module {
    pub(super) subject: Subject,
    /// Unsigned keys at the second and the third of [`TIMES`]; 003's key is the first of the first.
    pub(super) old: [Part; 2],
    /// Signed keys at all of them.
    pub(super) signed: [Part; 4],
    pub(super) identity: Part,
    /// One for each of [`TVPS`].
    pub(super) requests: Vec<Part>,
}

/// A Subject of a full cabinet: an old key, and a signed one of a later time.
pub(super) struct Head {
    pub(super) old: Part,
    pub(super) signed: Part,
    pub(super) identity: Part,
}

/// Old records and others in one text.
pub(super) struct Attic {
    pub(super) text: Text,
    pub(super) modules: Vec<Module>,
    /// Unsigned keys of a centre and of a manufacturer with the names of the first module, which are not old.
    pub(super) twins: [Part; 2],
    pub(super) tvps: Vec<Part>,
    pub(super) no_tvps: Vec<Part>,
    pub(super) no_keys: Vec<Part>,
    pub(super) letter: Part,
    pub(super) zero: Part,
    /// Numbers that an error would write for 003's.
    pub(super) mistaken: Vec<Part>,
    pub(super) crowd: Vec<Head>,
}

impl Attic {
    pub(super) fn new(random: &mut Random) -> Attic {
        let mut text = Text::default();
        // No other text begins so. All cases have this one from its start, and are found in it by that.
        let letter = text.add(b"old records lie here");
        let letter = Part { end: letter.start + 1, ..letter };
        let modules: Vec<Module> =
            (0..MODULES).map(|index| module(random, &mut text, index)).collect();
        let twins = [Kind::Kmcid, Kind::Smman].map(|kind| {
            let subject = Subject { kind, ..modules[0].subject.clone() };
            text.add_key(PublicKey::of(random, subject, Signed::No).record())
        });
        let tvps = TVPS.map(|tvp| text.add(tvp)).to_vec();
        let no_tvps = NO_TVPS.map(|tvp| text.add(tvp)).to_vec();
        let no_keys = no_keys(random).into_iter().map(|bytes| text.add_key(bytes)).collect();
        let zero = text.add([0]);
        let right = moment_of(b"99991231T115959Z").expect("a TIMESTAMP");
        let mistaken = mistaken(right, 0).map(|number| text.add(number.to_be_bytes())).to_vec();
        let crowd = (0..CROWD).map(|index| head(random, &mut text, index)).collect();
        Attic { text, modules, twins, tvps, no_tvps, no_keys, letter, zero, mistaken, crowd }
    }

    pub(super) fn bytes(&self, part: Part) -> &[u8] {
        &self.text.0[part.start..part.end]
    }

    /// The steps that write the old key of a module to a place, with a TVP.
    pub(super) fn held(&self, module: usize, place: usize, time: usize) -> Vec<Step> {
        let key = hold(self.modules[module].old[0], place);
        [&key[..], &[tvp(self.tvps[time], place)]].concat()
    }
}

fn module(random: &mut Random, text: &mut Text, index: usize) -> Module {
    let mut worked_key = PublicKey::of_record(&worked("PUBKEY_SM"));
    if index > 0 {
        worked_key.subject.mid = format!("0700000{index}").into_bytes();
    }
    let subject = worked_key.subject.clone();
    // All else of 003's key stays, so that the signed key at its time is 003's too.
    let signed = TIMES.map(|gnt| {
        let subject = Subject { gnt: gnt.into(), ..subject.clone() };
        let mut key = PublicKey { subject, ..worked_key.clone() };
        key.print = key.right_print();
        key
    });
    let old = [&signed[1], &signed[2]].map(|key| text.add_key(key.clone().unsigned().record()));
    let signed = signed.map(|key| text.add_key(key.record()));
    let gnt = sample::timestamp(random);
    let named = Subject { gnt, ..subject.clone() }.identity(sample::hex(random, PRINT_DIGITS));
    let request = |tvp: &&str| text.add(request_of(named.clone(), tvp.as_bytes()));
    let requests = TVPS.iter().map(request).collect();
    let identity = text.add(named);
    Module { subject, old, signed, identity, requests }
}

fn head(random: &mut Random, text: &mut Text, index: usize) -> Head {
    let mid = format!("{index:02}").into_bytes();
    let subject = |gnt: &str| {
        let (kind, manufacturer, mid) = (Kind::Smid, b"Prism".to_vec(), mid.clone());
        Subject { kind, manufacturer, mid, gnt: gnt.into() }
    };
    let key = PublicKey::of(random, subject(TIMES[0]), Signed::Yes);
    let old = text.add_key(key.unsigned().record());
    let key = PublicKey::of(random, subject(TIMES[1]), Signed::Yes);
    let signed = text.add_key(key.record());
    let identity = text.add(subject(GNTS[index % 3]).identity(sample::hex(random, PRINT_DIGITS)));
    Head { old, signed, identity }
}

/// 003's unsigned key with something wrong with it that the rules up to E10 refuse too, and unsigned keys with faults.
fn no_keys(random: &mut Random) -> Vec<Vec<u8>> {
    let key = PublicKey::of_record(&worked(UNSIGNED));
    let [issuer, signature] = ["ID_MAN", "SIG_SM"].map(worked);
    let changed = [
        PublicKey { issuer, ..key.clone() },
        PublicKey { signature, ..key.clone() },
        PublicKey { expiry: b"99990431T115959Z".to_vec(), ..key.clone() },
        PublicKey { q: b"04".to_vec(), ..key.clone() },
        PublicKey { subject: Subject { kind: Kind::Smman, ..key.subject.clone() }, ..key },
    ];
    let faults = Fault::of(Kind::PkEcdh).iter().filter(|&&fault| fault != Fault::Unsigned);
    let faulty =
        faults.map(|&fault| sample::faulty(random, Kind::PkEcdh, &[fault, Fault::Unsigned]));
    changed.iter().map(PublicKey::record).chain(faulty).collect()
}
