//! What the steps of cabinets take: records, each with the TVP of a first put and the number of its Expiry behind it,
//! and identities of many Subjects, and what is none, one behind the other in one text. So the case file has each of
//! them once.

use super::Plan;
use crate::calls::Op;
use crate::steps::{Part, Step};
use compare::cabinet::{NUMBER_AT, PLACES, SIZE, START, TVP_AT, WIDTH};
use compare::kind::Kind;
use compare::moment::moment_of;
use compare::random::Random;
use compare::sample::{self, Fault, PublicKey, Signed, Subject};
use compare::text::PRINT_DIGITS;
use compare::worked::{worked, UNSIGNED};

/// How many Subjects there are.
pub(super) const SUBJECTS: usize = 80;

/// Times before, at and after that of the first record of a Subject.
const TIMES: [[&str; 3]; 4] = [
    ["20171231T235959Z", "20180101T000000Z", "20180101T000001Z"],
    ["20180110T115959Z", "20180110T120000Z", "20180111T120000Z"],
    ["19991231T235959Z", "20000101T000000Z", "20000201T000000Z"],
    ["00010101T000000Z", "50000615T123456Z", "99991231T235959Z"],
];

/// GNTs that do not tell a Subject from another: the first that there is, document 003's, and the last.
pub(super) const GNTS: [&str; 3] = ["00010101T000000Z", "20180120T090000Z", "99991231T235959Z"];

/// Manufacturer and MID of other Subjects than document 003's module, which are nearly its own.
pub(super) const NEAR_NAMES: [(&str, &str); 9] = [
    ("prism", "06000001"),
    ("Pris", "06000001"),
    ("Prism", "0600000"),
    ("Prism", "06000002"),
    ("Prism", "060000011"),
    ("Prism1", "06000001"),
    ("Prism0", "6000001"),
    ("06000001", "Prism"),
    ("P", "0"),
];

/// The keys of one Subject, and an identity that names it, with another GNT and Fingerprint.
pub(super) struct Keys {
    pub(super) first: Part,
    pub(super) later: Part,
    /// An earlier key and another of the same time; every sixth Subject has them.
    pub(super) not_later: Vec<Part>,
    pub(super) identity: Part,
}

pub(super) struct Pool {
    pub(super) text: Vec<u8>,
    pub(super) keys: Vec<Keys>,
    /// Those of document 003: of the centre, the manufacturer and the module, which has one that is not signed.
    pub(super) worked: [Part; 4],
    /// The longest key of each kind.
    pub(super) longest: [Part; 2],
    pub(super) no_keys: Vec<Part>,
    pub(super) no_identities: Vec<Part>,
    /// A place full of bytes FF.
    pub(super) ones: Part,
    /// A place of zeros.
    pub(super) zeros: Part,
}

impl Pool {
    /// The same every time.
    pub(super) fn new() -> Pool {
        let mut random = Random::with_seed(8);
        let subjects = subjects(&mut random);
        let mut text = Text::default();
        let first: Vec<Part> =
            subjects.iter().map(|subject| text.add_key(short_key(&mut random, subject))).collect();
        let mut keys = Vec::new();
        for (index, (subject, first)) in subjects.into_iter().zip(first).enumerate() {
            let [before, at, after] = TIMES[index % TIMES.len()]
                .map(|gnt| Subject { gnt: gnt.into(), ..subject.clone() });
            let later = text.add_key(short_key(&mut random, &after));
            let others = if index % 6 == 0 { vec![before, at] } else { Vec::new() };
            let not_later =
                others.iter().map(|other| text.add_key(short_key(&mut random, other))).collect();
            let gnt = sample::timestamp(&mut random);
            let print = sample::hex(&mut random, PRINT_DIGITS);
            let identity = text.add(Subject { gnt, ..subject }.identity(print));
            keys.push(Keys { first, later, not_later, identity });
        }
        let worked = ["PUBKEY_KMC", "PUBKEY_MAN", UNSIGNED, "PUBKEY_SM"]
            .map(|name| text.add_key(worked(name)));
        let longest =
            Kind::PUBLIC_KEYS.map(|kind| text.add_key(sample::longest_record(&mut random, kind)));
        let no_keys = no_keys(&mut random).into_iter().map(|bytes| text.add_key(bytes)).collect();
        let no_identities =
            no_identities(&mut random).into_iter().map(|bytes| text.add(bytes)).collect();
        let [ones, zeros] = [0xFF, 0].map(|byte| text.add(vec![byte; WIDTH]));
        let text = text.0;
        Pool { text, keys, worked, longest, no_keys, no_identities, ones, zeros }
    }

    pub(super) fn bytes(&self, part: Part) -> &[u8] {
        &self.text[part.start..part.end]
    }

    /// The first record of a Subject.
    pub(super) fn record(&self, subject: usize) -> &[u8] {
        self.bytes(self.keys[subject].first)
    }

    /// An identity that names a Subject.
    pub(super) fn identity(&self, subject: usize) -> &[u8] {
        self.bytes(self.keys[subject].identity)
    }

    /// Steps that write the first records of these Subjects, each into its place.
    pub(super) fn shelf(&self, places: impl IntoIterator<Item = (usize, usize)>) -> Vec<Step> {
        let hold = |(subject, place): (usize, usize)| hold(self.keys[subject].first, place);
        places.into_iter().flat_map(hold).collect()
    }

    /// So many Subjects in the lowest places, by writing.
    pub(super) fn lowest(&self, count: usize) -> Vec<Step> {
        self.shelf((0..count).zip(0..))
    }

    pub(super) fn full(&self) -> Vec<Step> {
        self.lowest(PLACES)
    }
}

/// The step that writes a part to the start of a place.
pub(super) fn write(part: Part, place: usize) -> Step {
    Step::Write(part, place * WIDTH)
}

/// The steps that write a key of such a text to the start of a place, and the TVP of a first put and its number to
/// the end.
pub(super) fn hold(key: Part, place: usize) -> [Step; 2] {
    let end = Part { start: tvp_of(key).start, end: number_of(key).end };
    [write(key, place), tvp(end, place)]
}

/// The step that writes a number to the end of a place.
pub(super) fn number(part: Part, place: usize) -> Step {
    Step::Write(part, place * WIDTH + NUMBER_AT)
}

/// The step that writes where the TVP stands in a place.
pub(super) fn tvp(part: Part, place: usize) -> Step {
    Step::Write(part, place * WIDTH + TVP_AT)
}

/// The TVP that stands behind a key.
pub(super) fn tvp_of(key: Part) -> Part {
    let start = key.end + 1;
    Part { start, end: start + NUMBER_AT - TVP_AT }
}

/// The number that stands behind it.
pub(super) fn number_of(key: Part) -> Part {
    let start = tvp_of(key).end;
    Part { start, end: start + WIDTH - NUMBER_AT }
}

impl AsRef<[u8]> for Pool {
    fn as_ref(&self) -> &[u8] {
        &self.text
    }
}

impl Plan {
    /// A call on the cabinet that these steps make, which take their parts from a text.
    pub(super) fn file(&mut self, text: &impl AsRef<[u8]>, op: Op, steps: &[Step], b: &[u8]) {
        self.file_in(SIZE, text, op, steps, b);
    }

    /// The same, with so many bytes lent.
    pub(super) fn file_in(
        &mut self,
        room: usize,
        text: &impl AsRef<[u8]>,
        op: Op,
        steps: &[Step],
        b: &[u8],
    ) {
        let end = steps.iter().map(|step| step.part().end).max().unwrap_or(0);
        let c = steps.iter().flat_map(|step| step.bytes()).collect();
        self.case(op, room as u64, text.as_ref()[..end].to_vec(), b.to_vec(), c);
    }

    /// Every call but the making one on what these steps made: the put of a record, the others of an identity, and
    /// the admission of 003's request.
    pub(super) fn file_all(
        &mut self,
        text: &impl AsRef<[u8]>,
        room: usize,
        steps: &[Step],
        [record, identity]: [&[u8]; 2],
    ) {
        for op in [Op::CheckCabinet, Op::CountKeys] {
            self.file_in(room, text, op, steps, b"");
        }
        self.file_in(room, text, Op::PutKey, steps, record);
        for op in [Op::RemoveKey, Op::KeyPlace, Op::FindKey] {
            self.file_in(room, text, op, steps, identity);
        }
        self.file_in(room, text, Op::Admit, steps, &worked("VKLOADREQ"));
    }
}

/// Parts one behind the other, each in a line.
#[derive(Default)]
pub(super) struct Text(pub(super) Vec<u8>);

impl Text {
    pub(super) fn add(&mut self, bytes: impl AsRef<[u8]>) -> Part {
        let start = self.0.len();
        self.0.extend(bytes.as_ref());
        let end = self.0.len();
        self.0.push(b'\n');
        Part { start, end }
    }

    /// The same, and in the next line the TVP of a first put and the number of its Expiry; 0 where none stands
    /// there.
    pub(super) fn add_key(&mut self, record: Vec<u8>) -> Part {
        let expiry = record.split(|&byte| byte == b'|').nth(3).unwrap_or_default();
        let number = moment_of(expiry).unwrap_or(0);
        let part = self.add(record);
        self.add([&START[..], &number.to_be_bytes()].concat());
        part
    }
}

impl AsRef<[u8]> for Text {
    fn as_ref(&self) -> &[u8] {
        &self.0
    }
}

/// A key of this Subject; a module's is signed, another now and then.
fn short_key(random: &mut Random, subject: &Subject) -> Vec<u8> {
    let signed = if random.once_in(16) { Signed::Yes } else { Signed::No };
    PublicKey::of(random, subject.clone(), signed).record()
}

/// Subjects of which no two share kind, Manufacturer and MID: some differ in one character, some are cut in
/// another place, and some are of another kind.
fn subjects(random: &mut Random) -> Vec<Subject> {
    let names = |kind, manufacturer: &str, mid: &str| (kind, manufacturer.into(), mid.into());
    let mut all = vec![(Kind::Smid, sample::ident(random, 32), sample::ident(random, 32))];
    for character in "ABCZabcz0189-_.,".chars() {
        all.push(names(Kind::Smid, "Prism", &format!("0600000{character}")));
    }
    for character in "AZaz19".chars() {
        all.push(names(Kind::Smid, "Prism", &format!("{character}6000001")));
        all.push(names(Kind::Smid, &format!("Pri{character}m"), "06000001"));
    }
    for (manufacturer, mid) in
        [("A", "BC"), ("AB", "C"), ("ABC", "C"), ("A", "B"), ("A", "BCD"), ("a", "bc"), ("BC", "A")]
    {
        all.extend(Kind::IDENTITIES.map(|kind| names(kind, manufacturer, mid)));
    }
    while all.len() < SUBJECTS {
        let Subject { kind, manufacturer, mid, .. } = Subject::any(random);
        let other = (kind, manufacturer, mid);
        if !all.contains(&other) {
            all.push(other);
        }
    }
    // The first stays, because all cases have the text from its start.
    for index in (2..all.len()).rev() {
        all.swap(index, random.between(1, index));
    }
    let with_time = |((kind, manufacturer, mid), index): (_, usize)| {
        let gnt = TIMES[index % TIMES.len()][1].into();
        Subject { kind, manufacturer, mid, gnt }
    };
    all.into_iter().zip(0..).map(with_time).collect()
}

/// What is no public key: one with each fault, records of other kinds, an identity, and few bytes.
fn no_keys(random: &mut Random) -> Vec<Vec<u8>> {
    let mut all = Vec::new();
    for kind in Kind::PUBLIC_KEYS {
        let faults = Fault::of(kind).iter();
        all.extend(faults.map(|&fault| sample::faulty(random, kind, &[fault])));
    }
    all.extend(["VKLOADREQ", "VKLOADRESP", "KEY1_1", "ID_SM"].map(worked));
    all.extend(["", "PK.ECDH.1|", "PK.ECDSA.1|0000", "x"].map(|text| text.as_bytes().to_vec()));
    all
}

/// What is no identity: one with each fault, a public key, and few bytes.
fn no_identities(random: &mut Random) -> Vec<Vec<u8>> {
    let mut all = Vec::new();
    for kind in Kind::IDENTITIES {
        let faults = Fault::of(kind).iter();
        all.extend(faults.map(|&fault| sample::faulty(random, kind, &[fault])));
    }
    all.push(worked("PUBKEY_SM"));
    all.extend(["", "SMID.1:", "SMID.1:0000", "x"].map(|text| text.as_bytes().to_vec()));
    all
}

#[cfg(test)]
mod tests {
    use super::*;
    use compare::cabinet::Cabinet;

    /// Each key fills a place of its own as far as there are places, and each identity finds it.
    #[test]
    fn no_two_subjects_of_the_pool_are_one() {
        let pool = Pool::new();
        assert_eq!(pool.keys.len(), SUBJECTS);
        for start in [0, SUBJECTS - PLACES] {
            let mut cabinet = Cabinet::empty();
            for (place, subject) in (start..start + PLACES).enumerate() {
                assert_eq!(cabinet.put(pool.record(subject)), Ok(()), "{subject}");
                assert_eq!(cabinet.find(pool.identity(subject)), Ok(place), "{subject}");
            }
        }
    }

    /// What is written is what is put.
    #[test]
    fn a_key_of_the_pool_is_held_with_its_tvp_and_its_number() {
        let pool = Pool::new();
        let mut cabinet = Cabinet::empty();
        let mut lent = vec![0; SIZE];
        for (place, keys) in pool.keys[..PLACES].iter().enumerate() {
            assert_eq!(cabinet.put(pool.bytes(keys.first)), Ok(()));
            for step in hold(keys.first, place) {
                let Step::Write(part, at) = step else { unreachable!("a key is written") };
                lent[at..][..part.end - part.start].copy_from_slice(pool.bytes(part));
            }
        }
        assert!(lent == cabinet.bytes());
    }
}
