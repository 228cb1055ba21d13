//! What the sides are given, with a fixed seed; all of it is accepted.

use crate::side::{Pieces, Reads, FIRST_TVP, PRINT_TO_END};
use compare::kind::Kind;
use compare::mail::block_of;
use compare::moment::moment_of;
use compare::random::Random;
use compare::record::read_identity;
use compare::sample::{self, Cards, Exchange, PublicKey, Signed, Subject};
use compare::trailed::line_of;
use obscurlane::{CABINET_PLACES, CABINET_SIZE, CABINET_TVP_AT, CABINET_WIDTH, KEY_BYTES, Z_BYTES};

/// A record as bytes and as what it is built from.
pub struct Sample {
    pub kind: Kind,
    pub record: Vec<u8>,
    pub bytes: Vec<u8>,
    pub lens: Vec<usize>,
}

impl Sample {
    fn of(kind: Kind, fields: &[Vec<u8>]) -> Sample {
        Sample {
            kind,
            record: sample::of_kind(kind, fields),
            bytes: fields.concat(),
            lens: fields.iter().map(Vec::len).collect(),
        }
    }

    fn new(random: &mut Random, kind: Kind) -> Sample {
        let signed = random.one_of(&[Signed::Yes, Signed::No]);
        Sample::of(kind, &sample::fields(random, kind, signed))
    }

    /// A wrapped key with the attributes of the documents' examples, 254 to 305 bytes as these have.
    fn wrapped_key(random: &mut Random) -> Sample {
        let group = random.between(4, 31);
        let list = Cards::required(random)
            .with(b"CLM", sample::hex(random, 8))
            .with(b"CLU", *b"0")
            .with(b"EXP", sample::timestamp(random))
            .with(b"IUT", sample::timestamp(random))
            .with(b"KCV", sample::hex(random, 6))
            .with(b"SBM", sample::hex(random, 4))
            .with(b"SGN", sample::printable(random, group))
            .with(b"ULM", *b"10000");
        let digits = random.one_of(&[48, 72]);
        let fields = [sample::hex(random, 24), list.list(), sample::hex(random, digits)];
        Sample::of(Kind::WrappedKey, &fields)
    }

    /// The call that reads it.
    pub fn reads(&self) -> Reads {
        if Kind::IDENTITIES.contains(&self.kind) {
            Reads::Identities
        } else {
            Reads::Records
        }
    }
}

/// A public key of this Subject: a module's is signed, any other by chance.
fn key_of(random: &mut Random, subject: Subject) -> PublicKey {
    let by_chance = Signed::any(random);
    let signed = if subject.kind == Kind::Smid { Signed::Yes } else { by_chance };
    PublicKey::of(random, subject, signed)
}

/// A public key with the right Fingerprint, and what is hashed for it.
pub struct Printed {
    pub record: Vec<u8>,
}

impl Printed {
    fn new(random: &mut Random) -> Printed {
        let subject = Subject::any(random);
        Printed { record: key_of(random, subject).record() }
    }

    /// What is hashed for its Fingerprint, in the slices in which it stands there: the Subject up to its Fingerprint, Q, and the
    /// last `:`.
    pub fn pieces(&self) -> Pieces<'_> {
        let mut fields = self.record.split(|&byte| byte == b'|').skip(1);
        let [subject, q] = [fields.next(), fields.next()].map(|field| field.expect("a field"));
        [&subject[..subject.len() - PRINT_TO_END], q, b":"]
    }
}

/// The load request and the response of the worked example, with the right tags under another Z.
pub struct Agreed {
    pub z: Vec<u8>,
    pub request: Vec<u8>,
    pub response: Vec<u8>,
}

impl Agreed {
    fn new(random: &mut Random, worked: &Exchange) -> Agreed {
        let exchange = Exchange { z: random.bytes(Z_BYTES), ..worked.clone() }.confirmed();
        let (request, response) = (exchange.request(), exchange.response());
        Agreed { z: exchange.z, request, response }
    }

    /// Some key.
    pub fn key(&self) -> &[u8] {
        &self.z[..KEY_BYTES]
    }
}

/// A public key in a cabinet: the record, one that may replace it, and an identity of the same names with another GNT.
pub struct Kept {
    pub record: Vec<u8>,
    pub later: Vec<u8>,
    pub identity: Vec<u8>,
}

impl Kept {
    pub fn new(random: &mut Random) -> Kept {
        let mut gnts = [0; 3].map(|_| sample::timestamp(random));
        gnts.sort_unstable();
        let [earlier, between, later] = gnts;
        let subject = Subject::any(random);
        let [record, later] = [earlier, later].map(|gnt| {
            let subject = Subject { gnt, ..subject.clone() };
            key_of(random, subject).record()
        });
        let identity = Subject { gnt: between, ..subject }.identity(sample::hex(random, 16));
        Kept { record, later, identity }
    }
}

/// A place with this key, which may be old: the record, zeros after it, the TVP of a first put, and the seconds of its Expiry.
pub fn place_of(record: &[u8]) -> Vec<u8> {
    let expiry = record.split(|&byte| byte == b'|').nth(3).and_then(moment_of);
    let mut place = record.to_vec();
    place.resize(CABINET_TVP_AT, 0);
    place.extend(FIRST_TVP);
    place.extend(expiry.expect("a key").to_be_bytes());
    place
}

/// The key with the same parts and no signature, of the module with these names.
pub fn unsigned_of(record: &[u8]) -> Vec<u8> {
    let mut key = PublicKey::of_record(record);
    key.kind = Kind::PkEcdh;
    key.subject.kind = Kind::Smid;
    key.issuer.clear();
    key.signature.clear();
    key.record()
}

/// A request of the module with this identity's Manufacturer and MID.
pub fn request_of(random: &mut Random, identity: &[u8]) -> Vec<u8> {
    let names = read_identity(identity).expect("an identity").fields;
    let names: Vec<Vec<u8>> = names.into_iter().map(<[u8]>::to_vec).collect();
    let mut fields = sample::fields(random, Kind::VkloadReq, Signed::No);
    fields[0] = sample::of_kind(Kind::Smid, &names);
    fields[2] = b"20180125T150000Z".to_vec();
    sample::of_kind(Kind::VkloadReq, &fields)
}

/// A full cabinet, what is in its places, and for each a request that is admitted where it is a module's.
pub struct Filed {
    pub cabinet: Vec<u8>,
    pub kept: Vec<Kept>,
    pub requests: Vec<Vec<u8>>,
}

impl Filed {
    fn new(random: &mut Random, asking: &mut Random) -> Filed {
        let kept: Vec<Kept> = (0..CABINET_PLACES).map(|_| Kept::new(random)).collect();
        let places = kept.iter().map(|kept| place_of(&kept.record));
        let cabinet: Vec<u8> = places.flatten().collect();
        assert_eq!((cabinet.len(), cabinet.len() / kept.len()), (CABINET_SIZE, CABINET_WIDTH));
        let requests = kept.iter().map(|kept| request_of(asking, &kept.identity)).collect();
        let filed = Filed { cabinet, kept, requests };
        assert_eq!(filed.asking().count(), FILED);
        filed
    }

    /// Those whose keys are found, replaced or removed in a turn, from the first place to the last.
    pub fn taken(&self) -> impl Iterator<Item = &Kept> {
        self.kept.iter().step_by(CABINET_PLACES.div_ceil(FILED))
    }

    /// The requests that are admitted in a turn: as many, of the modules that stand last.
    pub fn asking(&self) -> impl Iterator<Item = &[u8]> {
        let all = self.kept.iter().zip(&self.requests).rev();
        let of_modules = all.filter(|(kept, _)| kept.identity.starts_with(b"SMID.1:"));
        of_modules.map(|(_, request)| &request[..]).take(FILED)
    }
}

/// How many calls there are in a turn on a full cabinet.
pub const FILED: usize = 10;

/// A letter with the request as mail: five lines stand before it, and two behind.
fn letter_of(request: &[u8]) -> Vec<u8> {
    const BEFORE: &[u8] =
        b"Dear colleagues,\n\nplease load the vending keys of our new module, which is ready\n\
        since this morning. Its request is below.\n\n";
    [BEFORE, &block_of(b"VKLOAD.REQ.1", request), b"\nKind regards\n"].concat()
}

/// Numbers for each sort of input by themselves, so that one that is added leaves the others as they were.
pub struct Draws {
    records: Random,
    wrapped_keys: Random,
    hashed: Random,
    agreed: Random,
    filed: Random,
    dates: Random,
    asking: Random,
}

impl Draws {
    pub fn with_seeds(seeds: [u64; 7]) -> Draws {
        let [records, wrapped_keys, hashed, agreed, filed, dates, asking] =
            seeds.map(Random::with_seed);
        Draws { records, wrapped_keys, hashed, agreed, filed, dates, asking }
    }
}

/// The lengths of the messages that are hashed: about what is hashed for a Fingerprint, 4 KB, and the longest, 64 KB.
pub const MESSAGES: [usize; 3] = [250, 1 << 12, 1 << 16];

/// The length of the text that a tag is made of: that of the worked example's module text.
pub const TAGGED: usize = 276;

/// How many messages of this length there are among so many records: as many, but no more than 1 MB of them.
pub const fn messages_among(length: usize, records: usize) -> usize {
    let most = (1 << 20) / length;
    if most < records {
        most
    } else {
        records
    }
}

pub struct Inputs {
    /// As many of each record kind and of identities, in no order.
    pub samples: Vec<Sample>,
    /// The records of the samples, each with a line feed.
    pub file: Vec<u8>,
    pub requests: Vec<Vec<u8>>,
    pub wrapped_keys: Vec<Sample>,
    pub printed: Vec<Printed>,
    pub agreed: Vec<Agreed>,
    /// The printed keys as a manufacturer sends them, each with its trailer and a line feed.
    pub trailed: Vec<u8>,
    /// A letter for each of the requests, which has it as mail between other lines.
    pub letters: Vec<Vec<u8>>,
    pub filed: Filed,
    /// Dates of all years.
    pub dates: Vec<Vec<u8>>,
    /// Messages are parts of it, each of which starts a byte behind the one before.
    bytes: Vec<u8>,
}

impl Inputs {
    pub fn new(draws: &mut Draws, count: usize) -> Inputs {
        let Draws { records: random, wrapped_keys, hashed, agreed, filed, dates, asking } = draws;
        let mut samples: Vec<Sample> = (0..count)
            .map(|index| {
                let kind = match index % 5 {
                    4 => random.one_of(&Kind::IDENTITIES),
                    record => Kind::RECORDS[record],
                };
                Sample::new(random, kind)
            })
            .collect();
        for last in (1..samples.len()).rev() {
            samples.swap(last, random.below(last + 1));
        }
        let mut file = Vec::new();
        for sample in &samples {
            file.extend_from_slice(&sample.record);
            file.push(b'\n');
        }
        let requests: Vec<Vec<u8>> =
            (0..count).map(|_| sample::record(random, Kind::VkloadReq)).collect();
        let letters = requests.iter().map(|request| letter_of(request)).collect();
        let wrapped_keys = (0..count).map(|_| Sample::wrapped_key(wrapped_keys)).collect();
        let printed: Vec<Printed> = (0..count).map(|_| Printed::new(hashed)).collect();
        let mut trailed = Vec::new();
        for key in &printed {
            trailed.extend(line_of(&key.record));
            trailed.push(b'\n');
        }
        let worked = Exchange::worked();
        let agreed = (0..count).map(|_| Agreed::new(agreed, &worked)).collect();
        let bytes = hashed.bytes(MESSAGES[2] + count);
        let filed = Filed::new(filed, asking);
        let dates = (0..count).map(|_| sample::timestamp(dates)).collect();
        Inputs {
            samples,
            file,
            requests,
            wrapped_keys,
            printed,
            agreed,
            trailed,
            letters,
            filed,
            dates,
            bytes,
        }
    }

    pub fn messages(&self, length: usize) -> impl Iterator<Item = &[u8]> {
        self.bytes.windows(length).take(messages_among(length, self.samples.len()))
    }
}
