//! Request E10: load requests that are admitted or come back, and the TVPs in the places of a cabinet.

use super::histories::NOTHING;
use super::long::{Block, Part as LongPart};
use super::pool::{hold, tvp, tvp_of, write, Pool, Text, GNTS, NEAR_NAMES, SUBJECTS};
use super::Plan;
use crate::calls::Op;
use crate::steps::{Part, Step};
use compare::cabinet::{NUMBER_AT, PLACES, SIZE, START, TVP_AT, WIDTH};
use compare::kind::Kind;
use compare::random::Random;
use compare::sample::{self, Exchange, Fault, PublicKey, Signed, Subject};
use compare::text::PRINT_DIGITS;
use compare::worked::{worked, IDENTITIES, RECORDS, UNSIGNED};

pub fn add(plan: &mut Plan) {
    let desk = Desk::new(&mut plan.random);
    worked_request(plan, &desk);
    orders(plan, &desk);
    digits(plan, &desk);
    images(plan, &desk);
    free(plan, &desk);
    without(plan, &desk);
    own_refusals(plan, &desk);
    names(plan, &desk);
    twins(plan, &desk);
    places(plan);
    lengths(plan, &desk);
    kept(plan, &desk);
    flipped(plan, &desk);
    every_byte(plan);
    for index in 0..DRAWN {
        let steps = drawn(&mut plan.random, &desk, [4, 8, 16][index % 3]);
        plan.history(&desk.text, steps);
    }
}

/// How many histories are drawn, and the steps of each.
const DRAWN: usize = 24;
const STEPS: usize = 240;

/// How many modules there are.
const MODULES: usize = 12;

/// The TVPs of a module's requests, one after another: the first three are not later than the start.
const TVPS: [&str; 12] = [
    "00010101T000000Z",
    "19921231T235959Z",
    "19930101T000000Z",
    "19930101T000001Z",
    "19991231T235959Z",
    "20000101T000000Z",
    "20180125T145959Z",
    "20180125T150000Z",
    "20180125T150001Z",
    "20610206T062816Z",
    "99991231T235958Z",
    "99991231T235959Z",
];

/// What is no TIMESTAMP, or one that is before the start: no place has it.
const WRONG: [&[u8; 16]; 38] = [
    &[0; 16],
    &[0xFF; 16],
    &[b' '; 16],
    &[b'0'; 16],
    b"19921231T235959Z",
    b"19921231T000000Z",
    b"19920229T000000Z",
    b"19900101T000000Z",
    b"00010101T000000Z",
    b"09930101T000000Z",
    b"00000101T000000Z",
    b"19930101t000000Z",
    b"19930101T000000z",
    b"19930101T000000\0",
    b"\09930101T000000Z",
    b"19930101\x00000000Z",
    b"19930101 000000Z",
    b"19930101T000000 ",
    b" 19930101T000000",
    b"9930101T000000Z\0",
    b"19930100T000000Z",
    b"19930132T000000Z",
    b"19930001T000000Z",
    b"19931301T000000Z",
    b"19930431T000000Z",
    b"20180931T120000Z",
    b"19930229T000000Z",
    b"20190229T120000Z",
    b"21000229T000000Z",
    b"20180230T120000Z",
    b"20180125T240000Z",
    b"20180125T156000Z",
    b"20180125T150060Z",
    b"1993-01-01T00:00",
    b"2018012ET150000Z",
    b"2018012aT150000Z",
    b"+9930101T000000Z",
    b"20180125T15000:Z",
];

/// What may stand there.
const RIGHT: [&[u8; 16]; 9] = [
    &START,
    b"19930101T000001Z",
    b"19930102T000000Z",
    b"19960229T235959Z",
    b"20000229T000000Z",
    b"20180125T150000Z",
    b"20610206T062816Z",
    b"24000229T000000Z",
    b"99991231T235959Z",
];

/// One module: its keys, the earlier first, an identity that names it, and its requests, one for each of [`TVPS`].
struct Module {
    keys: [Part; 3],
    identity: Part,
    requests: Vec<Part>,
}

/// Modules, others of their names, and what is no request, in one text.
struct Desk {
    text: Text,
    modules: Vec<Module>,
    /// A key of a centre and one of a manufacturer, which have the names of the first module.
    twins: [Part; 2],
    /// The module's two keys of document 003, of which the unsigned one is refused, a later one, its identity, and its
    /// request.
    worked: [Part; 5],
    no_requests: Vec<Part>,
    right: Vec<Part>,
    wrong: Vec<Part>,
    /// 003's TVP with every digit in each of its places, and with each bit another.
    digits: Vec<Part>,
    bits: Vec<Part>,
    /// The later twin of the centre.
    later_twin: Part,
}

impl Desk {
    fn new(random: &mut Random) -> Desk {
        let mut text = Text::default();
        let subject = |index: usize| Subject {
            kind: Kind::Smid,
            manufacturer: b"Prism".to_vec(),
            mid: format!("0600{:04}", index * 7).into_bytes(),
            gnt: b"20180120T090000Z".to_vec(),
        };
        let key = |random: &mut Random, subject: Subject| {
            let signed = if random.once_in(8) { Signed::Yes } else { Signed::No };
            PublicKey::of(random, subject, signed).record()
        };
        let times = ["20180120T090000Z", "20180120T090001Z", "20190120T090000Z"];
        let mut modules = Vec::new();
        for index in 0..MODULES {
            let keys = times.map(|gnt| Subject { gnt: gnt.into(), ..subject(index) });
            let keys = keys.map(|subject| text.add_key(key(random, subject)));
            let identity = text.add(subject(index).identity(sample::hex(random, PRINT_DIGITS)));
            modules.push(Module { keys, identity, requests: Vec::new() });
        }
        let twins = [Kind::Kmcid, Kind::Smman]
            .map(|kind| text.add_key(key(random, Subject { kind, ..subject(0) })));
        let twin = Subject { kind: Kind::Kmcid, gnt: times[2].into(), ..subject(0) };
        let later_twin = text.add_key(key(random, twin));
        let [right, wrong] = [&RIGHT[..], &WRONG].map(|all| {
            let mut part = |tvp: &&[u8; 16]| text.add(tvp);
            all.iter().map(&mut part).collect::<Vec<Part>>()
        });
        let [bare, signed] = [UNSIGNED, "PUBKEY_SM"].map(|name| text.add_key(worked(name)));
        let mut replacing = PublicKey::of_record(&worked("PUBKEY_SM"));
        replacing.subject.gnt = b"20180120T090001Z".to_vec();
        replacing.print = replacing.right_print();
        let replacing = text.add_key(replacing.record());
        let [named, asked] = ["ID_SM", "VKLOADREQ"].map(|name| text.add(worked(name)));
        for (index, module) in modules.iter_mut().enumerate() {
            // Any GNT and Fingerprint.
            let gnt = sample::timestamp(random);
            let id_sm =
                Subject { gnt, ..subject(index) }.identity(sample::hex(random, PRINT_DIGITS));
            let request = |tvp: &&str| text.add(request_of(id_sm.clone(), tvp.as_bytes()));
            module.requests = TVPS.iter().map(request).collect();
        }
        let no_requests = no_requests(random).into_iter().map(|bytes| text.add(bytes)).collect();
        let [digits, bits] = [with_other_digits(), with_other_bits()]
            .map(|all| all.into_iter().map(|tvp| text.add(tvp)).collect());
        let worked = [bare, signed, replacing, named, asked];
        Desk { text, modules, twins, worked, no_requests, right, wrong, digits, bits, later_twin }
    }

    fn bytes(&self, part: Part) -> &[u8] {
        &self.text.0[part.start..part.end]
    }

    /// The request of a module with a TVP of [`TVPS`].
    fn request(&self, module: usize, time: usize) -> &[u8] {
        self.bytes(self.modules[module].requests[time])
    }

    /// The steps that write the first key of a module to a place, with a TVP.
    fn held(&self, module: usize, place: usize, part: Part) -> Vec<Step> {
        [&hold(self.modules[module].keys[0], place)[..], &[tvp(part, place)]].concat()
    }
}

/// 003's request with another ID_SM and another TVP. Its MacTag is that of 003, because no admission asks for it.
pub(super) fn request_of(id_sm: Vec<u8>, tvp: &[u8]) -> Vec<u8> {
    Exchange { id_sm, tvp: tvp.to_vec(), ..Exchange::worked() }.request()
}

/// The places of 003's TVP where digits stand.
fn digit_places() -> Vec<usize> {
    let tvp = worked("TVP");
    (0..tvp.len()).filter(|&place| tvp[place].is_ascii_digit()).collect()
}

fn with_other_digits() -> Vec<Vec<u8>> {
    let mut all = Vec::new();
    for place in digit_places() {
        for digit in b'0'..=b'9' {
            all.push(worked("TVP"));
            all.last_mut().expect("a TVP")[place] = digit;
        }
    }
    all
}

fn with_other_bits() -> Vec<Vec<u8>> {
    let with = |bit: usize| {
        let mut tvp = worked("TVP");
        tvp[bit / 8] ^= 1 << (bit % 8);
        tvp
    };
    (0..8 * START.len()).map(with).collect()
}

/// What is no request: one with each fault, all else of document 003, and few bytes.
fn no_requests(random: &mut Random) -> Vec<Vec<u8>> {
    let mut all = Vec::new();
    for _ in 0..3 {
        let faults = Fault::of(Kind::VkloadReq).iter();
        all.extend(faults.map(|&fault| sample::faulty(random, Kind::VkloadReq, &[fault])));
    }
    let names = RECORDS.into_iter().chain(IDENTITIES).filter(|&name| name != "VKLOADREQ");
    all.extend(names.map(worked));
    // Fields of 003's request that no request has; the first is of another kind.
    let worked = Exchange::worked();
    let id_sm = worked.id_kmc.clone();
    let changed = [
        Exchange { id_sm, ..worked.clone() },
        Exchange { tvp: b"20180431T150000Z".to_vec(), ..worked.clone() },
        Exchange { tvp: b"20180125T150000z".to_vec(), ..worked.clone() },
        Exchange { tvp: b"20180125T150000".to_vec(), ..worked.clone() },
        Exchange { tvp: Vec::new(), ..worked.clone() },
        Exchange { id_sm: Vec::new(), ..worked },
    ];
    all.extend(changed.map(|exchange| exchange.request()));
    let few: [&[u8]; 5] = [b"", b"VKLOAD.REQ.1", b"VKLOAD.REQ.1|", b"VKLOAD.REQ.2|", b"x"];
    all.extend(few.map(<[u8]>::to_vec));
    all
}

/// 003's request once and a second time, after a replacement, after a removal, and after a first put again.
fn worked_request(plan: &mut Plan, desk: &Desk) {
    let [bare, signed, replacing, named, asked] = desk.worked;
    let put = |part| Step::Call(Op::PutKey, part);
    let (admit, remove) = (Step::Call(Op::Admit, asked), Step::Call(Op::RemoveKey, named));
    let request = desk.bytes(asked);
    let histories: [&[Step]; 17] = [
        &[],
        &[put(bare)],
        &[put(signed)],
        &[put(signed), admit],
        &[put(signed), admit, admit],
        &[put(signed), put(replacing)],
        &[put(signed), admit, put(replacing)],
        &[put(signed), admit, put(replacing), admit],
        &[put(signed), put(replacing), admit],
        &[put(signed), remove],
        &[put(signed), admit, remove],
        &[put(signed), admit, remove, put(signed)],
        &[put(signed), admit, remove, put(replacing)],
        &[put(signed), admit, remove, put(signed), admit],
        &[put(signed), admit, put(replacing), remove, put(bare)],
        &[put(signed), admit, put(bare), put(signed)],
        &[admit, put(signed)],
    ];
    for steps in histories {
        plan.file(&desk.text, Op::Admit, steps, request);
        plan.file(&desk.text, Op::CheckCabinet, steps, b"");
        plan.file(&desk.text, Op::FindKey, steps, desk.bytes(named));
    }
    // The other keys of document 003 are no module.
    let pool = Pool::new();
    let others = [pool.worked[0], pool.worked[1]].map(put);
    plan.file(&pool, Op::Admit, &others, request);
    plan.file(&pool, Op::Admit, &[others[0], others[1], put(pool.worked[3])], request);
}

/// Every TVP that may stand in a place against every one of a request: earlier, equal, later.
fn orders(plan: &mut Plan, desk: &Desk) {
    for (index, &stored) in desk.right.iter().enumerate() {
        let steps = desk.held(index % MODULES, [0, 63, 31][index % 3], stored);
        for time in 0..TVPS.len() {
            plan.file(&desk.text, Op::Admit, &steps, desk.request(index % MODULES, time));
        }
    }
    // By admissions, one after another.
    let module = &desk.modules[3];
    let mut steps = vec![Step::Call(Op::PutKey, module.keys[0])];
    for &request in &module.requests {
        plan.file(&desk.text, Op::Admit, &steps, desk.bytes(request));
        steps.push(Step::Call(Op::Admit, request));
        plan.file(&desk.text, Op::Admit, &steps, desk.bytes(request));
    }
}

/// A TVP that differs from that of the request in one digit: all digits in the place, one more and one less in the
/// request.
fn digits(plan: &mut Plan, desk: &Desk) {
    let [_, key, _, named, asked] = desk.worked;
    for (index, &other) in desk.digits.iter().enumerate() {
        let place = index % PLACES;
        let steps = [&hold(key, place)[..], &[tvp(other, place)]].concat();
        plan.file(&desk.text, Op::Admit, &steps, desk.bytes(asked));
    }
    let steps = [Step::Call(Op::PutKey, key), Step::Call(Op::Admit, asked)];
    for place in digit_places() {
        for step in [1, -1] {
            let mut other = worked("TVP");
            other[place] = other[place].wrapping_add_signed(step);
            if other[place].is_ascii_digit() {
                let request = request_of(desk.bytes(named).to_vec(), &other);
                plan.file(&desk.text, Op::Admit, &steps, &request);
            }
        }
    }
}

/// TVPs that may stand in a place, and those that make its bytes no cabinet: for every call, and for keys of every
/// kind.
fn images(plan: &mut Plan, desk: &Desk) {
    for (index, &part) in desk.right.iter().chain(&desk.wrong).enumerate() {
        let place = [0, 63, 31, 5][index % 4];
        let (module, beside) = (&desk.modules[index % 5], &desk.modules[5 + index % 5]);
        let mut steps = hold(beside.keys[0], 7).to_vec();
        steps.extend(desk.held(index % 5, place, part));
        let [later, named] = [module.keys[1], beside.identity].map(|part| desk.bytes(part));
        plan.file_all(&desk.text, SIZE, &steps, [later, named]);
        // Of the module that has it, and of the one beside it.
        plan.file(&desk.text, Op::Admit, &steps, desk.request(index % 5, 8));
        plan.file(&desk.text, Op::Admit, &steps, desk.request(5 + index % 5, 8));
        let twin = desk.twins[index % 2];
        let steps = [&hold(twin, place)[..], &[tvp(part, place)]].concat();
        plan.file(&desk.text, Op::CheckCabinet, &steps, b"");
    }
    // 23 before the request's own refusals.
    let steps = desk.held(0, 9, desk.wrong[4]);
    for &part in desk.no_requests.iter().step_by(4) {
        plan.file(&desk.text, Op::Admit, &steps, desk.bytes(part));
    }
    // Made good again.
    let again = [&steps[..], &[tvp(desk.right[0], 9)]].concat();
    plan.file(&desk.text, Op::Admit, &again, desk.request(0, 3));
    plan.file(&desk.text, Op::Admit, &again, desk.request(0, 2));
    // All places have one, and one of them is no TVP: what a record begins with.
    let pool = Pool::new();
    let no_tvp = Part { start: 0, end: START.len() };
    for place in [0, 1, 31, 62, 63] {
        let mut steps = pool.full();
        steps.push(tvp(no_tvp, place));
        for op in [Op::CheckCabinet, Op::CountKeys] {
            plan.file(&pool, op, &steps, b"");
        }
    }
}

/// A free place has no TVP, not even that of the module that was in it.
fn free(plan: &mut Plan, desk: &Desk) {
    for &part in &desk.right {
        plan.file(&desk.text, Op::CheckCabinet, &[tvp(part, 63)], b"");
    }
    let module = &desk.modules[2];
    let mut steps = desk.held(2, 11, desk.right[5]);
    steps.push(Step::Call(Op::RemoveKey, module.identity));
    plan.file(&desk.text, Op::CheckCabinet, &steps, b"");
    plan.file(&desk.text, Op::Admit, &steps, desk.request(2, 11));
    steps.push(tvp(desk.right[5], 11));
    plan.file(&desk.text, Op::CheckCabinet, &steps, b"");
    plan.file(&desk.text, Op::Admit, &steps, desk.request(2, 11));
}

/// Images as they were without TVPs, with their numbers: 23, whatever the number is.
fn without(plan: &mut Plan, desk: &Desk) {
    let pool = Pool::new();
    let zeros = Part { end: pool.zeros.start + START.len(), ..pool.zeros };
    let bare = |count: usize| -> Vec<Step> {
        let mut steps = pool.lowest(count);
        steps.extend((0..count).map(|place| tvp(zeros, place)));
        steps
    };
    for count in [1, 2, 64] {
        plan.file_all(&pool, SIZE, &bare(count), [pool.record(70), pool.identity(0)]);
    }
    // All but one have it.
    for place in [0, 31, 63] {
        let mut steps = pool.full();
        steps.push(tvp(zeros, place));
        plan.file(&pool, Op::CheckCabinet, &steps, b"");
    }
    // The TVP without a number, one byte and eight bytes too early, and in the place of the number.
    for (index, module) in desk.modules.iter().enumerate() {
        let key = module.keys[0];
        let place = index * 5;
        let dated = |byte: usize| Step::Write(tvp_of(key), place * WIDTH + byte);
        for byte in [TVP_AT, TVP_AT - 1, TVP_AT - 8, TVP_AT + 1, TVP_AT + 8, NUMBER_AT - 8] {
            plan.file(&desk.text, Op::CheckCabinet, &[write(key, place), dated(byte)], b"");
            let steps = [&hold(key, place)[..], &[dated(byte)]].concat();
            plan.file(&desk.text, Op::CheckCabinet, &steps, b"");
        }
    }
}

/// The request's own refusals come before 26 and 27.
fn own_refusals(plan: &mut Plan, desk: &Desk) {
    let [_, key, _, _, asked] = desk.worked;
    let there = [Step::Call(Op::PutKey, key), Step::Call(Op::Admit, asked)];
    for (index, &part) in desk.no_requests.iter().enumerate() {
        let steps: &[Step] = [&[][..], &there[..1], &there][index % 3];
        plan.file(&desk.text, Op::Admit, steps, desk.bytes(part));
    }
    // Requests that would be 0, 27 and 26, each with another check.
    for steps in [&there[..1], &there, &[]] {
        let mut other = desk.bytes(asked).to_vec();
        let last = other.last_mut().expect("a character");
        *last = if *last == b'0' { b'1' } else { b'0' };
        plan.file(&desk.text, Op::Admit, steps, &other);
        plan.file(&desk.text, Op::Admit, steps, &[desk.bytes(asked), b"\n"].concat());
    }
    // The longest request, whose module is not there, and permitted ones of any module.
    let longest = sample::longest_record(&mut plan.random, Kind::VkloadReq);
    plan.file(&desk.text, Op::Admit, &there, &longest);
    for _ in 0..8 {
        let any = sample::record(&mut plan.random, Kind::VkloadReq);
        plan.file(&desk.text, Op::Admit, &there, &any);
    }
    for longer in Block::new().longer(LongPart::Request) {
        plan.file(&desk.text, Op::Admit, &there[..1], &longer);
    }
}

/// The module is found by the kind, Manufacturer and MID of ID_SM, whatever its GNT and Fingerprint are; the centre's
/// identity, HWID, FWID, QE and the tag are not looked at.
fn names(plan: &mut Plan, desk: &Desk) {
    let [_, key, _, named, _] = desk.worked;
    let subject = PublicKey::of_record(desk.bytes(key)).subject;
    let steps = [hold(key, 11), hold(desk.modules[0].keys[0], 12)].concat();
    let mut asked = |subject: Subject| {
        let id_sm = subject.identity(sample::hex(&mut plan.random, PRINT_DIGITS));
        plan.file(&desk.text, Op::Admit, &steps, &request_of(id_sm, &worked("TVP")));
    };
    for gnt in GNTS {
        asked(Subject { gnt: gnt.into(), ..subject.clone() });
    }
    for (manufacturer, mid) in
        NEAR_NAMES.into_iter().chain([("Prism", "06000000"), ("Prism", "06000007")])
    {
        asked(Subject { manufacturer: manufacturer.into(), mid: mid.into(), ..subject.clone() });
    }
    let fields = sample::fields(&mut plan.random, Kind::VkloadReq, Signed::No);
    let other = Exchange::of(worked("Z"), fields);
    let id_sm = desk.bytes(named).to_vec();
    let other = Exchange { id_sm, tvp: worked("TVP"), ..other }.request();
    plan.file(&desk.text, Op::Admit, &steps, &other);
}

/// Keys of a centre and of a manufacturer with the names of a module are not the module.
fn twins(plan: &mut Plan, desk: &Desk) {
    let module = desk.modules[0].keys[0];
    let [centre, maker] = desk.twins;
    for keys in [
        &[centre][..],
        &[maker],
        &[centre, maker],
        &[centre, module],
        &[module, centre],
        &[maker, module],
        &[module, maker],
        &[centre, maker, module],
        &[module, maker, centre],
    ] {
        let put: Vec<Step> = keys.iter().map(|&key| Step::Call(Op::PutKey, key)).collect();
        let held: Vec<Step> = keys.iter().zip(61..).flat_map(|(&key, at)| hold(key, at)).collect();
        for steps in [put, held] {
            for time in [2, 3, 7] {
                plan.file(&desk.text, Op::Admit, &steps, desk.request(0, time));
            }
        }
    }
    // A replaced twin takes nothing of the module's TVP, and leaves it.
    let mut steps: Vec<Step> =
        [module, centre].iter().map(|&key| Step::Call(Op::PutKey, key)).collect();
    steps.push(Step::Call(Op::Admit, desk.modules[0].requests[7]));
    plan.file(&desk.text, Op::PutKey, &steps, desk.bytes(desk.later_twin));
    steps.push(Step::Call(Op::PutKey, desk.later_twin));
    plan.file(&desk.text, Op::Admit, &steps, desk.request(0, 7));
    plan.file(&desk.text, Op::Admit, &steps, desk.request(0, 8));
}

/// In a full cabinet every module is found, and no other entity; only its own place changes.
fn places(plan: &mut Plan) {
    let pool = Pool::new();
    let full = pool.full();
    for subject in 0..SUBJECTS {
        let key = PublicKey::of_record(pool.record(subject));
        // A request names a module, so for another entity it names one that only shares its names.
        let id_sm = Subject { kind: Kind::Smid, ..key.subject.clone() }.identity(key.print);
        let is_there = key.subject.kind == Kind::Smid && subject < PLACES;
        if is_there || subject % 2 == 0 {
            plan.file(&pool, Op::Admit, &full, &request_of(id_sm, &worked("TVP")));
        }
    }
}

/// Bytes of another length are no cabinet, whatever the request is.
fn lengths(plan: &mut Plan, desk: &Desk) {
    let [_, key, _, _, asked] = desk.worked;
    let steps = hold(key, 3);
    for room in [SIZE, SIZE - 1, SIZE + 1, 0, 1, WIDTH, SIZE - WIDTH, SIZE + WIDTH] {
        for request in [desk.bytes(asked), b"x"] {
            plan.file_in(room, &desk.text, Op::Admit, &steps, request);
        }
    }
}

/// A replacement keeps the TVP, a removal drops it, and what is refused leaves it.
fn kept(plan: &mut Plan, desk: &Desk) {
    for (index, &part) in desk.right.iter().enumerate() {
        let place = [63, 0, 5][index % 3];
        let module = &desk.modules[index];
        let [first, later, latest] = module.keys;
        let steps = desk.held(index, place, part);
        for key in [first, later, latest] {
            plan.file(&desk.text, Op::PutKey, &steps, desk.bytes(key));
        }
        plan.file(&desk.text, Op::RemoveKey, &steps, desk.bytes(module.identity));
        let removed = [&steps[..], &[Step::Call(Op::RemoveKey, module.identity)]].concat();
        plan.file(&desk.text, Op::PutKey, &removed, desk.bytes(first));
        let replaced = [later, latest].map(|key| Step::Call(Op::PutKey, key));
        let replaced = [&steps[..], &replaced].concat();
        for time in [2, 3, 7, 11] {
            plan.file(&desk.text, Op::Admit, &replaced, desk.request(index, time));
        }
        // Another place with another TVP.
        let beside = [&steps[..], &desk.held(index + 1, 40, desk.right[(index + 1) % 9])].concat();
        plan.file(&desk.text, Op::Admit, &beside, desk.request(index, 9));
        plan.file(&desk.text, Op::Admit, &beside, desk.request(index + 1, 9));
    }
}

/// One bit of a TVP is another.
fn flipped(plan: &mut Plan, desk: &Desk) {
    let [_, key, _, named, asked] = desk.worked;
    for (bit, &other) in desk.bits.iter().enumerate() {
        let place = plan.random.below(PLACES);
        let steps = [&hold(key, place)[..], &[tvp(other, place)]].concat();
        let calls = [(Op::CheckCabinet, NOTHING), (Op::Admit, asked), (Op::KeyPlace, named)];
        let (op, part) = calls[bit % 3];
        plan.file(&desk.text, op, &steps, desk.bytes(part));
    }
}

/// Every byte value in each place of the TVP of a module's key, an old one among them.
fn every_byte(plan: &mut Plan) {
    let [signed, old] = ["PUBKEY_SM", UNSIGNED].map(worked);
    // Of 99991231T115959Z.
    let number = 252_676_411_199i64.to_be_bytes();
    for (key, tvp) in [
        (&signed, &START),
        (&signed, b"20200229T195959Z"),
        (&signed, b"99991231T235959Z"),
        (&old, b"20200229T195959Z"),
    ] {
        let place = [&key[..], &vec![0; TVP_AT - key.len()], &tvp[..], &number].concat();
        for byte in TVP_AT..NUMBER_AT {
            plan.every_byte(Op::CheckCabinet, [0, 63, 31][byte % 3], &place, byte);
        }
    }
}

/// Modules and their twins are put, replaced and removed, and their requests come: the next one, one again, an earlier
/// one, and what is none. One in so many of the other changes is a removal.
fn drawn(random: &mut Random, desk: &Desk, removal: usize) -> Vec<Step> {
    let mut last = [2; MODULES];
    // Few modules have more requests each.
    let count = [3, 6, MODULES][random.below(3)];
    let first = desk.modules[..count].iter().map(|module| Step::Call(Op::PutKey, module.keys[0]));
    let mut steps: Vec<Step> = first.skip(1).collect();
    steps.extend((0..STEPS).map(|_| {
        let who = random.below(count);
        drawn_step(random, desk, &mut last[who], &desk.modules[who], removal)
    }));
    steps
}

fn drawn_step(
    random: &mut Random,
    desk: &Desk,
    last: &mut usize,
    module: &Module,
    removal: usize,
) -> Step {
    match random.below(32) {
        0 => Step::Call(Op::CheckCabinet, NOTHING),
        1 => Step::Call(Op::CountKeys, NOTHING),
        2 => Step::Call(Op::KeyPlace, module.identity),
        3 => Step::Call(Op::FindKey, module.identity),
        4 => Step::Call(Op::Admit, random.one_of(&desk.no_requests)),
        5 => Step::Call(Op::PutKey, random.one_of(&desk.twins)),
        6 => Step::Call(Op::PutKey, desk.later_twin),
        7 if random.once_in(32) => Step::Call(Op::MakeCabinet, NOTHING),
        7..=14 => {
            *last = (*last + 1).min(TVPS.len() - 1);
            Step::Call(Op::Admit, module.requests[*last])
        }
        15..=19 => Step::Call(Op::Admit, module.requests[*last]),
        20..=22 => Step::Call(Op::Admit, module.requests[random.below(*last + 1)]),
        23 => Step::Call(Op::Admit, random.one_of(&module.requests)),
        _ if random.once_in(removal) => {
            *last = 2;
            Step::Call(Op::RemoveKey, module.identity)
        }
        _ => Step::Call(Op::PutKey, random.one_of(&module.keys)),
    }
}
