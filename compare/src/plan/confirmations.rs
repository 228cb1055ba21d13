//! Request E5: the confirmation tags of a load request and of the response to it.

use super::fingerprints::{change, change_last};
use super::long::{Block, Part, MORE};
use super::Plan;
use crate::calls::Op;
use compare::agreement::{centre_text, module_text, shared_info, text_of, TextCall};
use compare::confirm::{Keys, KEY_LENGTH, Z_LENGTH};
use compare::hmac::{hmac, tag, TAG_LENGTH};
use compare::kind::Kind;
use compare::record::{read_identity, LONGEST_READ};
use compare::sample::{self, Exchange, Fault, Signed};
use compare::sha384::sha384;
use compare::text::{base16, MAC_DIGITS};
use compare::worked::{worked, IDENTITIES, RECORDS};

/// Room for a key, and some more.
const AMPLE: u64 = 32;

pub fn add(plan: &mut Plan) {
    worked_exchange(plan);
    drawn_exchanges(plan);
    z_lengths(plan);
    changed_zs(plan);
    changed_tags(plan);
    small_letters(plan);
    mistaken_tags(plan);
    changed_parts(plan);
    changed_request_parts(plan);
    other_exchanges(plan);
    mistyped(plan);
    ignored_tags(plan);
    refused_requests(plan);
    refused_responses(plan);
    later_faults(plan);
    other_kinds(plan);
    few_bytes(plan);
    longest(plan);
    long(plan);
}

impl Plan {
    /// The confirmation of a request, into outputs of these lengths.
    fn confirm_into(&mut self, rooms: [u64; 2], z: &[u8], request: &[u8]) {
        let [mac_key, kek] = rooms;
        let kek = kek.to_be_bytes().to_vec();
        self.case(Op::ConfirmRequest, mac_key, z.to_vec(), request.to_vec(), kek);
    }

    fn confirm_request(&mut self, z: &[u8], request: &[u8]) {
        self.confirm_into([AMPLE; 2], z, request);
    }

    fn confirm_response(&mut self, z: &[u8], request: &[u8], response: &[u8]) {
        self.case(Op::ConfirmResponse, 0, z.to_vec(), request.to_vec(), response.to_vec());
    }

    /// Both calls with an exchange, under any Z.
    fn exchange(&mut self, z: &[u8], exchange: &Exchange) {
        self.confirm_request(z, &exchange.request());
        self.confirm_response(z, &exchange.request(), &exchange.response());
    }

    /// Both calls with other tags, each where all else is right.
    fn other_tags(&mut self, right: &Exchange, [module_tag, centre_tag]: [Vec<u8>; 2]) {
        let other = Exchange { module_tag, centre_tag, ..right.clone() };
        self.confirm_request(&right.z, &other.request());
        self.confirm_response(&right.z, &right.request(), &other.response());
    }
}

/// The exchange of document 003, with its keys into every sort of room. With a wrong tag the room is
/// asked for first, and nothing is written.
fn worked_exchange(plan: &mut Plan) {
    const NEEDED: u64 = KEY_LENGTH as u64;
    let right = Exchange::worked();
    let mut wrong = right.clone();
    change_last(&mut wrong.module_tag);
    for (exchange, rooms) in [
        (&right, &[0, NEEDED - 1, NEEDED, NEEDED + 1, 2 * NEEDED][..]),
        (&wrong, &[NEEDED - 1, NEEDED]),
    ] {
        for &mac_key in rooms {
            for &kek in rooms {
                plan.confirm_into([mac_key, kek], &right.z, &exchange.request());
            }
        }
    }
    for rooms in [[1024, 1024], [1024, 24], [24, 1024], [1024, 23], [23, 1024]] {
        plan.confirm_into(rooms, &right.z, &right.request());
    }
    plan.confirm_response(&right.z, &right.request(), &right.response());
    plan.confirm_response(&right.z, &right.request(), &worked("APPA_VKLOADRESP"));
}

/// Permitted exchanges of every length: each under its own Z, and under that of the one before.
fn drawn_exchanges(plan: &mut Plan) {
    let mut last = Exchange::worked();
    for round in 0..10 {
        let exchange = if round % 4 == 0 {
            let fields = sample::short_fields(&mut plan.random, Kind::VkloadReq, Signed::No);
            Exchange::of(plan.random.bytes(Z_LENGTH), fields)
        } else {
            Exchange::any(&mut plan.random)
        };
        let rooms = [(); 2].map(|()| plan.random.between(KEY_LENGTH, 2 * KEY_LENGTH) as u64);
        plan.confirm_into(rooms, &exchange.z, &exchange.request());
        plan.confirm_response(&exchange.z, &exchange.request(), &exchange.response());
        plan.exchange(&last.z, &exchange);
        plan.confirm_response(&exchange.z, &exchange.request(), &last.response());
        last = exchange;
    }
}

/// A Z that is shorter or longer: with the tags of the right one, and with those that would be right if
/// its length were.
fn z_lengths(plan: &mut Plan) {
    let right = Exchange::worked();
    let twice = right.z.repeat(2);
    for length in [0, 1, 48, Z_LENGTH - 1, Z_LENGTH + 1, 128, 2 * Z_LENGTH] {
        let z = twice[..length].to_vec();
        plan.exchange(&z, &right);
        plan.exchange(&z, &Exchange { z: z.clone(), ..right.clone() }.confirmed());
    }
    let between_zeros = [&[0][..], &right.z, &[0]].concat();
    for z in [&between_zeros[1..], &between_zeros[..=Z_LENGTH], &right.z[1..]] {
        plan.exchange(z, &right);
    }
}

/// Bytes of Z changed in one bit, at both ends of its halves and between; its halves exchanged; and the
/// bytes of it all alike.
fn changed_zs(plan: &mut Plan) {
    let right = Exchange::worked();
    let ends = [Z_LENGTH / 2 - 1, Z_LENGTH / 2];
    for place in (0..Z_LENGTH).step_by(5).chain(ends) {
        let mut z = right.z.clone();
        z[place] ^= 1 << (place % 8);
        plan.exchange(&z, &right);
    }
    let mut exchanged = right.z.clone();
    exchanged.rotate_left(Z_LENGTH / 2);
    plan.exchange(&exchanged, &right);
    for byte in [0, 0xFF] {
        let z = vec![byte; Z_LENGTH];
        plan.exchange(&z, &right);
        plan.exchange(&z, &Exchange { z: z.clone(), ..right.clone() }.confirmed());
    }
}

/// Each character of both tags changed, and all of them; and zeros.
fn changed_tags(plan: &mut Plan) {
    let right = Exchange::worked();
    let tags = || [right.module_tag.clone(), right.centre_tag.clone()];
    for place in 0..MAC_DIGITS {
        let mut wrong = tags();
        wrong.iter_mut().for_each(|tag| change(tag, place));
        plan.other_tags(&right, wrong);
    }
    let mut all = tags();
    for tag in &mut all {
        (0..MAC_DIGITS).for_each(|place| change(tag, place));
    }
    plan.other_tags(&right, all);
    plan.other_tags(&right, [(); 2].map(|()| vec![b'0'; MAC_DIGITS]));
}

/// A letter of both tags made small: the first character, a middle one and the last, and all of them.
fn small_letters(plan: &mut Plan) {
    const PLACES: [usize; 3] = [0, MAC_DIGITS / 2, MAC_DIGITS - 1];
    let are_letters = |tag: &[u8]| PLACES.iter().all(|&place| tag[place].is_ascii_uppercase());
    let mut right = Exchange::worked();
    while !are_letters(&right.module_tag) || !are_letters(&right.centre_tag) {
        right.z = plan.random.bytes(Z_LENGTH);
        right = right.confirmed();
    }
    plan.exchange(&right.z, &right);
    let all: Vec<usize> = (0..MAC_DIGITS).collect();
    for places in PLACES.chunks(1).chain([&all[..]]) {
        let small = |tag: &[u8]| {
            let mut tag = tag.to_vec();
            places.iter().for_each(|&place| tag[place].make_ascii_lowercase());
            tag
        };
        let (module_tag, centre_tag) = (small(&right.module_tag), small(&right.centre_tag));
        let refused = Exchange { module_tag: module_tag.clone(), ..right.clone() }.request();
        plan.confirm_response(&right.z, &refused, &right.response());
        plan.other_tags(&right, [module_tag, centre_tag]);
    }
}

/// Tags that a plausible error would take for the right ones, and in each record the tag of the other.
fn mistaken_tags(plan: &mut Plan) {
    let right = Exchange::worked();
    let tags = mistaken(&right, module_text).into_iter().zip(mistaken(&right, centre_text));
    for (module_tag, centre_tag) in tags {
        plan.other_tags(&right, [module_tag, centre_tag]);
    }
    plan.other_tags(&right, [right.centre_tag.clone(), right.module_tag.clone()]);
}

/// From a wrong place of the HMAC, by another function than that, or under a wrong key.
fn mistaken(exchange: &Exchange, call: TextCall) -> Vec<Vec<u8>> {
    let request = exchange.request();
    let Keys { mac_key, kek } = Keys::of(&exchange.z, &request);
    let text = text_of(call, &request);
    let whole = hmac(&mac_key, &text);
    let backwards: Vec<u8> = whole.iter().rev().copied().collect();
    let hash = |parts: &[&[u8]]| sha384(&parts.concat());
    let mut macs = vec![
        whole[TAG_LENGTH..].to_vec(),
        backwards,
        hash(&[&mac_key, &text]).to_vec(),
        hash(&[&text, &mac_key]).to_vec(),
        hmac(&text, &mac_key).to_vec(),
        hmac(&mac_key, &text[1..]).to_vec(),
        hmac(&mac_key, &sha384(&text)).to_vec(),
    ];
    // The second key, both, and a key in characters.
    let other_keys = [kek.to_vec(), [mac_key, kek].concat(), base16(&mac_key).into()];
    let keys = other_keys.into_iter().chain(mistaken_keys(exchange));
    macs.extend(keys.map(|key| tag(&key, &text).to_vec()));
    macs.iter().map(|mac| base16(&mac[..TAG_LENGTH]).into()).collect()
}

/// Keys that are derived otherwise than clause 6.4 says.
fn mistaken_keys(exchange: &Exchange) -> Vec<Vec<u8>> {
    let z = &exchange.z[..];
    let shared_info = &text_of(shared_info, &exchange.request())[..];
    let (first, second) = z.split_at(Z_LENGTH / 2);
    let inputs: [&[&[u8]]; 9] = [
        &[z, &[0, 0, 0, 0], shared_info],
        &[z, &[0, 0, 0, 2], shared_info],
        &[z, &[1, 0, 0, 0], shared_info],
        &[z, shared_info],
        &[z, &[0, 0, 0, 1]],
        &[&[0, 0, 0, 1], z, shared_info],
        &[z, shared_info, &[0, 0, 0, 1]],
        &[second, first, &[0, 0, 0, 1], shared_info],
        &[first, &[0, 0, 0, 1], shared_info],
    ];
    inputs.iter().map(|parts| sha384(&parts.concat())[..KEY_LENGTH].to_vec()).collect()
}

/// Another character in one field of an identity, which is accepted: of a GNT in its last digit, of the
/// others in the last character.
fn change_identity(identity: &mut Vec<u8>, index: usize) {
    let read = read_identity(identity).expect("an accepted identity");
    let mut fields: Vec<Vec<u8>> = read.fields.iter().map(|field| field.to_vec()).collect();
    let last = fields[index].iter().rposition(|&byte| byte != b'Z').expect("a character");
    change(&mut fields[index], last);
    *identity = sample::of_kind(read.kind, &fields);
}

/// Changes to the parts that stand in the request and in the response, to others that are permitted.
const IN_BOTH: [fn(&mut Exchange); 12] = [
    |exchange| change_identity(&mut exchange.id_sm, 0),
    |exchange| change_identity(&mut exchange.id_sm, 1),
    |exchange| change_identity(&mut exchange.id_sm, 2),
    |exchange| change_identity(&mut exchange.id_sm, 3),
    |exchange| change_identity(&mut exchange.id_kmc, 0),
    |exchange| change_identity(&mut exchange.id_kmc, 1),
    |exchange| change_identity(&mut exchange.id_kmc, 2),
    |exchange| change_identity(&mut exchange.id_kmc, 3),
    |exchange| change(&mut exchange.tvp, 0),
    |exchange| change(&mut exchange.tvp, 5),
    |exchange| change(&mut exchange.tvp, 14),
    |exchange| exchange.tvp = b"19930101T000000Z".to_vec(),
];

/// A part that differs, with the tags of the right one, with its own, and with none that is right; the
/// response to a request that differs in one character.
fn changed_parts(plan: &mut Plan) {
    let right = Exchange::worked();
    let other_z = plan.random.bytes(Z_LENGTH);
    for change in IN_BOTH {
        let mut other = right.clone();
        change(&mut other);
        plan.confirm_request(&right.z, &other.request());
        plan.confirm_response(&right.z, &right.request(), &other.response());
        let own = other.confirmed();
        plan.confirm_request(&right.z, &own.request());
        plan.confirm_response(&right.z, &right.request(), &own.response());
        plan.confirm_response(&right.z, &own.request(), &right.response());
        plan.confirm_response(&other_z, &own.request(), &right.response());
    }
}

/// Changes to the parts that stand in the request alone. QE is in both texts, the others in one.
const IN_REQUEST: [fn(&mut Exchange); 8] = [
    |exchange| change(&mut exchange.hwid, 0),
    |exchange| change_last(&mut exchange.hwid),
    |exchange| change(&mut exchange.fwid, 0),
    |exchange| change_last(&mut exchange.fwid),
    |exchange| std::mem::swap(&mut exchange.hwid, &mut exchange.fwid),
    |exchange| change(&mut exchange.qe, 2),
    |exchange| change(&mut exchange.qe, 97),
    |exchange| change_last(&mut exchange.qe),
];

/// A response says nothing of these parts, but its tag may.
fn changed_request_parts(plan: &mut Plan) {
    let right = Exchange::worked();
    for change in IN_REQUEST {
        let mut other = right.clone();
        change(&mut other);
        plan.exchange(&right.z, &other);
        let own = other.confirmed();
        plan.exchange(&right.z, &own);
        plan.confirm_response(&right.z, &right.request(), &own.response());
    }
}

/// What makes a part that number 17 is about that of another exchange.
const OF_ANOTHER: [fn(&mut Exchange, &Exchange); 3] = [
    |exchange, another| exchange.id_kmc.clone_from(&another.id_kmc),
    |exchange, another| exchange.id_sm.clone_from(&another.id_sm),
    |exchange, another| exchange.tvp.clone_from(&another.tvp),
];

/// Two exchanges that are both right, with all choices of those of the three parts that differ: the
/// response to one with the request of the other.
fn other_exchanges(plan: &mut Plan) {
    let right = Exchange::worked();
    let another = Exchange::any(&mut plan.random);
    for choice in 1..1 << OF_ANOTHER.len() {
        let mut other = right.clone();
        for (_, put) in (0..).zip(OF_ANOTHER).filter(|(part, _)| choice >> part & 1 == 1) {
            put(&mut other, &another);
        }
        let other = other.confirmed();
        plan.confirm_response(&right.z, &right.request(), &other.response());
        plan.confirm_response(&right.z, &other.request(), &right.response());
        plan.confirm_response(&another.z, &other.request(), &right.response());
    }
}

/// What support has to tell apart: a request with one wrong character somewhere, which its check shows,
/// and one that was made under another Z.
fn mistyped(plan: &mut Plan) {
    let right = Exchange::worked();
    let other_z = plan.random.bytes(Z_LENGTH);
    let made_under_other = Exchange { z: other_z.clone(), ..right.clone() }.confirmed();
    plan.exchange(&right.z, &made_under_other);
    plan.exchange(&other_z, &made_under_other);
    for z in [&right.z, &other_z] {
        let mut place = Kind::VkloadReq.name().len() + 1;
        for field in right.request_fields() {
            let mut request = right.request();
            change(&mut request, place + field.len() / 2);
            plan.confirm_request(z, &request);
            place += field.len() + 1;
        }
        plan.confirm_response(z, &with_mistyped_tag(right.request()), &right.response());
        plan.confirm_response(z, &right.request(), &with_mistyped_tag(right.response()));
    }
}

/// The record with another last character of its tag, which stands before a mark and the check.
fn with_mistyped_tag(mut record: Vec<u8>) -> Vec<u8> {
    let place = record.len() - 6;
    change(&mut record, place);
    record
}

/// The request's own tag does not count where the response is confirmed.
fn ignored_tags(plan: &mut Plan) {
    let right = Exchange::worked();
    let other = Exchange::any(&mut plan.random);
    let zeros = vec![b'0'; MAC_DIGITS];
    for module_tag in [right.centre_tag.clone(), other.module_tag.clone(), zeros] {
        let request = Exchange { module_tag, ..right.clone() }.request();
        plan.confirm_response(&right.z, &request, &right.response());
        plan.confirm_response(&other.z, &request, &right.response());
        plan.confirm_response(&right.z, &request, &other.response());
    }
}

/// The faults of a record as a whole, which leave its fields as they are.
const WHOLE: [Fault; 5] = [Fault::Long, Fault::Name, Fault::CheckText, Fault::Check, Fault::Count];

/// A request that is refused by itself, alone and with all that would be refused later; and one whose
/// fields are right.
fn refused_requests(plan: &mut Plan) {
    let right = Exchange::worked();
    let short_z = &right.z[1..];
    let kinds = [Kind::VkloadReq, Kind::VkloadResp];
    let [of_request, of_response] = kinds.map(Fault::of);
    for (index, &fault) in of_request.iter().enumerate() {
        let alone = sample::faulty(&mut plan.random, kinds[0], &[fault]);
        plan.confirm_request(&right.z, &alone);
        plan.confirm_response(&right.z, &alone, &right.response());
        let all = sample::faulty(&mut plan.random, kinds[0], &of_request[index..]);
        let response = sample::faulty(&mut plan.random, kinds[1], &[of_response[index]]);
        plan.confirm_into([0, 0], short_z, &all);
        plan.confirm_response(short_z, &all, &response);
    }
    for fault in WHOLE {
        let fields = right.request_fields();
        let request = sample::finished(&mut plan.random, kinds[0], fields, &[fault]);
        plan.confirm_request(&right.z, &request);
        plan.confirm_into([0, AMPLE], &right.z, &request);
        plan.confirm_response(&right.z, &request, &right.response());
        plan.confirm_response(&right.z, &request, b"");
    }
}

/// The same of a response, beside an accepted request.
fn refused_responses(plan: &mut Plan) {
    let right = Exchange::worked();
    let (request, short_z) = (right.request(), &right.z[1..]);
    let kind = Kind::VkloadResp;
    let faults = Fault::of(kind);
    for (index, &fault) in faults.iter().enumerate() {
        let alone = sample::faulty(&mut plan.random, kind, &[fault]);
        plan.confirm_response(&right.z, &request, &alone);
        let all = sample::faulty(&mut plan.random, kind, &faults[index..]);
        plan.confirm_response(short_z, &request, &all);
    }
    for fault in WHOLE {
        let fields = right.response_fields();
        let response = sample::finished(&mut plan.random, kind, fields, &[fault]);
        plan.confirm_response(&right.z, &request, &response);
        plan.confirm_response(short_z, &request, &response);
    }
}

/// The numbers that come after those of the records, each with all that come later: 16, then 10 or 17,
/// then 18.
fn later_faults(plan: &mut Plan) {
    let right = Exchange::worked();
    let drawn = Exchange::any(&mut plan.random);
    let unknown_z = plan.random.bytes(Z_LENGTH);
    let long_z = [&right.z[..], &unknown_z].concat();
    for exchange in [&right, &drawn] {
        let request = exchange.request();
        for z in [&unknown_z[1..], &long_z, &unknown_z] {
            for rooms in [[0, 0], [23, 24], [24, 23], [24, 24]] {
                plan.confirm_into(rooms, z, &request);
            }
            for other in [&right, &drawn] {
                plan.confirm_response(z, &request, &other.response());
            }
        }
    }
}

/// Only a request is a request and only a response a response, whatever their checks; each in the place
/// of the other too.
fn other_kinds(plan: &mut Plan) {
    let right = Exchange::worked();
    let (z, request, response) = (&right.z, &right.request(), &right.response());
    for name in IDENTITIES[..3].iter().chain(&RECORDS[..8]) {
        let record = worked(name);
        if *name != "VKLOADREQ" {
            plan.confirm_request(z, &record);
            plan.confirm_response(z, &record, response);
        }
        if !name.ends_with("VKLOADRESP") {
            plan.confirm_response(z, request, &record);
        }
    }
    plan.confirm_response(z, response, request);
    plan.confirm_response(&z[1..], response, request);
    for fault in [Fault::CheckText, Fault::Check] {
        for kind in [Kind::Smid, Kind::PkEcdh, Kind::VkloadResp] {
            let record = sample::faulty(&mut plan.random, kind, &[fault]);
            plan.confirm_into([0, 0], &z[1..], &record);
            plan.confirm_response(&z[1..], &record, &record);
        }
        let record = sample::faulty(&mut plan.random, Kind::VkloadReq, &[fault]);
        plan.confirm_response(&z[1..], request, &record);
    }
}

fn few_bytes(plan: &mut Plan) {
    let right = Exchange::worked();
    let (z, request, response) = (&right.z, &right.request(), &right.response());
    for bytes in ["", "VKLOAD.REQ.1", "VKLOAD.REQ.1|", "VKLOAD.REQ.1:x", "VKLOAD.REQ.1|0000"] {
        plan.confirm_request(z, bytes.as_bytes());
        plan.confirm_response(z, bytes.as_bytes(), response);
    }
    for bytes in ["", "VKLOAD.RESP.1", "VKLOAD.RESP.1|", "VKLOAD.RESP.1:x", "VKLOAD.RESP.1|0000"] {
        plan.confirm_response(z, request, bytes.as_bytes());
    }
    for body in ["VKLOAD.REQ.1|", "VKLOAD.REQ.1||||||||"] {
        plan.confirm_request(z, &sample::sealed(body.as_bytes()));
    }
    for body in ["VKLOAD.RESP.1|", "VKLOAD.RESP.1|||||"] {
        plan.confirm_response(z, request, &sample::sealed(body.as_bytes()));
    }
    plan.confirm_into([0, 0], b"", b"");
    plan.confirm_response(b"", b"", b"");
}

/// An exchange as long as there can be, and records around the longest that are read.
fn longest(plan: &mut Plan) {
    let fields = sample::longest_fields(&mut plan.random, Kind::VkloadReq);
    let exchange = Exchange::of(plan.random.bytes(Z_LENGTH), fields);
    let z = &exchange.z;
    plan.exchange(z, &exchange);
    plan.exchange(&Exchange::worked().z, &exchange);
    for length in [LONGEST_READ, LONGEST_READ + 1] {
        let request = sample::padded(&mut plan.random, Kind::VkloadReq, 5, length);
        plan.confirm_request(z, &request);
        plan.confirm_response(z, &request, &exchange.response());
        let response = sample::padded(&mut plan.random, Kind::VkloadResp, 3, length);
        plan.confirm_response(z, &exchange.request(), &response);
    }
}

/// More bytes than a number of two bytes can say: of Z, with the tags of its first bytes and of its last
/// ones, of the request, and of the response.
fn long(plan: &mut Plan) {
    let block = Block::new();
    let right = Exchange::worked();
    let long_z = &block.bytes[..MORE + Z_LENGTH];
    for z in [&long_z[..Z_LENGTH], &long_z[MORE..]] {
        let exchange = Exchange { z: z.to_vec(), ..right.clone() }.confirmed();
        plan.exchange(z, &exchange);
        plan.exchange(long_z, &exchange);
    }
    plan.exchange(&long_z[..MORE], &right);
    let longer = block.longer(Part::Request);
    for request in &longer {
        plan.confirm_request(&right.z, request);
        plan.confirm_response(&right.z, request, &right.response());
        plan.confirm_response(&right.z, &right.request(), request);
    }
    // The block ends with the response and a line feed.
    let end = block.bytes.len() - 1;
    let response = &block.bytes[end - right.response().len() - MORE..end];
    plan.confirm_response(&right.z, &right.request(), response);
    plan.confirm_response(long_z, &longer[0], response);
}
