//! Lengths, places and numbers that are right only modulo 65,536, or beyond it.

use super::agreement::fullest_text;
use super::Plan;
use crate::calls::Op;
use compare::kind::Kind;
use compare::record::read;
use compare::sample;
use compare::text::{MAC_DIGITS, PRINT_DIGITS, SIG_DIGITS};
use compare::worked::worked;

/// What a length that is kept in two bytes forgets.
pub(super) const MORE: usize = 1 << 16;

/// What is made longer by [`MORE`]. The later ones stand next to digits: so a text of an alphabet
/// is all of that alphabet, and nothing but its length is wrong.
#[derive(Clone, Copy)]
pub(super) enum Part {
    Request,
    Key,
    WrappedKey,
    Identity,
    Text,
    /// The fields of the wrapped key, one behind the other.
    WrappedFields,
    Timestamp,
    /// The name of an attribute.
    Name,
    Ident,
    /// The fields of the identity, one behind the other.
    Fields,
    Point,
}

/// The parts, [`MORE`] digits, the parts backwards, and a tail: a line feed and an accepted line. All
/// but a few long strings of this group are pieces of it, so that the case file has their bytes once.
pub(super) struct Block {
    parts: [Vec<u8>; 11],
    pub(super) bytes: Vec<u8>,
    tail: usize,
}

impl Block {
    pub(super) fn new() -> Block {
        let parts = [
            worked("VKLOADREQ"),
            worked("PUBKEY_KMC"),
            worked("KEY1_1"),
            worked("ID_SM"),
            worked("MACDATA_SM"),
            fields_of("KEY1_1").concat(),
            worked("TVP"),
            b"ACT".to_vec(),
            b"Prism".to_vec(),
            fields_of("ID_SM").concat(),
            worked("QE"),
        ];
        let tail = [b"\n", &worked("VKLOADRESP")[..], b"\n"].concat();
        let backwards: Vec<u8> = parts.iter().rev().flatten().copied().collect();
        let bytes = [parts.concat(), vec![b'0'; MORE], backwards, tail.clone()].concat();
        Block { parts, bytes, tail: tail.len() }
    }

    fn part(&self, part: Part) -> Vec<u8> {
        self.parts[part as usize].clone()
    }

    /// How many bytes stand on the outer side of a part.
    fn outside(&self, part: Part) -> usize {
        self.parts[..part as usize].iter().map(Vec::len).sum()
    }

    /// The part with so many bytes behind it.
    fn followed(&self, part: Part) -> Vec<u8> {
        let start = self.outside(part);
        self.bytes[start..start + self.part(part).len() + MORE].to_vec()
    }

    /// The part with so many bytes before it.
    fn preceded(&self, part: Part) -> Vec<u8> {
        let end = self.bytes.len() - self.tail - self.outside(part);
        self.bytes[end - self.part(part).len() - MORE..end].to_vec()
    }

    pub(super) fn longer(&self, part: Part) -> [Vec<u8>; 2] {
        [self.followed(part), self.preceded(part)]
    }

    /// The request with so many bytes before it and a line feed, and an accepted line.
    fn file(&self) -> Vec<u8> {
        let line = self.part(Part::Request).len() + MORE;
        self.bytes[self.bytes.len() - self.tail - line..].to_vec()
    }

    /// So many digits.
    fn digits(&self, count: usize) -> Vec<u8> {
        let start = self.parts.concat().len();
        self.bytes[start..start + count].to_vec()
    }
}

/// The fields of a worked record or identity.
fn fields_of(name: &str) -> Vec<Vec<u8>> {
    let bytes = worked(name);
    let read = read(&bytes, &Kind::ALL).expect("worked records are accepted");
    read.fields.iter().map(|field| field.to_vec()).collect()
}

pub fn add(plan: &mut Plan) {
    let block = Block::new();
    // The whole block is written first, and what comes is found in it.
    plan.call(Op::Crc, block.bytes.clone());
    sums(plan, &block);
    types(plan, &block);
    readings(plan, &block);
    wanted(plan, &block);
    items(plan, &block);
    keys(plan, &block);
    files(plan, &block);
    texts(plan, &block);
    buildings(plan, &block);
    rooms(plan);
    attributes(plan, &block);
    wrapped_buildings(plan, &block);
}

fn sums(plan: &mut Plan, block: &Block) {
    for bytes in block.longer(Part::Request).into_iter().chain([block.digits(MORE)]) {
        plan.call(Op::Crc, bytes.clone());
        plan.call(Op::CrcState, bytes);
    }
}

fn types(plan: &mut Plan, block: &Block) {
    for (op, part) in
        [(Op::Ident, Part::Ident), (Op::Timestamp, Part::Timestamp), (Op::Point, Part::Point)]
    {
        for text in block.longer(part) {
            plan.call(op, text);
        }
    }
    for (op, length) in
        [(Op::Sig, SIG_DIGITS), (Op::Mac, MAC_DIGITS), (Op::Print, PRINT_DIGITS), (Op::Ident, 1)]
    {
        plan.call(op, block.digits(MORE + length));
    }
    for (n, length) in [(16, 16 + MORE), (16 + MORE, 16), (16 + MORE, 16 + MORE), (0, MORE)] {
        plan.numbered(Op::Hex, n as u64, block.digits(length));
    }
}

/// Every call that reads a record or an identity.
fn readings(plan: &mut Plan, block: &Block) {
    let of_identities = [Op::Identity, Op::IdentityField, Op::IdentityPlace];
    let of_records = [Op::Record, Op::RecordField, Op::RecordPlace];
    for (ops, parts) in [
        (of_identities, &[Part::Identity][..]),
        (of_records, &[Part::Request, Part::Key, Part::WrappedKey]),
    ] {
        for bytes in parts.iter().flat_map(|&part| block.longer(part)) {
            for op in ops {
                plan.numbered(op, 1, bytes.clone());
            }
        }
    }
}

/// Numbers of fields and items that are right only in their low bytes.
fn wanted(plan: &mut Plan, block: &Block) {
    for (ops, part) in [
        ([Op::IdentityField, Op::IdentityPlace], Part::Identity),
        ([Op::RecordField, Op::RecordPlace], Part::Request),
        ([Op::Item, Op::ItemPlace], Part::Text),
        ([Op::Attribute, Op::AttributePlace], Part::WrappedKey),
    ] {
        for beyond in [1 << 8, 1 << 16, 1 << 32] {
            for op in ops {
                plan.numbered(op, beyond + 1, block.part(part));
            }
        }
    }
}

fn items(plan: &mut Plan, block: &Block) {
    for text in block.longer(Part::Text) {
        for op in [Op::Item, Op::ItemPlace] {
            plan.numbered(op, 1, text.clone());
        }
    }
}

/// The longer one in either place.
fn keys(plan: &mut Plan, block: &Block) {
    let key = block.part(Part::Key);
    for longer in block.longer(Part::Key) {
        for op in [Op::Newer, Op::NewerOf] {
            plan.pair(op, longer.clone(), key.clone());
            plan.pair(op, key.clone(), longer.clone());
        }
    }
}

/// Long lines, a last one among them without a line feed, lines far behind, and many.
fn files(plan: &mut Plan, block: &Block) {
    let file = block.file();
    let ended = block.part(Part::Request).len() + MORE + 1;
    // The fullest text is a part of this line, so that the case file has its bytes once too.
    let text = fullest_text();
    let rest = block.digits(MORE - text.len());
    let beginning = [&block.part(Part::Request)[..], &text, &rest, b"\n"].concat();
    for (file, places) in [
        (&file, &[0, 1, MORE - 1, MORE, MORE + 1, ended - 1, ended, ended + 1, file.len()][..]),
        (&beginning, &[0, MORE, ended]),
        (&block.followed(Part::Request), &[0, MORE]),
        (&vec![b'\n'; MORE + 2], &[0, 1, MORE - 1, MORE, MORE + 1, MORE + 2]),
    ] {
        for &place in places {
            plan.numbered(Op::Line, place as u64, file.clone());
            plan.numbered(Op::StepFrom, place as u64, file.clone());
        }
        plan.call(Op::Reader, file.clone());
        plan.call(Op::Count, file.clone());
    }
}

/// The three texts: of a longer request, and into an output that is short only modulo [`MORE`].
fn texts(plan: &mut Plan, block: &Block) {
    for op in [Op::SharedInfo, Op::ModuleText, Op::CentreText] {
        for request in block.longer(Part::Request) {
            plan.numbered(op, 1024, request);
        }
        for room in [MORE, MORE + 1, MORE + 434] {
            plan.numbered(op, room as u64, block.part(Part::Request));
        }
    }
}

/// Field bytes that are longer than their lengths, lengths that are longer than their fields may
/// be, and both; and a name with more behind it.
fn buildings(plan: &mut Plan, block: &Block) {
    let fields = fields_of("ID_SM");
    let name = Kind::Smid.name();
    let right: Vec<u64> = fields.iter().map(|field| field.len() as u64).collect();
    let more = MORE as u64;
    let longer = |added: [u64; 4]| -> Vec<u64> {
        right.iter().zip(added).map(|(length, added)| length + added).collect()
    };
    for (bytes, added) in [
        (block.followed(Part::Fields), [0; 4]),
        (block.preceded(Part::Fields), [0; 4]),
        (block.followed(Part::Fields), [0, 0, 0, more]),
        (block.preceded(Part::Fields), [more, 0, 0, 0]),
        (block.part(Part::Fields), [0, 0, 0, more]),
        (block.part(Part::Fields), [more / 2, 0, 0, more / 2]),
        (block.part(Part::Fields), [more / 4; 4]),
    ] {
        plan.build_of(1024, name, bytes, &longer(added));
    }
    let long_name = &block.followed(Part::Identity)[..name.len() + MORE];
    plan.build(1024, long_name, &fields);
}

/// An output that is short only modulo [`MORE`], for records of every kind.
fn rooms(plan: &mut Plan) {
    for kind in Kind::ALL {
        let fields = sample::longest_fields(&mut plan.random, kind);
        let needed = sample::of_kind(kind, &fields).len();
        for room in [MORE, MORE + needed - 1, MORE + needed] {
            plan.build(room, kind.name(), &fields);
        }
    }
}

/// The attributes of a longer key, by number and by name, and longer names.
fn attributes(plan: &mut Plan, block: &Block) {
    for longer in block.longer(Part::WrappedKey) {
        for op in [Op::Attribute, Op::AttributePlace] {
            plan.numbered(op, 1, longer.clone());
        }
        for op in [Op::AttributeNamed, Op::AttributeNamedPlace] {
            plan.pair(op, longer.clone(), block.part(Part::Name));
        }
    }
    for longer in block.longer(Part::Name) {
        for op in [Op::AttributeNamed, Op::AttributeNamedPlace] {
            plan.pair(op, block.part(Part::WrappedKey), longer.clone());
        }
    }
}

/// A wrapped key whose fields are longer, or said to be: the nonce, the list, the protected key.
fn wrapped_buildings(plan: &mut Plan, block: &Block) {
    let right: Vec<u64> = fields_of("KEY1_1").iter().map(|field| field.len() as u64).collect();
    let more = MORE as u64;
    let [followed, preceded] = block.longer(Part::WrappedFields);
    let part = block.part(Part::WrappedFields);
    for (bytes, added) in [
        (&followed, [0; 3]),
        (&followed, [0, 0, more]),
        (&followed, [0, more, 0]),
        (&preceded, [more, 0, 0]),
        (&preceded, [0, more, 0]),
        (&part, [0, more, 0]),
        (&part, [more / 2, 0, more / 2]),
    ] {
        let lengths: Vec<u64> =
            right.iter().zip(added).map(|(length, more)| length + more).collect();
        plan.build_of(1024, Kind::WrappedKey.name(), bytes.clone(), &lengths);
    }
}
