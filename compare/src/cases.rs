//! One case: its call, what it is given, and the forms of the lines that answer it.
//!
//! A case makes its call once, or for every byte value in one place of its text.

use crate::calls::Op;
use compare::confirm::Refused;
use compare::crc::crc16;
use compare::file::{Line, Step};
use compare::kind::{Kind, MOST_FIELDS, NONE};
use compare::newer::Choice;
use compare::record::Record;
use compare::refusal::Refusal;

/// How often a case makes its call.
#[derive(Clone, Copy, Debug, PartialEq, Eq)]
pub enum Form {
    Once,
    /// For every byte value, with the text that has it between a and b, and ends with those four
    /// bytes of c that are its own: the check that it makes right. A text without a check has no c.
    EveryByte,
}

/// One call with what it is given; what a call does not take is 0 or empty.
#[derive(Clone, Debug, PartialEq, Eq)]
pub struct Case {
    pub op: Op,
    pub form: Form,
    pub n: u64,
    pub a: Vec<u8>,
    pub b: Vec<u8>,
    pub c: Vec<u8>,
}

/// What answers a case, without the line feed behind it: a line, or several where a block of a record by
/// mail stands in it.
pub struct Answer {
    pub line: Vec<u8>,
    /// The numbers in it.
    pub numbers: Vec<u64>,
    /// The number given back, where the call gives one.
    pub number: Option<u8>,
}

impl Answer {
    /// The answer, and seconds behind it, with their sign. As a number they are what seven bytes say, two's
    /// complement, so that 100 more is a number of eight too.
    fn with_seconds(mut self, seconds: i64) -> Answer {
        self.line.extend(format!(" {seconds}").into_bytes());
        self.numbers.push(seconds.rem_euclid(1 << 56) as u64);
        self
    }

    /// An answer in one number: its only one, or 100 times the first and the second.
    fn brief(&self) -> u64 {
        match self.numbers[..] {
            [number] => number,
            [first, second, ..] => 100 * first + second,
            [] => unreachable!("every answer has a number"),
        }
    }
}

impl Case {
    /// What the answer's line begins with.
    pub fn label(&self) -> String {
        let call = self.op.call();
        match self.form {
            Form::Once => call.label.to_owned(),
            Form::EveryByte => format!("{} of every byte", call.name()),
        }
    }

    /// The number of the call in the case file; 64 more where it is made for every byte value.
    pub fn number(&self) -> u8 {
        match self.form {
            Form::Once => self.op.number(),
            Form::EveryByte => 64 + self.op.number(),
        }
    }

    /// Makes the call.
    pub fn answer(&self) -> Answer {
        match self.form {
            Form::Once => (self.op.call().answer)(self),
            Form::EveryByte => self.every_byte(),
        }
    }

    /// The answers for every byte value: each value whose answer is not that of the value before
    /// it, and that answer, in one number.
    fn every_byte(&self) -> Answer {
        let mut numbers = Vec::new();
        let mut last = None;
        for byte in 0..=255 {
            let said = self.with(byte).answer_alone().brief();
            if last != Some(said) {
                numbers.extend([byte.into(), said]);
            }
            last = Some(said);
        }
        self.values(&numbers)
    }

    /// The answer for one byte value: a cabinet has the text in its place n.
    fn answer_alone(&self) -> Answer {
        match self.op {
            Op::CheckCabinet => self.filed_place(),
            _ => self.answer(),
        }
    }

    /// The case of one byte value.
    fn with(&self, byte: u8) -> Case {
        let check = self.c.chunks(4).nth(byte.into()).unwrap_or_default();
        let a = [&self.a[..], &[byte], &self.b, check].concat();
        Case { op: self.op, form: Form::Once, n: self.n, a, b: Vec::new(), c: Vec::new() }
    }

    /// The numbers that stand in c, eight bytes each.
    pub fn numbers(&self) -> Vec<u64> {
        let chunks = self.c.chunks(8);
        chunks.map(|chunk| u64::from_be_bytes(chunk.try_into().expect("8 bytes each"))).collect()
    }

    /// The call's label, a text if it has one, and numbers.
    pub fn said(&self, text: &[u8], numbers: &[u64], number: Option<u8>) -> Answer {
        let written: String = numbers.iter().map(|number| format!(" {number}")).collect();
        let line = [self.label().as_bytes(), text, written.as_bytes()].concat();
        Answer { line, numbers: numbers.to_vec(), number }
    }

    /// The answer of a call that gives no number of document 01's.
    pub fn values(&self, values: &[u64]) -> Answer {
        self.said(b"", values, None)
    }

    pub fn flag(&self, flag: bool) -> Answer {
        self.values(&[flag.into()])
    }

    /// The answer of a call that counts: lines, and accepted lines.
    pub fn totals(&self, (lines, accepted): (usize, usize)) -> Answer {
        self.values(&[lines as u64, accepted as u64])
    }

    /// A number, the field's number, and what comes with them.
    fn outcome<T>(&self, text: &[u8], answer: Result<T, Refusal>, more: &[u64]) -> Answer {
        let (number, field) =
            answer.map_or_else(|refusal| (refusal.number(), refusal.field()), |_| (0, 0));
        let numbers = [&[number.into(), field.into()], more].concat();
        self.said(text, &numbers, Some(number))
    }

    /// The answer of a call that only says whether it refuses.
    pub fn verdict(&self, answer: Result<(), Refusal>) -> Answer {
        self.outcome(b"", answer, &[])
    }

    /// The answer of a reading call: the kind; of all fields the starts, the lengths, and the kinds of
    /// the identities among them.
    pub fn read(&self, read: Result<Record, Refusal>) -> Answer {
        let fields = read.as_ref().map_or(&[][..], |record| &record.fields);
        let all = |of: &dyn Fn(&&[u8]) -> u64, none: u64| {
            let mut numbers: Vec<u64> = fields.iter().map(of).collect();
            numbers.resize(MOST_FIELDS, none);
            numbers
        };
        let inner = |index: usize| read.as_ref().ok().and_then(|record| record.inner(index));
        let kinds: Vec<u64> = (0..MOST_FIELDS).map(|index| row(inner(index))).collect();
        let kind = row(read.as_ref().ok().map(|record| record.kind));
        let starts = all(&|field| self.start_of(field), 0);
        let lengths = all(&|field| field.len() as u64, 0);
        let numbers = [vec![kind], starts, lengths, kinds].concat();
        self.outcome(b"", read.map(|_| ()), &numbers)
    }

    /// Where a part of a begins.
    fn start_of(&self, part: &[u8]) -> u64 {
        (part.as_ptr() as usize - self.a.as_ptr() as usize) as u64
    }

    /// The answer of a call that hands back a part: its length and its check.
    pub fn part(&self, part: Result<&[u8], Refusal>) -> Answer {
        self.outcome(b"", part, &digest(part.unwrap_or_default()))
    }

    /// The same, and first the part itself.
    pub fn text(&self, part: Result<&[u8], Refusal>) -> Answer {
        let text = part.unwrap_or_default();
        self.outcome(text, part, &digest(text))
    }

    /// The answer of a call that says where a part of a stands: its start and its length.
    pub fn place(&self, part: Result<&[u8], Refusal>) -> Answer {
        let start = part.map_or(0, |part| self.start_of(part));
        self.outcome(b"", part, &[start, part.unwrap_or_default().len() as u64])
    }

    /// The answer of the choice: which is the newer, 1 or 2; with a refusal which is refused, 0 for both.
    pub fn choice(&self, choice: Choice) -> Answer {
        self.outcome(b"", choice.answer, &[choice.which])
    }

    /// The answer of the date call: whether the text is a TIMESTAMP, and its seconds, 0 with any other.
    pub fn moment(&self, moment: Option<i64>) -> Answer {
        self.flag(moment.is_some()).with_seconds(moment.unwrap_or(0))
    }

    /// The answer of the call for Expiry: its seconds, 0 with a refusal.
    pub fn expiry(&self, expiry: Result<i64, Refusal>) -> Answer {
        self.outcome(b"", expiry, &[]).with_seconds(expiry.unwrap_or(0))
    }

    /// The answer of a call that writes from the start of an output: the length, and the check of the
    /// whole output.
    pub fn output(&self, call: impl FnOnce(&mut [u8]) -> Result<usize, Refusal>) -> Answer {
        let (written, output) = self.lent(call);
        self.wrote(b"", written, &output)
    }

    /// The same, and first what was written.
    pub fn built(&self, call: impl FnOnce(&mut [u8]) -> Result<usize, Refusal>) -> Answer {
        let (written, output) = self.lent(call);
        self.wrote(&output[..written.unwrap_or(0)], written, &output)
    }

    /// Lends an output of n bytes, [`LONGEST_OUTPUT`] at the most.
    fn lent(
        &self,
        call: impl FnOnce(&mut [u8]) -> Result<usize, Refusal>,
    ) -> (Result<usize, Refusal>, Vec<u8>) {
        let mut output = lendable(self.n, LONGEST_OUTPUT);
        (call(&mut output), output)
    }

    /// The answer of a call that says whether a tag is right: which record is refused, 1 or 2, and 0
    /// with all that is not about one record by itself.
    pub fn confirmed(&self, answer: Result<(), Refused>) -> Answer {
        self.with_which(answer, &[])
    }

    /// The same, and the checks of the whole outputs, where the call writes to two: one of n bytes, and
    /// one of as many as c says.
    pub fn keys(&self, call: impl FnOnce(&mut [u8], &mut [u8]) -> Result<(), Refused>) -> Answer {
        let rooms = [self.n, self.numbers()[0]];
        let [mut first, mut second] = rooms.map(|room| lendable(room, LONGEST_KEY_OUTPUT));
        let answer = call(&mut first, &mut second);
        self.with_which(answer, &[first, second].map(|output| crc16(&output).into()))
    }

    fn with_which(&self, answer: Result<(), Refused>, more: &[u64]) -> Answer {
        let which = answer.map_or_else(|refused| refused.which, |()| 0);
        let answer = answer.map_err(|refused| refused.refusal);
        self.outcome(b"", answer, &[&[which], more].concat())
    }

    fn wrote(&self, text: &[u8], written: Result<usize, Refusal>, output: &[u8]) -> Answer {
        self.outcome(text, written, &[written.unwrap_or(0) as u64, crc16(output).into()])
    }

    /// The answer for a line of a file: the kind, start, length and next place; a place alone where the
    /// file is finished.
    pub fn line(&self, step: Step) -> Answer {
        match step {
            Step::Finished { place } => self.values(&[place]),
            Step::Read(Line { answer, start, length, next }) => {
                self.outcome(b"", answer, &[row(answer.ok()), start, length, next])
            }
        }
    }
}

/// The number of a kind, or of none.
fn row(kind: Option<Kind>) -> u64 {
    kind.map_or(NONE, |kind| kind as u64)
}

/// Bytes by their length and their check.
pub fn digest(bytes: &[u8]) -> [u64; 2] {
    [bytes.len() as u64, crc16(bytes).into()]
}

/// An output of so many bytes as it is before the call.
fn lendable(room: u64, longest: usize) -> Vec<u8> {
    let room = room as usize;
    assert!(room <= longest, "an output of {room} bytes");
    let mut output = lent_before().to_vec();
    output.resize(room, 0);
    output
}

/// The longest output that `crates/cases` lends.
pub const LONGEST_OUTPUT: usize = 66_560;

/// The longest that it lends for a key.
const LONGEST_KEY_OUTPUT: usize = 1024;

/// What a lent output holds before the call, as far as it goes: 7 i + 3 modulo 256 at place i. Behind
/// it there are zeros.
pub fn lent_before() -> [u8; 1024] {
    std::array::from_fn(|place| (7 * place + 3) as u8)
}

#[cfg(test)]
mod tests {
    use super::*;
    use crate::steps::{Part, Step};
    use compare::sha1::sha1;
    use compare::sha384::sha384;
    use compare::text::{base16_decode, check_text};
    use compare::worked::worked;

    fn line(op: Op, n: u64, parts: [&[u8]; 3]) -> String {
        let [a, b, c] = parts.map(<[u8]>::to_vec);
        let case = Case { op, form: Form::Once, n, a, b, c };
        String::from_utf8(case.answer().line).unwrap()
    }

    #[test]
    fn calls_are_numbered_from_1() {
        assert_eq!(Op::Ident.number(), 1);
        assert_eq!(Op::Build.number(), 27);
        assert_eq!(Op::Build.call().name(), "build");
        assert_eq!(Op::Attribute.number(), 28);
        assert_eq!(Op::AttributeNamedPlace.number(), 31);
        assert_eq!(Op::Sha384.number(), 32);
        assert_eq!(Op::Sha384State.number(), 33);
        assert_eq!(Op::CheckFingerprint.number(), 34);
        assert_eq!(Op::WriteFingerprint.number(), 35);
        assert_eq!(Op::Hmac.number(), 36);
        assert_eq!(Op::ConfirmRequest.number(), 37);
        assert_eq!(Op::ConfirmResponse.number(), 38);
        assert_eq!(Op::Sha1.number(), 39);
        assert_eq!(Op::Sha1State.number(), 40);
        assert_eq!(Op::Trailed.number(), 41);
        assert_eq!(Op::TrailedLine.number(), 42);
        assert_eq!(Op::CountTrailed.number(), 43);
        assert_eq!(Op::WriteTrailed.number(), 44);
        assert_eq!(Op::WriteMail.number(), 45);
        assert_eq!(Op::ReadMail.number(), 46);
        assert_eq!(Op::MakeCabinet.number(), 47);
        assert_eq!(Op::CheckCabinet.number(), 48);
        assert_eq!(Op::CountKeys.number(), 49);
        assert_eq!(Op::PutKey.number(), 50);
        assert_eq!(Op::RemoveKey.number(), 51);
        assert_eq!(Op::KeyPlace.number(), 52);
        assert_eq!(Op::FindKey.number(), 53);
        assert_eq!(Op::Filing.number(), 54);
        assert_eq!(Op::MomentOf.number(), 55);
        assert_eq!(Op::ExpiryOf.number(), 56);
        assert_eq!(Op::Admit.number(), 57);
    }

    #[test]
    fn lines_have_their_forms() {
        let no: &[u8] = &[];
        assert_eq!(line(Op::Ident, 0, [b"A", no, no]), "is_ident 1");
        assert_eq!(line(Op::Crc, 0, [no; 3]), "crc_of 65535");
        assert_eq!(line(Op::RecordField, 1, [b"PK.ECDH.1", no, no]), "record_field  2 0 0 65535");
        let item = format!("text_item 0 0 2 {}", crc16(&[0xAB, 1]));
        assert_eq!(line(Op::Item, 2, [&[2, 0, 2, 0xAB, 1], no, no]), item);
        assert_eq!(line(Op::ItemPlace, 2, [&[2, 0, 2, 0xAB, 1], no, no]), "item_place 0 0 3 2");
        assert_eq!(line(Op::Line, 9, [b"abc", no, no]), "line_at 9");
        assert_eq!(line(Op::Line, 1, [b"abc\n", no, no]), "line_at 2 0 255 1 2 4");
        assert_eq!(line(Op::Reader, 1, [b"\nab", no, no]), "Reader::new,step 2 0 255 0 0 1");
        assert_eq!(line(Op::Count, 0, [b"\n\nx", no, no]), "count 3 0");
        assert_eq!(line(Op::Newer, 0, [b"x", b"y", no]), "newer 2 0 0 65535");
        assert_eq!(line(Op::NewerOf, 0, [b"x", b"y", no]), "newer_of 2 0 1");
        assert_eq!(line(Op::SharedInfo, 0, [b"x", no, no]), "shared_info 2 0 0 65535");
        assert_eq!(line(Op::Build, 0, [b"x", no, no]), "build  2 0 0 65535");
    }

    #[test]
    fn an_attribute_stands_before_its_numbers() {
        let key = worked("KEY1_1");
        let no: &[u8] = &[];
        let card = format!("KEN255 0 0 6 {}", crc16(b"KEN255"));
        assert_eq!(line(Op::Attribute, 4, [&key, no, no]), format!("attribute {card}"));
        let named = line(Op::AttributeNamed, 0, [&key, b"KEN", no]);
        assert_eq!(named, format!("attribute_named {card}"));
        let start = 6 + 24 + 1 + 20 + 20 + 6;
        let place = format!("0 0 {start} 6");
        assert_eq!(line(Op::AttributePlace, 4, [&key, no, no]), format!("attribute_place {place}"));
        let named = line(Op::AttributeNamedPlace, 0, [&key, b"KEN", no]);
        assert_eq!(named, format!("attribute_named_place {place}"));
        assert_eq!(line(Op::Attribute, 8, [&key, no, no]), "attribute  12 0 0 65535");
        let absent = line(Op::AttributeNamedPlace, 0, [&key, b"KE", no]);
        assert_eq!(absent, "attribute_named_place 12 0 0 0");
    }

    #[test]
    fn a_hash_is_the_numbers_of_its_bytes() {
        let no: &[u8] = &[];
        let hash: String = sha384(b"abc").iter().map(|byte| format!(" {byte}")).collect();
        assert!(hash.starts_with(" 203 0 117 63 ") && hash.ends_with(" 37 167"));
        assert_eq!(line(Op::Sha384, 0, [b"abc", no, no]), format!("sha384_of{hash}"));
        for n in 0..5 {
            let by_state = line(Op::Sha384State, n, [b"abc", no, no]);
            assert_eq!(by_state, format!("Sha384::begin,add,end{hash}"));
        }
    }

    #[test]
    fn a_shorter_hash_has_fewer_numbers() {
        let no: &[u8] = &[];
        let hash: String = sha1(b"abc").iter().map(|byte| format!(" {byte}")).collect();
        assert!(hash.starts_with(" 169 153 62 54 ") && hash.ends_with(" 216 157"));
        assert_eq!(line(Op::Sha1, 0, [b"abc", no, no]), format!("sha1_of{hash}"));
        for n in 0..5 {
            let by_state = line(Op::Sha1State, n, [b"abc", no, no]);
            assert_eq!(by_state, format!("Sha1::begin,add,end{hash}"));
        }
    }

    #[test]
    fn a_fingerprint_is_checked_or_written() {
        let no: &[u8] = &[];
        let key = worked("PUBKEY_KMC");
        assert_eq!(line(Op::CheckFingerprint, 0, [&key, no, no]), "check_fingerprint 0 0");
        assert_eq!(line(Op::CheckFingerprint, 0, [b"x", no, no]), "check_fingerprint 2 0");
        let written = format!("write_fingerprint 0 0 16 {}", crc16(b"4712CFF444570C8A"));
        assert_eq!(line(Op::WriteFingerprint, 16, [&key, no, no]), written);
        let short = format!("write_fingerprint 10 0 0 {}", crc16(&lent_before()[..15]));
        assert_eq!(line(Op::WriteFingerprint, 15, [&key, no, no]), short);
    }

    #[test]
    fn an_hmac_is_the_numbers_of_its_first_24_bytes() {
        let no: &[u8] = &[];
        let tag = worked("MACTAG_SM");
        let tag: String = base16_decode(&tag).unwrap().iter().map(|b| format!(" {b}")).collect();
        assert!(tag.starts_with(" 190 108 180 ") && tag.ends_with(" 87 120"));
        let said = line(Op::Hmac, 0, [&worked("MACKEY"), &worked("MACDATA_SM"), no]);
        assert_eq!(said, format!("hmac_of{tag}"));
    }

    #[test]
    fn a_confirmation_names_the_record_and_the_checks_of_both_outputs() {
        let room = |length: u64| length.to_be_bytes();
        let (z, request) = (worked("Z"), worked("VKLOADREQ"));
        let untouched = |length: usize| crc16(&lent_before()[..length]);
        let [mac_key, kek] = ["MACKEY", "KEK"]
            .map(|name| crc16(&[&worked(name)[..], &lent_before()[24..26]].concat()));
        let right = line(Op::ConfirmRequest, 26, [&z, &request, &room(26)]);
        assert_eq!(right, format!("confirm_request 0 0 0 {mac_key} {kek}"));
        let short = line(Op::ConfirmRequest, 24, [&z, &request, &room(23)]);
        let checks = format!("{} {}", untouched(24), untouched(23));
        assert_eq!(short, format!("confirm_request 10 0 0 {checks}"));
        let refused = line(Op::ConfirmRequest, 0, [&z, b"x", &room(1024)]);
        assert_eq!(refused, format!("confirm_request 2 0 1 65535 {}", untouched(1024)));

        let response = worked("VKLOADRESP");
        let said = |parts| line(Op::ConfirmResponse, 0, parts);
        assert_eq!(said([&z, &request, &response]), "confirm_response 0 0 0");
        assert_eq!(said([&z, b"x", &response]), "confirm_response 2 0 1");
        assert_eq!(said([&z, &request, b"x"]), "confirm_response 2 0 2");
        assert_eq!(said([b"x", &request, &response]), "confirm_response 16 0 0");
    }

    #[test]
    fn a_reading_names_the_places_of_all_fields() {
        let no: &[u8] = &[];
        let refused = line(Op::Record, 0, [b"PK.ECDH.1|x", no, no]);
        let nothing = format!("{}{}", " 0".repeat(14), " 255".repeat(7));
        assert_eq!(refused, format!("read_record 3 0 255{nothing}"));

        let identity = b"KMCID.1:A:B:20180101T000000Z:0123456789ABCDEF:";
        let identity = [&identity[..], check_text(crc16(identity)).as_bytes()].concat();
        let read = line(Op::Identity, 0, [&identity, no, no]);
        let nothing = " 255".repeat(7);
        assert_eq!(read, format!("read_identity 0 0 2 8 10 12 29 0 0 0 1 1 16 16 0 0 0{nothing}"));

        let point = [&b"04"[..], &[b'0'; 192]].concat();
        let parts = [&b"PK.ECDH.1|"[..], &identity, b"|", &point, b"|20180101T000000Z|||"].concat();
        let key = [&parts[..], check_text(crc16(&parts)).as_bytes()].concat();
        let (q, expiry) = (11 + identity.len(), 12 + identity.len() + point.len());
        let starts = format!("10 {q} {expiry} {} {} 0 0", expiry + 17, expiry + 18);
        let kinds = format!("2{}", " 255".repeat(6));
        let expected =
            format!("read_record 0 0 4 {starts} {} 194 16 0 0 0 0 {kinds}", identity.len());
        assert_eq!(line(Op::Record, 0, [&key, no, no]), expected);
    }

    /// Each answer has the form of the one for a line without a trailer.
    #[test]
    fn a_line_with_its_trailer_is_read_like_its_record() {
        let no: &[u8] = &[];
        let (record, trailed) = (worked("PUBKEY_SM"), worked("PUBKEY_SM_FILELINE"));
        let read = line(Op::Record, 0, [&record, no, no]).replace("read_record", "read_trailed");
        assert!(read.starts_with("read_trailed 0 0 4 10 "));
        assert_eq!(line(Op::Trailed, 0, [&trailed, no, no]), read);
        let nothing = format!("{}{}", " 0".repeat(14), " 255".repeat(7));
        let refused = line(Op::Trailed, 0, [&record, no, no]);
        assert_eq!(refused, format!("read_trailed 19 0 255{nothing}"));

        let file = [&trailed[..], b"\n", &record, b"\n"].concat();
        let at = |place| line(Op::TrailedLine, place, [&file, no, no]);
        assert_eq!(at(0), "trailed_at 0 0 4 0 576 577");
        assert_eq!(at(577), "trailed_at 19 0 255 577 535 1113");
        assert_eq!(at(1113), "trailed_at 1113");
        assert_eq!(line(Op::CountTrailed, 0, [&file, no, no]), "count_trailed 2 1");
    }

    #[test]
    fn a_line_that_was_written_stands_before_its_numbers() {
        let no: &[u8] = &[];
        let (record, trailed) = (worked("PUBKEY_SM"), worked("PUBKEY_SM_FILELINE"));
        let text = String::from_utf8(trailed.clone()).unwrap();
        let whole = [&trailed[..], &lent_before()[576..578]].concat();
        let written = format!("write_trailed {text} 0 0 576 {}", crc16(&whole));
        assert_eq!(line(Op::WriteTrailed, 578, [&record, no, no]), written);
        let short = format!("write_trailed  10 0 0 {}", crc16(&lent_before()[..575]));
        assert_eq!(line(Op::WriteTrailed, 575, [&record, no, no]), short);
        assert_eq!(line(Op::WriteTrailed, 0, [&trailed, no, no]), "write_trailed  3 0 0 65535");
    }

    /// The block stands there as it is, and the numbers behind its last line feed.
    #[test]
    fn a_block_goes_over_several_lines() {
        let no: &[u8] = &[];
        let (record, block) = (worked("VKLOADREQ"), worked("MAIL_VKLOADREQ"));
        let text = String::from_utf8(block.clone()).unwrap();
        let whole = [&block[..], &lent_before()[495..500]].concat();
        let written = format!("write_mail {text} 0 0 495 {}", crc16(&whole));
        assert_eq!(line(Op::WriteMail, 500, [&record, no, no]), written);
        assert_eq!(written.lines().count(), 1 + 7 + 1 + 1);
        let short = format!("write_mail  10 0 0 {}", crc16(&lent_before()[..494]));
        assert_eq!(line(Op::WriteMail, 494, [&record, no, no]), short);
    }

    #[test]
    fn a_record_that_was_read_from_mail_stands_before_its_numbers() {
        let no: &[u8] = &[];
        let (record, block) = (worked("VKLOADREQ"), worked("MAIL_VKLOADREQ"));
        let text = String::from_utf8(record.clone()).unwrap();
        let read = format!("read_mail {text} 0 0 434 {}", crc16(&record));
        assert_eq!(line(Op::ReadMail, 434, [&block, no, no]), read);
        let short = format!("read_mail  10 0 0 {}", crc16(&lent_before()[..433]));
        assert_eq!(line(Op::ReadMail, 433, [&block, no, no]), short);
        assert_eq!(line(Op::ReadMail, 0, [&record, no, no]), "read_mail  21 0 0 65535");
        assert_eq!(line(Op::ReadMail, 0, [&block[..494], no, no]), "read_mail  10 0 0 65535");
        assert_eq!(line(Op::ReadMail, 0, [&block[..493], no, no]), "read_mail  22 0 0 65535");
    }

    /// The number of the centre's key, which expires at 20210110T120000Z: 884,433,600.
    const NUMBER: [u8; 8] = [0, 0, 0, 0, 0x34, 0xB7, 0x62, 0xC0];

    /// The place that holds the centre's key.
    fn place_of(key: &[u8]) -> Vec<u8> {
        [key, &vec![0; 1000 - key.len()], b"19930101T000000Z", &NUMBER].concat()
    }

    /// The check is that of all lent bytes; the steps stand in c and take their parts from a.
    #[test]
    fn a_cabinet_is_made_by_steps() {
        let (key, identity) = (worked("PUBKEY_KMC"), worked("ID_KMC"));
        let whole = Part { start: 0, end: key.len() };
        let image = [place_of(&key), vec![0; 63 * 1024]].concat();
        let (length, empty, with_key) = (key.len(), crc16(&[0; 65_536]), crc16(&image));
        let put = Step::Call(Op::PutKey, whole).bytes();
        let no: &[u8] = &[];
        for (op, n, parts, said) in [
            (Op::MakeCabinet, 65_536, [&key, no, &put], format!("make_cabinet 0 0 {empty}")),
            (Op::MakeCabinet, 2, [no; 3], format!("make_cabinet 23 0 {}", crc16(&[0; 2]))),
            (Op::CheckCabinet, 0, [no; 3], "check_cabinet 23 0 65535".to_owned()),
            (Op::CountKeys, 65_536, [&key, no, &put], format!("count_keys 0 1 {with_key}")),
            (Op::PutKey, 65_536, [no, &key, no], format!("put_key 0 0 {with_key}")),
            (Op::PutKey, 65_536, [&key, &key, &put], format!("put_key 24 0 {with_key}")),
            (Op::RemoveKey, 65_536, [&key, &identity, &put], format!("remove_key 0 0 {empty}")),
            (Op::RemoveKey, 65_536, [no, &identity, no], format!("remove_key 26 0 {empty}")),
        ] {
            assert_eq!(line(op, n, parts), said);
        }
        let text = [&key[..], b"19930101T000000Z", &NUMBER].concat();
        let behind = Part { start: length, end: text.len() };
        let write =
            [(whole, 63 * 1024), (behind, 65_512)].map(|(part, at)| Step::Write(part, at).bytes());
        let image = [vec![0; 63 * 1024], place_of(&key)].concat();
        let check = crc16(&image);
        let place = line(Op::KeyPlace, 65_536, [&text, &identity, &write.concat()]);
        assert_eq!(place, format!("key_place 0 0 64512 {length} {check}"));
        let found = line(Op::FindKey, 65_536, [&text, &identity, &write.concat()]);
        assert_eq!(found, format!("find_key 0 0 {length} {} {check}", crc16(&key)));
    }

    /// The TVP that is stored is all that changes.
    #[test]
    fn an_admission_has_its_line() {
        let (key, request) = (worked("PUBKEY_SM"), worked("VKLOADREQ"));
        let put = Step::Call(Op::PutKey, Part { start: 0, end: key.len() }).bytes();
        // Of 99991231T115959Z: 252,676,411,199.
        let number = [0, 0, 0, 0x3A, 0xD4, 0xB0, 0x0F, 0x3F];
        let with = |tvp: &[u8]| {
            let place = [&key[..], &vec![0; 1000 - key.len()], tvp, &number].concat();
            crc16(&[place, vec![0; 63 * 1024]].concat())
        };
        let [before, after] = [&b"19930101T000000Z"[..], &worked("TVP")].map(with);
        assert_eq!(line(Op::PutKey, 65_536, [b"", &key, b""]), format!("put_key 0 0 {before}"));
        let admitted = line(Op::Admit, 65_536, [&key, &request, &put]);
        assert_eq!(admitted, format!("admit 0 0 {after}"));
        let text = [&key[..], &request].concat();
        let again = Step::Call(Op::Admit, Part { start: key.len(), end: text.len() }).bytes();
        let again = line(Op::Admit, 65_536, [&text, &request, &[put, again].concat()]);
        assert_eq!(again, format!("admit 27 0 {after}"));
        let nobody = line(Op::Admit, 65_536, [b"", &request, b""]);
        assert_eq!(nobody, format!("admit 26 0 {}", crc16(&[0; 65_536])));
        assert_eq!(line(Op::Admit, 0, [b"", &request, b""]), "admit 23 0 65535");
    }

    /// The answers of all steps, and the check behind four of them and at the end.
    #[test]
    fn a_history_has_the_answer_of_each_step() {
        let (key, identity) = (worked("PUBKEY_KMC"), worked("ID_KMC"));
        let text = [&key[..], &identity].concat();
        let record = Part { start: 0, end: key.len() };
        let named = Part { start: key.len(), end: text.len() };
        let nothing = Part { start: 0, end: 0 };
        let steps = [
            Step::Call(Op::PutKey, record),
            Step::Call(Op::PutKey, record),
            Step::Call(Op::KeyPlace, named),
            Step::Call(Op::CountKeys, nothing),
            Step::Call(Op::RemoveKey, named),
            Step::Call(Op::FindKey, named),
        ];
        let steps = steps.map(Step::bytes).concat();
        let said = line(Op::Filing, 0, [&text, b"", &steps]);
        let image = [place_of(&key), vec![0; 63 * 1024]].concat();
        let [with_key, empty] = [&image[..], &[0; 65_536]].map(crc16);
        let numbers = format!("0 0 24 0 0 0 0 {} 0 1 {with_key}", key.len());
        let label = Op::Filing.call().name();
        assert_eq!(said, format!("{label} {numbers} 0 0 26 0 0 65535 {empty}"));
    }

    #[test]
    fn seconds_have_their_sign() {
        let no: &[u8] = &[];
        let moment = |text: &[u8]| line(Op::MomentOf, 0, [text, no, no]);
        assert_eq!(moment(b"19930101T000000Z"), "moment_of 1 0");
        assert_eq!(moment(b"19921231T235959Z"), "moment_of 1 -1");
        assert_eq!(moment(b"00010101T000000Z"), "moment_of 1 -62861443200");
        assert_eq!(moment(b"99991231T235959Z"), "moment_of 1 252676454399");
        assert_eq!(moment(b"19930100T000000Z"), "moment_of 0 0");
        let expiry = |record: &[u8]| line(Op::ExpiryOf, 0, [record, no, no]);
        assert_eq!(expiry(&worked("PUBKEY_KMC")), "expiry_of 0 0 884433600");
        assert_eq!(expiry(&worked("PUBKEY_SM")), "expiry_of 0 0 252676411199");
        assert_eq!(expiry(&worked("VKLOADREQ")), "expiry_of 2 0 0");
    }

    #[test]
    fn a_built_record_stands_before_its_numbers() {
        let fields = b"AB20180101T000000Z0123456789ABCDEF";
        let lengths: Vec<u8> = [1u64, 1, 16, 16].into_iter().flat_map(u64::to_be_bytes).collect();
        let built = line(Op::Build, 49, [b"SMID.1", fields, &lengths]);
        let identity = built.split(' ').nth(1).unwrap();
        assert!(identity.starts_with("SMID.1:A:B:20180101T000000Z:0123456789ABCDEF:"));
        assert_eq!(built, format!("build {identity} 0 0 49 {}", crc16(identity.as_bytes())));
    }

    fn line_of_every_byte(op: Op, parts: [&[u8]; 3]) -> String {
        let [a, b, c] = parts.map(<[u8]>::to_vec);
        let case = Case { op, form: Form::EveryByte, n: 2, a, b, c };
        String::from_utf8(case.answer().line).unwrap()
    }

    #[test]
    fn an_answer_for_every_byte_names_those_that_differ_from_the_one_before() {
        let no: &[u8] = &[];
        let hex = line_of_every_byte(Op::Hex, [b"0", no, no]);
        assert_eq!(hex, "is_hex of every byte 0 0 48 1 58 0 65 1 71 0");
        let checks: Vec<u8> = (0..=255)
            .flat_map(|byte| {
                check_text(crc16(&[b"SMID.1:", &[byte, b':'][..]].concat())).into_bytes()
            })
            .collect();
        let identity = line_of_every_byte(Op::Identity, [b"SMID.1:", b":", &checks]);
        assert_eq!(identity, "read_identity of every byte 0 500");
    }

    /// 100 more than the seconds, which are 2 to the 56th more where they are negative.
    #[test]
    fn a_moment_of_every_byte_has_its_seconds() {
        let days = line_of_every_byte(Op::MomentOf, [b"1993010", b"T000000Z", &[]]);
        let from = |day: u64| format!("{} {}", 48 + day, 100 + (day - 1) * 86_400);
        let numbers: Vec<String> = (1..10).map(from).collect();
        assert_eq!(days, format!("moment_of of every byte 0 0 {} 58 0", numbers.join(" ")));
        let digits = line_of_every_byte(Op::MomentOf, [b"1992123", b"T235959Z", &[]]);
        let below = (1u64 << 56) + 100;
        let numbers = format!("48 {} 49 {} 50 0", below - 86_401, below - 1);
        assert_eq!(digits, format!("moment_of of every byte 0 0 {numbers}"));
    }

    #[test]
    fn the_lent_output_begins_3_10_17() {
        assert_eq!(lent_before()[..4], [3, 10, 17, 24]);
        assert_eq!(lent_before()[37], 6);
    }
}
