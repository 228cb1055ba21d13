//! The library, through its crate.

use crate::side::{Fields, Line, NamedRefusal, Pieces, Reads, Refusal, Side, MOST_FIELDS};
use obscurlane::{ConfirmRefusal, Record, Sha384};

pub struct Library;

fn refusal(refusal: obscurlane::Refusal) -> Refusal {
    (refusal.reason.number(), refusal.field.unwrap_or(0))
}

fn named(refused: ConfirmRefusal) -> NamedRefusal {
    match refused {
        ConfirmRefusal::Request(of) => (1, refusal(of)),
        ConfirmRefusal::Response(of) => (2, refusal(of)),
        other => (0, (other.reason().number(), 0)),
    }
}

fn read(reads: Reads, bytes: &[u8]) -> Result<Record<'_>, Refusal> {
    let read = match reads {
        Reads::Identities => Record::read_identity(bytes),
        Reads::Records => Record::read(bytes),
    };
    read.map_err(refusal)
}

fn line(line: obscurlane::Line<'_>) -> Line {
    let answer = line.answer.map(|kind| kind as usize).map_err(refusal);
    Line { start: line.start, len: line.bytes.len(), next: line.next, answer }
}

impl Side for Library {
    const NAME: &'static str = "library";

    fn crc_of(bytes: &[u8]) -> u16 {
        obscurlane::crc_of(bytes)
    }

    fn read(reads: Reads, bytes: &[u8]) -> Result<usize, Refusal> {
        read(reads, bytes).map(|record| record.kind() as usize)
    }

    fn read_fields(reads: Reads, bytes: &[u8]) -> Result<(usize, Fields<'_>), Refusal> {
        let record = read(reads, bytes)?;
        let mut fields: Fields<'_> = [&[]; MOST_FIELDS];
        for (place, field) in fields.iter_mut().zip(&record) {
            *place = field.bytes;
        }
        Ok((record.kind() as usize, fields))
    }

    fn record_field(record: &[u8], wanted: usize) -> Result<&[u8], Refusal> {
        obscurlane::record_field(record, wanted).map_err(refusal)
    }

    fn attribute_named<'a>(record: &'a [u8], name: &[u8]) -> Result<&'a [u8], Refusal> {
        obscurlane::attribute_named(record, name).map_err(refusal)
    }

    fn line_at(file: &[u8], place: usize) -> Option<Line> {
        obscurlane::line_at(file, place).map(line)
    }

    fn build(name: &[u8], bytes: &[u8], lens: &[usize], out: &mut [u8]) -> Result<usize, Refusal> {
        obscurlane::build(name, bytes, lens, out).map_err(refusal)
    }

    fn shared_info(request: &[u8], out: &mut [u8]) -> Result<usize, Refusal> {
        obscurlane::shared_info(request, out).map_err(refusal)
    }

    fn module_text(request: &[u8], out: &mut [u8]) -> Result<usize, Refusal> {
        obscurlane::module_text(request, out).map_err(refusal)
    }

    fn centre_text(request: &[u8], out: &mut [u8]) -> Result<usize, Refusal> {
        obscurlane::centre_text(request, out).map_err(refusal)
    }

    fn sha384_of(bytes: &[u8]) -> [u8; 48] {
        obscurlane::sha384_of(bytes)
    }

    fn hash_of(pieces: Pieces<'_>) -> [u8; 48] {
        pieces.iter().fold(Sha384::begin(), |state, piece| state.add(piece)).end()
    }

    fn check_fingerprint(record: &[u8]) -> Result<(), Refusal> {
        obscurlane::check_fingerprint(record).map_err(refusal)
    }

    fn hmac_of(key: &[u8], text: &[u8]) -> [u8; 24] {
        obscurlane::hmac_of(key, text)
    }

    fn confirm_request(
        z: &[u8],
        request: &[u8],
        mac_key: &mut [u8],
        kek: &mut [u8],
    ) -> Result<(), NamedRefusal> {
        obscurlane::confirm_request(z, request, mac_key, kek).map_err(named)
    }

    fn confirm_response(z: &[u8], request: &[u8], response: &[u8]) -> Result<(), NamedRefusal> {
        obscurlane::confirm_response(z, request, response).map_err(named)
    }

    fn sha1_of(bytes: &[u8]) -> [u8; 20] {
        obscurlane::sha1_of(bytes)
    }

    fn trailed_at(file: &[u8], place: usize) -> Option<Line> {
        obscurlane::trailed_at(file, place).map(line)
    }

    fn write_trailed(record: &[u8], out: &mut [u8]) -> Result<usize, Refusal> {
        obscurlane::write_trailed(record, out).map_err(refusal)
    }

    fn write_mail(record: &[u8], out: &mut [u8]) -> Result<usize, Refusal> {
        obscurlane::write_mail(record, out).map_err(refusal)
    }

    fn read_mail(text: &[u8], out: &mut [u8]) -> Result<usize, Refusal> {
        obscurlane::read_mail(text, out).map_err(refusal)
    }

    fn moment_of(text: &[u8]) -> Option<i64> {
        obscurlane::moment_of(text)
    }

    fn expiry_of(record: &[u8]) -> Result<i64, Refusal> {
        obscurlane::expiry_of(record).map_err(refusal)
    }

    fn check_cabinet(cabinet: &[u8]) -> Result<(), Refusal> {
        obscurlane::check_cabinet(cabinet).map_err(refusal)
    }

    fn put_key(cabinet: &mut [u8], record: &[u8]) -> Result<(), Refusal> {
        obscurlane::put_key(cabinet, record).map_err(refusal)
    }

    fn remove_key(cabinet: &mut [u8], identity: &[u8]) -> Result<(), Refusal> {
        obscurlane::remove_key(cabinet, identity).map_err(refusal)
    }

    fn admit(cabinet: &mut [u8], request: &[u8]) -> Result<(), Refusal> {
        obscurlane::admit(cabinet, request).map_err(refusal)
    }

    fn find_key<'a>(cabinet: &'a [u8], identity: &[u8]) -> Result<&'a [u8], Refusal> {
        obscurlane::find_key(cabinet, identity).map_err(refusal)
    }
}
