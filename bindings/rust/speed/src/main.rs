//! How fast the library is beside plain Rust: `cargo run --release --offline --bin speed`. With `--beside PROGRAM`, this program linked with
//! the archive of the module's build, that build too.
//!
//! First the answers of all sides to every input are compared, damaged ones too; a difference ends the program. Then the sides
//! take turns over the same inputs, and for each the nanoseconds per record or date, per message that is hashed or per call on a cabinet
//! are printed.

mod beside;
mod constants;
mod fast;
mod fast_cabinet;
mod fast_confirm;
mod fast_dates;
mod fast_hash;
mod fast_mail;
mod fast_trailed;
mod inputs;
mod kinds;
mod library;
mod plain;
mod plain_cabinet;
mod plain_confirm;
mod plain_dates;
mod plain_hash;
mod plain_mail;
mod plain_trailed;
mod same;
mod side;

use beside::{serve, Beside, SERVE};
use fast::Fast;
use inputs::{messages_among, Draws, Inputs, Sample, FILED, MESSAGES, TAGGED};
use library::Library;
use obscurlane::{
    KEY_BYTES, LONGEST_MAIL, LONGEST_MODULE_TEXT, LONGEST_PUBKEY, LONGEST_RECORD, TRAILER,
};
use plain::Plain;
use same::same_answers;
use side::{Reads, Side, MOST_FIELDS};
use std::hint::black_box;
use std::time::Instant;
use std::{env, io};

/// How many records a side goes over in a turn.
const TURN: usize = 1_000;
/// How many sets of so many records there are; each is gone over as often as the others.
const SETS: usize = 10;
/// How many turns each side has.
const ROUNDS: usize = 20 * SETS;

// ---- what one turn does

fn reading<S: Side>(inputs: &Inputs) {
    for sample in &inputs.samples {
        black_box(S::read(sample.reads(), black_box(&sample.record))).expect("accepted");
    }
}

fn reading_all_places<S: Side>(inputs: &Inputs) {
    for sample in &inputs.samples {
        black_box(S::read_fields(sample.reads(), black_box(&sample.record))).expect("accepted");
    }
}

fn seven_fields_one_reading<S: Side>(inputs: &Inputs) {
    for request in &inputs.requests {
        black_box(S::read_fields(Reads::Records, black_box(request))).expect("accepted");
    }
}

fn seven_fields_seven_calls<S: Side>(inputs: &Inputs) {
    for request in &inputs.requests {
        for wanted in 1..=MOST_FIELDS {
            black_box(S::record_field(black_box(request), wanted)).expect("a field");
        }
    }
}

fn listing<S: Side>(inputs: &Inputs) {
    let mut place = 0;
    while let Some(line) = S::line_at(black_box(&inputs.file), place) {
        place = black_box(line).next;
    }
}

fn building<S: Side>(inputs: &Inputs) {
    let mut out = [0; LONGEST_PUBKEY];
    for sample in &inputs.samples {
        let Sample { kind, bytes, lens, .. } = black_box(sample);
        black_box(S::build(kind.name().as_bytes(), bytes, lens, &mut out)).expect("built");
        black_box(&out);
    }
}

fn the_three_texts<S: Side>(inputs: &Inputs) {
    let mut out = [0; LONGEST_MODULE_TEXT];
    for request in &inputs.requests {
        for text in [S::shared_info, S::module_text, S::centre_text] {
            black_box(text(black_box(request), &mut out)).expect("a text");
            black_box(&out);
        }
    }
}

fn reading_a_wrapped_key<S: Side>(inputs: &Inputs) {
    for key in &inputs.wrapped_keys {
        black_box(S::read(Reads::Records, black_box(&key.record))).expect("accepted");
    }
}

fn one_attribute_by_name<S: Side>(inputs: &Inputs) {
    for key in &inputs.wrapped_keys {
        let name = black_box(b"SGC");
        black_box(S::attribute_named(black_box(&key.record), name)).expect("an attribute");
    }
}

/// The check alone, which is most of the work in everything else.
fn the_check<S: Side>(inputs: &Inputs) {
    for sample in &inputs.samples {
        black_box(S::crc_of(black_box(&sample.record)));
    }
}

fn hashing<S: Side, const LENGTH: usize>(inputs: &Inputs) {
    for message in inputs.messages(LENGTH) {
        black_box(S::sha384_of(black_box(message)));
    }
}

fn the_hash_of_a_fingerprint<S: Side>(inputs: &Inputs) {
    for printed in &inputs.printed {
        black_box(S::hash_of(black_box(printed.pieces())));
    }
}

fn checking_a_fingerprint<S: Side>(inputs: &Inputs) {
    for printed in &inputs.printed {
        black_box(S::check_fingerprint(black_box(&printed.record))).expect("right");
    }
}

fn tagging<S: Side>(inputs: &Inputs) {
    for (message, agreed) in inputs.messages(TAGGED).zip(&inputs.agreed) {
        black_box(S::hmac_of(black_box(agreed.key()), black_box(message)));
    }
}

fn confirming_a_request<S: Side>(inputs: &Inputs) {
    let (mut mac_key, mut kek) = ([0; KEY_BYTES], [0; KEY_BYTES]);
    for agreed in &inputs.agreed {
        let (z, request) = (black_box(&agreed.z), black_box(&agreed.request));
        black_box(S::confirm_request(z, request, &mut mac_key, &mut kek)).expect("right");
        black_box((&mac_key, &kek));
    }
}

fn confirming_a_response<S: Side>(inputs: &Inputs) {
    for agreed in &inputs.agreed {
        let (z, request) = (black_box(&agreed.z), black_box(&agreed.request));
        black_box(S::confirm_response(z, request, black_box(&agreed.response))).expect("right");
    }
}

fn the_short_hash_of_a_record<S: Side>(inputs: &Inputs) {
    for printed in &inputs.printed {
        black_box(S::sha1_of(black_box(&printed.record)));
    }
}

fn short_hashing<S: Side>(inputs: &Inputs) {
    for message in inputs.messages(MESSAGES[2]) {
        black_box(S::sha1_of(black_box(message)));
    }
}

fn listing_with_trailers<S: Side>(inputs: &Inputs) {
    let mut place = 0;
    while let Some(line) = S::trailed_at(black_box(&inputs.trailed), place) {
        place = black_box(line).next;
    }
}

fn writing_with_a_trailer<S: Side>(inputs: &Inputs) {
    let mut out = [0; LONGEST_PUBKEY + TRAILER];
    for printed in &inputs.printed {
        black_box(S::write_trailed(black_box(&printed.record), &mut out)).expect("written");
        black_box(&out);
    }
}

fn writing_as_mail<S: Side>(inputs: &Inputs) {
    let mut out = [0; LONGEST_MAIL];
    for request in &inputs.requests {
        black_box(S::write_mail(black_box(request), &mut out)).expect("written");
        black_box(&out);
    }
}

fn reading_from_a_letter<S: Side>(inputs: &Inputs) {
    let mut out = [0; LONGEST_RECORD];
    for letter in &inputs.letters {
        black_box(S::read_mail(black_box(letter), &mut out)).expect("found");
        black_box(&out);
    }
}

fn a_date_as_a_number<S: Side>(inputs: &Inputs) {
    for date in &inputs.dates {
        black_box(S::moment_of(black_box(date))).expect("a date");
    }
}

fn expiry_as_a_number<S: Side>(inputs: &Inputs) {
    for printed in &inputs.printed {
        black_box(S::expiry_of(black_box(&printed.record))).expect("a key");
    }
}

fn checking_a_cabinet<S: Side>(inputs: &Inputs) {
    for _ in inputs.filed.taken() {
        black_box(S::check_cabinet(black_box(&inputs.filed.cabinet))).expect("a cabinet");
    }
}

fn finding_a_key<S: Side>(inputs: &Inputs) {
    for kept in inputs.filed.taken() {
        let cabinet = black_box(&inputs.filed.cabinet);
        black_box(S::find_key(cabinet, black_box(&kept.identity))).expect("a key");
    }
}

/// On a copy, because the inputs are gone over again.
fn replacing_a_key<S: Side>(inputs: &Inputs) {
    let mut cabinet = inputs.filed.cabinet.clone();
    for kept in inputs.filed.taken() {
        black_box(S::put_key(black_box(&mut cabinet), black_box(&kept.later))).expect("later");
    }
    black_box(&cabinet);
}

/// Both calls: the place that was given up is the only free one.
fn removing_and_putting<S: Side>(inputs: &Inputs) {
    let mut cabinet = inputs.filed.cabinet.clone();
    for kept in inputs.filed.taken() {
        black_box(S::remove_key(black_box(&mut cabinet), black_box(&kept.identity)))
            .expect("there");
        black_box(S::put_key(black_box(&mut cabinet), black_box(&kept.record))).expect("a place");
    }
    black_box(&cabinet);
}

/// On a copy too, in which each TVP is the first one.
fn admitting_a_request<S: Side>(inputs: &Inputs) {
    let mut cabinet = inputs.filed.cabinet.clone();
    for request in inputs.filed.asking() {
        black_box(S::admit(black_box(&mut cabinet), black_box(request))).expect("later");
    }
    black_box(&cabinet);
}

// ---- the measurement

/// A line of the table: what each side does in a turn, and how often.
struct Row {
    name: &'static str,
    works: [fn(&Inputs); 3],
    times: usize,
}

macro_rules! row {
    ($name:literal, $work:ident) => {
        Row { name: $name, works: [$work::<Library>, $work::<Plain>, $work::<Fast>], times: TURN }
    };
}

macro_rules! filing {
    ($name:literal, $work:ident) => {
        Row { times: FILED, ..row!($name, $work) }
    };
}

macro_rules! hashing {
    ($name:literal, $length:expr) => {
        Row {
            name: $name,
            works: [
                hashing::<Library, { $length }>,
                hashing::<Plain, { $length }>,
                hashing::<Fast, { $length }>,
            ],
            times: messages_among($length, TURN),
        }
    };
}

const ROWS: [Row; 31] = [
    row!("reading", reading),
    row!("reading, all places", reading_all_places),
    row!("seven fields, one reading", seven_fields_one_reading),
    row!("seven fields, seven calls", seven_fields_seven_calls),
    row!("listing", listing),
    row!("building", building),
    row!("the three texts", the_three_texts),
    row!("reading a wrapped key", reading_a_wrapped_key),
    row!("one attribute by name", one_attribute_by_name),
    row!("the check", the_check),
    hashing!("SHA-384, 250 bytes", MESSAGES[0]),
    hashing!("SHA-384, 4 KB", MESSAGES[1]),
    hashing!("SHA-384, 64 KB", MESSAGES[2]),
    row!("the hash of a Fingerprint", the_hash_of_a_fingerprint),
    row!("checking a Fingerprint", checking_a_fingerprint),
    row!("HMAC, 276 bytes", tagging),
    row!("confirming a request", confirming_a_request),
    row!("confirming a response", confirming_a_response),
    row!("SHA-1 of a record", the_short_hash_of_a_record),
    Row { times: messages_among(MESSAGES[2], TURN), ..row!("SHA-1, 64 KB", short_hashing) },
    row!("listing with trailers", listing_with_trailers),
    row!("writing with a trailer", writing_with_a_trailer),
    row!("writing as mail", writing_as_mail),
    row!("reading from a letter", reading_from_a_letter),
    row!("a date as a number", a_date_as_a_number),
    row!("Expiry as a number", expiry_as_a_number),
    filing!("checking a cabinet", checking_a_cabinet),
    filing!("finding a key", finding_a_key),
    filing!("replacing a key", replacing_a_key),
    filing!("removing and putting", removing_and_putting),
    filing!("admitting a request", admitting_a_request),
];

/// Nanoseconds for a turn.
fn time(work: fn(&Inputs), inputs: &Inputs) -> f64 {
    let begin = Instant::now();
    work(inputs);
    begin.elapsed().as_nanos() as f64
}

/// The same behind a turn of plain Rust, which leaves the inputs at hand: in two programs each side finds them alike.
fn warm_time(row: &Row, side: usize, inputs: &Inputs) -> f64 {
    row.works[1](inputs);
    time(row.works[side], inputs)
}

/// The number that so many percent of these lie below.
fn percentile(percent: usize, numbers: impl Iterator<Item = f64>) -> f64 {
    let mut numbers: Vec<f64> = numbers.collect();
    numbers.sort_by(f64::total_cmp);
    numbers[percent * (numbers.len() - 1) / 100]
}

/// What each side took in each round: the library, plain and fast Rust, and the library's other build where there is one.
fn rounds(
    number: usize,
    sets: &[Inputs],
    beside: &mut Option<Beside>,
) -> io::Result<Vec<Vec<f64>>> {
    let row = &ROWS[number];
    let here = row.works.len();
    let sides = here + usize::from(beside.is_some());
    let mut rounds = Vec::new();
    for round in 0..ROUNDS {
        let set = round % sets.len();
        let mut took = vec![0.0; sides];
        // Each round another side is the first.
        for turn in 0..sides {
            let side = (round + turn) % sides;
            let nanoseconds = match beside {
                Some(beside) if side == here => beside.time(number, set)?,
                Some(_) => warm_time(row, side, &sets[set]),
                None => time(row.works[side], &sets[set]),
            };
            took[side] = nanoseconds / row.times as f64;
        }
        rounds.push(took);
    }
    Ok(rounds)
}

/// Prints a line of the table.
fn measure(number: usize, sets: &[Inputs], beside: &mut Option<Beside>) -> io::Result<()> {
    let rounds = rounds(number, sets, beside)?;
    // The first round over each set does not count.
    let counted = &rounds[sets.len()..];
    let of = |percent, side: usize| percentile(percent, counted.iter().map(|took| took[side]));
    let ratio = |over: usize, under: usize| {
        percentile(50, counted.iter().map(|took| took[over] / took[under]))
    };
    print!("{:<26}", ROWS[number].name);
    for side in 0..counted[0].len() {
        print!("{:>8.0} ({:>6.0} ..{:>7.0})", of(50, side), of(10, side), of(90, side));
    }
    print!("{:>8.2}{:>8.2}", ratio(0, 1), ratio(0, 2));
    if beside.is_some() {
        print!("{:>9.2}", ratio(3, 0));
    }
    println!();
    Ok(())
}

/// The bytes of a record on average.
fn average<'a>(records: impl Iterator<Item = &'a Vec<u8>>) -> usize {
    records.map(Vec::len).sum::<usize>() / (SETS * TURN)
}

/// The table, and above it what is measured.
fn table(sets: &[Inputs], beside: &mut Option<Beside>) -> io::Result<()> {
    println!("all sides give the same answers, whole and damaged");
    println!(
        "{} records, {} bytes each on average, as many wrapped keys of {} and public keys of {}; {}",
        SETS * TURN,
        average(sets.iter().flat_map(|inputs| &inputs.samples).map(|sample| &sample.record)),
        average(sets.iter().flat_map(|inputs| &inputs.wrapped_keys).map(|key| &key.record)),
        average(sets.iter().flat_map(|inputs| &inputs.printed).map(|printed| &printed.record)),
        std::env::consts::ARCH
    );
    println!(
        "{ROUNDS} rounds of {TURN} records or dates in turns, of 1 MB to hash, or of {FILED} calls on a full cabinet; ns per record, date, message or call: median (tenth .. ninetieth percentile)"
    );
    println!();
    let [library, plain, fast] = [Library::NAME, Plain::NAME, Fast::NAME];
    print!("{:<26}{library:>8}{:>19}{plain:>8}{:>19}{fast:>8}{:>19}", "", "", "", "");
    if beside.is_some() {
        print!("{:>8}{:>19}", "module", "");
    }
    print!("{:>8}{:>8}", format!("/{plain}"), format!("/{fast}"));
    if beside.is_some() {
        print!("{:>9}", "module/");
    }
    println!();
    (0..ROWS.len()).try_for_each(|number| measure(number, sets, beside))
}

fn main() -> io::Result<()> {
    let words: Vec<String> = env::args().skip(1).collect();
    let words: Vec<&str> = words.iter().map(String::as_str).collect();
    let mut draws = Draws::with_seeds([2026, 2029, 2031, 2033, 2035, 2037, 2039]);
    let sets: Vec<Inputs> = (0..SETS).map(|_| Inputs::new(&mut draws, TURN)).collect();
    for inputs in &sets {
        same_answers::<Library, Plain>(inputs);
        same_answers::<Library, Fast>(inputs);
    }
    match words[..] {
        [] => table(&sets, &mut None),
        ["--beside", program] => {
            let mut beside = Some(Beside::start(program)?);
            table(&sets, &mut beside)?;
            beside.map_or(Ok(()), Beside::end)
        }
        [SERVE] => serve(&sets, |row, inputs| warm_time(&ROWS[row], 0, inputs)),
        _ => Err(io::Error::other("usage: speed [--beside PROGRAM]")),
    }
}

#[cfg(test)]
mod tests {
    use super::*;

    #[test]
    fn all_sides_give_the_same_answers() {
        let inputs =
            Inputs::new(&mut Draws::with_seeds([2028, 2030, 2032, 2034, 2036, 2038, 2040]), 3_000);
        same_answers::<Library, Plain>(&inputs);
        same_answers::<Library, Fast>(&inputs);
    }
}
