//! The C interface is declared, in the header and in `sys`, as the signatures and structs of the crates ask for; the header's
//! numbers are those of the crates, and the crate's names and words those of the header.

use obscurlane::{Kind, Reason};
use std::collections::{BTreeMap, BTreeSet};
use std::fs;
use std::path::{Path, PathBuf};

/// The structs that are handed over: as `crates/exports_c` names them, and in C, those of `exports` by their names alone. `sys` has them by the words of the latter behind the
/// first.
const STRUCTS: [(&str, &str); 20] = [
    ("reading::Answer", "obscurlane_answer"),
    ("fields::Place", "obscurlane_place"),
    ("put::Written", "obscurlane_written"),
    ("items::Place", "obscurlane_item"),
    ("Found", "obscurlane_line"),
    ("files::Totals", "obscurlane_totals"),
    ("newer::Choice", "obscurlane_choice"),
    ("fingerprint::Checked", "obscurlane_checked"),
    ("Digest", "obscurlane_digest"),
    ("sha384::Words", "obscurlane_sha384_words"),
    ("sha384::Sha384", "obscurlane_sha384_state"),
    ("Tag", "obscurlane_tag"),
    ("confirm::Confirmed", "obscurlane_confirmed"),
    ("Sha1Digest", "obscurlane_sha1_digest"),
    ("sha_1::Words", "obscurlane_sha1_words"),
    ("sha_1::Sha1", "obscurlane_sha1_state"),
    ("cabinet::Filed", "obscurlane_filed"),
    ("cabinet::Counted", "obscurlane_counted"),
    ("text::Moment", "obscurlane_moment"),
    ("expiry::Expiry", "obscurlane_expiry"),
];

// ---- the files

fn in_root(path: &str) -> PathBuf {
    Path::new(env!("CARGO_MANIFEST_DIR")).join("../..").join(path)
}

fn read(path: &str) -> String {
    let path = in_root(path);
    fs::read_to_string(&path).unwrap_or_else(|error| panic!("{}: {error}", path.display()))
}

/// All files of a folder that have this extension, one after another in the order of their names.
fn read_all(folder: &str, extension: &str) -> String {
    let entries = fs::read_dir(in_root(folder)).expect("a folder");
    let mut paths: Vec<PathBuf> = entries.map(|entry| entry.expect("an entry").path()).collect();
    paths.retain(|path| path.extension().is_some_and(|of| of == extension));
    paths.sort();
    paths.iter().map(|path| fs::read_to_string(path).expect("a file of text")).collect()
}

/// The text without comments at the ends of lines, and with single spaces.
fn flat(text: &str) -> String {
    let lines = text.lines().map(|line| line.split("//").next().unwrap_or_default());
    let words: Vec<&str> = lines.flat_map(str::split_whitespace).collect();
    words.join(" ").replace("( ", "(").replace(", )", ")").replace(" )", ")").replace(", }", " }")
}

/// The text of a C file without its comments and directives.
fn without_comments(text: &str) -> String {
    let pieces = text.split("/*").map(|piece| piece.split_once("*/").map_or(piece, |cut| cut.1));
    let code: String = pieces.collect();
    let lines = code.lines().filter(|line| !line.starts_with('#'));
    lines.flat_map(|line| [line, "\n"]).collect()
}

/// The names and numbers in a text.
fn words(text: &str) -> impl Iterator<Item = &str> {
    text.split(|c: char| c != '_' && !c.is_ascii_alphanumeric())
}

// ---- what the crates have

/// A name and its type.
type Typed = (String, String);

/// A function of the interface, by its signature in `crates/exports_c`.
struct Function {
    name: String,
    parameters: Vec<Typed>,
    answer: String,
}

fn functions() -> Vec<Function> {
    let source = flat(&read_all("crates/exports_c/src", "rt"));
    source.split("pub extern \"C\" fn ").skip(1).map(function).collect()
}

fn function(signature: &str) -> Function {
    let signature = signature.split(" ensures").next().unwrap_or_default();
    let (name, rest) = signature.split_once('(').expect("parameters");
    let (parameters, answer) = rest.split_once(')').expect("the end of the parameters");
    let answer = without_module(answer.strip_prefix(" -> ").expect("every function answers"));
    Function { name: name.to_owned(), parameters: typed(parameters), answer: answer.to_owned() }
}

/// A struct of `exports` by its name alone, whichever module of it has the struct.
fn without_module(of_type: &str) -> &str {
    let of_exports = of_type.strip_prefix("exports::").and_then(|rest| rest.split_once("::"));
    of_exports.map_or(of_type, |(_, name)| name)
}

/// The names and types of parameters, or of a struct's fields.
fn typed(list: &str) -> Vec<Typed> {
    let entries = list.split(", ").filter(|entry| !entry.is_empty());
    let typed = entries.map(|entry| {
        let (name, of_type) = entry.split_once(": ").expect("a type");
        (name.trim_start_matches("pub ").to_owned(), of_type.to_owned())
    });
    typed.collect()
}

/// The structs of C's layout in a source of Rattle or Rust, which write them alike.
fn structs(source: &str) -> BTreeMap<String, Vec<Typed>> {
    let source = flat(source);
    let source = source.replace("#[derive(Clone, Copy)] ", "");
    let found = source.split("#[repr(C)] pub struct ").skip(1).map(|rest| {
        let (name, rest) = rest.split_once(" { ").expect("fields");
        let (fields, _) = rest.split_once(" }").expect("the end of the fields");
        (name.to_owned(), typed(fields))
    });
    found.collect()
}

/// The fields of a struct, in the crate that has it. One that is a struct of the same crate stands there without its path.
fn fields_of(path: &str) -> Vec<Typed> {
    let (crate_name, name) = path.split_once("::").unwrap_or(("exports", path));
    let mut there = structs(&read_all(&format!("crates/{crate_name}/src"), "rt"));
    let fields = there.remove(name);
    let fields = fields.unwrap_or_else(|| panic!("{path} is no struct of C's layout"));
    let with_path = fields.into_iter().map(|(field, of_type)| match there.get(&of_type) {
        Some(_) => (field, format!("{crate_name}::{of_type}")),
        None => (field, of_type),
    });
    with_path.collect()
}

/// The crates that the archive is made of: `exports_c`, those that it needs, and that these need.
fn linked_crates() -> BTreeSet<String> {
    let list = read("crates.txt");
    let needed_by = |name: &str| {
        let line = list.lines().find_map(|line| {
            let rest = line.strip_prefix(name)?;
            rest.strip_prefix(" staticlib").unwrap_or(rest).strip_prefix(':')
        });
        line.unwrap_or_default().split_whitespace()
    };
    let (mut found, mut open) = (BTreeSet::new(), vec!["exports_c"]);
    while let Some(name) = open.pop() {
        if found.insert(name.to_owned()) {
            open.extend(needed_by(name).filter(|name| in_root("crates").join(name).is_dir()));
        }
    }
    found
}

/// The names and values of a crate's constants that are numbers.
fn constants(crate_name: &str) -> Vec<(String, usize)> {
    let source = flat(&read_all(&format!("crates/{crate_name}/src"), "rt"));
    let constants = source.split("const ").skip(1).filter_map(|rest| {
        let (name, rest) = rest.split_once(": ")?;
        let (_, value) = rest.split_once(';')?.0.split_once(" = ")?;
        Some((name.to_owned(), value.parse().ok()?))
    });
    constants.collect()
}

/// What the crates set a name of the header to, which is the name of a constant in one of them or in several; a kind's is one of
/// the table's, and a cabinet's length one of that crate's.
fn in_the_crates(name: &str) -> BTreeSet<usize> {
    let groups = [("KIND_", "table"), ("CABINET_", "cabinet")];
    let of_one = groups.iter().find_map(|(group, of)| Some((*of, name.strip_prefix(group)?)));
    let (crates, name) = match of_one {
        Some((of, rest)) => (BTreeSet::from([of.to_owned()]), rest),
        None => (linked_crates(), name),
    };
    let all = crates.iter().flat_map(|crate_name| constants(crate_name));
    all.filter(|(constant, _)| constant == name).map(|(_, set)| set).collect()
}

// ---- how C and Rust write it

/// How a parameter is handed over, with the type of what it is or points to.
enum Form<'a> {
    /// A number, or a struct.
    Value(&'a str),
    /// A pointer to one number, to write.
    Lent(&'a str),
    /// A pointer and a length, to read.
    Slice(&'a str),
    /// A pointer and a length, to write.
    Output(&'a str),
}

fn form(of_type: &str) -> Form<'_> {
    let part = |rest: &'_ str| rest.trim_end_matches(']').len();
    if let Some(rest) = of_type.strip_prefix("&[") {
        return Form::Slice(&rest[..part(rest)]);
    }
    if let Some(rest) = of_type.strip_prefix("&mut [") {
        return Form::Output(&rest[..part(rest)]);
    }
    of_type.strip_prefix("&mut ").map_or(Form::Value(of_type), Form::Lent)
}

fn in_c(of_type: &str) -> &str {
    let number = match of_type {
        "u8" => Some("uint8_t"),
        "u16" => Some("uint16_t"),
        "u32" => Some("uint32_t"),
        "u64" => Some("uint64_t"),
        "i64" => Some("int64_t"),
        "usize" => Some("size_t"),
        "bool" => Some("bool"),
        _ => None,
    };
    let in_struct = || STRUCTS.iter().find(|(path, _)| *path == of_type).map(|(_, name)| *name);
    number.or_else(in_struct).unwrap_or_else(|| panic!("no type of C for {of_type}"))
}

/// The name of a type in `sys`: `Answer` for `obscurlane_answer`, and a number's own.
fn in_sys(of_type: &str) -> String {
    match in_c(of_type).strip_prefix("obscurlane_") {
        Some(name) => in_rust(name),
        None => of_type.to_owned(),
    }
}

/// A name of C as a name of Rust: `WrongText` for `WRONG_TEXT`.
fn in_rust(name: &str) -> String {
    let words = name.split('_').map(|word| {
        let (first, rest) = word.split_at(1);
        first.to_uppercase() + &rest.to_lowercase()
    });
    words.collect()
}

fn c_declaration(function: &Function) -> String {
    let parameters: Vec<String> = function.parameters.iter().map(c_parameter).collect();
    let parameters = if parameters.is_empty() { "void".to_owned() } else { parameters.join(", ") };
    format!("{} {}({parameters})", in_c(&function.answer), function.name)
}

fn c_parameter((name, of_type): &Typed) -> String {
    match form(of_type) {
        Form::Value(part) => format!("{} {name}", in_c(part)),
        Form::Lent(part) => format!("{} *{name}", in_c(part)),
        Form::Slice(part) => format!("const {} *{name}, size_t {name}_len", in_c(part)),
        Form::Output(part) => format!("{} *{name}, size_t {name}_len", in_c(part)),
    }
}

/// What an array has, and how many of it.
fn array(of_type: &str) -> Option<(&str, &str)> {
    of_type.strip_prefix('[')?.strip_suffix(']')?.split_once("; ")
}

/// A field of a struct in C; an array's length stands behind the name.
fn c_field((name, of_type): &Typed) -> String {
    match array(of_type) {
        Some((part, length)) => format!("{} {name}[{length}];", in_c(part)),
        None => format!("{} {name};", in_c(of_type)),
    }
}

/// A field of a struct in `sys`.
fn sys_field((name, of_type): Typed) -> Typed {
    match array(&of_type) {
        Some((part, length)) => (name, format!("[{}; {length}]", in_sys(part))),
        None => (name, in_sys(&of_type)),
    }
}

fn rust_declaration(function: &Function) -> String {
    let parameters: Vec<String> = function.parameters.iter().map(rust_parameter).collect();
    format!("{}({}) -> {};", function.name, parameters.join(", "), in_sys(&function.answer))
}

fn rust_parameter((name, of_type): &Typed) -> String {
    match form(of_type) {
        Form::Value(part) => format!("{name}: {}", in_sys(part)),
        Form::Lent(part) => format!("{name}: *mut {part}"),
        Form::Slice(part) => format!("{name}: *const {part}, {name}_len: usize"),
        Form::Output(part) => format!("{name}: *mut {part}, {name}_len: usize"),
    }
}

// ---- what the header and `sys` have

fn header() -> String {
    flat(&without_comments(&read("bindings/c/obscurlane.h")))
}

/// The structs of the header: each name, and its fields as they stand there.
fn header_structs() -> Vec<(String, String)> {
    let header = header();
    let found = header.split("typedef struct { ").skip(1).map(|rest| {
        let (fields, rest) = rest.split_once(" } ").expect("the end of the fields");
        let (name, _) = rest.split_once(';').expect("the end of the struct");
        (name.to_owned(), fields.to_owned())
    });
    found.collect()
}

/// The declarations of functions in the header.
fn header_declarations() -> Vec<String> {
    let header = header();
    let statements = header.split(';').map(str::trim);
    statements.filter(|line| line.ends_with(')')).map(str::to_owned).collect()
}

/// The functions of `names.c`, which is compiled with a program of C and is no part of the archive.
fn functions_of_c() -> Vec<String> {
    let source = without_comments(&read("bindings/c/names.c"));
    let heads = source.lines().filter(|line| line.starts_with("const char *obscurlane_"));
    heads.map(|line| line.trim_end_matches([' ', '{']).to_owned()).collect()
}

/// The header's names, without `OBSCURLANE_`, and what each is set to.
fn header_names() -> Vec<(String, String)> {
    let header = header();
    let entries = header.split(['{', '}', ',']).filter_map(|entry| entry.trim().split_once(" = "));
    let names = entries.map(|(name, set)| {
        let name = name.strip_prefix("OBSCURLANE_").expect("a name of the interface");
        (name.to_owned(), set.to_owned())
    });
    names.collect()
}

fn is_length(name: &str) -> bool {
    ["LONGEST_", "CABINET_"].iter().any(|group| name.starts_with(group))
        || name.ends_with("_BYTES")
        || name == "TRAILER"
}

/// The numbers of a group of the header's names, by the rest of each name. Lengths are in no group.
fn header_numbers(group: &str) -> BTreeMap<String, usize> {
    let names = header_names().into_iter().filter(|(name, _)| !is_length(name));
    let of_group = names.filter_map(|(name, set)| {
        let rest = name.strip_prefix(group)?.to_owned();
        Some((rest, set.parse().ok()?))
    });
    of_group.collect()
}

/// The declarations of functions in `sys`.
fn sys_declarations() -> Vec<String> {
    let source = flat(&read("bindings/rust/src/sys.rs"));
    let (_, rest) = source.split_once("extern \"C\" { ").expect("a block of declarations");
    let (block, _) = rest.split_once(" }").expect("the end of the block");
    block.split("fn ").skip(1).map(|line| line.trim().to_owned()).collect()
}

// ---- the declarations

/// That the same things are declared as exported, each once.
fn hold<T: Ord + std::fmt::Debug>(declared: Vec<T>, exported: Vec<T>) {
    let count = declared.len();
    let (declared, exported) = (BTreeSet::from_iter(declared), BTreeSet::from_iter(exported));
    let missing: Vec<_> = exported.difference(&declared).collect();
    assert!(missing.is_empty(), "exported and not declared: {missing:#?}");
    let surplus: Vec<_> = declared.difference(&exported).collect();
    assert!(surplus.is_empty(), "declared and not exported: {surplus:#?}");
    assert_eq!(count, exported.len(), "something is declared twice");
}

#[test]
fn the_header_declares_every_function() {
    let mut there: Vec<String> = functions().iter().map(c_declaration).collect();
    assert_eq!(there.len(), 55);
    there.extend(functions_of_c());
    hold(header_declarations(), there);
}

#[test]
fn the_header_has_every_struct() {
    let structs = STRUCTS.map(|(path, name)| {
        let fields: Vec<String> = fields_of(path).iter().map(c_field).collect();
        (name.to_owned(), fields.join(" "))
    });
    hold(header_structs(), structs.into());
}

#[test]
fn sys_declares_every_function() {
    hold(sys_declarations(), functions().iter().map(rust_declaration).collect());
}

#[test]
fn sys_has_every_struct() {
    let declared = structs(&read("bindings/rust/src/sys.rs"));
    let exported = STRUCTS.map(|(path, _)| {
        let fields: Vec<Typed> = fields_of(path).into_iter().map(sys_field).collect();
        (in_sys(path), fields)
    });
    hold(declared.into_iter().collect(), exported.into());
}

#[test]
fn every_function_is_called_from_c() {
    let programs = read_all("bindings/c", "c");
    for Function { name, .. } in functions() {
        assert!(programs.contains(&format!("{name}(")), "no program in bindings/c calls {name}");
    }
}

#[test]
fn every_function_has_its_line_in_the_page() {
    let page = read("docs/BINDINGS.md");
    for Function { name, .. } in functions() {
        assert!(page.contains(&format!("| `{name}` |")), "docs/BINDINGS.md has no line for {name}");
    }
}

// ---- names, numbers and words

/// So that no name of the header escapes the tests below.
#[test]
fn the_header_sets_every_name_once_and_in_an_enumeration() {
    let names: Vec<String> = header_names().into_iter().map(|(name, _)| name).collect();
    let set = BTreeSet::from_iter(&names);
    assert_eq!(names.len(), set.len(), "a name is set twice");
    for name in words(&header()).filter_map(|word| word.strip_prefix("OBSCURLANE_")) {
        assert!(set.contains(&name.to_owned()), "{name} is not set to a number");
    }
}

#[test]
fn the_header_defines_only_itself_and_the_version() {
    let header = read("bindings/c/obscurlane.h");
    let defined = header.lines().filter_map(|line| line.strip_prefix("#define OBSCURLANE_"));
    let version = env!("CARGO_PKG_VERSION");
    let mut parts = version.split('.');
    let mut wanted = vec!["H".to_owned(), format!("VERSION \"{version}\"")];
    for name in ["MAJOR", "MINOR", "PATCH"] {
        wanted.push(format!("VERSION_{name} {}", parts.next().expect("three numbers")));
    }
    assert_eq!(defined.collect::<Vec<_>>(), wanted);
    assert_eq!(header.matches("#define").count(), wanted.len());
}

#[test]
fn numbers_are_the_crates() {
    for (name, set) in header_names() {
        if !name.starts_with("LONGEST_") {
            let number = set.parse().expect("a number");
            assert_eq!(in_the_crates(&name), BTreeSet::from([number]), "{name}");
        }
    }
}

const FIELDS: [(&str, &[Kind]); 5] = [
    ("IDENTITY_", &[Kind::Smman, Kind::Smid, Kind::Kmcid]),
    ("PUBKEY_", &[Kind::Ecdsa, Kind::Ecdh]),
    ("REQ_", &[Kind::Request]),
    ("RESP_", &[Kind::Response]),
    ("KEY_", &[Kind::Key]),
];

#[test]
fn the_crate_has_the_headers_kinds() {
    let mut kinds = header_numbers("KIND_");
    assert!(kinds.remove("NONE").is_some_and(|none| Kind::ALL.get(none).is_none()));
    assert_eq!(kinds.len(), Kind::ALL.len());
    for (name, number) in kinds {
        let kind = Kind::ALL[number].name();
        assert!(kind.contains(&name), "{kind} is no {name}");
    }
}

/// Document 01's `MacTag` is the header's `MAC_TAG`.
#[test]
fn the_crate_has_the_headers_fields() {
    let plain = |name: &str| name.replace('_', "").to_uppercase();
    for (group, kinds) in FIELDS {
        let header = header_numbers(group).into_iter();
        let header: BTreeMap<usize, String> = header.map(|(name, no)| (no, plain(&name))).collect();
        for kind in kinds {
            let ours = (1..).zip(kind.fields().iter().map(|name| plain(name)));
            assert_eq!(header, ours.collect(), "{kind}");
        }
    }
}

#[test]
fn the_crate_has_the_headers_reasons() {
    let mut others = header_numbers("");
    let groups = FIELDS.map(|(group, _)| group).into_iter().chain(["KIND_"]);
    let groups: Vec<&str> = groups.collect();
    others.retain(|name, _| !groups.iter().any(|group| name.starts_with(group)));
    let others: BTreeMap<String, usize> =
        others.into_iter().map(|(name, no)| (in_rust(&name), no)).collect();

    let reasons = Reason::ALL.iter().map(|of| (format!("{of:?}"), usize::from(of.number())));
    let and = [("Accepted", 0), ("First", 1), ("Second", 2), ("Request", 1), ("Response", 2)];
    let and = and.map(|(name, number)| (name.to_owned(), number));
    assert_eq!(others, reasons.chain(and).collect());
}

/// A number has the same words in both languages.
#[test]
fn the_crate_has_the_words_of_c() {
    let source = read("bindings/c/names.c");
    for reason in Reason::ALL {
        let number = usize::from(reason.number());
        let names = header_names().into_iter();
        let mut of_number = names.filter(|(name, set)| {
            in_rust(name) == format!("{reason:?}") && set.parse() == Ok(number)
        });
        let (name, _) = of_number.next().expect("a name in the header");
        let line = format!("[OBSCURLANE_{name}] = \"{}\",", reason.sentence());
        assert!(source.contains(&line), "names.c has other words than {line}");
    }
}

/// What each is the length of is tried in the test that is read here.
#[test]
fn every_length_is_taken_over_and_tried() {
    let taken = read("bindings/rust/src/lengths.rs");
    let tests = read("bindings/rust/tests/longest.rs");
    for (name, _) in header_names().iter().filter(|(name, _)| is_length(name)) {
        let constant = format!("pub const {name}: usize = header::{name};");
        assert!(taken.contains(&constant), "lengths.rs does not take over {name}");
        assert!(words(&tests).any(|word| word == name), "{name} is not tried");
    }
}
