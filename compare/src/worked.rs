//! The worked values of the documents.
//!
//! `data/worked.txt` has one line for each: name, tab, encoding (`ascii` or `hex`), tab, value.

use crate::text::base16_decode;

const VALUES: &str = include_str!("../data/worked.txt");

/// Names of the identities, in document 003 and in Appendix A of document 000.
pub const IDENTITIES: [&str; 5] = ["ID_KMC", "ID_MAN", "ID_SM", "APPA_ID_KMC", "APPA_ID_SM"];

/// Names of the records that are accepted, in document 003 and in Appendix A of document 000.
pub const RECORDS: [&str; 13] = [
    "PUBKEY_KMC",
    "PUBKEY_MAN",
    "PUBKEY_SM",
    "VKLOADREQ",
    "VKLOADRESP",
    "APPA_VKLOADRESP",
    "KEY1_1",
    "KEY1_2",
    "APPA_KEY1_1",
    "APPA_KEY1_2",
    "APPA_KEY1_3",
    "APPA_KEY1_4",
    "APPA_KEY1_5",
];

/// Those of the records that document 003 has.
pub const RECORDS_OF_003: [&str; 7] =
    ["PUBKEY_KMC", "PUBKEY_MAN", "PUBKEY_SM", "VKLOADREQ", "VKLOADRESP", "KEY1_1", "KEY1_2"];

/// The name of the module's key before it is signed, in document 003. Request E11 refuses it.
pub const UNSIGNED: &str = "PUBKEY_SM_NOSIG";

/// Those of the records that are wrapped keys.
pub const WRAPPED_KEYS: [&str; 7] =
    ["KEY1_1", "KEY1_2", "APPA_KEY1_1", "APPA_KEY1_2", "APPA_KEY1_3", "APPA_KEY1_4", "APPA_KEY1_5"];

/// The six lines of Appendix A's example.
pub const APPENDIX_A: [&str; 6] =
    ["APPA_VKLOADRESP", "APPA_KEY1_1", "APPA_KEY1_2", "APPA_KEY1_3", "APPA_KEY1_4", "APPA_KEY1_5"];

/// Appendix A's example as a file: its six lines, and their SHA-1 behind a `#`, which no line feed
/// ends. The fourth key has the character that it lacks in print.
pub fn appendix_a() -> Vec<u8> {
    let lines = APPENDIX_A.iter().flat_map(|name| [worked(name), b"\n".to_vec()]);
    lines.chain([b"#".to_vec(), worked("APPA_SHA1")]).flatten().collect()
}

/// The bytes of the value with this name.
///
/// # Panics
///
/// When there is none.
pub fn worked(name: &str) -> Vec<u8> {
    for line in VALUES.lines() {
        let mut columns = line.split('\t');
        if columns.next() == Some(name) {
            return match (columns.next(), columns.next()) {
                (Some("ascii"), Some(value)) => value.as_bytes().to_vec(),
                (Some("hex"), Some(value)) => {
                    base16_decode(value.as_bytes()).expect("a value in Base 16")
                }
                _ => panic!("no value in the line of {name}"),
            };
        }
    }
    panic!("no worked value {name}")
}
