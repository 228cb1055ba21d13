//! The text types, and Base 16.

/// The most characters of an IDENT. Every other length here and in the table's records that depends
/// on it is computed from it.
pub const LONGEST_IDENT: usize = 32;
/// The characters of a TIMESTAMP.
pub const TIMESTAMP_LENGTH: usize = 16;
/// The digits of a POINT.
pub const POINT_DIGITS: usize = 194;
/// The digits of a SIG.
pub const SIG_DIGITS: usize = 192;
/// The digits of a MAC.
pub const MAC_DIGITS: usize = 48;
/// The digits of a PRINT.
pub const PRINT_DIGITS: usize = 16;
/// The digits of a wrapped key's nonce.
pub const NONCE_DIGITS: usize = 24;
/// The fewest digits of a protected key: a tag of 128 bits alone.
pub const SHORTEST_PROTECTED: usize = 32;
/// The most digits of a protected key: a key of 160 bits and the tag.
pub const LONGEST_PROTECTED: usize = 72;

const HEX_DIGITS: &[u8; 16] = b"0123456789ABCDEF";

/// IDENT: one letter or digit, then letters, digits, `_`, `-`, `.` or `,`; at most [`LONGEST_IDENT`]
/// characters.
pub fn is_ident(text: &[u8]) -> bool {
    match text.split_first() {
        Some((first, rest)) => {
            text.len() <= LONGEST_IDENT
                && first.is_ascii_alphanumeric()
                && rest.iter().all(|byte| byte.is_ascii_alphanumeric() || b"_-.,".contains(byte))
        }
        None => false,
    }
}

/// TIMESTAMP: `YYYYMMDDThhmmssZ`; there is no year 0000, and the day is one of its month.
pub fn is_timestamp(text: &[u8]) -> bool {
    timestamp(text).is_some()
}

/// A TIMESTAMP by its parts.
pub(crate) struct Timestamp {
    pub(crate) year: usize,
    pub(crate) month: usize,
    pub(crate) day: usize,
    pub(crate) hour: usize,
    pub(crate) minute: usize,
    pub(crate) second: usize,
}

/// The parts of a text that is a TIMESTAMP.
pub(crate) fn timestamp(text: &[u8]) -> Option<Timestamp> {
    let &[y1, y2, y3, y4, m1, m2, d1, d2, b'T', h1, h2, i1, i2, s1, s2, b'Z'] = text else {
        return None;
    };
    let within = |digits: &[u8], least: usize, most: usize| {
        let number = decimal(digits).map(|number| number as usize);
        number.filter(|number| (least..=most).contains(number))
    };
    let (year, month) = (within(&[y1, y2, y3, y4], 1, 9999)?, within(&[m1, m2], 1, 12)?);
    Some(Timestamp {
        year,
        month,
        day: within(&[d1, d2], 1, days_of(year, month))?,
        hour: within(&[h1, h2], 0, 23)?,
        minute: within(&[i1, i2], 0, 59)?,
        second: within(&[s1, s2], 0, 59)?,
    })
}

/// The days of a month, 1 to 12, by the Gregorian calendar.
pub fn days_of(year: usize, month: usize) -> usize {
    const IN_A_COMMON_YEAR: [usize; 12] = [31, 28, 31, 30, 31, 30, 31, 31, 30, 31, 30, 31];
    let is_leap = year % 4 == 0 && (year % 100 != 0 || year % 400 == 0);
    IN_A_COMMON_YEAR[month - 1] + usize::from(is_leap && month == 2)
}

/// The number that a few decimal digits write, if that is what they are.
pub(crate) fn decimal(digits: &[u8]) -> Option<u32> {
    digits.iter().try_fold(0, |number, digit| {
        char::from(*digit).to_digit(10).map(|value| 10 * number + value)
    })
}

/// HEX(`length`): exactly so many characters `0`-`9` and `A`-`F`.
pub fn is_hex(text: &[u8], length: u64) -> bool {
    text.len() as u64 == length && text.iter().all(|&byte| hex_value(byte).is_some())
}

/// POINT: HEX(194) that begins with `04`.
pub fn is_point(text: &[u8]) -> bool {
    is_hex(text, POINT_DIGITS as u64) && text.starts_with(b"04")
}

/// SIG: HEX(192).
pub fn is_sig(text: &[u8]) -> bool {
    is_hex(text, SIG_DIGITS as u64)
}

/// MAC: HEX(48).
pub fn is_mac(text: &[u8]) -> bool {
    is_hex(text, MAC_DIGITS as u64)
}

/// PRINT: HEX(16).
pub fn is_print(text: &[u8]) -> bool {
    is_hex(text, PRINT_DIGITS as u64)
}

/// The nonce of a wrapped key: HEX(24).
pub fn is_nonce(text: &[u8]) -> bool {
    is_hex(text, NONCE_DIGITS as u64)
}

/// A protected key: an even number of hexadecimal characters within its limits.
pub fn is_protected(text: &[u8]) -> bool {
    (SHORTEST_PROTECTED..=LONGEST_PROTECTED).contains(&text.len())
        && text.len() % 2 == 0
        && is_hex(text, text.len() as u64)
}

/// P, as a field is: one or more printable characters, none of them the mark of records.
pub fn is_printable(text: &[u8]) -> bool {
    !text.is_empty() && text.iter().all(|byte| (b' '..=b'~').contains(byte) && *byte != b'|')
}

/// nD: exactly so many decimal digits.
pub fn is_decimal(text: &[u8], length: usize) -> bool {
    text.len() == length && text.iter().all(u8::is_ascii_digit)
}

/// The value of a hexadecimal character; small letters have none.
fn hex_value(character: u8) -> Option<u8> {
    (0..).zip(HEX_DIGITS).find_map(|(value, &digit)| (digit == character).then_some(value))
}

/// BASE16: two hexadecimal characters for each byte.
pub fn base16(bytes: &[u8]) -> String {
    bytes.iter().map(|byte| format!("{byte:02X}")).collect()
}

/// The four characters that write a check: its high byte first.
pub fn check_text(check: u16) -> String {
    base16(&check.to_be_bytes())
}

/// BASE16-DECODE: the bytes that `text` writes, if it is an even number of hexadecimal characters.
pub fn base16_decode(text: &[u8]) -> Option<Vec<u8>> {
    text.chunks(2)
        .map(|pair| match *pair {
            [high, low] => Some(hex_value(high)? << 4 | hex_value(low)?),
            _ => None,
        })
        .collect()
}
