//! Lines, numbers, ids and hex as they are written and read.
//! Document 01, "Messages": one LF, no plus sign, no leading zero, no `-0`, hex in lower case.

use crate::id::{Counters, Id, TERMINALS};

/// Takes the next line off `rest`, its LF too; the line comes without the LF.
/// None if no LF is left.
pub fn take_line<'a>(rest: &mut &'a [u8]) -> Option<&'a [u8]> {
    let end = rest.iter().position(|&byte| byte == b'\n')?;
    let line = &rest[..end];
    *rest = &rest[end + 1..];
    Some(line)
}

/// As `take_line`, of a line that begins with `name`; what follows the name comes back.
pub fn take_named<'a>(rest: &mut &'a [u8], name: &[u8]) -> Option<&'a [u8]> {
    take_line(rest)?.strip_prefix(name)
}

/// A number without sign.
pub fn read_number(digits: &[u8]) -> Option<u64> {
    if digits.is_empty() || (digits[0] == b'0' && digits.len() > 1) {
        return None;
    }
    digits.iter().try_fold(0u64, |number, &byte| {
        if !byte.is_ascii_digit() {
            return None;
        }
        number.checked_mul(10)?.checked_add(u64::from(byte - b'0'))
    })
}

/// An integer of 64 bits, with a minus sign if it is below zero.
pub fn read_integer(text: &[u8]) -> Option<i64> {
    match text.strip_prefix(b"-") {
        None => i64::try_from(read_number(text)?).ok(),
        Some(digits) => match read_number(digits)? {
            0 => None,
            size => 0i64.checked_sub_unsigned(size),
        },
    }
}

/// A counter: 0 to 4294967295.
pub fn read_counter(digits: &[u8]) -> Option<u32> {
    u32::try_from(read_number(digits)?).ok()
}

/// `c.r`
pub fn read_id(text: &[u8]) -> Option<Id> {
    let dot = text.iter().position(|&byte| byte == b'.')?;
    let counter = read_counter(&text[..dot])?;
    match text[dot + 1..] {
        [digit @ b'1'..=b'8'] if counter > 0 => Some(Id { counter, terminal: digit - b'0' }),
        _ => None,
    }
}

/// Eight numbers with commas.
pub fn read_counters(text: &[u8]) -> Option<Counters> {
    let mut counters = Counters::default();
    let mut parts = text.split(|&byte| byte == b',');
    for entry in &mut counters.0 {
        *entry = read_counter(parts.next()?)?;
    }
    parts.next().is_none().then_some(counters)
}

fn read_digit(byte: u8) -> Option<u8> {
    match byte {
        b'0'..=b'9' => Some(byte - b'0'),
        b'a'..=b'f' => Some(byte - b'a' + 10),
        _ => None,
    }
}

/// Hex of at most `MOST` bytes.
pub fn read_hex<const MOST: usize>(hex: &[u8]) -> Option<Bytes<MOST>> {
    if !hex.len().is_multiple_of(2) || hex.len() / 2 > MOST {
        return None;
    }
    let mut bytes = Bytes { length: hex.len() / 2, bytes: [0; MOST] };
    for (byte, pair) in bytes.bytes.iter_mut().zip(hex.chunks_exact(2)) {
        *byte = read_digit(pair[0])? << 4 | read_digit(pair[1])?;
    }
    Some(bytes)
}

/// Up to `MOST` bytes, held in place. The bytes behind the length are zero.
#[derive(Clone, Copy, PartialEq, Eq)]
pub struct Bytes<const MOST: usize> {
    length: usize,
    bytes: [u8; MOST],
}

impl<const MOST: usize> Bytes<MOST> {
    pub fn as_slice(&self) -> &[u8] {
        &self.bytes[..self.length]
    }
}

/// Byte order, the shorter before its extension.
impl<const MOST: usize> Ord for Bytes<MOST> {
    fn cmp(&self, other: &Self) -> std::cmp::Ordering {
        self.as_slice().cmp(other.as_slice())
    }
}

impl<const MOST: usize> PartialOrd for Bytes<MOST> {
    fn partial_cmp(&self, other: &Self) -> Option<std::cmp::Ordering> {
        Some(self.cmp(other))
    }
}

impl<const MOST: usize> std::fmt::Debug for Bytes<MOST> {
    fn fmt(&self, out: &mut std::fmt::Formatter) -> std::fmt::Result {
        write!(out, "{}", self.as_slice().escape_ascii())
    }
}

pub fn write_number(out: &mut Vec<u8>, mut number: u64) {
    let mut digits = [0; 20];
    let mut start = digits.len();
    loop {
        start -= 1;
        digits[start] = b'0' + (number % 10) as u8;
        number /= 10;
        if number == 0 {
            break;
        }
    }
    out.extend_from_slice(&digits[start..]);
}

pub fn write_integer(out: &mut Vec<u8>, integer: i64) {
    if integer < 0 {
        out.push(b'-');
    }
    write_number(out, integer.unsigned_abs());
}

pub fn write_id(out: &mut Vec<u8>, id: Id) {
    write_number(out, id.counter.into());
    out.extend_from_slice(&[b'.', b'0' + id.terminal]);
}

pub fn write_counters(out: &mut Vec<u8>, counters: &Counters) {
    for (index, &entry) in counters.0.iter().enumerate() {
        write_number(out, entry.into());
        if index + 1 < TERMINALS {
            out.push(b',');
        }
    }
}

pub fn write_hex(out: &mut Vec<u8>, bytes: &[u8]) {
    const DIGITS: &[u8; 16] = b"0123456789abcdef";
    for byte in bytes {
        out.push(DIGITS[usize::from(byte >> 4)]);
        out.push(DIGITS[usize::from(byte & 15)]);
    }
}
