//! Key bytes: those of docs/FORMATS.md, "Key bytes". Keys compare byte by byte as their references do, and one begins
//! with another exactly where its reference is the other or lies under it.
use crate::text::{Number, write_string};

const NEGATIVE: u8 = 2;
const ZERO: u8 = 3;
const POSITIVE: u8 = 4;
const STRING: u8 = 5;
/// All under a reference stands before its key with this byte behind it.
pub const PAST: u8 = 6;

/// A reference's key, and how many subscripts it has. The byte `PAST` stands behind the key.
#[derive(Clone, Copy)]
pub struct Node<'a> {
    pub bytes: &'a [u8],
    pub count: usize,
}

impl<'a> Node<'a> {
    pub fn key(&self) -> &'a [u8] {
        &self.bytes[..self.bytes.len() - 1]
    }

    /// What stands before this and not before the key is at or under the reference.
    pub fn past(&self) -> &'a [u8] {
        self.bytes
    }
}

/// The key with a byte behind it.
pub fn with_byte(key: &[u8], byte: u8) -> Box<[u8]> {
    let mut bytes = Vec::with_capacity(key.len() + 1);
    bytes.extend_from_slice(key);
    bytes.push(byte);
    bytes.into_boxed_slice()
}

pub fn encode_number(number: &Number, key: &mut Vec<u8>) {
    if number.is_zero() {
        key.push(ZERO);
        return;
    }
    let (place, digits, fraction) = if number.whole.is_empty() {
        let zeros = number.fraction.iter().position(|d| *d != b'0').unwrap_or(0);
        (256 - zeros as u16, &number.fraction[zeros..], &b""[..])
    } else if number.fraction.is_empty() {
        let end = number.whole.iter().rposition(|d| *d != b'0').map_or(0, |at| at + 1);
        (256 + number.whole.len() as u16, &number.whole[..end], &b""[..])
    } else {
        (256 + number.whole.len() as u16, number.whole, number.fraction)
    };
    if number.negative {
        let [high, low] = (511 - place).to_be_bytes();
        key.extend_from_slice(&[NEGATIVE, high, low]);
        key.extend(digits.iter().map(|d| b':' - d));
        key.extend(fraction.iter().map(|d| b':' - d));
        key.push(255);
    } else {
        let [high, low] = place.to_be_bytes();
        key.extend_from_slice(&[POSITIVE, high, low]);
        key.extend(digits.iter().map(|d| d - b'/'));
        key.extend(fraction.iter().map(|d| d - b'/'));
        key.push(0);
    }
}

pub fn encode_text(subscript: &[u8], key: &mut Vec<u8>) {
    if let Some(number) = Number::of(subscript) {
        encode_number(&number, key);
        return;
    }
    key.push(STRING);
    if subscript.iter().all(|b| *b > 1) {
        key.extend_from_slice(subscript);
    } else {
        for byte in subscript {
            match byte {
                0 | 1 => key.extend_from_slice(&[1, byte + 1]),
                byte => key.push(*byte),
            }
        }
    }
    key.push(0);
}

/// How many bytes the subscript in front has.
pub fn subscript_len(key: &[u8]) -> usize {
    // A place's bytes may be those of an end.
    let (front, last) = match key[0] {
        ZERO => return 1,
        NEGATIVE => (3, 255),
        POSITIVE => (3, 0),
        _ => (1, 0),
    };
    front + 1 + key[front..].iter().position(|b| *b == last).unwrap()
}

/// How many subscripts the bytes of subscripts are.
pub fn count_subscripts(bytes: &[u8]) -> usize {
    let (mut rest, mut count) = (bytes, 0);
    while !rest.is_empty() {
        rest = &rest[subscript_len(rest)..];
        count += 1;
    }
    count
}

/// How many bytes the name has, and the 0 behind it.
pub fn name_len(key: &[u8]) -> usize {
    1 + key.iter().position(|b| *b == 0).unwrap()
}

/// Writes a subscript, whose bytes these are, as a literal.
pub fn write_subscript(bytes: &[u8], out: &mut Vec<u8>) {
    match bytes {
        [NEGATIVE, high, low, digits @ .., _] => {
            out.push(b'-');
            write_digits(511 - u16::from_be_bytes([*high, *low]), digits.iter().map(|d| b':' - d), out);
        }
        [POSITIVE, high, low, digits @ .., _] => {
            write_digits(u16::from_be_bytes([*high, *low]), digits.iter().map(|d| d + b'/'), out)
        }
        [STRING, text @ .., _] if text.iter().all(|b| *b > 1) => write_string(text, out),
        [STRING, text @ .., _] => write_string(&without_escapes(text), out),
        _ => out.push(b'0'),
    }
}

fn write_digits(place: u16, digits: impl ExactSizeIterator<Item = u8>, out: &mut Vec<u8>) {
    let zeros = |count: usize| std::iter::repeat_n(b'0', count);
    let count = digits.len();
    if place <= 256 {
        out.push(b'.');
        out.extend(zeros(usize::from(256 - place)));
        out.extend(digits);
        return;
    }
    let whole = usize::from(place - 256);
    let start = out.len();
    out.extend(digits);
    if count <= whole {
        out.extend(zeros(whole - count));
    } else {
        out.insert(start + whole, b'.');
    }
}

fn without_escapes(text: &[u8]) -> Vec<u8> {
    let mut bytes = text.iter();
    let mut plain = Vec::with_capacity(text.len());
    while let Some(byte) = bytes.next() {
        plain.push(if *byte == 1 { bytes.next().unwrap() - 1 } else { *byte });
    }
    plain
}

pub fn write_reference(key: &[u8], out: &mut Vec<u8>) {
    let (name, mut rest) = key.split_at(name_len(key));
    out.push(b'^');
    out.extend_from_slice(&name[..name.len() - 1]);
    let mut before = b'(';
    while !rest.is_empty() {
        let (subscript, more) = rest.split_at(subscript_len(rest));
        out.push(before);
        write_subscript(subscript, out);
        before = b',';
        rest = more;
    }
    if before == b',' {
        out.push(b')');
    }
}
