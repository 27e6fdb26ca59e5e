//! References and literals as text, as docs/FORMATS.md has them, and the bytes of keys.

use std::fmt::{self, Write};
use std::str;

/// A literal's value and what follows it; none where the text begins with no literal.
type Read<'a> = Option<(Vec<u8>, &'a [u8])>;

fn split_digits(text: &[u8]) -> (&[u8], &[u8]) {
    text.split_at(text.iter().take_while(|byte| byte.is_ascii_digit()).count())
}

fn without_leading_zeros(digits: &[u8]) -> &[u8] {
    &digits[digits.iter().take_while(|digit| **digit == b'0').count()..]
}

fn without_trailing_zeros(digits: &[u8]) -> &[u8] {
    &digits[..digits.len() - digits.iter().rev().take_while(|digit| **digit == b'0').count()]
}

/// Reads a number, as its canonic form: `-00.50` is `-.5`.
fn read_number(text: &[u8]) -> Read<'_> {
    let (is_negative, unsigned) = match text {
        [b'-', unsigned @ ..] => (true, unsigned),
        _ => (false, text),
    };
    let (whole, mut rest) = split_digits(unsigned);
    let mut fraction: &[u8] = &[];
    if let [b'.', after @ ..] = rest {
        (fraction, rest) = split_digits(after);
        if fraction.is_empty() {
            return None;
        }
    }
    if whole.is_empty() && fraction.is_empty() {
        return None;
    }
    let (whole, fraction) = (without_leading_zeros(whole), without_trailing_zeros(fraction));
    if whole.is_empty() && fraction.is_empty() {
        return Some((b"0".to_vec(), rest));
    }
    let mut canonic = Vec::from(if is_negative { &b"-"[..] } else { b"" });
    canonic.extend_from_slice(whole);
    if !fraction.is_empty() {
        canonic.push(b'.');
        canonic.extend_from_slice(fraction);
    }
    Some((canonic, rest))
}

/// Reads what follows a quote, up to the quote that ends the text.
fn read_quoted(mut text: &[u8]) -> Read<'_> {
    let mut value = Vec::new();
    loop {
        text = match text {
            [b'"', b'"', rest @ ..] => {
                value.push(b'"');
                rest
            }
            [b'"', rest @ ..] => return Some((value, rest)),
            [byte, rest @ ..] => {
                value.push(*byte);
                rest
            }
            [] => return None,
        };
    }
}

/// Reads what follows `$C(` or `$CHAR(`: codes from 0 to 255, and the parenthesis.
fn read_codes(mut text: &[u8]) -> Read<'_> {
    let mut value = Vec::new();
    loop {
        let (digits, rest) = split_digits(text);
        if digits.len() > 3 {
            return None;
        }
        value.push(str::from_utf8(digits).ok()?.parse().ok()?);
        text = match rest {
            [b',', more @ ..] => more,
            [b')', after @ ..] => return Some((value, after)),
            _ => return None,
        };
    }
}

/// What follows a word, in any case of letters.
fn after_word<'a>(text: &'a [u8], word: &[u8]) -> Option<&'a [u8]> {
    let (front, rest) = text.split_at_checked(word.len())?;
    front.eq_ignore_ascii_case(word).then_some(rest)
}

fn read_part(text: &[u8]) -> Read<'_> {
    match text {
        [b'"', quoted @ ..] => read_quoted(quoted),
        _ => read_codes(after_word(text, b"$C(").or_else(|| after_word(text, b"$CHAR("))?),
    }
}

fn read_literal(text: &[u8]) -> Read<'_> {
    if !matches!(text.first(), Some(b'"' | b'$')) {
        return read_number(text);
    }
    let (mut value, mut text) = read_part(text)?;
    while let [b'_', part @ ..] = text {
        let (more, rest) = read_part(part)?;
        value.extend_from_slice(&more);
        text = rest;
    }
    Some((value, text))
}

/// The name and the subscripts of a reference, as of `^Account("ann",1)`; none where the text is none.
pub(crate) fn read_reference(text: &str) -> Option<(String, Vec<Vec<u8>>)> {
    let named = text.strip_prefix('^')?;
    let length = named.bytes().take_while(|byte| byte.is_ascii_alphanumeric() || *byte == b'%').count();
    let (name, rest) = named.split_at(length);
    let mut subscripts = Vec::new();
    if name.is_empty() {
        return None;
    }
    let Some(mut text) = rest.strip_prefix('(').map(str::as_bytes) else {
        return rest.is_empty().then(|| (name.to_string(), subscripts));
    };
    loop {
        let (subscript, rest) = read_literal(text)?;
        subscripts.push(subscript);
        text = match rest {
            [b',', more @ ..] => more,
            [b')'] => return Some((name.to_string(), subscripts)),
            _ => return None,
        };
    }
}

fn is_canonic(value: &[u8]) -> bool {
    read_number(value).is_some_and(|(canonic, rest)| rest.is_empty() && canonic == value)
}

fn is_printed(byte: &u8) -> bool {
    (32..=126).contains(byte)
}

/// Writes a string as a literal: a number bare, runs of printed bytes in quotes, others as codes.
pub(crate) fn write_literal(value: &[u8], to: &mut impl Write) -> fmt::Result {
    if is_canonic(value) {
        return to.write_str(&String::from_utf8_lossy(value));
    }
    if value.is_empty() {
        return to.write_str("\"\"");
    }
    for (place, run) in value.chunk_by(|one, other| is_printed(one) == is_printed(other)).enumerate() {
        to.write_str(if place > 0 { "_" } else { "" })?;
        if is_printed(&run[0]) {
            write!(to, "\"{}\"", String::from_utf8_lossy(run).replace('"', "\"\""))?;
        } else {
            let codes: Vec<String> = run.iter().map(u8::to_string).collect();
            write!(to, "$C({})", codes.join(","))?;
        }
    }
    Ok(())
}

/// A string of a key's bytes, which a byte 0 ends: a byte 1 stands before a byte that is one too high.
fn string_of_key(mut key: &[u8]) -> Read<'_> {
    let mut value = Vec::new();
    loop {
        key = match key {
            [0, rest @ ..] => return Some((value, rest)),
            [1, byte, rest @ ..] => {
                value.push(byte.checked_sub(1)?);
                rest
            }
            [byte, rest @ ..] => {
                value.push(*byte);
                rest
            }
            [] => return None,
        };
    }
}

/// A number of a key's bytes: 0.d1 d2 .. times 10^place, where the place comes first.
fn number_of_key(key: &[u8], is_negative: bool) -> Read<'_> {
    let (high, low, mut key) = match key {
        [high, low, rest @ ..] => (i32::from(*high), i32::from(*low), rest),
        _ => return None,
    };
    let place = high * 256 + low;
    let place = if is_negative { 255 - place } else { place - 256 };
    let mut digits = Vec::new();
    loop {
        let (digit, rest) = key.split_first()?;
        key = rest;
        if *digit == if is_negative { 255 } else { 0 } {
            break;
        }
        digits.push(if is_negative { (b'0' + 10).checked_sub(*digit)? } else { b'0'.checked_add(*digit)? - 1 });
    }
    let mut value = Vec::from(if is_negative { &b"-"[..] } else { b"" });
    let whole = usize::try_from(place).unwrap_or(0);
    if place <= 0 {
        value.push(b'.');
        value.resize(value.len() + usize::try_from(-place).ok()?, b'0');
    }
    for (at, digit) in digits.iter().enumerate() {
        if at > 0 && at == whole {
            value.push(b'.');
        }
        value.push(*digit);
    }
    value.resize(value.len() + whole.saturating_sub(digits.len()), b'0');
    Some((value, key))
}

/// The name and the subscripts of a key that `vg_walk` copied; none where the bytes aren't a key's.
pub(crate) fn reference_of_key(key: &[u8]) -> Option<(String, Vec<Vec<u8>>)> {
    let (name, mut key) = string_of_key(key)?;
    let mut subscripts = Vec::new();
    while let [tag, rest @ ..] = key {
        let (subscript, rest) = match tag {
            2 => number_of_key(rest, true)?,
            3 => (b"0".to_vec(), rest),
            4 => number_of_key(rest, false)?,
            5 => string_of_key(rest)?,
            _ => return None,
        };
        subscripts.push(subscript);
        key = rest;
    }
    Some((String::from_utf8(name).ok()?, subscripts))
}
