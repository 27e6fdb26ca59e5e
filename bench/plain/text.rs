//! Literals: how they are read and written, and which strings are canonic numbers (docs/FORMATS.md).
use std::borrow::Cow;

/// A number of canonic form. Zero has no digits; the whole part has no leading zeros, the fraction no trailing ones.
#[derive(Clone, Copy)]
pub struct Number<'a> {
    pub negative: bool,
    pub whole: &'a [u8],
    pub fraction: &'a [u8],
}

impl<'a> Number<'a> {
    /// The number whose canonic text this is, where it is one's.
    pub fn of(text: &'a [u8]) -> Option<Number<'a>> {
        if text == b"0" {
            return Some(Number { negative: false, whole: b"", fraction: b"" });
        }
        let (number, rest) = split_number(text)?;
        (rest.is_empty() && number.text_len() == text.len() && !number.is_zero()).then_some(number)
    }

    pub fn is_zero(&self) -> bool {
        self.whole.is_empty() && self.fraction.is_empty()
    }

    /// How many bytes its canonic text has.
    pub fn text_len(&self) -> usize {
        match (self.whole.len(), self.fraction.len()) {
            (0, 0) => 1,
            (whole, 0) => usize::from(self.negative) + whole,
            (whole, fraction) => usize::from(self.negative) + whole + 1 + fraction,
        }
    }

    fn text(&self) -> Vec<u8> {
        let mut text = Vec::with_capacity(self.text_len());
        if self.is_zero() {
            text.push(b'0');
        }
        if self.negative {
            text.push(b'-');
        }
        text.extend_from_slice(self.whole);
        if !self.fraction.is_empty() {
            text.push(b'.');
            text.extend_from_slice(self.fraction);
        }
        text
    }
}

/// The digits in front, and what follows them.
pub fn split_digits(text: &[u8]) -> (&[u8], &[u8]) {
    text.split_at(text.iter().position(|b| !b.is_ascii_digit()).unwrap_or(text.len()))
}

/// The letters in front, and what follows them.
pub fn split_letters(text: &[u8]) -> (&[u8], &[u8]) {
    text.split_at(text.iter().position(|b| !b.is_ascii_alphabetic()).unwrap_or(text.len()))
}

/// The number that the numeral in front stands for, and what follows it.
fn split_number(text: &[u8]) -> Option<(Number<'_>, &[u8])> {
    let (negative, unsigned) = match text {
        [b'-', rest @ ..] => (true, rest),
        _ => (false, text),
    };
    let (whole, rest) = split_digits(unsigned);
    let (fraction, rest) = match rest {
        [b'.', more @ ..] => split_digits(more),
        _ => (&b""[..], rest),
    };
    if whole.is_empty() && fraction.is_empty() || unsigned.len() - rest.len() == whole.len() + 1 {
        return None;
    }
    let zeros = whole.iter().position(|d| *d != b'0').unwrap_or(whole.len());
    let digits = fraction.iter().rposition(|d| *d != b'0').map_or(0, |at| at + 1);
    let (whole, fraction) = (&whole[zeros..], &fraction[..digits]);
    let negative = negative && !(whole.is_empty() && fraction.is_empty());
    Some((Number { negative, whole, fraction }, rest))
}

pub enum Literal<'a> {
    /// A numeral as it is spelled, and the number that it stands for.
    Numeral(&'a [u8], Number<'a>),
    Text(Cow<'a, [u8]>),
}

impl<'a> Literal<'a> {
    /// The string that the literal stands for.
    pub fn value(self) -> Cow<'a, [u8]> {
        match self {
            Literal::Numeral(spelled, number) if spelled.len() == number.text_len() => Cow::Borrowed(spelled),
            Literal::Numeral(_, number) => Cow::Owned(number.text()),
            Literal::Text(text) => text,
        }
    }
}

/// The literal in front, and what follows it.
pub fn literal(text: &[u8]) -> Option<(Literal<'_>, &[u8])> {
    match text {
        [b'"', more @ ..] => {
            let end = more.iter().position(|b| *b == b'"')?;
            match &more[end + 1..] {
                [b'"' | b'_', ..] => joined(text),
                rest => Some((Literal::Text(Cow::Borrowed(&more[..end])), rest)),
            }
        }
        [b'$', ..] => joined(text),
        _ => {
            let (number, rest) = split_number(text)?;
            Some((Literal::Numeral(&text[..text.len() - rest.len()], number), rest))
        }
    }
}

/// Parts joined by '_'.
fn joined(text: &[u8]) -> Option<(Literal<'_>, &[u8])> {
    let mut value = Vec::new();
    let mut rest = part(text, &mut value)?;
    while let [b'_', more @ ..] = rest {
        rest = part(more, &mut value)?;
    }
    Some((Literal::Text(Cow::Owned(value)), rest))
}

fn part<'a>(text: &'a [u8], value: &mut Vec<u8>) -> Option<&'a [u8]> {
    match text {
        [b'"', more @ ..] => quoted(more, value),
        [b'$', more @ ..] => {
            let (letters, rest) = split_letters(more);
            let is_char = letters.eq_ignore_ascii_case(b"C") || letters.eq_ignore_ascii_case(b"CHAR");
            codes(rest.strip_prefix(b"(").filter(|_| is_char)?, value)
        }
        _ => None,
    }
}

/// What stands before the closing quote, where a quote is written twice.
fn quoted<'a>(text: &'a [u8], value: &mut Vec<u8>) -> Option<&'a [u8]> {
    let mut rest = text;
    loop {
        let end = rest.iter().position(|b| *b == b'"')?;
        value.extend_from_slice(&rest[..end]);
        match &rest[end + 1..] {
            [b'"', more @ ..] => {
                value.push(b'"');
                rest = more;
            }
            more => return Some(more),
        }
    }
}

fn codes<'a>(text: &'a [u8], value: &mut Vec<u8>) -> Option<&'a [u8]> {
    let mut rest = text;
    loop {
        let (digits, more) = split_digits(rest);
        if digits.is_empty() || digits.len() > 3 {
            return None;
        }
        let code = digits.iter().fold(0, |code, digit| 10 * code + u16::from(digit - b'0'));
        value.push(u8::try_from(code).ok()?);
        match more {
            [b',', more @ ..] => rest = more,
            [b')', more @ ..] => return Some(more),
            _ => return None,
        }
    }
}

/// Writes a string as a literal: a canonic number bare.
pub fn write_literal(text: &[u8], out: &mut Vec<u8>) {
    if Number::of(text).is_some() {
        out.extend_from_slice(text);
    } else {
        write_string(text, out);
    }
}

fn is_printable(byte: u8) -> bool {
    (32..127).contains(&byte)
}

/// Writes a string that is no canonic number: printable bytes in quotes, others by their codes.
pub fn write_string(text: &[u8], out: &mut Vec<u8>) {
    if text.iter().all(|b| is_printable(*b)) {
        write_quoted(text, out);
        return;
    }
    for (i, run) in text.chunk_by(|a, b| is_printable(*a) == is_printable(*b)).enumerate() {
        if i > 0 {
            out.push(b'_');
        }
        if is_printable(run[0]) {
            write_quoted(run, out);
        } else {
            write_codes(run, out);
        }
    }
}

fn write_quoted(text: &[u8], out: &mut Vec<u8>) {
    out.push(b'"');
    let mut parts = text.split(|b| *b == b'"');
    out.extend_from_slice(parts.next().unwrap_or(b""));
    for part in parts {
        out.extend_from_slice(b"\"\"");
        out.extend_from_slice(part);
    }
    out.push(b'"');
}

fn write_codes(text: &[u8], out: &mut Vec<u8>) {
    out.extend_from_slice(b"$C(");
    for (i, byte) in text.iter().enumerate() {
        if i > 0 {
            out.push(b',');
        }
        write_number(u64::from(*byte), out);
    }
    out.push(b')');
}

/// Writes a number in decimal digits.
pub fn write_number(number: u64, out: &mut Vec<u8>) {
    if number >= 10 {
        write_number(number / 10, out);
    }
    out.push(b'0' + (number % 10) as u8);
}
