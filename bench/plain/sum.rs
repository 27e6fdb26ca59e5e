//! Sums of decimal numbers of any length, digit by digit: what `$INCREMENT` adds.
use crate::text::split_digits;

/// The number that a text begins with: signs, digits, and a point with digits; no digits are 0.
struct Front<'a> {
    negative: bool,
    whole: &'a [u8],
    fraction: &'a [u8],
}

fn front(text: &[u8]) -> Front<'_> {
    let signs = text.iter().position(|b| !matches!(b, b'+' | b'-')).unwrap_or(text.len());
    let negative = text[..signs].iter().filter(|b| **b == b'-').count() % 2 == 1;
    let (whole, rest) = split_digits(&text[signs..]);
    let fraction = rest.strip_prefix(b".").map_or(&b""[..], |more| split_digits(more).0);
    Front { negative, whole, fraction }
}

impl Front<'_> {
    /// Its digits in so many places before the point and so many behind it.
    fn digits(&self, before: usize, behind: usize) -> Vec<u8> {
        let mut digits = vec![b'0'; before - self.whole.len()];
        digits.extend_from_slice(self.whole);
        digits.extend_from_slice(self.fraction);
        digits.resize(before + behind, b'0');
        digits
    }
}

/// Adds digits to as many others, of which the first is 0 or 1 so that there is room.
fn add(to: &mut [u8], other: &[u8]) {
    let mut carried = 0;
    for (digit, other) in to.iter_mut().zip(other).rev() {
        let sum = *digit - b'0' + (*other - b'0') + carried;
        *digit = b'0' + sum % 10;
        carried = sum / 10;
    }
}

/// Takes digits away from as many others, which are no less.
fn take(from: &mut [u8], other: &[u8]) {
    let mut borrowed = 0;
    for (digit, other) in from.iter_mut().zip(other).rev() {
        let left = *digit + 10 - *other - borrowed;
        *digit = b'0' + left % 10;
        borrowed = 1 - left / 10;
    }
}

/// The canonic text of digits, of which so many stand before the point.
fn text(negative: bool, digits: &[u8], before: usize) -> Vec<u8> {
    let (whole, fraction) = digits.split_at(before);
    let whole = &whole[whole.iter().take_while(|d| **d == b'0').count()..];
    let fraction = &fraction[..fraction.len() - fraction.iter().rev().take_while(|d| **d == b'0').count()];
    if whole.is_empty() && fraction.is_empty() {
        return b"0".to_vec();
    }
    let point = if fraction.is_empty() { &b""[..] } else { b"." };
    [if negative { &b"-"[..] } else { b"" }, whole, point, fraction].concat()
}

/// The canonic text of the sum of the numbers that two texts begin with.
pub fn sum(a: &[u8], b: &[u8]) -> Vec<u8> {
    let (a, b) = (front(a), front(b));
    let before = a.whole.len().max(b.whole.len()) + 1;
    let behind = a.fraction.len().max(b.fraction.len());
    let (mut first, mut second) = (a.digits(before, behind), b.digits(before, behind));
    let mut negative = a.negative;
    if a.negative == b.negative {
        add(&mut first, &second);
    } else {
        if first < second {
            std::mem::swap(&mut first, &mut second);
            negative = b.negative;
        }
        take(&mut first, &second);
    }
    text(negative, &first, before)
}
