//! Lines: the grammar and the order of refusals of docs/FORMATS.md.
use crate::key::{Node, PAST, encode_number, encode_text, with_byte};
use crate::text::{Literal, Number, literal, split_digits, split_letters};
use std::borrow::Cow;

/// Why a line is refused; the number is printed, and the name.
#[derive(Clone, Copy, Debug)]
pub enum Refusal {
    BadLine = 1,
    BadName = 2,
    EmptySubscript = 3,
    SubscriptTooLong = 4,
    TooManySubscripts = 5,
    ValueTooLong = 6,
    NeedSubscript = 7,
    MergeOverlap = 8,
    NoTransaction = 9,
    LevelTooDeep = 10,
    LockCountFull = 11,
    BadJob = 12,
    TransactionTooLong = 13,
    SumTooLong = 19,
}

pub const MOST_JOBS: usize = 4096;
pub const MOST_SUBSCRIPTS: usize = 31;
const LONGEST_NAME: usize = 31;
const LONGEST_SUBSCRIPT: usize = 255;
pub const LONGEST_VALUE: usize = 32767;

/// The string that a literal stands for.
pub type Value<'a> = Cow<'a, [u8]>;

#[derive(Clone, Copy, PartialEq)]
pub enum Direction {
    Forward,
    Backward,
}

/// Where $ORDER or $QUERY begins: a reference, or directly below it where an empty last subscript stands there.
#[derive(Clone, Copy)]
pub struct Place<'a> {
    pub node: Node<'a>,
    pub is_open: bool,
    /// Where the last subscript begins in the key; none where there is no subscript.
    pub level: Option<usize>,
}

/// What a kill takes of a node: all of it, its value alone, or what is below it.
#[derive(Clone, Copy)]
pub enum Extent {
    All,
    Value,
    Below,
}

pub enum Data<'a> {
    Set(Node<'a>, Value<'a>),
    Kill(Node<'a>, Extent),
    Merge(Node<'a>, Node<'a>),
    Increment(Node<'a>, Value<'a>),
    Look(Look<'a>),
}

pub enum Look<'a> {
    Data(Node<'a>),
    Get(Node<'a>, Option<Value<'a>>),
    Order(Place<'a>, Direction),
    Query(Place<'a>, Direction),
    /// The next name after one, which is as in a key; none is before the first, or behind the last.
    Name(Option<Box<[u8]>>, Direction),
}

pub enum Form {
    Only,
    More,
    Fewer,
}

pub enum Command<'a> {
    Access(Data<'a>),
    Release,
    /// The names' bytes: 1 for a caret or 0, and then as a key.
    Lock(Form, Vec<Box<[u8]>>),
    Start,
    Commit,
    Rollback,
    Restart,
    Level,
    Restarts,
    Halt,
}

/// A reference while it is read.
#[derive(Default)]
struct Draft {
    bytes: Vec<u8>,
    count: usize,
    is_open: bool,
    level: Option<usize>,
    is_named: bool,
    /// The first fault of a subscript.
    fault: Option<Refusal>,
}

impl Draft {
    /// Reads the reference in front, with its caret, and answers what follows it.
    fn read<'t>(&mut self, text: &'t [u8]) -> Option<&'t [u8]> {
        self.bytes.clear();
        self.read_named(text.strip_prefix(b"^")?)
    }

    /// Reads a name with its subscripts behind the bytes.
    fn read_named<'t>(&mut self, text: &'t [u8]) -> Option<&'t [u8]> {
        let end = text.iter().position(|b| !(b.is_ascii_alphanumeric() || *b == b'%')).unwrap_or(text.len());
        let (name, mut rest) = text.split_at(end);
        self.is_named = is_name(name)?;
        self.bytes.extend_from_slice(name);
        self.bytes.push(0);
        self.count = 0;
        self.is_open = false;
        self.level = None;
        self.fault = None;
        if let [b'(', more @ ..] = rest {
            rest = self.read_subscripts(more)?;
        }
        self.bytes.push(PAST);
        Some(rest)
    }

    fn read_subscripts<'t>(&mut self, text: &'t [u8]) -> Option<&'t [u8]> {
        let mut rest = text;
        loop {
            if self.is_open {
                self.fault = self.fault.or(Some(Refusal::EmptySubscript));
                self.is_open = false;
            }
            let (subscript, more) = literal(rest)?;
            self.add(subscript);
            match more {
                [b',', more @ ..] => rest = more,
                [b')', more @ ..] => return Some(more),
                _ => return None,
            }
        }
    }

    fn add(&mut self, subscript: Literal) {
        self.count += 1;
        self.level = Some(self.bytes.len());
        let length = match &subscript {
            Literal::Numeral(_, number) => number.text_len(),
            Literal::Text(text) => text.len(),
        };
        if length > LONGEST_SUBSCRIPT {
            self.fault = self.fault.or(Some(Refusal::SubscriptTooLong));
        } else if length == 0 {
            self.is_open = true;
        } else if self.count <= MOST_SUBSCRIPTS {
            match subscript {
                Literal::Numeral(_, number) => encode_number(&number, &mut self.bytes),
                Literal::Text(text) => encode_text(&text, &mut self.bytes),
            }
        }
    }

    fn place_fault(&self) -> Option<Refusal> {
        if !self.is_named {
            Some(Refusal::BadName)
        } else if self.count > MOST_SUBSCRIPTS {
            Some(Refusal::TooManySubscripts)
        } else {
            self.fault
        }
    }

    fn fault(&self) -> Option<Refusal> {
        self.place_fault().or(self.is_open.then_some(Refusal::EmptySubscript))
    }

    fn node(&self) -> Node<'_> {
        Node { bytes: &self.bytes, count: self.count }
    }

    fn place(&self) -> Place<'_> {
        Place { node: self.node(), is_open: self.is_open, level: self.level }
    }

    /// The name as a lock's.
    fn lock_name(&self) -> Box<[u8]> {
        self.bytes[..self.bytes.len() - 1].into()
    }
}

/// Whether a name word, where it is one, is a name.
fn is_name(word: &[u8]) -> Option<bool> {
    let first = word.first()?;
    Some(!first.is_ascii_digit() && word.len() <= LONGEST_NAME && !word[1..].contains(&b'%'))
}

fn past_blank(text: &[u8]) -> &[u8] {
    &text[text.iter().position(|b| !matches!(b, b' ' | b'\t')).unwrap_or(text.len())..]
}

/// What follows a blank, which has to be there.
fn skip_blank(text: &[u8]) -> Option<&[u8]> {
    matches!(text, [b' ' | b'\t', ..]).then(|| past_blank(text))
}

fn value_fault(value: &[u8]) -> Option<Refusal> {
    (value.len() > LONGEST_VALUE).then_some(Refusal::ValueTooLong)
}

/// A command, its first fault, and what follows it.
type Read<'a> = Option<(Command<'a>, Option<Refusal>, &'a [u8])>;

/// Reads lines; its buffers serve one after the other.
#[derive(Default)]
pub struct Reader {
    first: Draft,
    second: Draft,
}

impl Reader {
    /// The job to be printed, and the command or why it is refused.
    pub fn read<'a>(&'a mut self, line: &'a [u8]) -> (u16, Result<Command<'a>, Refusal>) {
        let (digits, rest) = split_digits(line);
        let ends = matches!(rest, [] | [b' ' | b'\t', ..]);
        let job = job_of(digits).filter(|_| ends);
        let read = skip_blank(rest).filter(|_| !digits.is_empty()).and_then(|text| self.command(text));
        let command = match (read, job) {
            (Some((command, fault, rest)), job) if past_blank(rest).is_empty() => match (job, fault) {
                (None, _) => Err(Refusal::BadJob),
                (_, Some(fault)) => Err(fault),
                (_, None) => Ok(command),
            },
            _ => Err(Refusal::BadLine),
        };
        (job.unwrap_or(0), command)
    }

    fn command<'a>(&'a mut self, text: &'a [u8]) -> Read<'a> {
        match text {
            [b'$', more @ ..] => {
                let (word, rest) = split_letters(more);
                self.function(word, rest)
            }
            _ => {
                let (word, rest) = split_letters(text);
                self.act(word, rest)
            }
        }
    }

    fn act<'a>(&'a mut self, word: &[u8], rest: &'a [u8]) -> Read<'a> {
        let is = |long: &[u8], short: &[u8]| word.eq_ignore_ascii_case(short) || word.eq_ignore_ascii_case(long);
        if is(b"SET", b"S") {
            self.set(skip_blank(rest)?)
        } else if is(b"KILL", b"K") {
            self.kill(skip_blank(rest)?, Extent::All)
        } else if is(b"KVALUE", b"KV") {
            self.kill(skip_blank(rest)?, Extent::Value)
        } else if is(b"KSUBSCRIPTS", b"KS") {
            self.kill(skip_blank(rest)?, Extent::Below)
        } else if is(b"MERGE", b"M") {
            let rest = self.first.read(skip_blank(rest)?)?;
            let rest = self.second.read(rest.strip_prefix(b"=")?)?;
            let fault = self.first.fault().or(self.second.fault());
            Some((Command::Access(Data::Merge(self.first.node(), self.second.node())), fault, rest))
        } else if is(b"LOCK", b"L") {
            self.lock(rest)
        } else if is(b"TSTART", b"TS") {
            Some((Command::Start, None, rest))
        } else if is(b"TCOMMIT", b"TC") {
            Some((Command::Commit, None, rest))
        } else if is(b"TROLLBACK", b"TRO") {
            Some((Command::Rollback, None, rest))
        } else if is(b"TRESTART", b"TRE") {
            Some((Command::Restart, None, rest))
        } else if is(b"HALT", b"H") {
            Some((Command::Halt, None, rest))
        } else {
            None
        }
    }

    fn set<'a>(&'a mut self, text: &'a [u8]) -> Read<'a> {
        let rest = self.first.read(text)?;
        let (value, rest) = literal(rest.strip_prefix(b"=")?)?;
        let value = value.value();
        let fault = self.first.fault().or(value_fault(&value));
        Some((Command::Access(Data::Set(self.first.node(), value)), fault, rest))
    }

    fn kill<'a>(&'a mut self, text: &'a [u8], extent: Extent) -> Read<'a> {
        let rest = self.first.read(text)?;
        Some((Command::Access(Data::Kill(self.first.node(), extent)), self.first.fault(), rest))
    }

    /// What follows the parenthesis of $INCREMENT.
    fn increment<'a>(&'a mut self, text: &'a [u8]) -> Read<'a> {
        let (addend, rest) = default(self.first.read(text)?)?;
        let addend = addend.unwrap_or(Cow::Borrowed(b"1"));
        Number::of(&addend)?;
        let fault = self.first.fault().or(value_fault(&addend));
        Some((Command::Access(Data::Increment(self.first.node(), addend)), fault, rest.strip_prefix(b")")?))
    }

    fn function<'a>(&'a mut self, word: &[u8], rest: &'a [u8]) -> Read<'a> {
        let is = |long: &[u8], short: &[u8]| word.eq_ignore_ascii_case(short) || word.eq_ignore_ascii_case(long);
        if is(b"TLEVEL", b"TL") {
            return Some((Command::Level, None, rest));
        } else if is(b"TRESTART", b"TR") {
            return Some((Command::Restarts, None, rest));
        } else if is(b"INCREMENT", b"I") {
            return self.increment(rest.strip_prefix(b"(")?);
        } else if let (true, [b'(', b'^', b'$', more @ ..]) = (is(b"ORDER", b"O"), rest) {
            return names(more);
        }
        let kind = [(&b"GET"[..], &b"G"[..]), (b"ORDER", b"O"), (b"DATA", b"D"), (b"QUERY", b"Q")]
            .iter()
            .find(|(long, short)| is(long, short))?
            .1[0];
        let rest = self.first.read(rest.strip_prefix(b"(")?)?;
        let (look, fault, rest) = match kind {
            b'D' => (Look::Data(self.first.node()), self.first.fault(), rest),
            b'G' => {
                let (default, rest) = default(rest)?;
                let fault = self.first.fault().or(default.as_deref().and_then(value_fault));
                (Look::Get(self.first.node(), default), fault, rest)
            }
            _ => {
                let (direction, rest) = direction(rest)?;
                let place = self.first.place();
                let look = if kind == b'O' { Look::Order(place, direction) } else { Look::Query(place, direction) };
                (look, self.first.place_fault(), rest)
            }
        };
        Some((Command::Access(Data::Look(look)), fault, rest.strip_prefix(b")")?))
    }

    fn lock<'a>(&'a mut self, text: &'a [u8]) -> Read<'a> {
        if past_blank(text).is_empty() {
            return Some((Command::Release, None, text));
        }
        let (form, rest) = match skip_blank(text)? {
            [b'+', rest @ ..] => (Form::More, rest),
            [b'-', rest @ ..] => (Form::Fewer, rest),
            rest => (Form::Only, rest),
        };
        let mut names = Vec::new();
        let mut fault = None;
        let rest = match rest {
            [b'(', more @ ..] => {
                let mut rest = self.lock_name(more, &mut names, &mut fault)?;
                while let [b',', more @ ..] = rest {
                    rest = self.lock_name(more, &mut names, &mut fault)?;
                }
                rest.strip_prefix(b")")?
            }
            _ => self.lock_name(rest, &mut names, &mut fault)?,
        };
        Some((Command::Lock(form, names), fault, past_timeout(rest)?))
    }

    fn lock_name<'t>(
        &mut self,
        text: &'t [u8],
        names: &mut Vec<Box<[u8]>>,
        fault: &mut Option<Refusal>,
    ) -> Option<&'t [u8]> {
        let (caret, named) = match text {
            [b'^', rest @ ..] => (1, rest),
            _ => (0, text),
        };
        self.first.bytes.clear();
        self.first.bytes.push(caret);
        let rest = self.first.read_named(named)?;
        *fault = fault.or(self.first.fault());
        names.push(self.first.lock_name());
        Some(rest)
    }
}

/// What follows the caret and the dollar sign of $ORDER of names.
fn names(text: &[u8]) -> Read<'_> {
    let (word, rest) = split_letters(text);
    if !(word.eq_ignore_ascii_case(b"GLOBAL") || word.eq_ignore_ascii_case(b"G")) {
        return None;
    }
    let (start, rest) = literal(rest.strip_prefix(b"(")?)?;
    let (direction, rest) = direction(rest.strip_prefix(b")")?)?;
    let start = start.value();
    let name = start.strip_prefix(b"^").filter(|name| is_word(name) && is_name(name) == Some(true));
    let fault = (name.is_none() && !start.is_empty()).then_some(Refusal::BadName);
    let look = Look::Name(name.map(|name| with_byte(name, 0)), direction);
    Some((Command::Access(Data::Look(look)), fault, rest.strip_prefix(b")")?))
}

/// Whether all bytes may stand in a name word.
fn is_word(text: &[u8]) -> bool {
    text.iter().all(|b| b.is_ascii_alphanumeric() || *b == b'%')
}

fn job_of(digits: &[u8]) -> Option<u16> {
    let number = digits.iter().fold(0_usize, |n, d| n.saturating_mul(10).saturating_add(usize::from(d - b'0')));
    (1..=MOST_JOBS).contains(&number).then_some(number as u16)
}

fn past_timeout(text: &[u8]) -> Option<&[u8]> {
    let [b':', more @ ..] = text else { return Some(text) };
    let (digits, rest) = split_digits(more);
    let [b'.', fraction @ ..] = rest else { return (1..=9).contains(&digits.len()).then_some(rest) };
    let (parts, rest) = split_digits(fraction);
    (digits.len() <= 9 && (1..=9).contains(&parts.len())).then_some(rest)
}

fn default(text: &[u8]) -> Option<(Option<Value<'_>>, &[u8])> {
    let [b',', more @ ..] = text else { return Some((None, text)) };
    let (default, rest) = literal(more)?;
    Some((Some(default.value()), rest))
}

fn direction(text: &[u8]) -> Option<(Direction, &[u8])> {
    let [b',', more @ ..] = text else { return Some((Direction::Forward, text)) };
    let (direction, rest) = literal(more)?;
    match direction.value().as_ref() {
        b"1" => Some((Direction::Forward, rest)),
        b"-1" => Some((Direction::Backward, rest)),
        _ => None,
    }
}
