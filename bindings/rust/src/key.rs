//! References, and the keys by which calls name nodes.

use crate::error::{done, Error};
use crate::literal::{read_reference, reference_of_key, write_literal};
use crate::raw::{self, RawKey};
use std::borrow::Cow;
use std::cell::RefCell;
use std::fmt;
use std::hash::{Hash, Hasher};
use std::str::FromStr;

/// What may be a subscript: its bytes are taken as they are, and a whole number's are its digits.
///
/// `1`, `"1"` and `b"1"` are one subscript, a number; `"01"` is a string.
pub trait Subscript {
    /// The subscript's bytes.
    fn bytes(&self) -> Cow<'_, [u8]>;
}

impl<T: Subscript + ?Sized> Subscript for &T {
    fn bytes(&self) -> Cow<'_, [u8]> {
        T::bytes(self)
    }
}

macro_rules! subscripts_as_they_are {
    ($($kind:ty),*) => {$(
        impl Subscript for $kind {
            fn bytes(&self) -> Cow<'_, [u8]> {
                Cow::Borrowed(self.as_ref())
            }
        }
    )*};
}

macro_rules! subscripts_by_digits {
    ($($kind:ty),*) => {$(
        impl Subscript for $kind {
            fn bytes(&self) -> Cow<'_, [u8]> {
                Cow::Owned(self.to_string().into_bytes())
            }
        }
    )*};
}

subscripts_as_they_are!(str, String, [u8], Vec<u8>);
subscripts_by_digits!(u8, u16, u32, u64, u128, usize, i8, i16, i32, i64, i128, isize);

impl<const LENGTH: usize> Subscript for [u8; LENGTH] {
    fn bytes(&self) -> Cow<'_, [u8]> {
        Cow::Borrowed(self)
    }
}

/// A name and subscripts, as of `^Account("ann",1)`: a plain value.
///
/// Nothing is looked at until a [`Key`] is made of it. It is written as in docs/FORMATS.md, and read by [`str::parse`]:
/// a number is taken in its canonic form, so `^A(01.50)` is `^A(1.5)`.
///
/// ```
/// use vorgushan::Reference;
///
/// let reference: Reference = r#"^Account("ann",01.50,"a""b"_$C(10))"#.parse()?;
/// assert_eq!(reference.name, "Account");
/// assert_eq!(reference.subscripts, [&b"ann"[..], b"1.5", b"a\"b\n"]);
/// assert_eq!(reference.to_string(), r#"^Account("ann",1.5,"a""b"_$C(10))"#);
/// # Ok::<(), vorgushan::Error>(())
/// ```
#[derive(Clone, Debug, PartialEq, Eq, Hash)]
pub struct Reference {
    /// The name, without its caret.
    pub name: String,
    /// The subscripts' bytes, from the first on.
    pub subscripts: Vec<Vec<u8>>,
}

impl Reference {
    /// The reference of a key's bytes, as the library copies them.
    pub(crate) fn of_key(bytes: &[u8]) -> Option<Reference> {
        reference_of_key(bytes).map(|(name, subscripts)| Reference { name, subscripts })
    }
}

impl FromStr for Reference {
    type Err = Error;

    /// [`Error::BadLine`] where the text is no reference.
    fn from_str(text: &str) -> Result<Reference, Error> {
        let (name, subscripts) = read_reference(text).ok_or(Error::BadLine)?;
        Ok(Reference { name, subscripts })
    }
}

impl fmt::Display for Reference {
    fn fmt(&self, to: &mut fmt::Formatter<'_>) -> fmt::Result {
        write!(to, "^{}", self.name)?;
        for (place, subscript) in self.subscripts.iter().enumerate() {
            to.write_str(if place == 0 { "(" } else { "," })?;
            write_literal(subscript, to)?;
        }
        to.write_str(if self.subscripts.is_empty() { "" } else { ")" })
    }
}

/// A reference that the library has looked at and spelled: what calls take, on any database.
///
/// It may be sent to another thread, which is proved of the library's keys; it can't be used by two threads at once.
/// Its memory is given back when it is dropped.
///
/// ```
/// use vorgushan::{Error, Key};
///
/// let accounts = Key::new("Account")?;
/// let ann = accounts.child("ann")?.child(1)?;
/// assert_eq!(ann, Key::parse(r#"^Account("ann",1)"#)?);
/// assert_eq!(ann.to_string(), r#"^Account("ann",1)"#);
/// assert_eq!(Key::new("5").unwrap_err(), Error::BadName);
/// # Ok::<(), Error>(())
/// ```
///
/// ```compile_fail
/// fn is_used_by_threads_at_once<T: Sync>() {}
/// is_used_by_threads_at_once::<vorgushan::Key>();
/// ```
pub struct Key {
    raw: RefCell<RawKey>,
    reference: Reference,
}

// SAFETY: the library may be handed a key by another thread than before, one call at a time (docs/LIBRARY.md, "Memory
// and threads"), and this is proved. A `Key` isn't `Sync`, so calls on it don't overlap. Safe Rust orders what a thread
// did with a key before what the next one does, and a key has no atomics, so that order is enough. The rest is `Send`.
unsafe impl Send for Key {}

impl Key {
    /// The key of a name without subscripts and without its caret, as `Account`.
    ///
    /// [`BadName`](Error::BadName), [`OutOfMemory`](Error::OutOfMemory).
    pub fn new(name: &str) -> Result<Key, Error> {
        Key::of(Reference { name: name.to_string(), subscripts: Vec::new() })
    }

    /// The key of a reference.
    ///
    /// [`BadName`](Error::BadName), [`TooManySubscripts`](Error::TooManySubscripts),
    /// [`EmptySubscript`](Error::EmptySubscript), [`SubscriptTooLong`](Error::SubscriptTooLong),
    /// [`OutOfMemory`](Error::OutOfMemory); [`OtherVersion`](Error::OtherVersion) as of every key.
    pub fn of(reference: Reference) -> Result<Key, Error> {
        check_version()?;
        let mut spelled = RawKey::none();
        done(raw::key_spell(&mut spelled, reference.name.as_bytes(), &reference.subscripts))?;
        Ok(Key { raw: RefCell::new(spelled), reference })
    }

    /// The key of a name and subscripts of one kind.
    ///
    /// ```
    /// # use vorgushan::Key;
    /// assert_eq!(Key::spell("Account", ["ann", "1"])?, Key::parse(r#"^Account("ann",1)"#)?);
    /// # Ok::<(), vorgushan::Error>(())
    /// ```
    ///
    /// Errors as of [`of`](Key::of).
    pub fn spell(name: &str, subscripts: impl IntoIterator<Item = impl Subscript>) -> Result<Key, Error> {
        let subscripts = subscripts.into_iter().map(|subscript| subscript.bytes().into_owned()).collect();
        Key::of(Reference { name: name.to_string(), subscripts })
    }

    /// The key of a reference's text, as `^Account("ann",1)`.
    ///
    /// [`BadLine`](Error::BadLine) where it is no reference; else errors as of [`of`](Key::of).
    pub fn parse(text: &str) -> Result<Key, Error> {
        Key::of(text.parse()?)
    }

    /// The key of one subscript below this key.
    ///
    /// Errors as of [`of`](Key::of).
    pub fn child(&self, subscript: impl Subscript) -> Result<Key, Error> {
        let mut reference = self.reference.clone();
        reference.subscripts.push(subscript.bytes().into_owned());
        Key::of(reference)
    }

    /// Adds a subscript at the end of this key.
    ///
    /// Errors as of [`of`](Key::of); then the key is as it was.
    pub fn push(&mut self, subscript: impl Subscript) -> Result<(), Error> {
        let bytes = subscript.bytes().into_owned();
        done(raw::key_subscript(self.raw.get_mut(), &bytes))?;
        self.reference.subscripts.push(bytes);
        Ok(())
    }

    /// The same key once more. [`OutOfMemory`](Error::OutOfMemory).
    pub fn try_clone(&self) -> Result<Key, Error> {
        Key::of(self.reference.clone())
    }

    /// The key's name and subscripts.
    pub fn reference(&self) -> &Reference {
        &self.reference
    }

    /// The library's part alone.
    pub(crate) fn into_raw(self) -> RawKey {
        self.raw.into_inner()
    }

    /// The same key where the library's part was moved to another reference.
    pub(crate) fn moved_to(self, reference: Reference) -> Key {
        Key { reference, ..self }
    }

    /// Lends the library's part for a call.
    pub(crate) fn with<T>(&self, call: impl FnOnce(&mut RawKey) -> T) -> T {
        call(&mut self.raw.borrow_mut())
    }
}

/// The calls that are declared here are those of one version of the library.
pub(crate) fn check_version() -> Result<(), Error> {
    match raw::vorgushan_version() {
        raw::VERSION => Ok(()),
        other => Err(Error::OtherVersion(other)),
    }
}

impl FromStr for Key {
    type Err = Error;

    fn from_str(text: &str) -> Result<Key, Error> {
        Key::parse(text)
    }
}

impl fmt::Display for Key {
    fn fmt(&self, to: &mut fmt::Formatter<'_>) -> fmt::Result {
        self.reference.fmt(to)
    }
}

impl fmt::Debug for Key {
    fn fmt(&self, to: &mut fmt::Formatter<'_>) -> fmt::Result {
        write!(to, "Key({self})")
    }
}

impl PartialEq for Key {
    fn eq(&self, other: &Key) -> bool {
        self.reference == other.reference
    }
}

impl Eq for Key {}

impl Hash for Key {
    fn hash<H: Hasher>(&self, to: &mut H) {
        self.reference.hash(to);
    }
}
