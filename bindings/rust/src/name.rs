//! Names of currencies and threads.

use crate::{ffi, Error};
use core::borrow::Borrow;
use core::fmt;
use core::hash::{Hash, Hasher};
use core::str::FromStr;

/// A name of a currency or a thread: a letter a to z, followed by letters a to z, digits, `_` or `-`, 1 to 16 bytes in
/// all. [`Name::plain`] also makes others, which only kernels with [`Sizes::plain_names`](crate::Sizes::plain_names)
/// take. Names compare, sort and hash as their texts do.
///
/// ```
/// use lot::{Error, Name};
///
/// let name: Name = "web-server".parse()?;
/// assert_eq!(name, "web-server");
/// assert_eq!(Name::try_from(&b"web-server"[..])?, name);
/// assert_eq!(Name::new("Web"), Err(Error::BadName));
/// assert_eq!(Name::plain("Web")?, "Web");
/// # Ok::<(), lot::Error>(())
/// ```
// The bytes after the name are 0, and no name contains a 0. So the derived order, by bytes first, is that of the texts.
#[derive(Clone, Copy, PartialEq, Eq, PartialOrd, Ord)]
pub struct Name {
    bytes: [u8; 16],
    length: u8,
}

impl Name {
    /// The name of the base currency, which every kernel has: `base`.
    pub const BASE: Name = Name { bytes: *b"base\0\0\0\0\0\0\0\0\0\0\0\0", length: 4 };

    /// The name with this text.
    ///
    /// # Errors
    ///
    /// [`Error::LongName`] if the text has more than 16 bytes, otherwise [`Error::BadName`] if it isn't a valid name.
    pub fn new(text: &str) -> Result<Name, Error> {
        Name::try_from(text.as_bytes())
    }

    /// The name with this text, which may have any printable ASCII but the space: 1 to 16 bytes, each 33 to 126. Kernels
    /// with [`Sizes::plain_names`](crate::Sizes::plain_names) take it. Others do if [`Name::new`] takes the text, and
    /// otherwise refuse it with [`EventRefusal::BadName`](crate::EventRefusal::BadName).
    ///
    /// ```
    /// use lot::{Error, Name};
    ///
    /// assert_eq!(Name::plain("Job#1")?, "Job#1");
    /// assert_eq!(Name::plain("web")?, Name::new("web")?);
    /// assert_eq!(Name::plain("a job"), Err(Error::BadName));
    /// # Ok::<(), lot::Error>(())
    /// ```
    ///
    /// # Errors
    ///
    /// [`Error::LongName`] if the text has more than 16 bytes, otherwise [`Error::BadName`] if it has none, or one that
    /// isn't such ASCII.
    pub fn plain(text: &str) -> Result<Name, Error> {
        Name::read(text.as_bytes(), ffi::lot_plain_name_new)
    }

    /// The text of the name.
    #[must_use]
    pub fn as_str(&self) -> &str {
        text_of(&self.bytes[..usize::from(self.length)])
    }

    /// A name that the archive made or checked.
    pub(crate) fn of(name: ffi::Name) -> Name {
        let length = u8::try_from(name.length).expect("a name of at most 16 bytes");
        Name { bytes: name.bytes, length }
    }

    /// The same, or `None` for a name without bytes, which the archive has where there is no name.
    pub(crate) fn of_any(name: ffi::Name) -> Option<Name> {
        (name.length != 0).then(|| Name::of(name))
    }

    /// The name in the archive's form.
    pub(crate) fn raw(self) -> ffi::Name {
        ffi::Name { length: u32::from(self.length), bytes: self.bytes }
    }

    /// The name of a new thread in the archive's form: no bytes for none.
    pub(crate) fn raw_of(name: Option<Name>) -> ffi::Name {
        name.map_or_else(ffi::Name::default, Name::raw)
    }

    /// The name with these bytes, if this call of the archive takes them.
    fn read(bytes: &[u8], call: ffi::NewName) -> Result<Name, Error> {
        let mut name = ffi::Name::default();
        // SAFETY: the pointer and the count are those of one slice, and `name` is whole and apart from it.
        ffi::done(unsafe { call(bytes.as_ptr(), bytes.len(), &mut name) })?;
        Ok(Name::of(name))
    }
}

fn text_of(bytes: &[u8]) -> &str {
    core::str::from_utf8(bytes).expect("a name is ASCII")
}

impl TryFrom<&[u8]> for Name {
    type Error = Error;

    fn try_from(bytes: &[u8]) -> Result<Name, Error> {
        Name::read(bytes, ffi::lot_name_new)
    }
}

impl TryFrom<&str> for Name {
    type Error = Error;

    fn try_from(text: &str) -> Result<Name, Error> {
        Name::new(text)
    }
}

impl FromStr for Name {
    type Err = Error;

    fn from_str(text: &str) -> Result<Name, Error> {
        Name::new(text)
    }
}

impl AsRef<str> for Name {
    fn as_ref(&self) -> &str {
        self.as_str()
    }
}

/// Lets a map whose keys are names be looked up by text.
impl Borrow<str> for Name {
    fn borrow(&self) -> &str {
        self.as_str()
    }
}

impl Hash for Name {
    fn hash<H: Hasher>(&self, state: &mut H) {
        self.as_str().hash(state);
    }
}

impl PartialEq<str> for Name {
    fn eq(&self, text: &str) -> bool {
        self.as_str() == text
    }
}

impl PartialEq<&str> for Name {
    fn eq(&self, text: &&str) -> bool {
        self.as_str() == *text
    }
}

impl fmt::Display for Name {
    fn fmt(&self, f: &mut fmt::Formatter<'_>) -> fmt::Result {
        f.pad(self.as_str())
    }
}

impl fmt::Debug for Name {
    fn fmt(&self, f: &mut fmt::Formatter<'_>) -> fmt::Result {
        fmt::Debug::fmt(self.as_str(), f)
    }
}
