//! Failures of calls.

use crate::generated::CallStatus;
use core::fmt;

/// The failure of a call. A failed call has changed nothing.
///
/// A refused event is no failure of the call: the refusal is in the [`Reply`](crate::Reply).
#[derive(Clone, Copy, Debug, PartialEq, Eq, Hash)]
#[non_exhaustive]
pub enum Error {
    /// A size of the kernel is out of the bounds given in [`Sizes`](crate::Sizes).
    BadLimits,
    /// Out of memory.
    NoMemory,
    /// A name has more than 16 bytes.
    LongName,
    /// A name is empty, or has a byte that such a name may not have: [`Name::new`](crate::Name::new) takes a letter a to
    /// z followed by letters a to z, digits, `_` or `-`, and [`Name::plain`](crate::Name::plain) any printable ASCII but
    /// the space.
    BadName,
    /// A generator's seed is 0 or above 2147483646.
    BadSeed,
    /// Weights sum to 2 ^ 128 or more.
    TooLarge,
}

impl Error {
    /// The failure for a status, or `None` for `Done`, and for statuses that are results or that no call here can
    /// return.
    pub(crate) fn of(status: CallStatus) -> Option<Error> {
        match status {
            CallStatus::BadLimits => Some(Error::BadLimits),
            CallStatus::NoMemory => Some(Error::NoMemory),
            CallStatus::LongName => Some(Error::LongName),
            CallStatus::BadName => Some(Error::BadName),
            CallStatus::BadSeed => Some(Error::BadSeed),
            CallStatus::TooLarge => Some(Error::TooLarge),
            _ => None,
        }
    }
}

impl fmt::Display for Error {
    fn fmt(&self, f: &mut fmt::Formatter<'_>) -> fmt::Result {
        f.write_str(match self {
            Error::BadLimits => "a size of the kernel is out of its bounds",
            Error::NoMemory => "the system gave no memory",
            Error::LongName => "the name has more than 16 bytes",
            Error::BadName => "the name is empty, or has a byte that names may not have",
            Error::BadSeed => "the seed is 0 or above 2147483646",
            Error::TooLarge => "the weights sum to 2 ^ 128 or more",
        })
    }
}

impl core::error::Error for Error {}
