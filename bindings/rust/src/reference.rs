//! References of a command to a currency, a thread or a target.

use crate::generated::EventKind;
use crate::{ffi, Name, Target};

/// A currency, by its name or by its number. A lookup by number reads one place of a table, one by name an index.
///
/// ```
/// use lot::{CurrencyRef, Name};
///
/// assert_eq!(CurrencyRef::from(3), CurrencyRef::Numbered(3));
/// assert_eq!(CurrencyRef::from(Name::BASE), CurrencyRef::Named(Name::BASE));
/// ```
#[derive(Clone, Copy, Debug, PartialEq, Eq, Hash)]
pub enum CurrencyRef {
    /// The currency with this name.
    Named(Name),
    /// The currency with this number; base has 0.
    Numbered(u32),
}

/// A thread, by its name or by its number. A lookup by number reads one place of a table, one by name an index.
#[derive(Clone, Copy, Debug, PartialEq, Eq, Hash)]
pub enum ThreadRef {
    /// The thread with this name.
    Named(Name),
    /// The thread with this number, from 1.
    Numbered(u32),
}

/// The target that a ticket gets, by its name or by its number. A lookup by number reads one place of a table, one by
/// name an index.
#[derive(Clone, Copy, Debug, PartialEq, Eq, Hash)]
pub enum TargetRef {
    /// The currency or thread with this name. No two have one name.
    Named(Name),
    /// The currency with this number; base has 0.
    Currency(u32),
    /// The thread with this number, from 1.
    Thread(u32),
}

impl CurrencyRef {
    /// An event with this currency: of kind `named` with its name, or of kind `numbered` with its number.
    pub(crate) fn event(self, named: EventKind, numbered: EventKind) -> ffi::Event {
        match self {
            CurrencyRef::Named(name) => ffi::Event { currency: name.raw(), ..named.event() },
            CurrencyRef::Numbered(object) => ffi::Event { object, ..numbered.event() },
        }
    }
}

impl ThreadRef {
    /// The event of the first kind if the thread is named, and of the second if it is numbered.
    pub(crate) fn event(self, named: EventKind, numbered: EventKind) -> ffi::Event {
        match self {
            ThreadRef::Named(name) => ffi::Event { name: name.raw(), ..named.event() },
            ThreadRef::Numbered(object) => ffi::Event { object, ..numbered.event() },
        }
    }
}

impl TargetRef {
    /// The event of the first kind if the target is named, and of the second or the third if it is a currency or a
    /// thread by its number.
    pub(crate) fn event(self, named: EventKind, currency: EventKind, thread: EventKind) -> ffi::Event {
        match self {
            TargetRef::Named(name) => ffi::Event { name: name.raw(), ..named.event() },
            TargetRef::Currency(object) => ffi::Event { object, ..currency.event() },
            TargetRef::Thread(object) => ffi::Event { object, ..thread.event() },
        }
    }
}

impl From<Name> for CurrencyRef {
    fn from(name: Name) -> CurrencyRef {
        CurrencyRef::Named(name)
    }
}

impl From<u32> for CurrencyRef {
    fn from(number: u32) -> CurrencyRef {
        CurrencyRef::Numbered(number)
    }
}

impl From<Name> for ThreadRef {
    fn from(name: Name) -> ThreadRef {
        ThreadRef::Named(name)
    }
}

impl From<u32> for ThreadRef {
    fn from(number: u32) -> ThreadRef {
        ThreadRef::Numbered(number)
    }
}

impl From<Name> for TargetRef {
    fn from(name: Name) -> TargetRef {
        TargetRef::Named(name)
    }
}

/// What a ticket's row says that it funds.
///
/// ```
/// use lot::{Target, TargetRef};
///
/// assert_eq!(TargetRef::from(Target::Thread(3)), TargetRef::Thread(3));
/// ```
impl From<Target> for TargetRef {
    fn from(target: Target) -> TargetRef {
        match target {
            Target::Currency(number) => TargetRef::Currency(number),
            Target::Thread(number) => TargetRef::Thread(number),
        }
    }
}
