//! What the enums of the archive's numbers have in common. `bindings/write_tables` makes these, in `generated.rs`.

use crate::ffi;
use crate::generated::{EventKind, EventRefusal, TrapRefusal};

/// Defines an enum whose variants have these numbers, and the conversion from a number to its variant.
macro_rules! numbered {
    (
        $(#[$outer:meta])*
        $visibility:vis enum $name:ident { $($(#[$inner:meta])* $variant:ident = $number:literal,)+ }
    ) => {
        $(#[$outer])*
        #[derive(Clone, Copy, Debug, PartialEq, Eq, Hash)]
        $visibility enum $name {
            $($(#[$inner])* $variant = $number,)+
        }

        impl $name {
            /// The variant with this number. The archive has no others.
            #[allow(dead_code)] // The kinds of events go to the archive, and never come back.
            pub(crate) fn of(number: u32) -> $name {
                match number {
                    $($number => $name::$variant,)+
                    other => unreachable!("a {} {other}", stringify!($name)),
                }
            }
        }
    };
}

pub(crate) use numbered;

impl EventKind {
    /// An event of this kind, with all other fields 0.
    pub(crate) fn event(self) -> ffi::Event {
        ffi::Event { kind: self as u32, ..ffi::Event::default() }
    }
}

/// The number of a refusal, which is that of its variant.
macro_rules! number {
    ($($name:ident),+) => {
        $(impl $name {
            /// Its number in docs/FORMATS.md and in outputs.
            #[must_use]
            pub const fn number(self) -> u32 {
                self as u32
            }
        })+
    };
}

number!(EventRefusal, TrapRefusal);
