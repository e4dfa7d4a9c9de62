#![doc = include_str!("../README.md")]
#![no_std]
#![warn(missing_docs)]
#![deny(unsafe_op_in_unsafe_fn)]

extern crate alloc;

mod error;
mod event;
mod ffi;
mod generated;
mod kernel;
mod lottery;
mod name;
mod numbers;
mod reference;
mod refusal;
mod reply;
mod rows;
mod settled;
mod sizes;

pub use error::Error;
pub use event::{Event, Listing};
pub use generated::{Action, Command, EventRefusal, Outcome, Reply, TrapRefusal};
pub use kernel::{Kernel, Meter, Replies, Runner};
pub use lottery::{weight, winner, Drawn, ParkMiller};
pub use name::Name;
pub use reference::{CurrencyRef, TargetRef, ThreadRef};
pub use refusal::{Refusal, Stopped};
pub use rows::{CurrencyRow, Status, Target, ThreadRow, TicketRow};
pub use settled::Settled;
pub use sizes::Sizes;

/// The version of the archive: the major number times 65536, the minor times 256, and the patch.
///
/// ```
/// assert_eq!(lot::version(), 0x00_04_00); // 0.4.0
/// ```
#[must_use]
pub fn version() -> u32 {
    // SAFETY: the call takes nothing.
    unsafe { ffi::lot_version() }
}
