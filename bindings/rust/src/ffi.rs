//! The archive's calls and structs, as declared in `bindings/c/lot.h`.
//!
//! `lot_kernel_run` is left out: it goes on after a refused event, and `Kernel::run` doesn't.

use crate::generated::CallStatus;
use crate::{Error, Meter, Runner};
use core::ffi::c_void;
use core::mem::{align_of, size_of};

#[repr(C)]
#[derive(Clone, Copy, Default)]
pub struct Name {
    pub length: u32,
    pub bytes: [u8; 16],
}

#[repr(C)]
#[derive(Clone, Copy, Default)]
pub struct Wide {
    pub low: u64,
    pub high: u64,
}

impl Wide {
    // The cast keeps the low half, as intended.
    #[allow(clippy::cast_possible_truncation)]
    pub fn of(number: u128) -> Wide {
        Wide { low: number as u64, high: (number >> 64) as u64 }
    }

    pub fn number(self) -> u128 {
        u128::from(self.high) << 64 | u128::from(self.low)
    }
}

/// A handle of a kernel.
#[repr(C)]
pub struct Handle {
    pub at: *mut c_void,
}

#[repr(C)]
#[derive(Clone, Copy, Default)]
pub struct Sizes {
    pub tickets: u32,
    pub currencies: u32,
    pub threads: u32,
    pub ports: u32,
    pub mutexes: u32,
    pub processors: u32,
    pub scripts: u32,
    pub quantum: u32,
    pub unit: u32,
    pub reuse: u32,
    pub plain_names: u32,
    pub queued_lend: u32,
}

#[repr(C)]
#[derive(Clone, Copy, Default)]
pub struct Event {
    pub kind: u32,
    pub processor: u32,
    pub ticks: u32,
    pub object: u32,
    pub sent: u32,
    pub script: u32,
    pub number: Wide,
    pub amount: u64,
    pub ticket: u64,
    pub currency: Name,
    pub name: Name,
}

#[repr(C)]
#[derive(Clone, Copy, Default)]
pub struct Reply {
    pub number: Wide,
    pub total: Wide,
    pub kind: u32,
    pub reason: u32,
    pub ticket: u32,
    pub currency: u32,
    pub thread: u32,
    pub ticks: u32,
    pub outcome: u32,
    pub other: u32,
    pub replied_to: u32,
    pub sent: u32,
    pub has_sent: bool,
    pub has_draw: bool,
    pub ends: bool,
    pub goes_on: bool,
}

#[repr(C)]
#[derive(Clone, Copy, Default)]
pub struct TicketRow {
    pub value: u64,
    pub amount: u32,
    pub issuer: Name,
    pub target: Name,
    pub target_kind: u32,
    pub target_number: u32,
    pub has_target: bool,
    pub is_active: bool,
}

#[repr(C)]
#[derive(Clone, Copy, Default)]
pub struct CurrencyRow {
    pub active_amount: u64,
    pub value: u64,
    pub backing: u32,
    pub issued: u32,
    pub name: Name,
}

#[repr(C)]
#[derive(Clone, Copy, Default)]
pub struct Status {
    pub kind: u32,
    pub processor: u32,
    pub used: u32,
    pub other: u32,
}

#[repr(C)]
#[derive(Clone, Copy, Default)]
pub struct ThreadRow {
    pub weight: Wide,
    pub value: u64,
    pub quanta: u64,
    pub ticks: u64,
    pub status: Status,
    pub name: Name,
}

#[repr(C)]
#[derive(Clone, Copy, Default)]
pub struct Generator {
    pub value: u32,
}

#[repr(C)]
#[derive(Clone, Copy, Default)]
pub struct Drawn {
    pub number: Wide,
    pub total: Wide,
    pub place: u64,
}

// The sizes in lot.h of the structs of one call, and of those that have grown.
const _: () = assert!(size_of::<Event>() == 96 && size_of::<Reply>() == 80);
const _: () = assert!(size_of::<Sizes>() == 48 && size_of::<TicketRow>() == 64);

// A `u128` lies in memory as a `Wide` does, so a slice of them crosses as it is.
const _: () = assert!(cfg!(target_endian = "little") && size_of::<Wide>() == size_of::<u128>());
const _: () = assert!(align_of::<Wide>() <= align_of::<u128>());

/// A call that stores the name with these bytes, if it takes them.
pub type NewName = unsafe extern "C" fn(bytes: *const u8, count: usize, name: *mut Name) -> u32;

extern "C" {
    pub fn lot_version() -> u32;
    pub fn lot_name_new(bytes: *const u8, count: usize, name: *mut Name) -> u32;
    pub fn lot_plain_name_new(bytes: *const u8, count: usize, name: *mut Name) -> u32;
    pub fn lot_kernel_new(sizes: *const Sizes, kernel: *mut Handle) -> u32;
    pub fn lot_kernel_bytes(sizes: *const Sizes, bytes: *mut u64) -> u32;
    pub fn lot_kernel_free(kernel: *mut Handle) -> u32;
    pub fn lot_kernel_event(kernel: *mut Handle, event: *const Event, reply: *mut Reply) -> u32;
    pub fn lot_kernel_ticket_row(kernel: *mut Handle, ticket: u32, row: *mut TicketRow) -> u32;
    pub fn lot_kernel_currency_row(kernel: *mut Handle, currency: u32, row: *mut CurrencyRow) -> u32;
    pub fn lot_kernel_thread_row(kernel: *mut Handle, thread: u32, row: *mut ThreadRow) -> u32;
    pub fn lot_kernel_settle(kernel: *mut Handle) -> u32;
    pub fn lot_kernel_settled_ticket_row(kernel: *const Handle, ticket: u32, row: *mut TicketRow) -> u32;
    pub fn lot_kernel_settled_currency_row(kernel: *const Handle, currency: u32, row: *mut CurrencyRow) -> u32;
    pub fn lot_kernel_settled_thread_row(kernel: *const Handle, thread: u32, row: *mut ThreadRow) -> u32;
    pub fn lot_kernel_runner(kernel: *const Handle, processor: u32, runner: *mut Runner) -> u32;
    pub fn lot_kernel_script_of(kernel: *const Handle, thread: u32, script: *mut u32) -> u32;
    pub fn lot_kernel_ticket_count(kernel: *const Handle, count: *mut u32) -> u32;
    pub fn lot_kernel_currency_count(kernel: *const Handle, count: *mut u32) -> u32;
    pub fn lot_kernel_limits(kernel: *const Handle, sizes: *mut Sizes) -> u32;
    pub fn lot_kernel_meter(kernel: *const Handle, meter: *mut Meter) -> u32;
    pub fn lot_generator_new(seed: u32, generator: *mut Generator) -> u32;
    pub fn lot_generator_next(generator: *mut Generator, value: *mut u32) -> u32;
    pub fn lot_generator_number(generator: *mut Generator, number: *mut u64) -> u32;
    pub fn lot_generator_wide_number(generator: *mut Generator, number: *mut Wide) -> u32;
    pub fn lot_weight(value: u64, compensation: u32, quantum: u32, weight: *mut Wide);
    pub fn lot_winner(weights: *const Wide, count: usize, number: *const Wide, drawn: *mut Drawn) -> u32;
}

/// The result of a call with this status, for a call whose only statuses are `Done` and those of [`Error`].
pub fn done(status: u32) -> Result<(), Error> {
    let status = CallStatus::of(status);
    if let Some(error) = Error::of(status) {
        return Err(error);
    }
    assert_eq!(status, CallStatus::Done, "a status that this call of the archive never has");
    Ok(())
}

/// Whether the status is that of a name that the kernel doesn't take.
pub fn is_bad_name(status: u32) -> bool {
    status == CallStatus::BadName as u32
}

/// Checks the status of a call that cannot fail with the arguments that this crate passes.
pub fn must_be_done(status: u32) {
    assert_eq!(CallStatus::of(status), CallStatus::Done, "a call of the archive that cannot fail");
}

/// The value that the call stored, or `None` if its status is that nothing is there.
pub fn if_there<T>(status: u32, found: T) -> Option<T> {
    if CallStatus::of(status) == CallStatus::NotThere {
        return None;
    }
    must_be_done(status);
    Some(found)
}
