//! Rows of listings.

use crate::generated::{StatusKind, TargetKind};
use crate::{ffi, Name};

/// What a ticket funds, by its number. It is also a [`TargetRef`](crate::TargetRef).
#[derive(Clone, Copy, Debug, PartialEq, Eq, Hash)]
pub enum Target {
    /// The currency with this number, from 1.
    Currency(u32),
    /// The thread with this number, from 1.
    Thread(u32),
}

/// A ticket as a listing shows it.
#[derive(Clone, Copy, Debug, PartialEq, Eq, Hash)]
pub struct TicketRow {
    /// Its amount, 1 to 4294967295.
    pub amount: u32,
    /// The currency that issues it.
    pub issuer: Name,
    /// What it funds. `None` if it funds nothing.
    pub target: Option<Target>,
    /// The name of what it funds. `None` if it funds nothing, or a thread without a name.
    pub target_name: Option<Name>,
    /// Whether it is active: a chain of tickets and lends leads from it to a thread that competes or runs.
    pub is_active: bool,
    /// Its value, in base units. 0 if it is inactive.
    pub value: u64,
}

/// A currency as a listing shows it.
#[derive(Clone, Copy, Debug, PartialEq, Eq, Hash)]
pub struct CurrencyRow {
    /// Its name.
    pub name: Name,
    /// The number of tickets that fund it, active or not.
    pub backing: u32,
    /// The number of tickets that it issues, active or not.
    pub issued: u32,
    /// The sum of the amounts of its active issued tickets.
    pub active_amount: u64,
    /// Its value, in base units.
    pub value: u64,
}

/// The status of a thread.
#[derive(Clone, Copy, Debug, PartialEq, Eq, Hash)]
pub enum Status {
    /// It competes in draws.
    Ready,
    /// It runs.
    Running {
        /// The processor's number, from 1.
        processor: u32,
        /// The ticks of its quantum that it has used, below the quantum.
        used: u32,
    },
    /// It waits for a call at the port with this number.
    Receiving(u32),
    /// Its call waits at the port with this number.
    Queued(u32),
    /// The thread with this number serves it.
    Served(u32),
    /// It waits for the mutex with this number.
    Waiting(u32),
    /// It sleeps until it is woken.
    Asleep,
    /// It has ended.
    Dead,
}

/// A thread as a listing shows it.
#[derive(Clone, Copy, Debug, PartialEq, Eq, Hash)]
pub struct ThreadRow {
    /// Its name. `None` if it has none.
    pub name: Option<Name>,
    /// Its status.
    pub status: Status,
    /// Its value, including what others lend to it, in base units.
    pub value: u64,
    /// Its weight in a draw, in base units.
    pub weight: u128,
    /// The draws that it has won.
    pub quanta: u64,
    /// The total of ticks that it has run.
    pub ticks: u64,
}

impl Target {
    fn of(row: &ffi::TicketRow) -> Option<Target> {
        match TargetKind::of(row.target_kind) {
            TargetKind::None => None,
            TargetKind::Currency => Some(Target::Currency(row.target_number)),
            TargetKind::Thread => Some(Target::Thread(row.target_number)),
        }
    }
}

impl TicketRow {
    pub(crate) fn of(row: ffi::TicketRow) -> TicketRow {
        TicketRow {
            amount: row.amount,
            issuer: Name::of(row.issuer),
            target: Target::of(&row),
            target_name: Name::of_any(row.target),
            is_active: row.is_active,
            value: row.value,
        }
    }
}

impl CurrencyRow {
    pub(crate) fn of(row: ffi::CurrencyRow) -> CurrencyRow {
        CurrencyRow {
            name: Name::of(row.name),
            backing: row.backing,
            issued: row.issued,
            active_amount: row.active_amount,
            value: row.value,
        }
    }
}

impl Status {
    fn of(status: ffi::Status) -> Status {
        match StatusKind::of(status.kind) {
            StatusKind::Ready => Status::Ready,
            StatusKind::Running => Status::Running { processor: status.processor, used: status.used },
            StatusKind::Receiving => Status::Receiving(status.other),
            StatusKind::Queued => Status::Queued(status.other),
            StatusKind::Served => Status::Served(status.other),
            StatusKind::Waiting => Status::Waiting(status.other),
            StatusKind::Asleep => Status::Asleep,
            StatusKind::Dead => Status::Dead,
        }
    }
}

impl ThreadRow {
    pub(crate) fn of(row: ffi::ThreadRow) -> ThreadRow {
        ThreadRow {
            name: Name::of_any(row.name),
            status: Status::of(row.status),
            value: row.value,
            weight: row.weight.number(),
            quanta: row.quanta,
            ticks: row.ticks,
        }
    }
}
