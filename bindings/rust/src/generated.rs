//! Made by `bindings/write_tables` of `crates/lot_c/specs/Numbers.antt`.

use crate::numbers::numbered;
use crate::{ffi, CurrencyRef, Event, Listing, Name, TargetRef, ThreadRef};
use core::fmt;

numbered! {
    /// The statuses of calls.
    pub(crate) enum CallStatus {
        Done = 0,
        NoKernel = 1,
        KernelThere = 2,
        BadLimits = 3,
        NoMemory = 4,
        BadKind = 5,
        LongName = 6,
        BadName = 7,
        NotThere = 8,
        CountsDiffer = 9,
        BadSeed = 10,
        NoWinner = 11,
        TooLarge = 12,
        NotSettled = 13,
    }
}

numbered! {
    /// The kinds of events. A kind by number has the effect and the refusals of that by name.
    pub(crate) enum EventKind {
        MakeTicket = 1,
        RemoveTicket = 2,
        MakeCurrency = 3,
        RemoveCurrency = 4,
        Fund = 5,
        Unfund = 6,
        MakeThread = 7,
        MakeFunded = 8,
        ListTickets = 9,
        ListCurrencies = 10,
        ListThreads = 11,
        Draw = 12,
        Expire = 13,
        Yield = 14,
        Call = 15,
        Receive = 16,
        Reply = 17,
        Lock = 18,
        Unlock = 19,
        Exit = 20,
        Serve = 21,
        SetTicket = 22,
        RemoveThread = 23,
        Sleep = 24,
        Preempt = 25,
        Overrun = 26,
        Wake = 27,
        MakeTicketIn = 28,
        RemoveCurrencyNumbered = 29,
        FundCurrency = 30,
        FundThread = 31,
        RemoveThreadNumbered = 32,
        MakeFundedIn = 33,
        Kill = 34,
        KillNumbered = 35,
    }
}

numbered! {
    /// The kinds of replies, with the fields that each sets.
    pub(crate) enum ReplyKind {
        Ticket = 1,
        Currency = 2,
        Thread = 3,
        Funded = 4,
        Done = 5,
        ListTickets = 6,
        ListCurrencies = 7,
        ListThreads = 8,
        Winner = 9,
        Idle = 10,
        Expired = 11,
        Trapped = 12,
        Refused = 13,
    }
}

numbered! {
    /// The outcomes of traps, with the fields that each sets.
    pub(crate) enum OutcomeKind {
        Yielded = 1,
        ServedBy = 2,
        Queued = 3,
        Waits = 4,
        Received = 5,
        Replied = 6,
        Locked = 7,
        Freed = 8,
        Passed = 9,
        Exited = 10,
        Refused = 11,
        RepliedThenReceived = 12,
        RepliedThenWaits = 13,
        Slept = 14,
    }
}

numbered! {
    /// The reason why the kernel refuses an event. A refused event has changed nothing.
    ///
    /// The numbers are those of docs/FORMATS.md and of outputs. [`Command`] and [`Event`] list each event's checks in
    /// their order, and the first that fails is the refusal.
    pub enum EventRefusal {
        /// The kernel doesn't take such a name. For C and Python that is a status.
        BadName = 1,
        /// A currency or a thread, perhaps a dead one, has the name already. Removed ones don't count.
        NameTaken = 2,
        /// No currency has the name or the number.
        NoCurrency = 3,
        /// No ticket has the number.
        NoTicket = 4,
        /// No currency or thread has the name or the number.
        NoTarget = 5,
        /// The amount is 0 or above 4294967295.
        BadAmount = 6,
        /// Tickets are in it or fund it, or the thread has a client or owns a mutex.
        InUse = 7,
        /// The ticket funds something already.
        Funding = 8,
        /// The ticket funds nothing.
        NotFunding = 9,
        /// The funding would close a cycle of currencies.
        Cycle = 10,
        /// Base can be neither removed nor funded.
        BaseFixed = 11,
        /// The thread has ended.
        DeadThread = 12,
        /// The kernel has room for no more of them. `tickets`, `currencies` or `threads` of the sizes is reached,
        /// whichever the event adds to, by all ever made or, with `reuse`, by what exists.
        Full = 13,
        /// No script has the number.
        NoScript = 14,
        /// No thread has the name or the number. A dead one has both until it is removed.
        NoThread = 15,
        /// The thread hasn't ended. It may wait for good.
        Alive = 16,
        /// No processor has the number.
        BadProcessor = 20,
        /// A thread runs on the processor already.
        Busy = 21,
        /// No thread runs on the processor.
        NotRunning = 22,
        /// The ticks are more than the quantum has left, or than may be counted. A trap's own tick counts.
        BadTicks = 23,
        /// The thread doesn't sleep. It is ready, runs, waits or is dead.
        NotAsleep = 24,
    }
}

impl fmt::Display for EventRefusal {
    fn fmt(&self, f: &mut fmt::Formatter<'_>) -> fmt::Result {
        f.write_str(match self {
            EventRefusal::BadName => "the kernel doesn't take such a name",
            EventRefusal::NameTaken => "a currency or a thread, perhaps a dead one, has the name already",
            EventRefusal::NoCurrency => "no currency has the name or the number",
            EventRefusal::NoTicket => "no ticket has the number",
            EventRefusal::NoTarget => "no currency or thread has the name or the number",
            EventRefusal::BadAmount => "the amount is 0 or above 4294967295",
            EventRefusal::InUse => "tickets are in it or fund it, or the thread has a client or owns a mutex",
            EventRefusal::Funding => "the ticket funds something already",
            EventRefusal::NotFunding => "the ticket funds nothing",
            EventRefusal::Cycle => "the funding would close a cycle of currencies",
            EventRefusal::BaseFixed => "base can be neither removed nor funded",
            EventRefusal::DeadThread => "the thread has ended",
            EventRefusal::Full => "the kernel has room for no more of them",
            EventRefusal::NoScript => "no script has the number",
            EventRefusal::NoThread => "no thread has the name or the number",
            EventRefusal::Alive => "the thread hasn't ended",
            EventRefusal::BadProcessor => "no processor has the number",
            EventRefusal::Busy => "a thread runs on the processor already",
            EventRefusal::NotRunning => "no thread runs on the processor",
            EventRefusal::BadTicks => "the ticks are more than the quantum has left, or than may be counted",
            EventRefusal::NotAsleep => "the thread doesn't sleep",
        })
    }
}

numbered! {
    /// The reason why the kernel refuses a trap. The thread is charged the trap's ticks even so, and goes on unless
    /// its quantum is used up.
    ///
    /// The numbers are those of docs/FORMATS.md and of outputs. [`Action`] lists each trap's checks in their order,
    /// and the first that fails is the refusal.
    pub enum TrapRefusal {
        /// No port has the number.
        NoPort = 30,
        /// The thread serves no client.
        NothingToReply = 32,
        /// No mutex has the number.
        NoMutex = 33,
        /// The thread doesn't own the mutex.
        NotOwner = 34,
        /// The thread owns the mutex already.
        AlreadyOwner = 35,
        /// The wait would close a cycle of threads that wait for each other. Calls that are queued at a port don't
        /// count.
        LockCycle = 36,
    }
}

impl fmt::Display for TrapRefusal {
    fn fmt(&self, f: &mut fmt::Formatter<'_>) -> fmt::Result {
        f.write_str(match self {
            TrapRefusal::NoPort => "no port has the number",
            TrapRefusal::NothingToReply => "the thread serves no client",
            TrapRefusal::NoMutex => "no mutex has the number",
            TrapRefusal::NotOwner => "the thread doesn't own the mutex",
            TrapRefusal::AlreadyOwner => "the thread owns the mutex already",
            TrapRefusal::LockCycle => "the wait would close a cycle of threads that wait for each other",
        })
    }
}

numbered! {
    /// The statuses of threads, with the fields that each sets.
    pub(crate) enum StatusKind {
        Ready = 1,
        Running = 2,
        Receiving = 3,
        Queued = 4,
        Served = 5,
        Waiting = 6,
        Dead = 7,
        Asleep = 8,
    }
}

numbered! {
    /// What a ticket funds.
    pub(crate) enum TargetKind {
        None = 0,
        Currency = 1,
        Thread = 2,
    }
}

/// The reply to an event.
///
/// A refusal is a reply too. [`ok`](Reply::ok) turns it into an error.
#[derive(Clone, Copy, Debug, PartialEq, Eq, Hash)]
pub enum Reply {
    /// A ticket was made. The field is its number.
    Ticket(u32),
    /// A currency was made. The field is its number.
    Currency(u32),
    /// A thread was made. The field is its number.
    Thread(u32),
    /// A thread and the ticket that funds it were made.
    Funded {
        /// The ticket's number.
        ticket: u32,
        /// The thread's number.
        thread: u32,
    },
    /// The event is done.
    Done,
    /// A listing was requested. Read the rows one by one.
    List(Listing),
    /// A thread won the draw, and runs on the processor.
    Winner {
        /// Its number.
        thread: u32,
        /// The drawn number, below the total.
        number: u128,
        /// The sum of the weights, in base units.
        total: u128,
        /// The number sent to the thread while it waited, by a call or a reply.
        delivered: Option<u32>,
    },
    /// No ready thread has any weight, perhaps as values round to 0, and nothing has changed.
    Idle,
    /// A thread's quantum is over, or it was preempted, and it no longer runs.
    Expired {
        /// Its number.
        thread: u32,
        /// The ticks that it is charged.
        ticks: u32,
    },
    /// A thread made a trap.
    Trapped {
        /// Its number.
        thread: u32,
        /// The ticks that it ran since its last event, the trap's own included.
        ticks: u32,
        /// The trap's outcome.
        outcome: Outcome,
        /// Whether its quantum is used up, so that it no longer runs though the outcome would let it go on.
        ends: bool,
        /// Whether it runs on, since its outcome leaves it on its processor and its quantum isn't used up.
        goes_on: bool,
    },
    /// The event is refused, and has changed nothing. The field is the refusal.
    Refused(EventRefusal),
}

impl Reply {
    /// The one in the archive's form.
    pub(crate) fn of(reply: &ffi::Reply) -> Reply {
        match ReplyKind::of(reply.kind) {
            ReplyKind::Ticket => Reply::Ticket(reply.ticket),
            ReplyKind::Currency => Reply::Currency(reply.currency),
            ReplyKind::Thread => Reply::Thread(reply.thread),
            ReplyKind::Funded => Reply::Funded { ticket: reply.ticket, thread: reply.thread },
            ReplyKind::Done => Reply::Done,
            ReplyKind::ListTickets => Reply::List(Listing::Tickets),
            ReplyKind::ListCurrencies => Reply::List(Listing::Currencies),
            ReplyKind::ListThreads => Reply::List(Listing::Threads),
            ReplyKind::Winner => Reply::Winner {
                thread: reply.thread,
                number: reply.number.number(),
                total: reply.total.number(),
                delivered: reply.has_sent.then_some(reply.sent),
            },
            ReplyKind::Idle => Reply::Idle,
            ReplyKind::Expired => Reply::Expired { thread: reply.thread, ticks: reply.ticks },
            ReplyKind::Trapped => Reply::Trapped {
                thread: reply.thread,
                ticks: reply.ticks,
                outcome: Outcome::of(reply),
                ends: reply.ends,
                goes_on: reply.goes_on,
            },
            ReplyKind::Refused => Reply::Refused(EventRefusal::of(reply.reason)),
        }
    }
}

/// The outcome of a trap. The thread goes on, unless noted otherwise below or the reply says that its quantum `ends`.
/// The reply's `goes_on` combines both.
#[derive(Clone, Copy, Debug, PartialEq, Eq, Hash)]
pub enum Outcome {
    /// The thread gave up the rest of its quantum. It no longer runs.
    Yielded,
    /// The caller no longer runs. The field is the thread that serves the call.
    ServedBy(u32),
    /// The call waits for a server. The caller no longer runs.
    Queued,
    /// The thread waits for a call or for a mutex. It no longer runs.
    Waits,
    /// A call was taken.
    Received {
        /// The thread that called.
        client: u32,
        /// The number that it sent.
        number: u32,
    },
    /// A client got a reply. The field is the client.
    Replied(u32),
    /// The thread owns the mutex.
    Locked,
    /// The mutex is free.
    Freed,
    /// The mutex was passed on. The thread that unlocked it no longer runs.
    Passed {
        /// The new owner.
        to: u32,
        /// The number and the total of the lottery, if one was held: not if the waiters were worth nothing, so that
        /// the one that had waited longest got the mutex.
        draw: Option<(u64, u64)>,
    },
    /// The thread has ended.
    Exited,
    /// The trap is refused. It cost its ticks even so. The field is the refusal.
    Refused(TrapRefusal),
    /// A client got a reply, and then a call was taken.
    RepliedThenReceived {
        /// The client that got the reply.
        to: u32,
        /// The thread that called.
        client: u32,
        /// The number that it sent.
        number: u32,
    },
    /// The thread waits for a call. It no longer runs. The field is the client that got the reply.
    RepliedThenWaits(u32),
    /// The thread sleeps until it is woken. It no longer runs.
    Slept,
}

impl Outcome {
    /// The one in the archive's form.
    pub(crate) fn of(reply: &ffi::Reply) -> Outcome {
        match OutcomeKind::of(reply.outcome) {
            OutcomeKind::Yielded => Outcome::Yielded,
            OutcomeKind::ServedBy => Outcome::ServedBy(reply.other),
            OutcomeKind::Queued => Outcome::Queued,
            OutcomeKind::Waits => Outcome::Waits,
            OutcomeKind::Received => Outcome::Received { client: reply.other, number: reply.sent },
            OutcomeKind::Replied => Outcome::Replied(reply.other),
            OutcomeKind::Locked => Outcome::Locked,
            OutcomeKind::Freed => Outcome::Freed,
            OutcomeKind::Passed => Outcome::Passed {
                to: reply.other,
                draw: reply.has_draw.then_some((reply.number.low, reply.total.low)),
            },
            OutcomeKind::Exited => Outcome::Exited,
            OutcomeKind::Refused => Outcome::Refused(TrapRefusal::of(reply.reason)),
            OutcomeKind::RepliedThenReceived => {
                Outcome::RepliedThenReceived { to: reply.replied_to, client: reply.other, number: reply.sent }
            }
            OutcomeKind::RepliedThenWaits => Outcome::RepliedThenWaits(reply.replied_to),
            OutcomeKind::Slept => Outcome::Slept,
        }
    }
}

/// A command of the console. For each its refusals, [`EventRefusal`]s, are listed in the order of the checks: the
/// first check that fails is the refusal.
///
/// Give a currency or a thread by its name or by its number; effects and refusals are equal. But a name that the
/// kernel doesn't take ([`Sizes::plain_names`](crate::Sizes::plain_names)) is `BadName`, before all other checks.
#[derive(Clone, Copy, Debug, PartialEq, Eq, Hash)]
pub enum Command {
    /// Requests a listing.
    ///
    /// Reply: [`Reply::List`]. It is never refused.
    List(Listing),
    /// Makes a ticket of this amount, 1 to 4294967295, issued in the currency. It funds nothing yet.
    ///
    /// Reply: [`Reply::Ticket`]. Refusals: `BadAmount`, `NoCurrency`, `Full`.
    MakeTicket {
        /// 1 to 4294967295.
        amount: u64,
        /// The currency.
        currency: CurrencyRef,
    },
    /// Removes a ticket that funds nothing. Its number is used again only with `reuse`.
    ///
    /// Reply: [`Reply::Done`]. Refusals: `NoTicket`, `Funding`.
    RemoveTicket {
        /// The ticket's number, from 1.
        ticket: u32,
    },
    /// Makes a currency, with a name that neither a currency nor a thread has, a dead one included.
    ///
    /// Reply: [`Reply::Currency`]. Refusals: `NameTaken`, `Full`.
    MakeCurrency {
        /// Its name, which no currency and no thread has.
        name: Name,
    },
    /// Removes a currency other than base that issues no ticket and that no ticket funds.
    ///
    /// Reply: [`Reply::Done`]. Refusals: `NoCurrency`, `BaseFixed`, `InUse`.
    RemoveCurrency {
        /// The currency.
        currency: CurrencyRef,
    },
    /// Makes a ticket that funds nothing fund a currency other than base, or a thread that isn't dead.
    ///
    /// Reply: [`Reply::Done`]. Refusals: `NoTicket`, `NoTarget`, `BaseFixed`, `DeadThread`, `Funding`, `Cycle`.
    Fund {
        /// The ticket's number, from 1.
        ticket: u32,
        /// The currency or the thread to fund.
        target: TargetRef,
    },
    /// Takes away the target of a ticket that funds something.
    ///
    /// Reply: [`Reply::Done`]. Refusals: `NoTicket`, `NotFunding`.
    Unfund {
        /// The ticket's number, from 1.
        ticket: u32,
    },
    /// Makes a thread, with a name or without. It is ready, and nothing funds it yet. Its script, 1 to `scripts`, is a
    /// number that the kernel keeps for its caller.
    ///
    /// Reply: [`Reply::Thread`]. Refusals: `NameTaken`, `NoScript`, `Full`.
    MakeThread {
        /// Its name, or `None`. Any number of threads may have none, and their numbers refer to them.
        name: Option<Name>,
        /// The number of its script, from 1.
        script: u32,
    },
    /// Makes a thread, with a name or without, and a ticket of this amount, 1 to 4294967295, which is issued in the
    /// currency and funds the thread.
    ///
    /// Reply: [`Reply::Funded`]. Refusals: `BadAmount`, `NoCurrency`, `NameTaken`, `NoScript`, `Full`.
    MakeFunded {
        /// 1 to 4294967295.
        amount: u64,
        /// The currency.
        currency: CurrencyRef,
        /// Its name, or `None`. Any number of threads may have none, and their numbers refer to them.
        name: Option<Name>,
        /// The number of its script, from 1.
        script: u32,
    },
    /// Sets a ticket's amount, 1 to 4294967295, which counts at once: inflation and deflation (3.2). The ticket keeps
    /// its target.
    ///
    /// Reply: [`Reply::Done`]. Refusals: `BadAmount`, `NoTicket`.
    SetTicket {
        /// The ticket's number, from 1.
        ticket: u32,
        /// 1 to 4294967295.
        amount: u64,
    },
    /// Removes a dead thread that no ticket funds, and that has no client and owns no mutex. Its name may be used
    /// again, its number only with `reuse`.
    ///
    /// Reply: [`Reply::Done`]. Refusals: `NoThread`, `Alive`, `InUse`.
    RemoveThread {
        /// The thread.
        thread: ThreadRef,
    },
    /// Ends a thread, whatever its status. If it runs, its processor is idle then, and it is charged nothing more: to
    /// charge what it ran, preempt it first. Its clients are ready, with nothing delivered. Each of its mutexes passes
    /// to the thread that has waited longest for it. A thread that exits keeps its clients and its mutexes.
    ///
    /// Reply: [`Reply::Done`]. Refusals: `NoThread`, `DeadThread`.
    Kill {
        /// The thread.
        thread: ThreadRef,
    },
}

impl Command {
    /// The event in the archive's form, without the processor and the ticks of a trap.
    pub(crate) fn plain(&self) -> ffi::Event {
        match *self {
            Command::List(Listing::Tickets) => EventKind::ListTickets.event(),
            Command::List(Listing::Currencies) => EventKind::ListCurrencies.event(),
            Command::List(Listing::Threads) => EventKind::ListThreads.event(),
            Command::MakeTicket { amount, currency } => {
                ffi::Event { amount, ..currency.event(EventKind::MakeTicket, EventKind::MakeTicketIn) }
            }
            Command::RemoveTicket { ticket } => {
                ffi::Event { ticket: u64::from(ticket), ..EventKind::RemoveTicket.event() }
            }
            Command::MakeCurrency { name } => ffi::Event { name: name.raw(), ..EventKind::MakeCurrency.event() },
            Command::RemoveCurrency { currency } => {
                currency.event(EventKind::RemoveCurrency, EventKind::RemoveCurrencyNumbered)
            }
            Command::Fund { ticket, target } => ffi::Event {
                ticket: u64::from(ticket),
                ..target.event(EventKind::Fund, EventKind::FundCurrency, EventKind::FundThread)
            },
            Command::Unfund { ticket } => ffi::Event { ticket: u64::from(ticket), ..EventKind::Unfund.event() },
            Command::MakeThread { name, script } => {
                ffi::Event { script, name: Name::raw_of(name), ..EventKind::MakeThread.event() }
            }
            Command::MakeFunded { amount, currency, name, script } => ffi::Event {
                script,
                amount,
                name: Name::raw_of(name),
                ..currency.event(EventKind::MakeFunded, EventKind::MakeFundedIn)
            },
            Command::SetTicket { ticket, amount } => {
                ffi::Event { amount, ticket: u64::from(ticket), ..EventKind::SetTicket.event() }
            }
            Command::RemoveThread { thread } => thread.event(EventKind::RemoveThread, EventKind::RemoveThreadNumbered),
            Command::Kill { thread } => thread.event(EventKind::Kill, EventKind::KillNumbered),
        }
    }
}

/// The request of a running thread's trap. For each its refusals, [`TrapRefusal`]s, are listed in the order of the
/// checks.
///
/// Ports are numbered from 1 to [`Sizes::ports`](crate::Sizes::ports), mutexes likewise.
#[derive(Clone, Copy, Debug, PartialEq, Eq, Hash)]
pub enum Action {
    /// Gives up the processor. The thread is compensated for the rest of its quantum.
    ///
    /// Outcome: [`Outcome::Yielded`]. It is never refused.
    Yield,
    /// Sends a number to a port, and waits for the reply. The thread lends to the one that serves it; with
    /// `queued_lend` also, while its call is queued, to the one that took the last call at the port.
    ///
    /// Outcome: [`Outcome::ServedBy`] or [`Outcome::Queued`]. Refusals: `NoPort`.
    Call {
        /// The port's number, from 1.
        port: u32,
        /// The number to send, any 32 bits.
        number: u32,
    },
    /// Takes the call that has waited longest at a port, or waits for one.
    ///
    /// Outcome: [`Outcome::Received`] or [`Outcome::Waits`]. Refusals: `NoPort`.
    Receive {
        /// The port's number, from 1.
        port: u32,
    },
    /// Replies with a number to the client that the thread took first.
    ///
    /// Outcome: [`Outcome::Replied`]. Refusals: `NothingToReply`.
    Reply {
        /// The number to send, any 32 bits.
        number: u32,
    },
    /// Takes a mutex, or waits for it and lends to its owner.
    ///
    /// Outcome: [`Outcome::Locked`] or [`Outcome::Waits`]. Refusals: `NoMutex`, `AlreadyOwner`, `LockCycle`.
    Lock {
        /// The mutex's number, from 1.
        mutex: u32,
    },
    /// Frees a mutex, or passes it on to a waiter by a lottery with this number, any 128 bits.
    ///
    /// Outcome: [`Outcome::Freed`] or [`Outcome::Passed`]. Refusals: `NoMutex`, `NotOwner`.
    Unlock {
        /// The mutex's number, from 1.
        mutex: u32,
        /// The drawn number of the lottery, any 128 bits.
        number: u128,
    },
    /// Ends the thread. Its name, its mutexes, its clients and the tickets that fund it stay as they are.
    ///
    /// Outcome: [`Outcome::Exited`]. It is never refused.
    Exit,
    /// Replies with a number to the client that the thread took first, and then receives a call at a port or waits for
    /// one.
    ///
    /// Outcome: [`Outcome::RepliedThenReceived`] or [`Outcome::RepliedThenWaits`]. Refusals: `NoPort`,
    /// `NothingToReply`.
    Serve {
        /// The port's number, from 1.
        port: u32,
        /// The number to send, any 32 bits.
        number: u32,
    },
    /// Sleeps until a wake. The thread's tickets are inactive meanwhile; it keeps its mutexes and its clients, and is
    /// compensated for the rest of its quantum.
    ///
    /// Outcome: [`Outcome::Slept`]. It is never refused.
    Sleep,
}

impl Action {
    /// The event in the archive's form, without the processor and the ticks of a trap.
    pub(crate) fn plain(&self) -> ffi::Event {
        match *self {
            Action::Yield => EventKind::Yield.event(),
            Action::Call { port, number } => ffi::Event { object: port, sent: number, ..EventKind::Call.event() },
            Action::Receive { port } => ffi::Event { object: port, ..EventKind::Receive.event() },
            Action::Reply { number } => ffi::Event { sent: number, ..EventKind::Reply.event() },
            Action::Lock { mutex } => ffi::Event { object: mutex, ..EventKind::Lock.event() },
            Action::Unlock { mutex, number } => {
                ffi::Event { object: mutex, number: ffi::Wide::of(number), ..EventKind::Unlock.event() }
            }
            Action::Exit => EventKind::Exit.event(),
            Action::Serve { port, number } => ffi::Event { object: port, sent: number, ..EventKind::Serve.event() },
            Action::Sleep => EventKind::Sleep.event(),
        }
    }
}

/// The commands and the traps as events.
impl Event {
    /// [`Command::MakeTicket`].
    #[must_use]
    pub const fn make_ticket(amount: u64, currency: Name) -> Event {
        Event::Command(Command::MakeTicket { amount, currency: CurrencyRef::Named(currency) })
    }

    /// [`Command::RemoveTicket`].
    #[must_use]
    pub const fn remove_ticket(ticket: u32) -> Event {
        Event::Command(Command::RemoveTicket { ticket })
    }

    /// [`Command::MakeCurrency`].
    #[must_use]
    pub const fn make_currency(name: Name) -> Event {
        Event::Command(Command::MakeCurrency { name })
    }

    /// [`Command::RemoveCurrency`].
    #[must_use]
    pub const fn remove_currency(currency: Name) -> Event {
        Event::Command(Command::RemoveCurrency { currency: CurrencyRef::Named(currency) })
    }

    /// [`Command::Fund`].
    #[must_use]
    pub const fn fund(ticket: u32, target: Name) -> Event {
        Event::Command(Command::Fund { ticket, target: TargetRef::Named(target) })
    }

    /// [`Command::Unfund`].
    #[must_use]
    pub const fn unfund(ticket: u32) -> Event {
        Event::Command(Command::Unfund { ticket })
    }

    /// [`Command::MakeThread`].
    #[must_use]
    pub const fn make_thread(name: Option<Name>, script: u32) -> Event {
        Event::Command(Command::MakeThread { name, script })
    }

    /// [`Command::MakeFunded`].
    #[must_use]
    pub const fn make_funded(amount: u64, currency: Name, name: Option<Name>, script: u32) -> Event {
        Event::Command(Command::MakeFunded { amount, currency: CurrencyRef::Named(currency), name, script })
    }

    /// [`Command::SetTicket`].
    #[must_use]
    pub const fn set_ticket(ticket: u32, amount: u64) -> Event {
        Event::Command(Command::SetTicket { ticket, amount })
    }

    /// [`Command::RemoveThread`].
    #[must_use]
    pub const fn remove_thread(thread: Name) -> Event {
        Event::Command(Command::RemoveThread { thread: ThreadRef::Named(thread) })
    }

    /// The same as [`Command::MakeTicket`], given the number of the currency.
    #[must_use]
    pub const fn make_ticket_in(amount: u64, currency: u32) -> Event {
        Event::Command(Command::MakeTicket { amount, currency: CurrencyRef::Numbered(currency) })
    }

    /// The same as [`Command::RemoveCurrency`], given the number of the currency.
    #[must_use]
    pub const fn remove_currency_numbered(currency: u32) -> Event {
        Event::Command(Command::RemoveCurrency { currency: CurrencyRef::Numbered(currency) })
    }

    /// The same as [`Command::Fund`], given the number of the currency.
    #[must_use]
    pub const fn fund_currency(ticket: u32, currency: u32) -> Event {
        Event::Command(Command::Fund { ticket, target: TargetRef::Currency(currency) })
    }

    /// The same as [`Command::Fund`], given the number of the thread.
    #[must_use]
    pub const fn fund_thread(ticket: u32, thread: u32) -> Event {
        Event::Command(Command::Fund { ticket, target: TargetRef::Thread(thread) })
    }

    /// The same as [`Command::RemoveThread`], given the number of the thread.
    #[must_use]
    pub const fn remove_thread_numbered(thread: u32) -> Event {
        Event::Command(Command::RemoveThread { thread: ThreadRef::Numbered(thread) })
    }

    /// The same as [`Command::MakeFunded`], given the number of the currency.
    #[must_use]
    pub const fn make_funded_in(amount: u64, currency: u32, name: Option<Name>, script: u32) -> Event {
        Event::Command(Command::MakeFunded { amount, currency: CurrencyRef::Numbered(currency), name, script })
    }

    /// [`Command::Kill`].
    #[must_use]
    pub const fn kill(thread: Name) -> Event {
        Event::Command(Command::Kill { thread: ThreadRef::Named(thread) })
    }

    /// The same as [`Command::Kill`], given the number of the thread.
    #[must_use]
    pub const fn kill_numbered(thread: u32) -> Event {
        Event::Command(Command::Kill { thread: ThreadRef::Numbered(thread) })
    }

    /// [`Event::Trap`] of [`Action::Yield`].
    #[must_use]
    pub const fn yield_(processor: u32, ticks: u32) -> Event {
        Event::Trap { processor, ticks, action: Action::Yield }
    }

    /// [`Event::Trap`] of [`Action::Call`].
    #[must_use]
    pub const fn call(processor: u32, ticks: u32, port: u32, number: u32) -> Event {
        Event::Trap { processor, ticks, action: Action::Call { port, number } }
    }

    /// [`Event::Trap`] of [`Action::Receive`].
    #[must_use]
    pub const fn receive(processor: u32, ticks: u32, port: u32) -> Event {
        Event::Trap { processor, ticks, action: Action::Receive { port } }
    }

    /// [`Event::Trap`] of [`Action::Reply`].
    #[must_use]
    pub const fn reply(processor: u32, ticks: u32, number: u32) -> Event {
        Event::Trap { processor, ticks, action: Action::Reply { number } }
    }

    /// [`Event::Trap`] of [`Action::Lock`].
    #[must_use]
    pub const fn lock(processor: u32, ticks: u32, mutex: u32) -> Event {
        Event::Trap { processor, ticks, action: Action::Lock { mutex } }
    }

    /// [`Event::Trap`] of [`Action::Unlock`].
    #[must_use]
    pub const fn unlock(processor: u32, ticks: u32, mutex: u32, number: u128) -> Event {
        Event::Trap { processor, ticks, action: Action::Unlock { mutex, number } }
    }

    /// [`Event::Trap`] of [`Action::Exit`].
    #[must_use]
    pub const fn exit(processor: u32, ticks: u32) -> Event {
        Event::Trap { processor, ticks, action: Action::Exit }
    }

    /// [`Event::Trap`] of [`Action::Serve`].
    #[must_use]
    pub const fn serve(processor: u32, ticks: u32, port: u32, number: u32) -> Event {
        Event::Trap { processor, ticks, action: Action::Serve { port, number } }
    }

    /// [`Event::Trap`] of [`Action::Sleep`].
    #[must_use]
    pub const fn sleep(processor: u32, ticks: u32) -> Event {
        Event::Trap { processor, ticks, action: Action::Sleep }
    }
}
