//! The events of a kernel.

use crate::generated::EventKind;
use crate::{ffi, Action, Command};

/// The kind of rows in a listing. Read the rows one by one, with [`Kernel::ticket_row`](crate::Kernel::ticket_row) or
/// the like.
#[derive(Clone, Copy, Debug, PartialEq, Eq, Hash)]
pub enum Listing {
    /// Tickets.
    Tickets,
    /// Currencies.
    Currencies,
    /// Threads.
    Threads,
}

/// One event. There is a function for each kind, so that `Event::draw(1, 9)` is
/// `Event::Draw { processor: 1, number: 9 }`.
///
/// For each its refusals, [`EventRefusal`](crate::EventRefusal)s, are listed in the order of the checks. Processors are
/// numbered from 1 to [`Sizes::processors`](crate::Sizes::processors).
///
/// ```
/// use lot::{Action, Command, Event, Name, TargetRef};
///
/// let alice: Name = "alice".parse()?;
/// assert_eq!(Event::fund(1, alice), Event::Command(Command::Fund { ticket: 1, target: alice.into() }));
/// let fund = Event::fund_thread(1, 3);
/// assert_eq!(fund, Event::Command(Command::Fund { ticket: 1, target: TargetRef::Thread(3) }));
/// assert_eq!(Event::draw(1, 9), Event::Draw { processor: 1, number: 9 });
/// let lock = Event::lock(1, 20, 2);
/// assert_eq!(lock, Event::Trap { processor: 1, ticks: 20, action: Action::Lock { mutex: 2 } });
/// # Ok::<(), lot::Error>(())
/// ```
#[derive(Clone, Copy, Debug, PartialEq, Eq, Hash)]
pub enum Event {
    /// A command of the console, with the refusals listed there.
    Command(Command),
    /// A draw by an idle processor. Reply: [`Reply::Winner`](crate::Reply::Winner) or
    /// [`Reply::Idle`](crate::Reply::Idle).
    ///
    /// Refusals: `BadProcessor`, `Busy`.
    Draw {
        /// The processor's number, from 1.
        processor: u32,
        /// A drawn number, any 128 bits. The kernel takes it modulo the sum of the weights.
        number: u128,
    },
    /// The end of the quantum of the thread that runs on a processor. The rest of the quantum counts as used.
    /// Reply: [`Reply::Expired`](crate::Reply::Expired).
    ///
    /// Refusals: `BadProcessor`, `NotRunning`.
    Expire {
        /// The processor's number, from 1.
        processor: u32,
    },
    /// A trap of the thread that runs on a processor. Reply: [`Reply::Trapped`](crate::Reply::Trapped), even if its
    /// request is refused with a [`TrapRefusal`](crate::TrapRefusal).
    ///
    /// Refusals: `BadProcessor`, `NotRunning`, `BadTicks`.
    Trap {
        /// The processor's number, from 1.
        processor: u32,
        /// The ticks of work before the trap, which itself costs one tick more. Together they must fit in the rest of
        /// the quantum.
        ticks: u32,
        /// Its request.
        action: Action,
    },
    /// The preemption of the thread that runs on a processor, before its quantum's end. The thread becomes ready, is
    /// charged the ticks that it ran, and isn't compensated. Reply: [`Reply::Expired`](crate::Reply::Expired).
    ///
    /// Refusals: `BadProcessor`, `NotRunning`, `BadTicks`.
    Preempt {
        /// The processor's number, from 1.
        processor: u32,
        /// The ticks of work since the thread's last event, at most the rest of the quantum.
        ticks: u32,
    },
    /// The end of the quantum of the thread that runs on a processor, some ticks late. The rest of the quantum and
    /// the late ticks count as used. Until the thread next wins a draw, its weight is its value times the quantum,
    /// divided by the sum of the quantum and the late ticks, but at least 1 if its value is. With 0 late ticks this
    /// is [`Event::Expire`]. Reply: [`Reply::Expired`](crate::Reply::Expired).
    ///
    /// Refusals: `BadProcessor`, `NotRunning`, `BadTicks`.
    Overrun {
        /// The processor's number, from 1.
        processor: u32,
        /// The late ticks. Their sum with the quantum is at most 4294967295.
        late: u32,
    },
    /// The wake of a sleeping thread: it is ready, with the compensation from when it went to sleep. Reply:
    /// [`Reply::Done`](crate::Reply::Done).
    ///
    /// Refusals: `NoThread`, `NotAsleep`.
    Wake {
        /// The thread's number, from 1.
        thread: u32,
    },
}

/// A function for each kind of event. See the variants for effects, ranges and refusals. For a currency or a thread
/// given by its name and by its number there are separate functions.
///
/// A ticket of a currency by its number:
///
/// ```
/// use lot::{Event, Kernel, Name, Reply, Sizes};
///
/// let mut kernel = Kernel::new(Sizes::default())?;
/// let made = kernel.event(&Event::make_currency("alice".parse()?)).ok()?;
/// let Reply::Currency(alice) = made else { unreachable!("a currency is made") };
/// let ticket = kernel.event(&Event::make_ticket_in(7, alice)).ok()?;
/// assert_eq!(ticket, Reply::Ticket(1));
/// assert_eq!(kernel.ticket_row(1).map(|row| row.issuer), Some("alice".parse()?));
/// # Ok::<(), Box<dyn std::error::Error>>(())
/// ```
///
/// A thread without a name:
///
/// ```
/// use lot::{Event, Kernel, Name, Reply, Sizes, Target};
///
/// let mut kernel = Kernel::new(Sizes::default())?;
/// kernel.event(&Event::make_funded(10, Name::BASE, Some("first".parse()?), 1)).ok()?;
/// // A thread without a name has its number, like any other.
/// let made = kernel.event(&Event::make_funded(5, Name::BASE, None, 1)).ok()?;
/// assert_eq!(made, Reply::Funded { ticket: 2, thread: 2 });
/// let names: Vec<_> = kernel.threads().map(|(_, row)| row.name).collect();
/// assert_eq!(names, [Some("first".parse()?), None]);
/// assert_eq!(kernel.ticket_row(2).and_then(|row| row.target), Some(Target::Thread(2)));
/// kernel.event(&Event::kill_numbered(2)).ok()?;
/// # Ok::<(), Box<dyn std::error::Error>>(())
/// ```
///
/// A sleep and a wake:
///
/// ```
/// use lot::{Event, Kernel, Name, Reply, Sizes, Status};
///
/// let mut kernel = Kernel::new(Sizes::default())?;
/// let made = Event::make_funded(10, Name::BASE, Some("driver".parse()?), 1);
/// kernel.run(&[made, Event::draw(1, 0), Event::sleep(1, 49)])?;
/// assert_eq!(kernel.thread_row(1).map(|row| row.status), Some(Status::Asleep));
/// assert_eq!(kernel.event(&Event::draw(1, 0)), Reply::Idle);
/// kernel.event(&Event::wake(1)).ok()?;
/// // It used half of its quantum of 100 ticks, so it weighs twice its value.
/// let winner = Reply::Winner { thread: 1, number: 19, total: 20, delivered: None };
/// assert_eq!(kernel.event(&Event::draw(1, 19)), winner);
/// # Ok::<(), Box<dyn std::error::Error>>(())
/// ```
///
/// A kill of a thread that runs:
///
/// ```
/// use lot::{Event, Kernel, Name, Reply, Sizes, Status};
///
/// let mut kernel = Kernel::new(Sizes::default())?;
/// let stuck = "stuck".parse()?;
/// kernel.run(&[Event::make_funded(10, Name::BASE, Some(stuck), 1), Event::draw(1, 0)])?;
/// // It ran 30 ticks, for which it is charged: it is preempted, and then killed.
/// kernel.run(&[Event::preempt(1, 30), Event::kill(stuck)])?;
/// let row = kernel.thread_row(1).expect("its row stays until it is removed");
/// assert_eq!((row.status, row.ticks), (Status::Dead, 30));
/// assert_eq!(kernel.event(&Event::draw(1, 0)), Reply::Idle);
/// # Ok::<(), Box<dyn std::error::Error>>(())
/// ```
impl Event {
    /// [`Command::List`].
    #[must_use]
    pub const fn list(listing: Listing) -> Event {
        Event::Command(Command::List(listing))
    }

    /// [`Event::Draw`].
    #[must_use]
    pub const fn draw(processor: u32, number: u128) -> Event {
        Event::Draw { processor, number }
    }

    /// [`Event::Expire`].
    #[must_use]
    pub const fn expire(processor: u32) -> Event {
        Event::Expire { processor }
    }

    /// [`Event::Trap`].
    #[must_use]
    pub const fn trap(processor: u32, ticks: u32, action: Action) -> Event {
        Event::Trap { processor, ticks, action }
    }

    /// [`Event::Preempt`].
    #[must_use]
    pub const fn preempt(processor: u32, ticks: u32) -> Event {
        Event::Preempt { processor, ticks }
    }

    /// [`Event::Overrun`].
    ///
    /// ```
    /// use lot::{Event, Kernel, Name, Reply, Sizes};
    ///
    /// let mut kernel = Kernel::new(Sizes::default())?;
    /// let made = Event::make_funded(10, Name::BASE, Some("slow".parse()?), 1);
    /// kernel.run(&[made, Event::draw(1, 0)])?;
    /// // The quantum is 100 ticks: it ran for twice as many, and so it weighs half.
    /// assert_eq!(kernel.event(&Event::overrun(1, 100)), Reply::Expired { thread: 1, ticks: 200 });
    /// assert_eq!(kernel.thread_row(1).map(|row| row.weight), Some(5));
    /// # Ok::<(), Box<dyn std::error::Error>>(())
    /// ```
    #[must_use]
    pub const fn overrun(processor: u32, late: u32) -> Event {
        Event::Overrun { processor, late }
    }

    /// [`Event::Wake`].
    #[must_use]
    pub const fn wake(thread: u32) -> Event {
        Event::Wake { thread }
    }
}

impl From<Command> for Event {
    fn from(command: Command) -> Event {
        Event::Command(command)
    }
}

impl Event {
    /// The event in the archive's form.
    pub(crate) fn plain(&self) -> ffi::Event {
        match self {
            Event::Command(command) => command.plain(),
            Event::Draw { processor, number } => {
                ffi::Event { processor: *processor, number: ffi::Wide::of(*number), ..EventKind::Draw.event() }
            }
            Event::Expire { processor } => ffi::Event { processor: *processor, ..EventKind::Expire.event() },
            Event::Trap { processor, ticks, action } => {
                ffi::Event { processor: *processor, ticks: *ticks, ..action.plain() }
            }
            Event::Preempt { processor, ticks } => {
                ffi::Event { processor: *processor, ticks: *ticks, ..EventKind::Preempt.event() }
            }
            Event::Overrun { processor, late } => {
                ffi::Event { processor: *processor, ticks: *late, ..EventKind::Overrun.event() }
            }
            Event::Wake { thread } => ffi::Event { object: *thread, ..EventKind::Wake.event() },
        }
    }
}
