//! The kernel.

use crate::{ffi, CurrencyRow, Error, Event, EventRefusal, Reply, Settled, Sizes, Stopped, ThreadRow, TicketRow};
use alloc::vec::Vec;
use core::cell::UnsafeCell;
use core::fmt;
use core::iter::FusedIterator;
use core::ptr::null_mut;
use core::slice;

/// A thread that runs on a processor.
#[repr(C)]
#[derive(Clone, Copy, Debug, PartialEq, Eq, Hash)]
pub struct Runner {
    /// The thread's number, from 1.
    pub thread: u32,
    /// The ticks of its quantum that it has used, below the quantum.
    pub used: u32,
}

/// A kernel's counts of its own work since it was made.
#[repr(C)]
#[derive(Clone, Copy, Debug, PartialEq, Eq, Hash)]
pub struct Meter {
    /// The number of tickets, lends and owners read to compute values.
    pub ticket_reads: u64,
    /// The number of places of the tree of weights that draws visited.
    pub tree_visits: u64,
}

/// A lottery-scheduled kernel. [`Kernel::new`] allocates all its memory, and dropping it frees that.
///
/// It may move to another thread. Threads that share one need a lock around it, such as a `Mutex`, since rows recompute
/// stale values inside. Or they read it at once, after [`Kernel::settle`].
///
/// ```compile_fail,E0277
/// fn needs_sync<T: Sync>() {}
/// needs_sync::<lot::Kernel>();
/// ```
///
/// ```
/// fn needs_sync<T: Sync>() {}
/// needs_sync::<std::sync::Mutex<lot::Kernel>>();
/// ```
pub struct Kernel {
    // Rows have `&self`, but the archive's rows take a mutable pointer, since they recompute stale values. So the
    // kernel changes behind a shared reference, which only an `UnsafeCell` allows.
    handle: UnsafeCell<ffi::Handle>,
}

// SAFETY: lot.h lets a kernel move from one thread to another, and different kernels share nothing. It isn't `Sync`:
// no other call may overlap one for a row.
unsafe impl Send for Kernel {}

const _: () = {
    const fn needs_send<T: Send>() {}
    needs_send::<Kernel>();
};

impl Kernel {
    /// Makes a kernel with base alone. This allocates all the memory that it will ever use: 11 kilobytes for 16
    /// threads, 4.3 megabytes at the largest sizes, with `reuse` 4 bytes more for each ticket, currency and thread, and
    /// with `queued_lend` 97 more for each port. [`Kernel::bytes`] returns the number for any sizes.
    ///
    /// ```
    /// use lot::{Error, Kernel, Sizes};
    ///
    /// let kernel = Kernel::new(Sizes { processors: 4, ..Sizes::default() })?;
    /// assert_eq!(kernel.sizes().processors, 4);
    /// assert_eq!(Kernel::new(Sizes { processors: 65, ..Sizes::default() }).err(), Some(Error::BadLimits));
    /// # Ok::<(), lot::Error>(())
    /// ```
    ///
    /// # Errors
    ///
    /// [`Error::BadLimits`] if a size is out of its bounds, otherwise [`Error::NoMemory`] if out of memory.
    pub fn new(sizes: Sizes) -> Result<Kernel, Error> {
        let mut handle = ffi::Handle { at: null_mut() };
        // SAFETY: both are whole and apart, and the handle holds no kernel.
        ffi::done(unsafe { ffi::lot_kernel_new(&sizes.plain(), &mut handle) })?;
        Ok(Kernel { handle: UnsafeCell::new(handle) })
    }

    /// The total of bytes that [`Kernel::new`] requests from the system for these sizes, in at most 49 blocks.
    ///
    /// ```
    /// use lot::{Error, Kernel, Sizes};
    ///
    /// assert!(Kernel::bytes(Sizes::default())? < 16 * 1024);
    /// assert_eq!(Kernel::bytes(Sizes { threads: 4097, ..Sizes::default() }), Err(Error::BadLimits));
    /// # Ok::<(), lot::Error>(())
    /// ```
    ///
    /// # Errors
    ///
    /// [`Error::BadLimits`] if a size is out of its bounds.
    pub fn bytes(sizes: Sizes) -> Result<u64, Error> {
        let mut bytes = 0;
        // SAFETY: both are whole and apart.
        ffi::done(unsafe { ffi::lot_kernel_bytes(&sizes.plain(), &mut bytes) })?;
        Ok(bytes)
    }

    /// Makes one event, and returns the kernel's reply. It allocates nothing.
    ///
    /// A refused event has changed nothing, and a refused trap nothing except its thread's ticks. Only the reply
    /// tells of a refusal, and [`Reply::ok`] turns it into an error:
    ///
    /// ```
    /// use lot::{Event, Kernel, Name, Reply, Sizes};
    ///
    /// let mut kernel = Kernel::new(Sizes::default())?;
    /// kernel.event(&Event::make_funded(10, Name::BASE, Some("first".parse()?), 1)).ok()?;
    /// let reply = kernel.event(&Event::draw(1, 9)).ok()?;
    /// assert_eq!(reply, Reply::Winner { thread: 1, number: 9, total: 10, delivered: None });
    /// # Ok::<(), Box<dyn std::error::Error>>(())
    /// ```
    ///
    /// The compiler warns about an unused reply, or rejects it if the caller denies the warning:
    ///
    /// ```compile_fail
    /// #![deny(unused_must_use)]
    /// let mut kernel = lot::Kernel::new(lot::Sizes::default()).unwrap();
    /// kernel.event(&lot::Event::expire(1)); // refused: nobody runs
    /// ```
    // `must_use` is on the call and not on the type `Reply`: otherwise `event(..).ok()?;`, which checks, would warn
    // too.
    #[must_use = "only the reply tells if the event was refused, and who is to run"]
    pub fn event(&mut self, event: &Event) -> Reply {
        let mut reply = ffi::Reply::default();
        // SAFETY: for the handle see `here`; the event and the reply are whole, and the three are apart.
        let status = unsafe { ffi::lot_kernel_event(self.here(), &event.plain(), &mut reply) };
        if ffi::is_bad_name(status) {
            return Reply::Refused(EventRefusal::BadName);
        }
        ffi::must_be_done(status);
        Reply::of(&reply)
    }

    /// Makes events in order, up to the first that is refused, and returns the replies.
    ///
    /// ```
    /// use lot::{Event, EventRefusal, Kernel, Name, Refusal, Sizes};
    ///
    /// let mut kernel = Kernel::new(Sizes::default())?;
    /// let make = Event::make_funded(10, Name::BASE, Some("first".parse()?), 1);
    /// let stopped = kernel.run(&[make, make, Event::draw(1, 9)]).unwrap_err();
    /// assert_eq!(stopped.done(), 1);
    /// assert_eq!(stopped.refusal, Refusal::Event(EventRefusal::NameTaken));
    /// # Ok::<(), lot::Error>(())
    /// ```
    ///
    /// # Errors
    ///
    /// [`Stopped`] if an event or a trap is refused: it has the replies before, and so the number of events made, the
    /// refused one's reply, and the refusal. The events after it aren't made.
    pub fn run(&mut self, events: &[Event]) -> Result<Vec<Reply>, Stopped> {
        let mut replies = Vec::with_capacity(events.len());
        for reply in self.replies(events) {
            if let Some(refusal) = reply.refusal() {
                return Err(Stopped { replies, reply, refusal });
            }
            replies.push(reply);
        }
        Ok(replies)
    }

    /// Makes events in order, each when the iterator is asked for its reply, and continues after refused ones.
    ///
    /// ```
    /// use lot::{Event, EventRefusal, Kernel, Reply, Sizes};
    ///
    /// let mut kernel = Kernel::new(Sizes::default())?;
    /// let replies: Vec<Reply> = kernel.replies(&[Event::expire(1), Event::draw(1, 0)]).collect();
    /// assert_eq!(replies, [Reply::Refused(EventRefusal::NotRunning), Reply::Idle]);
    /// # Ok::<(), lot::Error>(())
    /// ```
    pub fn replies<'a>(&'a mut self, events: &'a [Event]) -> Replies<'a> {
        Replies { kernel: self, events: events.iter() }
    }

    /// The row of the ticket with this number, from 1. `None` if there is none, or if it was removed.
    #[must_use]
    pub fn ticket_row(&self, ticket: u32) -> Option<TicketRow> {
        let mut row = ffi::TicketRow::default();
        // SAFETY: for the handle see `here`; the row is whole and apart from it.
        let status = unsafe { ffi::lot_kernel_ticket_row(self.here(), ticket, &mut row) };
        ffi::if_there(status, row).map(TicketRow::of)
    }

    /// The row of the currency with this number; base has 0. `None` if there is none, or if it was removed.
    #[must_use]
    pub fn currency_row(&self, currency: u32) -> Option<CurrencyRow> {
        let mut row = ffi::CurrencyRow::default();
        // SAFETY: for the handle see `here`; the row is whole and apart from it.
        let status = unsafe { ffi::lot_kernel_currency_row(self.here(), currency, &mut row) };
        ffi::if_there(status, row).map(CurrencyRow::of)
    }

    /// The row of the thread with this number, from 1. `None` if there is none, or if it was removed. A thread that has
    /// ended has a row until it is removed.
    ///
    /// ```
    /// use lot::{Event, Kernel, Name, Runner, Sizes, Status};
    ///
    /// let mut kernel = Kernel::new(Sizes::default())?;
    /// kernel.event(&Event::make_funded(10, Name::BASE, Some("first".parse()?), 1)).ok()?;
    /// kernel.event(&Event::draw(2, 9)).ok()?;
    /// let row = kernel.thread_row(1).expect("it was made");
    /// assert_eq!((row.name, row.status), (Some("first".parse()?), Status::Running { processor: 2, used: 0 }));
    /// assert_eq!(kernel.runner(2), Some(Runner { thread: 1, used: 0 }));
    /// assert_eq!(kernel.thread_row(2), None);
    /// # Ok::<(), Box<dyn std::error::Error>>(())
    /// ```
    #[must_use]
    pub fn thread_row(&self, thread: u32) -> Option<ThreadRow> {
        let mut row = ffi::ThreadRow::default();
        // SAFETY: for the handle see `here`; the row is whole and apart from it.
        let status = unsafe { ffi::lot_kernel_thread_row(self.here(), thread, &mut row) };
        ffi::if_there(status, row).map(ThreadRow::of)
    }

    /// The existing tickets with their numbers, in ascending order.
    pub fn tickets(&self) -> impl Iterator<Item = (u32, TicketRow)> + '_ {
        (1..=self.ticket_count()).filter_map(|ticket| Some((ticket, self.ticket_row(ticket)?)))
    }

    /// The existing currencies with their numbers, in ascending order. The first is base, 0.
    pub fn currencies(&self) -> impl Iterator<Item = (u32, CurrencyRow)> + '_ {
        (0..self.currency_count()).filter_map(|currency| Some((currency, self.currency_row(currency)?)))
    }

    /// The existing threads with their numbers, in ascending order. They include threads that have ended, until these
    /// are removed.
    ///
    /// ```
    /// use lot::{Event, Kernel, Name, Sizes};
    ///
    /// let mut kernel = Kernel::new(Sizes::default())?;
    /// kernel.event(&Event::make_funded(10, Name::BASE, Some("first".parse()?), 1)).ok()?;
    /// kernel.event(&Event::make_funded(5, Name::BASE, Some("second".parse()?), 1)).ok()?;
    /// let values: Vec<u64> = kernel.threads().map(|(_, row)| row.value).collect();
    /// assert_eq!(values, [10, 5]);
    /// # Ok::<(), Box<dyn std::error::Error>>(())
    /// ```
    pub fn threads(&self) -> impl Iterator<Item = (u32, ThreadRow)> + '_ {
        (1..=self.sizes().threads).filter_map(|thread| Some((thread, self.thread_row(thread)?)))
    }

    /// Recomputes all stale values, and returns the settled kernel: threads may share it, and read its rows at once.
    ///
    /// ```
    /// use lot::{Event, Kernel, Name, Sizes};
    /// use std::thread;
    ///
    /// let mut kernel = Kernel::new(Sizes::default())?;
    /// kernel.event(&Event::make_funded(10, Name::BASE, None, 1)).ok()?;
    /// kernel.event(&Event::make_funded(5, Name::BASE, None, 1)).ok()?;
    /// let settled = kernel.settle();
    /// let values = thread::scope(|scope| {
    ///     let value = |thread| move || settled.thread_row(thread).map(|row| row.value);
    ///     [1, 2].map(|thread| scope.spawn(value(thread))).map(|read| read.join().expect("no panic"))
    /// });
    /// assert_eq!(values, [Some(10), Some(5)]);
    /// # Ok::<(), Box<dyn std::error::Error>>(())
    /// ```
    pub fn settle(&mut self) -> Settled<'_> {
        // SAFETY: for the handle see `here`.
        ffi::must_be_done(unsafe { ffi::lot_kernel_settle(self.here()) });
        Settled::of(self)
    }

    /// The thread that runs on the processor with this number, from 1. `None` if it is idle or there is no such
    /// processor.
    #[must_use]
    pub fn runner(&self, processor: u32) -> Option<Runner> {
        let mut runner = Runner { thread: 0, used: 0 };
        // SAFETY: for the handle see `here`; the runner is whole and apart from it.
        let status = unsafe { ffi::lot_kernel_runner(self.here(), processor, &mut runner) };
        ffi::if_there(status, runner)
    }

    /// The number of the thread's script, fixed when it was made. `None` if there is no such thread.
    #[must_use]
    pub fn script_of(&self, thread: u32) -> Option<u32> {
        let mut script = 0;
        // SAFETY: for the handle see `here`; the number is whole and apart from it.
        let status = unsafe { ffi::lot_kernel_script_of(self.here(), thread, &mut script) };
        ffi::if_there(status, script)
    }

    /// The number of tickets ever made, including removed ones; one that got a number again doesn't count. They are
    /// numbered from 1 to this number.
    #[must_use]
    pub fn ticket_count(&self) -> u32 {
        let mut count = 0;
        // SAFETY: for the handle see `here`; the number is whole and apart from it.
        ffi::must_be_done(unsafe { ffi::lot_kernel_ticket_count(self.here(), &mut count) });
        count
    }

    /// The number of currencies ever made, including base and removed ones; one that got a number again doesn't count.
    /// They are numbered from 0 to one below this number.
    #[must_use]
    pub fn currency_count(&self) -> u32 {
        let mut count = 0;
        // SAFETY: for the handle see `here`; the number is whole and apart from it.
        ffi::must_be_done(unsafe { ffi::lot_kernel_currency_count(self.here(), &mut count) });
        count
    }

    /// The sizes with which the kernel was made.
    #[must_use]
    pub fn sizes(&self) -> Sizes {
        let mut sizes = ffi::Sizes::default();
        // SAFETY: for the handle see `here`; the sizes are whole and apart from it.
        ffi::must_be_done(unsafe { ffi::lot_kernel_limits(self.here(), &mut sizes) });
        Sizes::of(&sizes)
    }

    /// The kernel's counts of its own work. Rows count too, where they recompute stale values.
    #[must_use]
    pub fn meter(&self) -> Meter {
        let mut meter = Meter { ticket_reads: 0, tree_visits: 0 };
        // SAFETY: for the handle see `here`; the meter is whole and apart from it.
        ffi::must_be_done(unsafe { ffi::lot_kernel_meter(self.here(), &mut meter) });
        meter
    }

    /// The handle, for one call of the archive: it is whole, holds a kernel from `new` to `drop`, and there is never a
    /// reference to it. No two calls overlap, since the kernel isn't `Sync` and no call comes back into this crate.
    pub(crate) fn here(&self) -> *mut ffi::Handle {
        self.handle.get()
    }
}

impl Drop for Kernel {
    fn drop(&mut self) {
        // SAFETY: `here` says it of the handle, and this is the last call with it.
        unsafe { ffi::lot_kernel_free(self.here()) };
    }
}

impl fmt::Debug for Kernel {
    fn fmt(&self, f: &mut fmt::Formatter<'_>) -> fmt::Result {
        f.debug_struct("Kernel").field("sizes", &self.sizes()).finish_non_exhaustive()
    }
}

/// An iterator over the replies to events, made by [`Kernel::replies`]. It makes each event when it is asked for the
/// reply.
#[derive(Debug)]
#[must_use = "an event is given only when its reply is asked for"]
pub struct Replies<'a> {
    kernel: &'a mut Kernel,
    events: slice::Iter<'a, Event>,
}

impl Iterator for Replies<'_> {
    type Item = Reply;

    fn next(&mut self) -> Option<Reply> {
        let event = self.events.next()?;
        Some(self.kernel.event(event))
    }

    fn size_hint(&self) -> (usize, Option<usize>) {
        self.events.size_hint()
    }
}

impl ExactSizeIterator for Replies<'_> {}
impl FusedIterator for Replies<'_> {}
