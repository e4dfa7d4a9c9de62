//! The sizes of a kernel.

use crate::ffi;

/// The sizes of a kernel. It never grows.
///
/// The default is enough for a first try: 64 tickets, 16 currencies and 16 threads, 2 ports, 2 mutexes, 2 processors,
/// 1 script, a quantum of 100 ticks and a unit of 1; no number is given again, there are no plain names, and queued
/// calls lend nothing.
///
/// ```
/// use lot::Sizes;
///
/// let sizes = Sizes { threads: 500, tickets: 1000, ..Sizes::default() };
/// assert_eq!((sizes.processors, sizes.quantum), (2, 100));
/// ```
#[derive(Clone, Copy, Debug, PartialEq, Eq, Hash)]
pub struct Sizes {
    /// The largest number of tickets ever made, 1 to 65535. Removed ones count, unless `reuse` is set.
    pub tickets: u32,
    /// The largest number of currencies ever made, not counting base, 1 to 4096. Removed ones count, unless `reuse` is
    /// set.
    pub currencies: u32,
    /// The largest number of threads ever made, 1 to 4096. A thread that has ended counts, and keeps its name. Removed
    /// ones count, unless `reuse` is set.
    pub threads: u32,
    /// The number of ports, 0 to 256.
    pub ports: u32,
    /// The number of mutexes, 0 to 256.
    pub mutexes: u32,
    /// The number of processors, 1 to 64.
    pub processors: u32,
    /// The number of scripts, 0 to 256. A thread's script is a number that the kernel keeps for its caller.
    pub scripts: u32,
    /// The quantum in ticks, 1 to 1000.
    pub quantum: u32,
    /// The value of one of base: 1, or 256 for finer shares. Values are whole numbers, rounded down: a ticket of a
    /// currency is worth 0 if the currency's value times the ticket's amount is below the currency's active amount, and
    /// a thread that is worth 0 wins no draw. So give tickets of base amounts of a million: it costs nothing.
    pub unit: u32,
    /// Whether the numbers of removed tickets, currencies and threads are given again, the last removed first. Then the
    /// first three sizes count what exists at once.
    ///
    /// A number that was kept of what is removed then comes to mean another thing, so forget it with the removal.
    ///
    /// ```
    /// use lot::{Event, Kernel, Name, Reply, Sizes};
    ///
    /// let mut kernel = Kernel::new(Sizes { tickets: 1, reuse: true, ..Sizes::default() })?;
    /// for amount in 1..100_000 {
    ///     assert_eq!(kernel.event(&Event::make_ticket(amount, Name::BASE)), Reply::Ticket(1));
    ///     kernel.event(&Event::remove_ticket(1)).ok()?;
    /// }
    /// # Ok::<(), Box<dyn std::error::Error>>(())
    /// ```
    pub reuse: bool,
    /// Whether a name may have any printable ASCII but the space, as [`Name::plain`](crate::Name::plain) does.
    /// Otherwise it is a letter a to z, followed by letters a to z, digits, `_` or `-`.
    ///
    /// ```
    /// use lot::{Event, EventRefusal, Kernel, Name, Reply, Sizes};
    ///
    /// let make = Event::make_currency(Name::plain("Team/1")?);
    /// let mut plain = Kernel::new(Sizes { plain_names: true, ..Sizes::default() })?;
    /// assert_eq!(plain.event(&make), Reply::Currency(1));
    /// let mut other = Kernel::new(Sizes::default())?;
    /// assert_eq!(other.event(&make), Reply::Refused(EventRefusal::BadName));
    /// # Ok::<(), lot::Error>(())
    /// ```
    pub plain_names: bool,
    /// Whether a thread whose call is queued lends to the port's server: the thread that took the last call there. So a
    /// server that works for a poor client has the funding of the rich ones whose calls wait. A port has no server
    /// before a thread takes a call there, and after its server has exited or was killed. Nothing is lent in a circle:
    /// a queued call, or a lock, that would make one takes the port's server away.
    ///
    /// ```
    /// use lot::{Action, Event, Kernel, Name, Sizes};
    ///
    /// let mut kernel = Kernel::new(Sizes { queued_lend: true, ..Sizes::default() })?;
    /// for (amount, action) in [
    ///     (10, Action::Receive { port: 1 }),
    ///     (20, Action::Call { port: 1, number: 5 }),
    ///     (30, Action::Call { port: 1, number: 6 }),
    /// ] {
    ///     kernel.event(&Event::make_funded(amount, Name::BASE, None, 1)).ok()?;
    ///     // The greatest number is the last thread's.
    ///     kernel.event(&Event::draw(1, if amount == 30 { 3029 } else { 0 })).ok()?;
    ///     kernel.event(&Event::Trap { processor: 1, ticks: 0, action }).ok()?;
    /// }
    /// assert_eq!(kernel.thread_row(1).map(|row| row.value), Some(60));
    /// # Ok::<(), Box<dyn std::error::Error>>(())
    /// ```
    pub queued_lend: bool,
}

impl Sizes {
    /// The default, for constants.
    pub const SMALL: Sizes = Sizes {
        tickets: 64,
        currencies: 16,
        threads: 16,
        ports: 2,
        mutexes: 2,
        processors: 2,
        scripts: 1,
        quantum: 100,
        unit: 1,
        reuse: false,
        plain_names: false,
        queued_lend: false,
    };

    /// The sizes in the archive's form.
    pub(crate) fn plain(&self) -> ffi::Sizes {
        ffi::Sizes {
            tickets: self.tickets,
            currencies: self.currencies,
            threads: self.threads,
            ports: self.ports,
            mutexes: self.mutexes,
            processors: self.processors,
            scripts: self.scripts,
            quantum: self.quantum,
            unit: self.unit,
            reuse: u32::from(self.reuse),
            plain_names: u32::from(self.plain_names),
            queued_lend: u32::from(self.queued_lend),
        }
    }

    pub(crate) fn of(sizes: &ffi::Sizes) -> Sizes {
        Sizes {
            tickets: sizes.tickets,
            currencies: sizes.currencies,
            threads: sizes.threads,
            ports: sizes.ports,
            mutexes: sizes.mutexes,
            processors: sizes.processors,
            scripts: sizes.scripts,
            quantum: sizes.quantum,
            unit: sizes.unit,
            reuse: sizes.reuse != 0,
            plain_names: sizes.plain_names != 0,
            queued_lend: sizes.queued_lend != 0,
        }
    }
}

impl Default for Sizes {
    fn default() -> Sizes {
        Sizes::SMALL
    }
}
