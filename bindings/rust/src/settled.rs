//! A kernel that threads read at once.

use crate::{ffi, CurrencyRow, Kernel, Runner, ThreadRow, TicketRow};

/// A kernel in which no value is stale, made by [`Kernel::settle`]. While it is there no event comes, so that threads may
/// read it at once, with no lock.
#[derive(Clone, Copy, Debug)]
pub struct Settled<'a> {
    kernel: &'a Kernel,
}

// SAFETY: it makes only calls that take a `const lot_kernel *`, which threads may make at once while nobody makes another
// call on the kernel. Nobody does: it has the exclusive borrow of `settle`.
unsafe impl Sync for Settled<'_> {}
// SAFETY: the same.
unsafe impl Send for Settled<'_> {}

impl<'a> Settled<'a> {
    /// Of a kernel that was borrowed exclusively, and has been settled.
    pub(crate) fn of(kernel: &'a mut Kernel) -> Settled<'a> {
        Settled { kernel }
    }

    /// The row of the ticket with this number, like [`Kernel::ticket_row`].
    #[must_use]
    pub fn ticket_row(&self, ticket: u32) -> Option<TicketRow> {
        let mut row = ffi::TicketRow::default();
        // SAFETY: for the handle see `Kernel::here`; the row is whole and apart from it.
        let status = unsafe { ffi::lot_kernel_settled_ticket_row(self.kernel.here(), ticket, &mut row) };
        ffi::if_there(status, row).map(TicketRow::of)
    }

    /// The row of the currency with this number, like [`Kernel::currency_row`].
    #[must_use]
    pub fn currency_row(&self, currency: u32) -> Option<CurrencyRow> {
        let mut row = ffi::CurrencyRow::default();
        // SAFETY: for the handle see `Kernel::here`; the row is whole and apart from it.
        let status = unsafe { ffi::lot_kernel_settled_currency_row(self.kernel.here(), currency, &mut row) };
        ffi::if_there(status, row).map(CurrencyRow::of)
    }

    /// The row of the thread with this number, like [`Kernel::thread_row`].
    #[must_use]
    pub fn thread_row(&self, thread: u32) -> Option<ThreadRow> {
        let mut row = ffi::ThreadRow::default();
        // SAFETY: for the handle see `Kernel::here`; the row is whole and apart from it.
        let status = unsafe { ffi::lot_kernel_settled_thread_row(self.kernel.here(), thread, &mut row) };
        ffi::if_there(status, row).map(ThreadRow::of)
    }

    /// The existing tickets with their numbers, in ascending order.
    pub fn tickets(self) -> impl Iterator<Item = (u32, TicketRow)> + 'a {
        (1..=self.kernel.ticket_count()).filter_map(move |ticket| Some((ticket, self.ticket_row(ticket)?)))
    }

    /// The existing currencies with their numbers, in ascending order. The first is base, 0.
    pub fn currencies(self) -> impl Iterator<Item = (u32, CurrencyRow)> + 'a {
        (0..self.kernel.currency_count()).filter_map(move |currency| Some((currency, self.currency_row(currency)?)))
    }

    /// The existing threads with their numbers, in ascending order, like [`Kernel::threads`].
    pub fn threads(self) -> impl Iterator<Item = (u32, ThreadRow)> + 'a {
        (1..=self.kernel.sizes().threads).filter_map(move |thread| Some((thread, self.thread_row(thread)?)))
    }

    /// The thread that runs on the processor with this number, like [`Kernel::runner`].
    #[must_use]
    pub fn runner(&self, processor: u32) -> Option<Runner> {
        self.kernel.runner(processor)
    }

    /// The number of the thread's script, like [`Kernel::script_of`].
    #[must_use]
    pub fn script_of(&self, thread: u32) -> Option<u32> {
        self.kernel.script_of(thread)
    }
}
