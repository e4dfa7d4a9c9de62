//! Refusals of events and traps.

use crate::{EventRefusal, Reply, TrapRefusal};
use alloc::vec::Vec;
use core::error::Error;
use core::fmt;

/// The reason why the kernel refuses an event or its trap.
///
/// ```
/// use lot::{Event, Kernel, EventRefusal, Refusal, Sizes};
///
/// let mut kernel = Kernel::new(Sizes::default())?;
/// let refusal = kernel.event(&Event::expire(1)).ok().unwrap_err();
/// assert_eq!(refusal, Refusal::Event(EventRefusal::NotRunning));
/// assert_eq!(refusal.number(), 22);
/// assert_eq!(refusal.to_string(), "no thread runs on the processor");
/// # Ok::<(), lot::Error>(())
/// ```
#[derive(Clone, Copy, Debug, PartialEq, Eq, Hash)]
pub enum Refusal {
    /// The event is refused, and has changed nothing.
    Event(EventRefusal),
    /// The trap is refused. Its thread is charged its ticks even so, and goes on unless its quantum is used up.
    Trap(TrapRefusal),
}

impl Refusal {
    /// Its number in docs/FORMATS.md and in outputs. Each refusal has its own.
    #[must_use]
    pub const fn number(self) -> u32 {
        match self {
            Refusal::Event(why) => why.number(),
            Refusal::Trap(why) => why.number(),
        }
    }
}

impl From<EventRefusal> for Refusal {
    fn from(why: EventRefusal) -> Refusal {
        Refusal::Event(why)
    }
}

impl From<TrapRefusal> for Refusal {
    fn from(why: TrapRefusal) -> Refusal {
        Refusal::Trap(why)
    }
}

impl fmt::Display for Refusal {
    fn fmt(&self, f: &mut fmt::Formatter<'_>) -> fmt::Result {
        match self {
            Refusal::Event(why) => why.fmt(f),
            Refusal::Trap(why) => why.fmt(f),
        }
    }
}

impl Error for Refusal {}
impl Error for EventRefusal {}
impl Error for TrapRefusal {}

/// The error of [`Kernel::run`](crate::Kernel::run) when it stops before the end because an event is refused.
#[derive(Clone, Debug, PartialEq, Eq, Hash)]
pub struct Stopped {
    /// The replies to the events before the refused one, in order.
    pub replies: Vec<Reply>,
    /// The reply to the refused event. For a refused trap it has the ticks that the thread ran, and whether it goes on.
    pub reply: Reply,
    /// The refusal.
    pub refusal: Refusal,
}

impl Stopped {
    /// The number of events made before the refused one, which is also its index.
    #[must_use]
    pub fn done(&self) -> usize {
        self.replies.len()
    }
}

impl fmt::Display for Stopped {
    fn fmt(&self, f: &mut fmt::Formatter<'_>) -> fmt::Result {
        write!(f, "the event after {} that were done is refused: {}", self.done(), self.refusal)
    }
}

impl Error for Stopped {
    fn source(&self) -> Option<&(dyn Error + 'static)> {
        Some(&self.refusal)
    }
}
