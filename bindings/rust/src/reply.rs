//! What a reply refuses. `bindings/write_tables` makes the replies themselves, in `generated.rs`.

use crate::{Outcome, Refusal, Reply};

impl Reply {
    /// This reply, or the reason why the event or its trap is refused.
    ///
    /// ```
    /// use lot::{Event, Kernel, Name, Sizes};
    ///
    /// let mut kernel = Kernel::new(Sizes::default())?;
    /// kernel.event(&Event::make_currency("alice".parse()?)).ok()?;
    /// let again = kernel.event(&Event::make_currency("alice".parse()?)).ok();
    /// let why = again.unwrap_err().to_string();
    /// assert_eq!(why, "a currency or a thread, perhaps a dead one, has the name already");
    /// # Ok::<(), Box<dyn std::error::Error>>(())
    /// ```
    ///
    /// # Errors
    ///
    /// [`Refusal::Event`] for [`Reply::Refused`], [`Refusal::Trap`] for [`Outcome::Refused`]. For a refused trap only
    /// the reply has the ticks and whether the quantum ends. It is `Copy`, so keep it if you need them.
    pub const fn ok(self) -> Result<Reply, Refusal> {
        match self.refusal() {
            Some(why) => Err(why),
            None => Ok(self),
        }
    }

    /// The reason why the event or its trap is refused, or `None` if neither is.
    #[must_use]
    pub const fn refusal(&self) -> Option<Refusal> {
        match *self {
            Reply::Refused(why) => Some(Refusal::Event(why)),
            Reply::Trapped { outcome: Outcome::Refused(why), .. } => Some(Refusal::Trap(why)),
            _ => None,
        }
    }
}
