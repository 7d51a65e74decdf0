//! The cancelling of invocations.

use crate::inbox::{Inbox, Interruption};
use crate::sync::lock;
use std::fmt;
use std::sync::{Arc, Mutex};

/// Cancels the invocations that it is handed to, from any thread. A clone cancels the same ones.
#[derive(Clone, Default)]
pub struct Cancellation(Arc<Mutex<State>>);

#[derive(Default)]
struct State {
    is_cancelled: bool,
    watched: Vec<Arc<Inbox>>,
}

/// Has a run cancelled, until this is dropped.
pub(crate) struct Watch<'a> {
    cancellation: &'a Cancellation,
    inbox: &'a Arc<Inbox>,
}

impl Cancellation {
    /// One that isn't cancelled.
    pub fn new() -> Cancellation {
        Cancellation::default()
    }

    /// Ends all invocations that it was handed to, and those that it will be.
    pub fn cancel(&self) {
        let mut state = lock(&self.0);
        state.is_cancelled = true;
        for inbox in &state.watched {
            inbox.interrupt(Interruption::Cancelled);
        }
    }

    /// Whether it was cancelled.
    pub fn is_cancelled(&self) -> bool {
        lock(&self.0).is_cancelled
    }

    pub(crate) fn watch<'a>(&'a self, inbox: &'a Arc<Inbox>) -> Watch<'a> {
        let mut state = lock(&self.0);
        state.watched.push(Arc::clone(inbox));
        if state.is_cancelled {
            inbox.interrupt(Interruption::Cancelled);
        }
        Watch {
            cancellation: self,
            inbox,
        }
    }
}

impl Drop for Watch<'_> {
    fn drop(&mut self) {
        lock(&self.cancellation.0)
            .watched
            .retain(|inbox| !Arc::ptr_eq(inbox, self.inbox));
    }
}

impl fmt::Debug for Cancellation {
    fn fmt(&self, f: &mut fmt::Formatter<'_>) -> fmt::Result {
        write!(f, "Cancellation({})", self.is_cancelled())
    }
}
