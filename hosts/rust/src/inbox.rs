//! What came for a run, and from where.

use crate::clock::Clock;
use crate::errors::{Cause, Error, ProgramEnd};
use crate::protocol::News;
use crate::sync::lock;
use std::collections::VecDeque;
use std::sync::{Condvar, Mutex, MutexGuard, PoisonError};
use std::time::Duration;

/// The longest that a lock is waited for at once.
const LONGEST_WAIT: Duration = Duration::from_secs(3600);

/// Something that came, and what of.
pub(crate) struct Event {
    pub(crate) source: u64,
    pub(crate) news: News,
    /// What a call or a load met with.
    pub(crate) cause: Option<Cause>,
}

/// Why a run ends that isn't over.
#[derive(Clone, Debug)]
pub(crate) enum Interruption {
    Cancelled,
    TimedOut,
    Closed,
    Ended(ProgramEnd),
}

impl Interruption {
    /// The error of it, in a run that had so much time.
    pub(crate) fn error(self, timeout: Option<Duration>) -> Error {
        match self {
            Interruption::Cancelled => Error::Cancelled,
            Interruption::TimedOut => Error::InvocationTimeout(timeout.unwrap_or_default()),
            Interruption::Closed => Error::EngineClosed,
            Interruption::Ended(end) => Error::ProgramEnded(end),
        }
    }
}

/// What came for one run, in order, put in by any thread and taken by the run's own.
pub(crate) struct Inbox {
    clock: Clock,
    state: Mutex<State>,
    changed: Condvar,
}

#[derive(Default)]
struct State {
    events: VecDeque<Event>,
    interruption: Option<Interruption>,
    seat: Option<usize>,
}

impl Inbox {
    pub(crate) fn new(clock: Clock) -> Inbox {
        Inbox {
            clock,
            state: Mutex::default(),
            changed: Condvar::new(),
        }
    }

    pub(crate) fn put(&self, event: Event) {
        lock(&self.state).events.push_back(event);
        self.changed.notify_all();
    }

    /// A piece of a body. It wakes nobody: it is told with what comes next. So a body that comes
    /// byte by byte is told in few lines.
    pub(crate) fn put_data(&self, source: u64, piece: &[u8]) {
        let mut state = lock(&self.state);
        if let Some(Event {
            source: last,
            news: News::Data(data),
            ..
        }) = state.events.back_mut()
        {
            if *last == source {
                data.extend_from_slice(piece);
                return;
            }
        }
        let news = News::Data(piece.to_vec());
        state.events.push_back(Event {
            source,
            news,
            cause: None,
        });
    }

    /// Ends the run, for this reason. The first one counts.
    pub(crate) fn interrupt(&self, why: Interruption) {
        lock(&self.state).interruption.get_or_insert(why);
        self.changed.notify_all();
    }

    pub(crate) fn give_seat(&self, seat: usize) {
        lock(&self.state).seat = Some(seat);
        self.changed.notify_all();
    }

    /// The seat that was given and not taken.
    pub(crate) fn take_seat(&self) -> Option<usize> {
        lock(&self.state).seat.take()
    }

    /// Waits for a seat, until this moment.
    pub(crate) fn wait_for_seat(&self, until: Option<u64>) -> Result<usize, Interruption> {
        let mut state = lock(&self.state);
        loop {
            state.interrupted()?;
            if let Some(seat) = state.seat.take() {
                return Ok(seat);
            }
            if self.is_past(until) {
                return Err(Interruption::TimedOut);
            }
            state = self.wait(state, until);
        }
    }

    /// All that came. Waits until it is more than data, or until this moment.
    pub(crate) fn take(&self, until: Option<u64>) -> Result<VecDeque<Event>, Interruption> {
        let mut state = lock(&self.state);
        loop {
            state.interrupted()?;
            if state.has_more_than_data() || self.is_past(until) {
                return Ok(std::mem::take(&mut state.events));
            }
            state = self.wait(state, until);
        }
    }

    fn is_past(&self, until: Option<u64>) -> bool {
        until.is_some_and(|until| self.clock.now() >= until)
    }

    fn wait<'a>(&self, state: MutexGuard<'a, State>, until: Option<u64>) -> MutexGuard<'a, State> {
        let left = until.map(|until| until.saturating_sub(self.clock.now()));
        // a microsecond more, so that no wake comes before its moment
        let left = left.map(|left| Duration::from_nanos(left) + Duration::from_micros(1));
        let wait = left.unwrap_or(LONGEST_WAIT).min(LONGEST_WAIT);
        let waited = self.changed.wait_timeout(state, wait);
        waited.unwrap_or_else(PoisonError::into_inner).0
    }
}

impl State {
    fn interrupted(&self) -> Result<(), Interruption> {
        self.interruption.clone().map_or(Ok(()), Err)
    }

    fn has_more_than_data(&self) -> bool {
        self.events
            .iter()
            .any(|event| !matches!(event.news, News::Data(_)))
    }
}
