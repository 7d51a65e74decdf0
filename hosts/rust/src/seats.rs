//! Seats: a run has one to itself, and waits for its turn where none is free.

use crate::inbox::{Inbox, Interruption};
use crate::sync::lock;
use std::collections::VecDeque;
use std::sync::{Arc, Mutex};

/// The seats of a client. Runs get them in the order of asking.
pub(crate) struct Seats(Mutex<State>);

struct State {
    free: VecDeque<usize>,
    waiting: VecDeque<Arc<Inbox>>,
}

/// A seat that a run has, until this is dropped.
pub(crate) struct Turn<'a> {
    seats: &'a Seats,
    seat: usize,
}

impl Seats {
    /// So many seats, from 0 on.
    pub(crate) fn new(count: usize) -> Seats {
        Seats(Mutex::new(State {
            free: (0..count).collect(),
            waiting: VecDeque::new(),
        }))
    }

    /// Waits for a seat, until this moment.
    pub(crate) fn turn(
        &self,
        inbox: &Arc<Inbox>,
        until: Option<u64>,
    ) -> Result<Turn<'_>, Interruption> {
        self.ask(inbox);
        match inbox.wait_for_seat(until) {
            Ok(seat) => Ok(Turn { seats: self, seat }),
            Err(why) => {
                self.leave(inbox);
                Err(why)
            }
        }
    }

    fn ask(&self, inbox: &Arc<Inbox>) {
        let mut state = lock(&self.0);
        match state.free.pop_front() {
            Some(seat) => inbox.give_seat(seat),
            None => state.waiting.push_back(Arc::clone(inbox)),
        }
    }

    /// A run waits no longer. It may have been given a seat meanwhile.
    fn leave(&self, inbox: &Arc<Inbox>) {
        lock(&self.0)
            .waiting
            .retain(|waiting| !Arc::ptr_eq(waiting, inbox));
        if let Some(seat) = inbox.take_seat() {
            self.give_back(seat);
        }
    }

    fn give_back(&self, seat: usize) {
        let mut state = lock(&self.0);
        match state.waiting.pop_front() {
            Some(inbox) => inbox.give_seat(seat),
            None => state.free.push_back(seat),
        }
    }
}

impl Turn<'_> {
    /// The seat's place among those of its client.
    pub(crate) fn seat(&self) -> usize {
        self.seat
    }
}

impl Drop for Turn<'_> {
    fn drop(&mut self) {
        self.seats.give_back(self.seat);
    }
}
