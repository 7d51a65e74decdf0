//! The print of a run.

use crate::answer::Answer;
use crate::ending::Ending;
use crate::http::HttpRequest;
use crate::manner::Manner;
use crate::question::Question;
use crate::script::RunHead;
use crate::world::Entry;
use serde::Serialize;
use std::io::{self, Write};

/// Where a print goes, and how its lines are written.
pub struct Print<W> {
    pub out: W,
    pub manner: Manner,
}

impl<W: Write> Print<W> {
    /// Writes what the run was begun with, its entries numbered from 1, and its ending.
    pub fn run(&mut self, head: &RunHead, log: &[Entry], ending: &Ending) -> io::Result<()> {
        self.begin(head)?;
        for (index, entry) in log.iter().enumerate() {
            self.entry(index + 1, entry)?;
        }
        self.line(ending)?;
        self.out.flush()
    }

    fn begin(&mut self, head: &RunHead) -> io::Result<()> {
        self.line(&(
            "begin",
            &head.input,
            head.stop,
            head.output_kind,
            head.error_kind,
            head.fuel,
        ))
    }

    fn entry(&mut self, number: usize, entry: &Entry) -> io::Result<()> {
        let kind = entry.question.kind();
        match transmitted(entry) {
            Some(request) => self.line(&(number, kind, &entry.answer, request)),
            None => self.line(&(number, kind, &entry.answer)),
        }
    }

    fn line<T: Serialize>(&mut self, line: &T) -> io::Result<()> {
        self.manner.write(&mut self.out, line)?;
        self.out.write_all(b"\n")
    }
}

// The request that a transmission was handed, once it isn't pending.
fn transmitted(entry: &Entry) -> Option<&HttpRequest> {
    match (&entry.question, &entry.answer) {
        (_, Answer::Pending) => None,
        (Question::Transmit { request, .. }, _) => request.as_deref(),
        _ => None,
    }
}
