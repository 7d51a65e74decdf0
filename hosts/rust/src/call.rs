//! A request on the wire, sent and read in a thread of its own.

use crate::bodies::{Framing, IncomingBody, ReceivedBody};
use crate::connections::Hold;
use crate::errors::Cause;
use crate::failures::{broke_off, is_slow, FailureKind, SendError};
use crate::identities::Vault;
use crate::inbox::{Event, Inbox};
use crate::outgoing::OutgoingBody;
use crate::protocol::{Begin, News, WireRequest, BODY_LIMIT};
use crate::sync::lock;
use crate::wire::{headers_of, Wire};
use std::io::{self, ErrorKind, Read};
use std::panic::{catch_unwind, AssertUnwindSafe};
use std::sync::atomic::{AtomicU64, Ordering};
use std::sync::{Arc, Mutex, Weak};
use std::thread;

/// Bytes of a body that are read at once.
const PIECE: usize = 65536;

/// The next source's number.
static NEXT: AtomicU64 = AtomicU64::new(1);

/// A number for a call or a load, by which what comes of it is known.
pub(crate) fn new_source() -> u64 {
    NEXT.fetch_add(1, Ordering::Relaxed)
}

/// How a response is read.
#[derive(Clone, Copy, Debug)]
pub(crate) struct Reading {
    /// Whether the engine's guard of stalled streams watches how it comes.
    pub(crate) is_watched: bool,
    /// Whether the caller reads what is behind the engine's part of the body.
    pub(crate) is_streamed: bool,
}

impl Reading {
    /// Whether the engine is told of the body's end once it has its part of it. Otherwise the rest
    /// is read first, and a body that breaks off there is tried again too.
    fn ends_early(self) -> bool {
        self.is_watched || self.is_streamed
    }
}

/// A client's connections, and who holds them.
pub(crate) struct Connections {
    wire: Wire,
    holds: Mutex<Vec<Weak<Hold>>>,
}

impl Connections {
    pub(crate) fn new(wire: Wire) -> Arc<Connections> {
        Arc::new(Connections {
            wire,
            holds: Mutex::default(),
        })
    }

    /// Gives every request up, those too whose body its caller reads.
    pub(crate) fn close(&self) {
        for hold in lock(&self.holds)
            .drain(..)
            .filter_map(|hold| hold.upgrade())
        {
            hold.give_up();
        }
    }

    fn keep(&self, hold: &Arc<Hold>) {
        let mut holds = lock(&self.holds);
        holds.retain(|hold| hold.strong_count() > 0);
        holds.push(Arc::downgrade(hold));
    }
}

/// A request on the wire. What comes of it is put into the inbox of its run.
pub(crate) struct Call {
    /// The number by which the engine knows it.
    pub(crate) number: u64,
    pub(crate) source: u64,
    pub(crate) hold: Arc<Hold>,
    pub(crate) body: ReceivedBody,
    inbox: Arc<Inbox>,
    reading: Reading,
}

/// What a request is made of besides what the engine says.
pub(crate) struct Means {
    pub(crate) connections: Arc<Connections>,
    pub(crate) vault: Arc<Vault>,
    pub(crate) body: Arc<OutgoingBody>,
    pub(crate) inbox: Arc<Inbox>,
    pub(crate) reading: Reading,
}

impl Call {
    /// Begins a request.
    pub(crate) fn begin(begin: Begin, means: Means) -> Arc<Call> {
        let call = Arc::new(Call {
            number: begin.call,
            source: new_source(),
            hold: Hold::new(begin.connect, begin.read),
            body: ReceivedBody::default(),
            inbox: Arc::clone(&means.inbox),
            reading: means.reading,
        });
        means.connections.keep(&call.hold);
        let working = Arc::clone(&call);
        let thread = thread::Builder::new().name(format!("call {}", call.number));
        if let Err(error) = thread.spawn(move || working.work(begin.request, &means)) {
            call.fail(
                FailureKind::Other,
                String::from("there is no thread"),
                Arc::new(error),
            );
        }
        call
    }

    fn work(&self, request: WireRequest, means: &Means) {
        let work = AssertUnwindSafe(|| match self.send(request, means) {
            Ok(body) => self.read(body),
            Err(error) => {
                let (kind, text) = error.told(&self.hold);
                self.fail(kind, text, Arc::new(error));
            }
        });
        if self.hold.while_sending(|| catch_unwind(work)).is_err() {
            let cause = Arc::new(io::Error::other("the thread of the request panicked"));
            self.fail(
                FailureKind::User,
                String::from("the request can't be sent"),
                cause,
            );
        }
    }

    /// Sends the request, tells of the head of its response, and answers by the body.
    fn send(&self, mut request: WireRequest, means: &Means) -> Result<IncomingBody, SendError> {
        means.vault.put_in(&mut request)?;
        let body = std::mem::take(&mut request.body);
        let sent = means.body.sent_for(body).map_err(SendError::Body)?;
        let response = means.connections.wire.send(&request, sent)?;
        let (status, headers) = (response.status(), headers_of(&response)?);
        let framing = Framing::of(&request.method, status, &headers);
        self.hold
            .has_head(framing == Framing::Close || says_close(&headers));
        self.tell(News::Response { status, headers }, None);
        Ok(IncomingBody::new(
            response.into_reader(),
            framing,
            Arc::clone(&self.hold),
        ))
    }

    /// Reads the body, hands the engine its part, and keeps all of it.
    fn read(&self, mut body: IncomingBody) {
        let mut buffer = vec![0; PIECE];
        let mut room = BODY_LIMIT;
        loop {
            let wanted = if self.reading.is_streamed {
                room
            } else {
                PIECE
            };
            let read = match body.read(&mut buffer[..wanted]) {
                Ok(read) => read,
                Err(error) if error.kind() == ErrorKind::Interrupted => continue,
                Err(error) => return self.break_off(error),
            };
            self.body.add(&buffer[..read]);
            if read == 0 {
                self.body.finish();
                // let go by the engine, if it was told before
                return self.tell(News::End, None);
            }
            let part = read.min(room);
            room -= part;
            self.inbox.put_data(self.source, &buffer[..part]);
            if room == 0 && part > 0 && self.reading.ends_early() {
                if self.reading.is_streamed {
                    self.body.leave(body);
                    return self.tell(News::End, None);
                }
                self.tell(News::End, None);
            }
        }
    }

    fn fail(&self, kind: FailureKind, text: String, cause: Cause) {
        self.hold.give_up();
        self.body.fail(Arc::clone(&cause));
        self.tell(News::Failed { kind, text }, Some(cause));
    }

    fn break_off(&self, error: io::Error) {
        self.hold.give_up();
        let is_slow = is_slow(&error);
        let text = if is_slow {
            self.hold.no_byte()
        } else {
            broke_off(&error)
        };
        let cause: Cause = Arc::new(error);
        self.body.fail(Arc::clone(&cause));
        self.tell(News::Broken { is_slow, text }, Some(cause));
    }

    fn tell(&self, news: News, cause: Option<Cause>) {
        self.inbox.put(Event {
            source: self.source,
            news,
            cause,
        });
    }
}

/// Whether the other side closes the connection behind the response.
fn says_close(headers: &[(String, String)]) -> bool {
    let says = |value: &String| {
        value
            .split(',')
            .any(|word| word.trim().eq_ignore_ascii_case("close"))
    };
    headers
        .iter()
        .any(|(name, value)| name == "connection" && says(value))
}
