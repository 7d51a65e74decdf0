//! One run: the engine's questions, and what comes of them outside.

use crate::call::{new_source, Call, Connections, Means, Reading};
use crate::client::Client;
use crate::clock::{earliest, nanoseconds, Clock};
use crate::decisions::log_decisions;
use crate::endings;
use crate::errors::{Cause, Error};
use crate::identities::{AuthScheme, SourceError, Vault};
use crate::inbox::{Event, Inbox, Interruption};
use crate::messages::{Request, Response};
use crate::outgoing::OutgoingBody;
use crate::program::Program;
use crate::protocol::{blob_of, header_rows, Begin, Done, News, Park, Reply, OUTPUT_KIND};
use crate::recording::print_of;
use log::debug;
use serde_json::{json, Value};
use std::collections::{HashMap, VecDeque};
use std::io;
use std::panic::{catch_unwind, AssertUnwindSafe};
use std::sync::Arc;
use std::thread;
use std::time::Duration;

/// How often the engine's guard of streams looks at an open body.
const WATCH: Duration = Duration::from_millis(100);
/// The shortest time between two lines where nothing came: no run asks again and again at once.
const PAUSE: Duration = Duration::from_millis(1);

/// What a run is made with.
pub(crate) struct Place<'a> {
    pub(crate) program: &'a Program,
    pub(crate) clock: Clock,
    pub(crate) name: &'a str,
    pub(crate) client: &'a Client,
    pub(crate) connections: &'a Arc<Connections>,
    pub(crate) vault: &'a Arc<Vault>,
    /// The number of the seat, among those of all clients.
    pub(crate) seat: usize,
}

/// How a run is made.
#[derive(Clone, Copy, Debug)]
pub(crate) struct Terms {
    /// The most questions that it asks.
    pub(crate) fuel: u64,
    /// Whether the caller reads the rest of a long body.
    pub(crate) is_streamed: bool,
    /// Whether the engine tells its log at the end.
    pub(crate) is_logged: bool,
    /// The moment when its caller gives it up.
    pub(crate) until: Option<u64>,
    /// How long that was from the beginning.
    pub(crate) timeout: Option<Duration>,
}

/// An identity that is loaded, in a thread of its own.
struct Load {
    source: u64,
    scheme: String,
}

/// One run at a seat, driven by its caller's thread. It is given up where it is dropped before its
/// end.
pub(crate) struct Run<'a> {
    place: Place<'a>,
    terms: Terms,
    inbox: Arc<Inbox>,
    body: Arc<OutgoingBody>,
    payload: Value,
    calls: Vec<Arc<Call>>,
    captured: HashMap<u64, Arc<Call>>,
    call: Option<Arc<Call>>,
    has_head: bool,
    load: Option<Load>,
    wake: Option<u64>,
    said: u64,
    entries: Vec<String>,
    done: Option<Done>,
    cause: Option<Cause>,
    is_over: bool,
}

impl<'a> Run<'a> {
    pub(crate) fn new(
        place: Place<'a>,
        request: Request,
        terms: Terms,
        inbox: &Arc<Inbox>,
    ) -> Run<'a> {
        let body = OutgoingBody::new(request.body);
        let headers = header_rows(&request.headers);
        let form = json!([request.method, request.path, headers, body.form()]);
        Run {
            place,
            terms,
            inbox: Arc::clone(inbox),
            body: Arc::new(body),
            payload: json!([OUTPUT_KIND, blob_of(form.to_string().as_bytes())]),
            calls: Vec::new(),
            captured: HashMap::new(),
            call: None,
            has_head: false,
            load: None,
            wake: None,
            said: 0,
            entries: Vec::new(),
            done: None,
            cause: None,
            is_over: false,
        }
    }

    /// Drives the run to its end, and answers by its response or its error.
    pub(crate) fn drive(&mut self) -> Result<Response, Error> {
        let ending = self.driven()?;
        log_decisions(self.place.name, &self.entries, &ending, self.calls.len());
        let last = self.calls.last().cloned();
        let ended = endings::end_of(
            &ending,
            last.as_deref(),
            self.calls.len(),
            self.cause.take(),
        )?;
        self.await_body(last.as_deref())?;
        let response = ended.response(last.as_deref())?;
        self.is_over = true;
        Ok(response)
    }

    /// The print of a run that is over and was logged, unless it used its questions up.
    pub(crate) fn printed(&self) -> Option<String> {
        let done = self
            .done
            .as_ref()
            .filter(|done| self.terms.is_logged && !done.is_unfinished())?;
        Some(print_of(
            &self.payload,
            self.terms.fuel,
            &self.entries,
            &done.text,
        ))
    }

    fn driven(&mut self) -> Result<Value, Error> {
        let (seat, now) = (self.place.seat, self.place.clock.now());
        let Terms {
            fuel, is_logged, ..
        } = self.terms;
        self.say(json!([
            "invoke",
            seat,
            now,
            self.payload,
            fuel,
            "None",
            is_logged
        ]))?;
        loop {
            if let Some(done) = &self.done {
                return Ok(done.ending.clone());
            }
            let events = self.await_events()?;
            self.said = self.place.clock.now();
            self.say(json!(["at", seat, self.said, events]))?;
        }
    }

    /// Says something, and does what the engine answers.
    fn say(&mut self, message: Value) -> Result<(), Error> {
        for reply in self.place.program.say(&message)? {
            self.obey(reply)?;
        }
        Ok(())
    }

    fn obey(&mut self, reply: Reply) -> Result<(), Error> {
        match reply {
            Reply::Begin(begin) => self.begin(begin),
            Reply::Load(scheme) => self.load(scheme),
            Reply::Poison(capture) => self.poison(capture),
            Reply::Park(park) => self.park(park),
            Reply::Entry(text) => self.entries.push(text),
            Reply::Done(done) => self.done = Some(done),
            Reply::Refused(why) => return Err(Error::Refused(why)),
            Reply::Opened(_) | Reply::Bucket(..) | Reply::End => {}
        }
        Ok(())
    }

    fn begin(&mut self, begin: Begin) {
        self.drop_call();
        debug!(
            "{}: request {} goes out",
            self.place.name,
            self.calls.len() + 1
        );
        let capture = begin.capture;
        let is_watched = self.place.client.is_watched();
        let means = Means {
            connections: Arc::clone(self.place.connections),
            vault: Arc::clone(self.place.vault),
            body: Arc::clone(&self.body),
            inbox: Arc::clone(&self.inbox),
            reading: Reading {
                is_watched,
                is_streamed: self.terms.is_streamed,
            },
        };
        let call = Call::begin(begin, means);
        if let Some(capture) = capture {
            self.captured.insert(capture, Arc::clone(&call));
        }
        self.calls.push(Arc::clone(&call));
        self.call = Some(call);
        self.has_head = false;
    }

    fn load(&mut self, id: String) {
        debug!("{}: loads an identity of {id}", self.place.name);
        let source = new_source();
        self.load = Some(Load {
            source,
            scheme: id.clone(),
        });
        let inbox = Arc::clone(&self.inbox);
        let vault = Arc::clone(self.place.vault);
        let scheme = self.place.client.scheme(&id).cloned();
        let work = move || inbox.put(loaded(source, scheme.as_ref(), &vault));
        if let Err(error) = thread::Builder::new()
            .name(format!("load {id}"))
            .spawn(work)
        {
            self.inbox.put(not_loaded(source, Arc::new(error)));
        }
    }

    /// Closes a connection. That the open call breaks off by this is no news for the engine, which
    /// doesn't read on.
    fn poison(&mut self, capture: u64) {
        debug!("{}: connection {capture} isn't used again", self.place.name);
        let Some(poisoned) = self.captured.get(&capture) else {
            return;
        };
        poisoned.hold.poison();
        self.call.take_if(|call| Arc::ptr_eq(call, poisoned));
    }

    /// Gives up what isn't open any more, and remembers when to wake.
    fn park(&mut self, park: Park) {
        self.wake = park.wake;
        if self
            .call
            .as_ref()
            .is_some_and(|call| Some(call.number) != park.call)
        {
            self.drop_call();
        }
        if self
            .load
            .as_ref()
            .is_some_and(|load| Some(&load.scheme) != park.scheme.as_ref())
        {
            self.load = None;
        }
        if let (None, None, Some(wake)) = (park.call, &park.scheme, park.wake) {
            let pause = Duration::from_nanos(wake.saturating_sub(self.place.clock.now()));
            debug!("{}: waits {:.3} s", self.place.name, pause.as_secs_f64());
        }
    }

    /// What came of what is open. Nothing, where it is time to wake the run.
    fn await_events(&mut self) -> Result<Vec<Value>, Error> {
        let clock = self.place.clock;
        let earliest_wake = self.said.saturating_add(nanoseconds(PAUSE));
        loop {
            let wake = earliest([self.wake, self.watch()]).map(|wake| wake.max(earliest_wake));
            let taken = self.take(earliest([wake, self.terms.until]))?;
            let events: Vec<Value> = taken
                .into_iter()
                .filter_map(|event| self.event_of(event))
                .collect();
            if !events.is_empty() || wake.is_some_and(|wake| clock.now() >= wake) {
                return Ok(events);
            }
        }
    }

    /// What came until this moment. Fails where the run's time is over.
    fn take(&self, until: Option<u64>) -> Result<VecDeque<Event>, Error> {
        let taken = self.inbox.take(until).and_then(|taken| {
            let is_over = self
                .terms
                .until
                .is_some_and(|until| self.place.clock.now() >= until);
            if is_over {
                return Err(Interruption::TimedOut);
            }
            Ok(taken)
        });
        taken.map_err(|why| why.error(self.terms.timeout))
    }

    /// When the engine's guard looks at an open body again.
    fn watch(&self) -> Option<u64> {
        let is_watched = self.place.client.is_watched() && self.call.is_some() && self.has_head;
        is_watched.then(|| self.place.clock.after(WATCH))
    }

    /// What the engine is told of something that came, unless that isn't open any more.
    fn event_of(&mut self, event: Event) -> Option<Value> {
        let source = match (&self.call, &self.load) {
            (Some(call), _) if call.source == event.source => json!(call.number),
            (_, Some(load)) if load.source == event.source => json!(load.scheme),
            _ => return None,
        };
        if let News::Response { status, .. } = event.news {
            debug!(
                "{}: request {} gets {status}",
                self.place.name,
                self.calls.len()
            );
            self.has_head = true;
            self.cause = None;
        }
        self.cause = event.cause.or(self.cause.take());
        Some(event.news.event(source))
    }

    /// Waits until the rest of the body was read, unless the caller reads it.
    fn await_body(&self, last: Option<&Call>) -> Result<(), Error> {
        while last.is_some_and(|call| !call.body.is_settled()) {
            self.take(self.terms.until)?;
        }
        Ok(())
    }

    fn drop_call(&mut self) {
        if let Some(call) = self.call.take() {
            call.hold.give_up();
        }
    }
}

impl Drop for Run<'_> {
    /// Ends what isn't over: outside, and with the engine.
    fn drop(&mut self) {
        if self.is_over {
            return;
        }
        for call in &self.calls {
            call.hold.give_up();
        }
        if self.done.is_some() {
            return;
        }
        let message = json!(["give_up", self.place.seat, self.place.clock.now()]);
        // where that can't be said the program is gone, which ended the run
        for reply in self.place.program.say(&message).unwrap_or_default() {
            if let Reply::Poison(capture) = reply {
                self.poison(capture);
            }
        }
    }
}

/// Loads an identity.
fn loaded(source: u64, scheme: Option<&AuthScheme>, vault: &Vault) -> Event {
    let load = || {
        let identity = scheme.ok_or("there is no such scheme")?.load()?;
        let (data, expires) = identity.parts();
        Ok((vault.handed(data)?, expires))
    };
    let result: Result<_, SourceError> = catch_unwind(AssertUnwindSafe(load))
        .unwrap_or_else(|_| Err(io::Error::other("the source panicked").into()));
    match result {
        Ok((data, expires)) => {
            let expires = expires.map(crate::clock::since_1970);
            Event {
                source,
                news: News::Identity { data, expires },
                cause: None,
            }
        }
        Err(error) => not_loaded(source, error.into()),
    }
}

fn not_loaded(source: u64, cause: Cause) -> Event {
    // what the source says of its error may have a secret
    let news = News::NoIdentity(String::from("no identity: its source failed"));
    Event {
        source,
        news,
        cause: Some(cause),
    }
}
