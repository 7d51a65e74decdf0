//! The engine, as a caller sees it.

use crate::call::Connections;
use crate::cancellation::Cancellation;
use crate::client::{Bucket, Client, Sums};
use crate::clock::Clock;
use crate::decisions;
use crate::errors::Error;
use crate::identities::Vault;
use crate::inbox::{Inbox, Interruption};
use crate::messages::{Request, Response};
use crate::program::{self, Program};
use crate::protocol::Reply;
use crate::random;
use crate::recording::Recording;
use crate::run::{Place, Run, Terms};
use crate::seats::Seats;
use crate::sync::lock;
use crate::wire::{Tls, Wire};
use serde_json::{json, Value};
use std::fmt;
use std::path::{Path, PathBuf};
use std::sync::{Arc, Condvar, Mutex, PoisonError};
use std::time::Duration;

/// The most questions of a run where nothing else is said.
const FUEL: u64 = 100_000;
/// How long runs have to end, once the engine is closed.
const PATIENCE: Duration = Duration::from_secs(5);
/// Free connections that a client keeps to each host, at least.
const KEPT_CONNECTIONS: usize = 8;

/// Sends requests. The proved program decides what is sent, signed, tried again and given up.
///
/// All clients are seats of one program, a child process, and share its buckets. Any number of
/// threads may invoke. The drop of the engine ends what is open, and leaves no process behind.
pub struct Engine {
    clock: Clock,
    fuel: u64,
    runs: Arc<Runs>,
    desks: Vec<Desk>,
    buckets: Vec<String>,
    recording: Mutex<Option<Arc<Recording>>>,
    program: Program,
}

/// A client, and what its runs share.
struct Desk {
    name: String,
    client: Client,
    /// The number of its first seat among those of all clients.
    first_seat: usize,
    seats: Seats,
    vaults: Vec<Arc<Vault>>,
    connections: Arc<Connections>,
}

/// The runs that are open.
#[derive(Default)]
struct Runs {
    state: Mutex<RunsState>,
    changed: Condvar,
}

#[derive(Default)]
struct RunsState {
    is_closed: bool,
    open: Vec<Arc<Inbox>>,
}

/// How a request is invoked.
#[derive(Clone, Debug, Default)]
pub struct Options {
    timeout: Option<Duration>,
    is_streamed: bool,
    cancellation: Option<Cancellation>,
}

impl Options {
    /// Gives the call up after this time, the wait for its turn included. The deadlines of the
    /// client, which the engine keeps, are another thing.
    pub fn timeout(mut self, span: Duration) -> Options {
        self.timeout = Some(span);
        self
    }

    /// Has the response come once 16384 bytes of its body are there, or all of it. The caller reads
    /// the rest by [`Response::into_reader`]. Without this the whole body is read.
    pub fn stream(mut self) -> Options {
        self.is_streamed = true;
        self
    }

    /// What ends the call from another thread.
    pub fn cancellation(mut self, cancellation: &Cancellation) -> Options {
        self.cancellation = Some(cancellation.clone());
        self
    }
}

/// Who sees the tokens and keys.
#[derive(Clone, Copy, Debug, Default, PartialEq, Eq)]
pub enum Secrets {
    /// The host alone. The engine signs with stand-ins.
    #[default]
    Host,
    /// The engine too, and so they are in recorded runs.
    Engine,
}

/// What an engine is made of.
pub struct EngineBuilder {
    clients: Vec<(String, Client)>,
    buckets: Vec<(String, Bucket)>,
    program: Option<PathBuf>,
    secrets: Secrets,
    fuel: u64,
    seed: Option<u64>,
    tls: Tls,
}

impl EngineBuilder {
    /// Adds a client, by a name of your own.
    pub fn client(mut self, name: impl Into<String>, client: Client) -> EngineBuilder {
        self.clients.push((name.into(), client));
        self
    }

    /// Adds a budget of retries, by the name that clients have for it.
    pub fn bucket(mut self, name: impl Into<String>, bucket: Bucket) -> EngineBuilder {
        self.buckets.push((name.into(), bucket));
        self
    }

    /// The path of `smithy_replay`. Without it the environment's `WISHQORAM_PROGRAM` counts, and
    /// else the repository that this crate was built in.
    pub fn program(mut self, path: impl Into<PathBuf>) -> EngineBuilder {
        self.program = Some(path.into());
        self
    }

    /// Says who sees the tokens and keys.
    pub fn secrets(mut self, secrets: Secrets) -> EngineBuilder {
        self.secrets = secrets;
        self
    }

    /// The most questions of a run. One of three attempts asks about a hundred.
    pub fn fuel(mut self, fuel: u64) -> EngineBuilder {
        self.fuel = fuel;
        self
    }

    /// Makes the random parts of pauses the same each time. For tests.
    pub fn seed(mut self, seed: u64) -> EngineBuilder {
        self.seed = Some(seed);
        self
    }

    /// How TLS is made. Without it the system's authorities count.
    #[cfg(feature = "tls")]
    pub fn tls(mut self, config: Arc<rustls::ClientConfig>) -> EngineBuilder {
        self.tls.config = Some(config);
        self
    }

    /// Starts the program. Fails where there is none, or where it takes no such client.
    pub fn start(self) -> Result<Engine, Error> {
        let clock = Clock::new();
        let description = self.description(clock.now())?;
        let path = program::find(self.program)?;
        let runs = Arc::new(Runs::default());
        let ended = Arc::clone(&runs);
        let program = Program::start(&path, move |end| ended.interrupt(&Interruption::Ended(end)))?;
        let mut desks: Vec<Desk> = Vec::new();
        for (name, client) in self.clients {
            let first_seat = desks.last().map_or(0, Desk::next_seat);
            desks.push(Desk::new(
                name,
                client,
                first_seat,
                self.secrets,
                self.tls.clone(),
            ));
        }
        let seats = desks.last().map_or(0, Desk::next_seat);
        match program.say(&description)?.last() {
            Some(Reply::Opened(opened)) if *opened == seats => {}
            _ => return Err(Error::Protocol(String::from("another number of seats"))),
        }
        let buckets = self.buckets.into_iter().map(|(name, _)| name).collect();
        let recording = Mutex::default();
        Ok(Engine {
            clock,
            fuel: self.fuel,
            runs,
            desks,
            buckets,
            recording,
            program,
        })
    }

    /// The description of the engine, which is the first line that the program reads: each client
    /// stands there once for each of its seats.
    fn description(&self, start: u64) -> Result<Value, Error> {
        let buckets: Vec<Value> = self
            .buckets
            .iter()
            .map(|(_, bucket)| bucket.form())
            .collect();
        let mut seats = Vec::new();
        for (name, client) in &self.clients {
            let bucket = self.place_of(name, client)?;
            for _ in 0..client.seat_count() {
                let seed = self.seed.map(|seed| seed.wrapping_add(seats.len() as u64));
                seats.push(client.seat_form(bucket, seed.unwrap_or_else(random::word)));
            }
        }
        Ok(json!({ "buckets": buckets, "start": start, "clients": seats }))
    }

    /// The place of a client's bucket.
    fn place_of(&self, name: &str, client: &Client) -> Result<Option<usize>, Error> {
        if self
            .clients
            .iter()
            .filter(|(known, _)| known == name)
            .count()
            > 1
        {
            return Err(Error::Settings(format!("there are two clients {name}")));
        }
        let Some(bucket) = client.bucket_name() else {
            return Ok(None);
        };
        match self.buckets.iter().position(|(known, _)| known == bucket) {
            Some(place) => Ok(Some(place)),
            None => Err(Error::Settings(format!("there is no bucket {bucket}"))),
        }
    }
}

impl Engine {
    /// An engine without clients, to which they are added.
    pub fn builder() -> EngineBuilder {
        EngineBuilder {
            clients: Vec::new(),
            buckets: Vec::new(),
            program: None,
            secrets: Secrets::default(),
            fuel: FUEL,
            seed: None,
            tls: Tls::default(),
        }
    }

    /// Sends a request by this client, as often as the engine says, and answers by a response. The
    /// calling thread waits until then.
    ///
    /// Fails where the engine says so, where the caller gives up, where the rest of a body breaks
    /// off, and where the engine is closed or its program ended.
    pub fn invoke(
        &self,
        client: &str,
        request: Request,
        options: Options,
    ) -> Result<Response, Error> {
        let desk = self.desk(client)?;
        let inbox = Arc::new(Inbox::new(self.clock));
        let _open = self.runs.open(&inbox).ok_or(Error::EngineClosed)?;
        let _watch = options.cancellation.as_ref().map(|it| it.watch(&inbox));
        let Options {
            timeout,
            is_streamed,
            ..
        } = options;
        let until = timeout.map(|span| self.clock.after(span));
        let turn = desk
            .seats
            .turn(&inbox, until)
            .map_err(|why| why.error(timeout))?;
        let recording = self.recording();
        let is_logged = recording.is_some() || decisions::are_logged();
        let terms = Terms {
            fuel: self.fuel,
            is_streamed,
            is_logged,
            until,
            timeout,
        };
        let mut run = Run::new(self.place(desk, turn.seat()), request, terms, &inbox);
        let result = run.drive();
        if let (Some(recording), Some(text)) = (recording, run.printed()) {
            record(&recording, client, &text);
        }
        result
    }

    /// Records each run that begins from now on and ends, in a folder, one file each. A run that
    /// its caller gave up isn't recorded, nor one that is `Unfinished`. There is one recording at a
    /// time: a further call takes the place of the one before.
    pub fn record(&self, folder: impl AsRef<Path>) -> Result<Arc<Recording>, Error> {
        let recording = Arc::new(Recording::new(folder.as_ref())?);
        *lock(&self.recording) = Some(Arc::clone(&recording));
        Ok(recording)
    }

    /// What the buckets hold that have a name, by their names.
    pub fn sums(&self) -> Result<Vec<(String, Sums)>, Error> {
        let mut sums = Vec::new();
        for reply in self.program.say(&json!(["sums"]))? {
            match reply {
                Reply::Bucket(place, held) => {
                    if let Some(name) = self.buckets.get(place) {
                        sums.push((name.clone(), held));
                    }
                }
                Reply::Refused(why) => return Err(Error::Refused(why)),
                _ => {}
            }
        }
        Ok(sums)
    }

    /// The program's process.
    pub fn process_id(&self) -> u32 {
        self.program.id()
    }

    /// Ends all that is open. The runs fail with `EngineClosed`. Waits until no process is left.
    pub fn close(&self) {
        self.runs.close();
        for desk in &self.desks {
            desk.connections.close();
        }
        self.program.close();
    }

    fn desk(&self, client: &str) -> Result<&Desk, Error> {
        let found = self.desks.iter().find(|desk| desk.name == client);
        found.ok_or_else(|| Error::Settings(format!("there is no client {client}")))
    }

    fn place<'a>(&'a self, desk: &'a Desk, seat: usize) -> Place<'a> {
        Place {
            program: &self.program,
            clock: self.clock,
            name: &desk.name,
            client: &desk.client,
            connections: &desk.connections,
            vault: &desk.vaults[seat],
            seat: desk.first_seat + seat,
        }
    }

    fn recording(&self) -> Option<Arc<Recording>> {
        lock(&self.recording)
            .clone()
            .filter(|recording| !recording.is_ended())
    }
}

impl Drop for Engine {
    fn drop(&mut self) {
        self.close();
    }
}

impl fmt::Debug for Engine {
    fn fmt(&self, f: &mut fmt::Formatter<'_>) -> fmt::Result {
        f.debug_struct("Engine")
            .field("process_id", &self.process_id())
            .finish_non_exhaustive()
    }
}

/// Records a run. Where that can't be done the log says so, and the run ends as it did.
fn record(recording: &Recording, client: &str, text: &str) {
    if let Err(error) = recording.write(client, text) {
        let folder = recording.folder().display();
        log::error!(target: "wishqoram", "a run of {client} can't be recorded in {folder}: {error}");
    }
}

impl Desk {
    fn new(name: String, client: Client, first_seat: usize, secrets: Secrets, tls: Tls) -> Desk {
        let count = client.seat_count();
        let vault = |_| Arc::new(Vault::new(secrets == Secrets::Host));
        let wire = Wire::new(client.connect(), count.max(KEPT_CONNECTIONS), tls);
        Desk {
            name,
            client,
            first_seat,
            seats: Seats::new(count),
            vaults: (0..count).map(vault).collect(),
            connections: Connections::new(wire),
        }
    }

    /// The number of the seat behind its own.
    fn next_seat(&self) -> usize {
        self.first_seat + self.client.seat_count()
    }
}

/// Counts a run as open, until this is dropped, so that the engine's end ends it.
struct OpenRun<'a> {
    runs: &'a Runs,
    inbox: &'a Arc<Inbox>,
}

impl Runs {
    /// None where the engine is closed.
    fn open<'a>(&'a self, inbox: &'a Arc<Inbox>) -> Option<OpenRun<'a>> {
        let mut state = lock(&self.state);
        if state.is_closed {
            return None;
        }
        state.open.push(Arc::clone(inbox));
        Some(OpenRun { runs: self, inbox })
    }

    fn interrupt(&self, why: &Interruption) {
        for inbox in &lock(&self.state).open {
            inbox.interrupt(why.clone());
        }
    }

    /// Ends all runs, and waits until they are over.
    fn close(&self) {
        lock(&self.state).is_closed = true;
        self.interrupt(&Interruption::Closed);
        let state = lock(&self.state);
        let is_open = |state: &mut RunsState| !state.open.is_empty();
        let waited = self.changed.wait_timeout_while(state, PATIENCE, is_open);
        drop(waited.unwrap_or_else(PoisonError::into_inner));
    }
}

impl Drop for OpenRun<'_> {
    fn drop(&mut self) {
        lock(&self.runs.state)
            .open
            .retain(|inbox| !Arc::ptr_eq(inbox, self.inbox));
        self.runs.changed.notify_all();
    }
}
