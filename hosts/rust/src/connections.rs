//! Connections: who holds one, how long it is waited for, and when it isn't used again.
//!
//! ureq connects and keeps what is free. It has one hook for its connections, that of TLS. So each
//! address is said to it as one of https, and the hook makes TLS of those alone that have it. What
//! the hook answers is watched here: a request that the engine gives up has its connection shut
//! down, whatever it waits for, and one that the engine calls poisoned is closed.

// ureq's hook answers by an error that is large
#![allow(clippy::result_large_err)]

use crate::failures::seconds;
use crate::sync::lock;
use std::cell::RefCell;
use std::io::{self, ErrorKind, Read, Write};
use std::net::{Shutdown, TcpStream};
use std::sync::atomic::{AtomicU64, Ordering};
use std::sync::{Arc, Mutex};
use std::time::Duration;
use ureq::ReadWrite;

thread_local! {
    /// The hold of the request that this thread sends.
    static SENDING: RefCell<Option<Arc<Hold>>> = const { RefCell::new(None) };
}

/// The shortest deadline that the system takes.
pub(crate) const SHORTEST: Duration = Duration::from_micros(1);

/// The next hold's number.
static NEXT: AtomicU64 = AtomicU64::new(1);

/// A request's hold on the connection that it goes over.
pub(crate) struct Hold {
    id: u64,
    connect: Option<Duration>,
    read: Option<Duration>,
    held: Mutex<Held>,
}

#[derive(Default)]
struct Held {
    connection: Option<Arc<Connection>>,
    is_given_up: bool,
}

impl Hold {
    /// A hold with the deadlines of its request.
    pub(crate) fn new(connect: Option<Duration>, read: Option<Duration>) -> Arc<Hold> {
        let id = NEXT.fetch_add(1, Ordering::Relaxed);
        Arc::new(Hold {
            id,
            connect,
            read,
            held: Mutex::default(),
        })
    }

    /// Does this while the connections that the thread uses are held by this.
    pub(crate) fn while_sending<T>(self: &Arc<Hold>, work: impl FnOnce() -> T) -> T {
        SENDING.with(|sending| sending.replace(Some(Arc::clone(self))));
        let result = work();
        SENDING.with(|sending| sending.replace(None));
        result
    }

    pub(crate) fn has_connection(&self) -> bool {
        self.connection().is_some()
    }

    /// The head of the response came. With `is_last` the connection isn't used again behind it.
    pub(crate) fn has_head(&self, is_last: bool) {
        self.with(|state| {
            state.awaits_head = false;
            state.is_spent |= is_last;
        });
    }

    /// Whether the connection came to its end.
    pub(crate) fn saw_end(&self) -> bool {
        self.connection()
            .is_some_and(|connection| lock(&connection.state).saw_end)
    }

    /// The request is over. Its connection may be another's from here on.
    pub(crate) fn release(&self) {
        let is_spent = self.with(|state| {
            state.holder = None;
            state.is_spent
        });
        self.shut_down_if(is_spent == Some(true));
    }

    /// Wakes the thread that waits for the request, and closes its connection. A request that is
    /// over is left alone.
    pub(crate) fn give_up(&self) {
        lock(&self.held).is_given_up = true;
        let is_held = self.with(|state| state.is_spent = true).is_some();
        self.shut_down_if(is_held);
    }

    /// Gives the request up. Its connection isn't used again. Where another holds it now, it is
    /// closed behind that one.
    pub(crate) fn poison(&self) {
        self.give_up();
        let Some(connection) = self.connection() else {
            return;
        };
        let is_free = {
            let mut state = lock(&connection.state);
            state.is_spent = true;
            state.holder.is_none()
        };
        self.shut_down_if(is_free);
    }

    /// That its deadline for connecting passed.
    pub(crate) fn no_connection(&self) -> String {
        format!("no connection after {}", seconds(self.connect))
    }

    /// That its deadline for reading passed.
    pub(crate) fn no_byte(&self) -> String {
        format!("no byte for {}", seconds(self.read))
    }

    fn connection(&self) -> Option<Arc<Connection>> {
        lock(&self.held).connection.clone()
    }

    /// What comes of this for the connection, if this holds it still.
    fn with<T>(&self, work: impl FnOnce(&mut State) -> T) -> Option<T> {
        let connection = self.connection()?;
        let mut state = lock(&connection.state);
        (state.holder == Some(self.id)).then(|| work(&mut state))
    }

    fn shut_down_if(&self, so: bool) {
        if let (true, Some(connection)) = (so, self.connection()) {
            connection.shut_down();
        }
    }

    /// Takes a connection. Fails where the request was given up before.
    fn take(&self, connection: &Arc<Connection>) -> io::Result<()> {
        let mut held = lock(&self.held);
        held.connection = Some(Arc::clone(connection));
        match held.is_given_up {
            true => Err(io::Error::other("the request was given up")),
            false => Ok(()),
        }
    }
}

/// A connection, as its holders see it.
struct Connection {
    socket: TcpStream,
    state: Mutex<State>,
}

struct State {
    holder: Option<u64>,
    /// How long a byte is waited for.
    patience: Option<Duration>,
    awaits_head: bool,
    is_spent: bool,
    saw_end: bool,
}

impl Connection {
    /// A connection that this thread's request made.
    fn new(socket: &TcpStream) -> io::Result<Arc<Connection>> {
        let hold = sending().ok_or(ErrorKind::Unsupported)?;
        let state = State {
            holder: Some(hold.id),
            patience: hold.connect,
            awaits_head: true,
            is_spent: false,
            saw_end: false,
        };
        let socket = socket.try_clone()?;
        let connection = Arc::new(Connection {
            socket,
            state: Mutex::new(state),
        });
        hold.take(&connection)?;
        Ok(connection)
    }

    /// Waits for a response from here on.
    fn is_made(&self) {
        if let Some(hold) = sending() {
            lock(&self.state).patience = hold.read;
        }
    }

    /// Has this thread's request hold the connection, which may have been another's. One that isn't
    /// used again is refused: then ureq makes a new one, since nothing was sent yet.
    fn take(self: &Arc<Connection>) -> io::Result<()> {
        let Some(hold) = sending() else { return Ok(()) };
        let mut state = lock(&self.state);
        if state.holder == Some(hold.id) {
            return Ok(());
        }
        if state.is_spent {
            return Err(ErrorKind::BrokenPipe.into());
        }
        state.holder = Some(hold.id);
        state.patience = hold.read;
        state.awaits_head = true;
        drop(state);
        hold.take(self)
    }

    /// How long the next byte is waited for. It is set for each one, since ureq takes it off where
    /// it keeps a connection.
    fn patience(&self) -> Option<Duration> {
        let patience = lock(&self.state).patience;
        patience.map(|span| span.max(SHORTEST))
    }

    /// The other side says no more. That is an error where a response is awaited.
    fn end(&self) -> io::Result<usize> {
        let mut state = lock(&self.state);
        state.saw_end = true;
        state.is_spent = true;
        match state.awaits_head {
            true => Err(ErrorKind::UnexpectedEof.into()),
            false => Ok(0),
        }
    }

    fn shut_down(&self) {
        // it fails where the connection is closed already
        let _ = self.socket.shutdown(Shutdown::Both);
    }
}

fn sending() -> Option<Arc<Hold>> {
    SENDING.with(|sending| sending.borrow().clone())
}

/// What ureq reads from and writes to.
struct Watched {
    io: Box<dyn ReadWrite>,
    connection: Arc<Connection>,
}

impl std::fmt::Debug for Watched {
    fn fmt(&self, f: &mut std::fmt::Formatter<'_>) -> std::fmt::Result {
        self.io.fmt(f)
    }
}

impl ReadWrite for Watched {
    fn socket(&self) -> Option<&TcpStream> {
        self.io.socket()
    }
}

impl Read for Watched {
    fn read(&mut self, buffer: &mut [u8]) -> io::Result<usize> {
        self.connection
            .socket
            .set_read_timeout(self.connection.patience())?;
        match self.io.read(buffer) {
            Ok(0) if !buffer.is_empty() => self.connection.end(),
            result => result.map_err(not_sent_again),
        }
    }
}

impl Write for Watched {
    fn write(&mut self, data: &[u8]) -> io::Result<usize> {
        self.connection.take()?;
        self.connection
            .socket
            .set_write_timeout(self.connection.patience())?;
        self.io.write(data)
    }

    fn flush(&mut self) -> io::Result<()> {
        self.io.flush()
    }
}

impl Drop for Watched {
    /// Closes the connection, of which a hold may have a handle still.
    fn drop(&mut self) {
        self.connection.shut_down();
    }
}

/// An error of a kind that ureq leaves alone. It would send a `GET` again by itself where a kept
/// connection is reset. Whether a request is sent again is the engine's to say.
fn not_sent_again(error: io::Error) -> io::Error {
    match error.kind() {
        ErrorKind::ConnectionReset | ErrorKind::ConnectionAborted => {
            io::Error::new(ErrorKind::BrokenPipe, error)
        }
        _ => error,
    }
}

/// ureq's hook for new connections: watches them, and makes TLS of those that have it.
pub(crate) struct Hook<T>(pub(crate) T);

/// What a connection goes through.
pub(crate) trait Layer: Send + Sync {
    fn over(&self, name: &str, io: Box<dyn ReadWrite>) -> Result<Box<dyn ReadWrite>, ureq::Error>;
}

/// Nothing: the connection as it is.
pub(crate) struct Plain;

impl Layer for Plain {
    fn over(&self, _: &str, io: Box<dyn ReadWrite>) -> Result<Box<dyn ReadWrite>, ureq::Error> {
        Ok(io)
    }
}

#[cfg(feature = "tls")]
impl Layer for Arc<rustls::ClientConfig> {
    fn over(&self, name: &str, io: Box<dyn ReadWrite>) -> Result<Box<dyn ReadWrite>, ureq::Error> {
        ureq::TlsConnector::connect(self, name, io)
    }
}

impl<T: Layer> ureq::TlsConnector for Hook<T> {
    fn connect(
        &self,
        name: &str,
        io: Box<dyn ReadWrite>,
    ) -> Result<Box<dyn ReadWrite>, ureq::Error> {
        let socket = io.socket().ok_or(io::Error::from(ErrorKind::Unsupported))?;
        let connection = Connection::new(socket)?;
        let watched = Watched {
            io,
            connection: Arc::clone(&connection),
        };
        let layered = self.0.over(name, Box::new(watched))?;
        connection.is_made();
        Ok(layered)
    }
}
