//! What went wrong with a request, and what the engine is told of it.

use crate::connections::Hold;
use std::error::Error as StdError;
use std::fmt;
use std::io::{self, ErrorKind};
use std::iter;
use std::time::Duration;

/// Why there is no response.
pub(crate) enum SendError {
    /// The request can't be sent as it is.
    Request(&'static str),
    /// The caller's own body can't be read.
    Body(io::Error),
    /// What ureq met with. It is boxed since it is large.
    Transport(Box<ureq::Transport>),
    /// The head of the response has what no head may have.
    Head,
}

/// The kinds of failures to send that the engine knows.
#[derive(Clone, Copy, Debug, PartialEq, Eq)]
pub(crate) enum FailureKind {
    Timeout,
    User,
    Io,
    Other,
}

impl From<url::ParseError> for SendError {
    fn from(_: url::ParseError) -> SendError {
        SendError::Request("the address can't be used")
    }
}

impl StdError for SendError {
    fn source(&self) -> Option<&(dyn StdError + 'static)> {
        match self {
            SendError::Request(_) | SendError::Head => None,
            SendError::Body(error) => Some(error),
            SendError::Transport(error) => error.source(),
        }
    }
}

impl fmt::Display for SendError {
    /// No text of a library, which may repeat a header or an address.
    fn fmt(&self, f: &mut fmt::Formatter<'_>) -> fmt::Result {
        match self {
            SendError::Request(why) => f.write_str(why),
            SendError::Body(_) => f.write_str("the body can't be read"),
            SendError::Transport(error) => error.kind().fmt(f),
            SendError::Head => f.write_str("the head of the response isn't HTTP's"),
        }
    }
}

impl fmt::Debug for SendError {
    fn fmt(&self, f: &mut fmt::Formatter<'_>) -> fmt::Result {
        write!(f, "SendError({self})")
    }
}

impl SendError {
    /// What the engine is told: a kind, and a text without secrets.
    pub(crate) fn told(&self, hold: &Hold) -> (FailureKind, String) {
        match self {
            SendError::Request(_) | SendError::Body(_) => (FailureKind::User, self.to_string()),
            SendError::Head => (FailureKind::Other, self.to_string()),
            SendError::Transport(error) => told_of(error, hold),
        }
    }
}

fn told_of(error: &ureq::Transport, hold: &Hold) -> (FailureKind, String) {
    use ureq::ErrorKind::{BadHeader, BadStatus, ConnectionFailed, Dns, InvalidUrl, UnknownScheme};
    let is_connected = hold.has_connection();
    let is_slow = is_slow(error);
    let text = |text: &str| String::from(text);
    match error.kind() {
        InvalidUrl | UnknownScheme => (FailureKind::User, text("the address can't be used")),
        BadHeader if !is_connected => (FailureKind::User, text("a header can't be sent")),
        BadStatus | BadHeader => (FailureKind::Other, SendError::Head.to_string()),
        ConnectionFailed if is_slow => (FailureKind::Timeout, hold.no_connection()),
        ConnectionFailed | Dns if is_connected => (FailureKind::Other, text("TLS failed")),
        Dns => (
            FailureKind::Io,
            text("no connection: the host's name can't be looked up"),
        ),
        ConnectionFailed => (
            FailureKind::Io,
            format!("no connection: {}", reason_of(error)),
        ),
        _ if is_slow && !is_connected => (FailureKind::Timeout, hold.no_connection()),
        _ if is_slow => (FailureKind::Timeout, hold.no_byte()),
        _ => (FailureKind::Io, broke_off(error)),
    }
}

/// That a connection broke off, and why.
pub(crate) fn broke_off(error: &(dyn StdError + 'static)) -> String {
    format!("the connection broke off: {}", reason_of(error))
}

/// A span of time in words.
pub(crate) fn seconds(span: Option<Duration>) -> String {
    match span {
        Some(span) => format!("{} s", span.as_secs_f64()),
        None => String::from("its time"),
    }
}

/// Whether a deadline passed.
pub(crate) fn is_slow(error: &(dyn StdError + 'static)) -> bool {
    let kinds = [ErrorKind::TimedOut, ErrorKind::WouldBlock];
    io_errors(error).any(|error| kinds.contains(&error.kind()))
}

/// The system's text for an error, or else that of its kind: no text of a library.
fn reason_of(error: &(dyn StdError + 'static)) -> String {
    let code = io_errors(error).find_map(io::Error::raw_os_error);
    match (code, io_errors(error).last()) {
        (Some(code), _) => io::Error::from_raw_os_error(code).to_string(),
        (None, Some(error)) => error.kind().to_string(),
        (None, None) => String::from("it isn't said why"),
    }
}

/// The errors of the system in the chain of an error's causes.
fn io_errors<'a>(error: &'a (dyn StdError + 'static)) -> impl Iterator<Item = &'a io::Error> {
    iter::successors(Some(error), cause_of).filter_map(|error| error.downcast_ref())
}

/// What is behind an error. An error of the system may have another one in it.
fn cause_of<'a>(error: &&'a (dyn StdError + 'static)) -> Option<&'a (dyn StdError + 'static)> {
    match error.downcast_ref::<io::Error>() {
        Some(error) => error.get_ref().map(|inner| inner as _),
        None => (*error).source(),
    }
}
