//! What an invocation may end with, other than a response.

use crate::messages::Response;
use std::error::Error as StdError;
use std::fmt;
use std::io;
use std::sync::Arc;
use std::time::Duration;

/// What a request, a load or a body met with.
pub type Cause = Arc<dyn StdError + Send + Sync>;

/// What this crate ends with where there is no response.
///
/// The first five are how the engine ends a run. `Unfinished`, `Cancelled` and `InvocationTimeout`
/// are ends before that. The others are faults of the program, or of its use.
#[derive(Debug)]
#[non_exhaustive]
pub enum Error {
    /// No request could be made of what was handed in.
    ConstructionFailure(Box<Failure>),
    /// A deadline of the operation or of its last attempt passed.
    TimeoutError(Box<Failure>),
    /// The last request could not be sent, or no response came.
    DispatchFailure(Box<Failure>),
    /// A response came that could not be read to its end.
    ResponseError(Box<Failure>),
    /// The service answered with an error.
    ServiceError(Box<ServiceFailure>),
    /// The run asked as many questions as it may, and wasn't over.
    Unfinished,
    /// The caller's `Cancellation` was cancelled.
    Cancelled,
    /// The `timeout` of the invocation passed, which was so long.
    InvocationTimeout(Duration),
    /// The body broke off, or stalled, when the engine had ended the run already.
    Body(Cause),
    /// There is no program to start.
    ProgramNotFound(String),
    /// The program ended before the engine was closed. Nothing more can be invoked.
    ProgramEnded(ProgramEnd),
    /// The engine was closed.
    EngineClosed,
    /// The engine doesn't take a line. It is longer than 16 MiB, as by its headers, or this crate
    /// is at fault.
    Refused(String),
    /// The program says what no engine does.
    Protocol(String),
    /// There is no such client or bucket, or nothing can be made of a setting.
    Settings(String),
    /// Runs can't be recorded in a folder.
    Recording(io::Error),
}

/// Why the engine ended a run, and what there is of it.
#[derive(Debug)]
pub struct Failure {
    /// Why, as the engine tells it.
    pub fault: Fault,
    /// The last response, where there is one.
    pub response: Option<Response>,
    /// How many requests were sent.
    pub attempts: usize,
    /// What the last request met with, or the load of an identity.
    pub cause: Option<Cause>,
}

/// An error that the service answered with.
#[derive(Debug)]
pub struct ServiceFailure {
    /// The name that the client's rules have for the response, or nothing.
    pub name: String,
    /// The response.
    pub response: Response,
    /// How many requests were sent.
    pub attempts: usize,
}

/// Why a run failed, as the engine tells it.
#[derive(Clone, Debug, PartialEq, Eq)]
pub struct Fault {
    /// `Operation`, `Connector`, `Timeout`, `Response`, `Interceptor` or `Other`.
    pub kind: String,
    /// Of `Connector`: `Timeout`, `User`, `Io` or `Other`. Of `Interceptor`: its hook.
    pub detail: Option<String>,
    /// What is said of it. It names no secret that stayed with the host.
    pub text: String,
}

/// How the program ended.
#[derive(Clone, Debug, PartialEq, Eq)]
pub struct ProgramEnd {
    /// Its exit status, unless a signal ended it.
    pub status: Option<i32>,
    /// The signal that ended it.
    pub signal: Option<i32>,
    /// What it wrote on standard error.
    pub said: String,
}

impl Error {
    /// Why the engine ended the run, unless the service said so.
    pub fn fault(&self) -> Option<&Fault> {
        self.failure().map(|failure| &failure.fault)
    }

    /// The last response, where the engine ended the run with an error and there is one.
    pub fn response(&self) -> Option<&Response> {
        match self {
            Error::ServiceError(failure) => Some(&failure.response),
            _ => self.failure()?.response.as_ref(),
        }
    }

    /// How many requests were sent, where the engine ended the run.
    pub fn attempts(&self) -> Option<usize> {
        match self {
            Error::ServiceError(failure) => Some(failure.attempts),
            _ => Some(self.failure()?.attempts),
        }
    }

    /// Whether the engine ended the run, with one of the five errors that a run has.
    pub fn is_sdk_error(&self) -> bool {
        self.attempts().is_some()
    }

    fn failure(&self) -> Option<&Failure> {
        match self {
            Error::ConstructionFailure(failure)
            | Error::TimeoutError(failure)
            | Error::DispatchFailure(failure)
            | Error::ResponseError(failure) => Some(failure),
            _ => None,
        }
    }
}

impl StdError for Error {
    fn source(&self) -> Option<&(dyn StdError + 'static)> {
        match self {
            Error::Body(cause) => Some(cause.as_ref()),
            Error::Recording(error) => Some(error),
            _ => self
                .failure()?
                .cause
                .as_ref()
                .map(|cause| cause.as_ref() as _),
        }
    }
}

impl fmt::Display for Error {
    fn fmt(&self, f: &mut fmt::Formatter<'_>) -> fmt::Result {
        match self {
            Error::ConstructionFailure(failure)
            | Error::TimeoutError(failure)
            | Error::DispatchFailure(failure)
            | Error::ResponseError(failure) => failure.fault.fmt(f),
            Error::ServiceError(failure) => failure.fmt(f),
            Error::Unfinished => f.write_str("the run used its questions up"),
            Error::Cancelled => f.write_str("the invocation was cancelled"),
            Error::InvocationTimeout(span) => {
                write!(
                    f,
                    "the invocation wasn't over after {} s",
                    span.as_secs_f64()
                )
            }
            Error::Body(_) => f.write_str("the body broke off"),
            Error::ProgramNotFound(why) => write!(f, "no program: {why}"),
            Error::ProgramEnded(end) => write!(f, "the engine's program ended {end}"),
            Error::EngineClosed => f.write_str("the engine is closed"),
            Error::Refused(why) => write!(f, "the engine refused a line: {why}"),
            Error::Protocol(line) => write!(f, "the program says what no engine does: {line}"),
            Error::Settings(why) => f.write_str(why),
            Error::Recording(_) => f.write_str("runs can't be recorded there"),
        }
    }
}

impl fmt::Display for ServiceFailure {
    fn fmt(&self, f: &mut fmt::Formatter<'_>) -> fmt::Result {
        write!(f, "status {}", self.response.status())?;
        if self.name.is_empty() {
            return Ok(());
        }
        write!(f, " ({})", self.name)
    }
}

impl fmt::Display for Fault {
    fn fmt(&self, f: &mut fmt::Formatter<'_>) -> fmt::Result {
        match &self.detail {
            Some(detail) => write!(f, "{} ({detail}): {}", self.kind, self.text),
            None => write!(f, "{}: {}", self.kind, self.text),
        }
    }
}

impl fmt::Display for ProgramEnd {
    fn fmt(&self, f: &mut fmt::Formatter<'_>) -> fmt::Result {
        match (self.signal, self.status) {
            (Some(signal), _) => write!(f, "by signal {signal}")?,
            (None, Some(status)) => write!(f, "with status {status}")?,
            (None, None) => f.write_str("unseen")?,
        }
        if self.said.is_empty() {
            return Ok(());
        }
        write!(f, ": {}", self.said)
    }
}
