//! HTTP calls whose retries, deadlines and identities a proved engine decides.
//!
//! ```no_run
//! use wishqoram::{Client, Engine, Options, Request};
//!
//! # fn main() -> Result<(), wishqoram::Error> {
//! let engine = Engine::builder().client("forecast", Client::new("http://127.0.0.1:8080")).start()?;
//! let response = engine.invoke("forecast", Request::get("/today"), Options::default())?;
//! println!("{} {}", response.status(), response.text());
//! # Ok(())
//! # }
//! ```
//!
//! The engine runs as a child process, `smithy_replay serve`. It does no I/O of its own. This crate
//! has the connections (ureq), the clock and the identities. It is blocking: a call takes its
//! thread, and any number of threads may call.

#![warn(missing_docs)]
#![forbid(unsafe_code)]

mod bodies;
mod call;
mod cancellation;
mod client;
mod clock;
mod connections;
mod decisions;
mod endings;
mod engine;
mod errors;
mod failures;
mod identities;
mod inbox;
mod messages;
mod outgoing;
mod program;
mod protocol;
mod random;
mod recording;
mod run;
mod seats;
mod sync;
#[cfg(feature = "tls")]
mod tls;
mod wire;

pub use bodies::Body;
pub use cancellation::Cancellation;
pub use client::{Bucket, Client, ErrorRule, Retry, RetryMode, Sums};
pub use engine::{Engine, EngineBuilder, Options, Secrets};
pub use errors::{Cause, Error, Failure, Fault, ProgramEnd, ServiceFailure};
pub use identities::{AuthScheme, Identity, IdentityCache, SourceError};
pub use messages::{Headers, Request, Response};
pub use outgoing::{BodyReader, RequestBody};
pub use recording::{script_for_replay, Recording};
