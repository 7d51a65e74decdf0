//! The bodies of requests, which the host may keep.
//!
//! The engine is handed a body where it is at most 16384 bytes in memory. Any other stays with the
//! host, and the engine is handed a text in its place, by which the host knows it again.

use crate::protocol::{blob_of, BODY_LIMIT};
use crate::random;
use crate::sync::lock;
use serde_json::{json, Value};
use std::fmt;
use std::fs::File;
use std::io::{self, Read};
use std::path::PathBuf;
use std::sync::{Arc, Mutex};

/// Where the bytes of a body are read from.
pub type BodyReader = Box<dyn Read + Send>;

type Open = dyn Fn() -> io::Result<BodyReader> + Send + Sync;

/// The body of a request.
#[derive(Clone)]
pub struct RequestBody(Source);

#[derive(Clone)]
enum Source {
    Bytes(Arc<[u8]>),
    Each {
        open: Arc<Open>,
        length: Option<u64>,
    },
    Once(Arc<Mutex<Option<BodyReader>>>),
}

impl RequestBody {
    /// A file, which is opened anew for each attempt.
    pub fn file(path: impl Into<PathBuf>) -> io::Result<RequestBody> {
        let path = path.into();
        let length = path.metadata()?.len();
        Ok(RequestBody::each(Some(length), move || {
            Ok(Box::new(File::open(&path)?))
        }))
    }

    /// What a function opens for each attempt, of so many bytes where that is known.
    pub fn each<F>(length: Option<u64>, open: F) -> RequestBody
    where
        F: Fn() -> io::Result<BodyReader> + Send + Sync + 'static,
    {
        RequestBody(Source::Each {
            open: Arc::new(open),
            length,
        })
    }

    /// What can be read once. Such a request isn't tried again once it was begun.
    pub fn once(reader: impl Read + Send + 'static) -> RequestBody {
        RequestBody(Source::Once(Arc::new(Mutex::new(Some(Box::new(reader))))))
    }
}

impl Default for RequestBody {
    fn default() -> RequestBody {
        RequestBody::from(Vec::new())
    }
}

impl From<Vec<u8>> for RequestBody {
    fn from(bytes: Vec<u8>) -> RequestBody {
        RequestBody(Source::Bytes(bytes.into()))
    }
}

impl From<&[u8]> for RequestBody {
    fn from(bytes: &[u8]) -> RequestBody {
        RequestBody::from(bytes.to_vec())
    }
}

impl From<String> for RequestBody {
    fn from(text: String) -> RequestBody {
        RequestBody::from(text.into_bytes())
    }
}

impl From<&str> for RequestBody {
    fn from(text: &str) -> RequestBody {
        RequestBody::from(text.as_bytes())
    }
}

impl fmt::Debug for RequestBody {
    fn fmt(&self, f: &mut fmt::Formatter<'_>) -> fmt::Result {
        match &self.0 {
            Source::Bytes(bytes) => write!(f, "RequestBody({} bytes)", bytes.len()),
            Source::Each {
                length: Some(length),
                ..
            } => write!(f, "RequestBody({length} bytes)"),
            Source::Each { .. } | Source::Once(_) => f.write_str("RequestBody(..)"),
        }
    }
}

/// What a request sends, and what the engine is handed of it.
pub(crate) struct OutgoingBody {
    body: RequestBody,
    handed: Vec<u8>,
}

/// What goes on the wire.
pub(crate) enum Sent {
    Bytes(Vec<u8>),
    Reader(BodyReader, Option<u64>),
}

impl OutgoingBody {
    pub(crate) fn new(body: RequestBody) -> OutgoingBody {
        let handed = match &body.0 {
            Source::Bytes(bytes) if bytes.len() <= BODY_LIMIT => bytes.to_vec(),
            Source::Bytes(bytes) => stand_in(Some(bytes.len() as u64)),
            Source::Each { length, .. } => stand_in(*length),
            Source::Once(_) => stand_in(None),
        };
        OutgoingBody { body, handed }
    }

    /// What the engine is handed, in JSON.
    pub(crate) fn form(&self) -> Value {
        match self.body.0 {
            Source::Once(_) => json!(["Once", blob_of(&self.handed)]),
            _ => blob_of(&self.handed),
        }
    }

    /// What is sent, where the engine says that this is.
    pub(crate) fn sent_for(&self, said: Vec<u8>) -> io::Result<Sent> {
        if said != self.handed {
            return Ok(Sent::Bytes(said));
        }
        match &self.body.0 {
            Source::Bytes(bytes) => Ok(Sent::Bytes(bytes.to_vec())),
            Source::Each { open, length } => Ok(Sent::Reader(open()?, *length)),
            Source::Once(reader) => match lock(reader).take() {
                Some(reader) => Ok(Sent::Reader(reader, None)),
                None => Err(io::Error::other("the body was sent before")),
            },
        }
    }
}

fn stand_in(length: Option<u64>) -> Vec<u8> {
    let size = match length {
        Some(length) => format!("of {length} bytes"),
        None => String::from("of unknown length"),
    };
    format!("body {size}, kept by the host as {}", random::digits()).into_bytes()
}
