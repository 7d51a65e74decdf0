//! The bodies of responses: what came of one, and where the rest comes from.

use crate::connections::Hold;
use crate::errors::{Cause, Error};
use crate::sync::lock;
use std::io::{self, Read};
use std::sync::{Arc, Mutex};

/// A body as it comes over its connection. One that ends before it is whole is an error.
pub(crate) struct IncomingBody {
    reader: Box<dyn Read + Send + Sync>,
    framing: Framing,
    hold: Arc<Hold>,
}

/// What says where a body ends.
#[derive(Clone, Copy, Debug, PartialEq, Eq)]
pub(crate) enum Framing {
    /// There are so many bytes more.
    Length(u64),
    /// Its last chunk is marked.
    Chunks,
    /// The end of the connection.
    Close,
}

impl Framing {
    /// That of a response with this status and these headers, by the rules of HTTP/1.1.
    pub(crate) fn of(method: &str, status: u16, headers: &[(String, String)]) -> Framing {
        let value_of = |name| {
            headers
                .iter()
                .find(|pair| pair.0 == name)
                .map(|pair| &pair.1)
        };
        if method.eq_ignore_ascii_case("head") || matches!(status, 100..=199 | 204 | 304) {
            return Framing::Length(0);
        }
        if value_of("transfer-encoding").is_some() {
            return Framing::Chunks;
        }
        let length = value_of("content-length").and_then(|value| value.parse().ok());
        length.map_or(Framing::Close, Framing::Length)
    }
}

impl IncomingBody {
    pub(crate) fn new(
        reader: Box<dyn Read + Send + Sync>,
        framing: Framing,
        hold: Arc<Hold>,
    ) -> IncomingBody {
        IncomingBody {
            reader,
            framing,
            hold,
        }
    }

    /// How many bytes may be read at once, of so many that are asked for.
    fn room(&self, asked: usize) -> usize {
        match self.framing {
            Framing::Length(left) => asked.min(usize::try_from(left).unwrap_or(asked)),
            Framing::Chunks | Framing::Close => asked,
        }
    }
}

impl Read for IncomingBody {
    fn read(&mut self, buffer: &mut [u8]) -> io::Result<usize> {
        let room = self.room(buffer.len());
        let read = if room == 0 {
            0
        } else {
            self.reader.read(&mut buffer[..room])?
        };
        let breaks_off = match &mut self.framing {
            Framing::Length(left) => {
                *left -= read as u64;
                read == 0 && *left > 0
            }
            // the reader of chunks takes an end between two of a chunk's bytes for that of the body
            Framing::Chunks => read == 0 && self.hold.saw_end(),
            Framing::Close => false,
        };
        if breaks_off && room > 0 {
            return Err(io::ErrorKind::UnexpectedEof.into());
        }
        if self.framing == Framing::Length(0) || (read == 0 && room > 0) {
            self.hold.release();
        }
        Ok(read)
    }
}

/// What came of a response's body until now. A thread of the host puts it in.
#[derive(Default)]
pub(crate) struct ReceivedBody(Mutex<Received>);

#[derive(Default)]
struct Received {
    data: Vec<u8>,
    rest: Rest,
}

/// What comes behind that.
#[derive(Default)]
enum Rest {
    #[default]
    Coming,
    None,
    Broken(Cause),
    /// The caller reads it.
    Left(Box<IncomingBody>),
}

impl ReceivedBody {
    pub(crate) fn add(&self, piece: &[u8]) {
        lock(&self.0).data.extend_from_slice(piece);
    }

    /// There is nothing more.
    pub(crate) fn finish(&self) {
        lock(&self.0).rest = Rest::None;
    }

    /// The rest can't be read.
    pub(crate) fn fail(&self, cause: Cause) {
        lock(&self.0).rest = Rest::Broken(cause);
    }

    /// The rest is the caller's to read.
    pub(crate) fn leave(&self, rest: IncomingBody) {
        lock(&self.0).rest = Rest::Left(Box::new(rest));
    }

    /// Whether no thread of the host reads on.
    pub(crate) fn is_settled(&self) -> bool {
        !matches!(lock(&self.0).rest, Rest::Coming)
    }

    pub(crate) fn begins_with(&self, front: &[u8]) -> bool {
        lock(&self.0).data.starts_with(front)
    }

    /// A copy of what came until now.
    pub(crate) fn copied(&self) -> Vec<u8> {
        lock(&self.0).data.clone()
    }

    /// The body for its caller, once it is settled. Fails where it broke off.
    pub(crate) fn taken(&self) -> Result<Body, Error> {
        let mut received = lock(&self.0);
        let front = std::mem::take(&mut received.data);
        match std::mem::take(&mut received.rest) {
            Rest::Coming | Rest::None => Ok(Body::from(front)),
            Rest::Broken(cause) => Err(Error::Body(cause)),
            Rest::Left(rest) => Ok(Body {
                front,
                read: 0,
                rest: Some(rest),
            }),
        }
    }
}

/// The body of a response, which is read as it comes. What is left unread closes the connection.
pub struct Body {
    front: Vec<u8>,
    read: usize,
    rest: Option<Box<IncomingBody>>,
}

impl From<Vec<u8>> for Body {
    fn from(front: Vec<u8>) -> Body {
        Body {
            front,
            read: 0,
            rest: None,
        }
    }
}

impl Body {
    /// What came before the response did.
    pub(crate) fn front(&self) -> &[u8] {
        &self.front
    }

    pub(crate) fn into_bytes(self) -> Result<Vec<u8>, Error> {
        let Body {
            mut front,
            read,
            rest,
        } = self;
        front.drain(..read);
        if let Some(mut rest) = rest {
            rest.read_to_end(&mut front)
                .map_err(|error| Error::Body(Arc::new(error)))?;
        }
        Ok(front)
    }
}

impl Read for Body {
    fn read(&mut self, buffer: &mut [u8]) -> io::Result<usize> {
        let mut left = &self.front[self.read..];
        if !left.is_empty() {
            let read = left.read(buffer)?;
            self.read += read;
            return Ok(read);
        }
        let Some(rest) = &mut self.rest else {
            return Ok(0);
        };
        let read = rest.read(buffer)?;
        if read == 0 && !buffer.is_empty() {
            self.rest = None;
        }
        Ok(read)
    }
}
