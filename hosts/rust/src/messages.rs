//! Requests and responses, as a caller sees them.

use crate::bodies::Body;
use crate::errors::Error;
use crate::outgoing::RequestBody;
use std::borrow::Cow;
use std::fmt;

/// A request. Its path is put behind the client's address.
#[derive(Clone, Debug)]
pub struct Request {
    pub(crate) method: String,
    pub(crate) path: String,
    pub(crate) headers: Vec<(String, String)>,
    pub(crate) body: RequestBody,
}

impl Request {
    /// A request of this method, with a path and a query.
    pub fn new(method: impl Into<String>, path: impl Into<String>) -> Request {
        let (method, path) = (method.into(), path.into());
        Request {
            method,
            path,
            headers: Vec::new(),
            body: RequestBody::default(),
        }
    }

    /// A `GET` of this path.
    pub fn get(path: impl Into<String>) -> Request {
        Request::new("GET", path)
    }

    /// A `POST` of this body.
    pub fn post(path: impl Into<String>, body: impl Into<RequestBody>) -> Request {
        Request::new("POST", path).body(body)
    }

    /// Adds a header. Its value is visible ASCII, since no other can be sent.
    pub fn header(mut self, name: impl Into<String>, value: impl Into<String>) -> Request {
        self.headers.push((name.into(), value.into()));
        self
    }

    /// Sets the body.
    pub fn body(mut self, body: impl Into<RequestBody>) -> Request {
        self.body = body.into();
        self
    }
}

/// The headers of a response, in their order. Names are in lower case.
#[derive(Clone, Debug, Default, PartialEq, Eq)]
pub struct Headers(Vec<(String, String)>);

impl Headers {
    pub(crate) fn new(pairs: Vec<(String, String)>) -> Headers {
        Headers(pairs)
    }

    /// The first value of the headers of this name, in letters of any case.
    pub fn get(&self, name: &str) -> Option<&str> {
        self.iter()
            .find(|(known, _)| known.eq_ignore_ascii_case(name))
            .map(|pair| pair.1)
    }

    /// The values of the headers of this name, in letters of any case.
    pub fn get_all<'a>(&'a self, name: &'a str) -> impl Iterator<Item = &'a str> + 'a {
        self.iter()
            .filter(move |(known, _)| known.eq_ignore_ascii_case(name))
            .map(|pair| pair.1)
    }

    /// Each header, by its name and its value.
    pub fn iter(&self) -> impl Iterator<Item = (&str, &str)> + '_ {
        self.0
            .iter()
            .map(|(name, value)| (name.as_str(), value.as_str()))
    }
}

/// A response.
///
/// Its body was read, unless it was asked for with [`Options::stream`](crate::Options::stream).
/// Then [`into_reader`](Response::into_reader) reads on, and the connection is free again at the
/// body's end.
pub struct Response {
    status: u16,
    headers: Headers,
    attempts: usize,
    body: Body,
}

impl Response {
    pub(crate) fn new(status: u16, headers: Headers, attempts: usize, body: Body) -> Response {
        Response {
            status,
            headers,
            attempts,
            body,
        }
    }

    /// The status, as 200.
    pub fn status(&self) -> u16 {
        self.status
    }

    /// The headers.
    pub fn headers(&self) -> &Headers {
        &self.headers
    }

    /// How many requests were sent.
    pub fn attempts(&self) -> usize {
        self.attempts
    }

    /// The body, or of a streamed one what came of it before the response did.
    pub fn body(&self) -> &[u8] {
        self.body.front()
    }

    /// The body as a text, in which what isn't UTF-8 is replaced. Of a streamed body it is a part.
    pub fn text(&self) -> Cow<'_, str> {
        String::from_utf8_lossy(self.body())
    }

    /// All of the body, which is read to its end. Fails where it breaks off.
    pub fn into_bytes(self) -> Result<Vec<u8>, Error> {
        self.body.into_bytes()
    }

    /// The body from its first byte on. Dropped before its end it closes the connection.
    pub fn into_reader(self) -> Body {
        self.body
    }
}

impl fmt::Debug for Response {
    fn fmt(&self, f: &mut fmt::Formatter<'_>) -> fmt::Result {
        let Response {
            status,
            headers,
            attempts,
            body: _,
        } = self;
        f.debug_struct("Response")
            .field("status", status)
            .field("headers", headers)
            .field("attempts", attempts)
            .finish_non_exhaustive()
    }
}
