//! Requests on the wire, by ureq.

use crate::connections::{Hook, Layer, Plain, SHORTEST};
use crate::failures::SendError;
use crate::outgoing::{BodyReader, Sent};
use crate::protocol::WireRequest;
use crate::sync::lock;
use std::io::{self, ErrorKind, Read};
use std::sync::{Arc, Mutex};
use std::time::Duration;
use ureq::OrAnyStatus;
use url::Url;

#[cfg(feature = "tls")]
use std::sync::OnceLock;

const USER_AGENT: &str = concat!("wishqoram/", env!("CARGO_PKG_VERSION"));
/// The methods whose requests have a length also where there is no body.
const WITH_BODY: [&str; 3] = ["POST", "PUT", "PATCH"];

/// How TLS is made, where this is built with it.
#[derive(Clone, Default)]
pub(crate) struct Tls {
    /// None has the system's authorities count.
    #[cfg(feature = "tls")]
    pub(crate) config: Option<Arc<rustls::ClientConfig>>,
}

/// The connections of a client, those that are free among them.
pub(crate) struct Wire {
    connect: Option<Duration>,
    kept: usize,
    plain: ureq::Agent,
    #[cfg_attr(not(feature = "tls"), allow(dead_code))]
    tls: Tls,
    #[cfg(feature = "tls")]
    secured: OnceLock<ureq::Agent>,
}

impl Wire {
    /// Keeps so many free connections to each host.
    pub(crate) fn new(connect: Option<Duration>, kept: usize, tls: Tls) -> Wire {
        Wire {
            connect,
            kept,
            plain: agent(Plain, connect, kept),
            tls,
            #[cfg(feature = "tls")]
            secured: OnceLock::new(),
        }
    }

    /// Sends a request, and answers by the head of its response.
    pub(crate) fn send(
        &self,
        request: &WireRequest,
        sent: Sent,
    ) -> Result<ureq::Response, SendError> {
        let url = Url::parse(&request.url)?;
        let (agent, url, host) = self.target(url)?;
        let mut message = agent.request(&request.method, url.as_str());
        let headers = joined(&request.headers);
        if !headers
            .iter()
            .any(|(name, _)| name.eq_ignore_ascii_case("host"))
        {
            message = message.set("host", &host);
        }
        for (name, value) in &headers {
            message = message.set(name, value);
        }
        let has_length = headers.iter().any(|(name, _)| says_length(name));
        match sent {
            Sent::Bytes(bytes) if bytes.is_empty() && !expects_body(&request.method) => {
                answered(message.call())
            }
            Sent::Bytes(bytes) => answered(message.send_bytes(&bytes)),
            Sent::Reader(reader, length) => {
                if let (Some(length), false) = (length, has_length) {
                    message = message.set("content-length", &length.to_string());
                }
                send_read(message, reader, length)
            }
        }
    }

    /// Who sends to an address, how the address is said to ureq, and the header `host`.
    fn target(&self, mut url: Url) -> Result<(&ureq::Agent, Url, String), SendError> {
        const UNUSABLE: SendError = SendError::Request("the address can't be used");
        let name = url.host_str().ok_or(UNUSABLE)?;
        let host = match url.port() {
            Some(port) => format!("{name}:{port}"),
            None => String::from(name),
        };
        if url.scheme() == "https" {
            return Ok((self.secured()?, url, host));
        }
        let port = url.port_or_known_default();
        if url.scheme() != "http" || url.set_scheme("https").is_err() {
            return Err(UNUSABLE);
        }
        url.set_port(port).map_err(|()| UNUSABLE)?;
        Ok((&self.plain, url, host))
    }

    #[cfg(feature = "tls")]
    fn secured(&self) -> Result<&ureq::Agent, SendError> {
        Ok(self.secured.get_or_init(|| {
            let config = self
                .tls
                .config
                .clone()
                .unwrap_or_else(crate::tls::of_the_system);
            agent(config, self.connect, self.kept)
        }))
    }

    #[cfg(not(feature = "tls"))]
    fn secured(&self) -> Result<&ureq::Agent, SendError> {
        let _ = (self.connect, self.kept);
        Err(SendError::Request("this was built without TLS"))
    }
}

fn agent(layer: impl Layer + 'static, connect: Option<Duration>, kept: usize) -> ureq::Agent {
    // without a deadline it has the longest there is, which ureq takes for none
    let connect = connect.map_or(Duration::MAX, |span| span.max(SHORTEST));
    ureq::AgentBuilder::new()
        .tls_connector(Arc::new(Hook(layer)))
        .timeout_connect(connect)
        .max_idle_connections_per_host(kept)
        .redirects(0)
        .user_agent(USER_AGENT)
        .build()
}

/// The headers with those of one name as one, since ureq sends one of a name.
fn joined(headers: &[(String, String)]) -> Vec<(String, String)> {
    let mut joined: Vec<(String, String)> = Vec::new();
    for (name, value) in headers {
        let between = if name.eq_ignore_ascii_case("cookie") {
            "; "
        } else {
            ", "
        };
        match joined
            .iter_mut()
            .find(|(known, _)| known.eq_ignore_ascii_case(name))
        {
            Some((_, values)) => *values = [values.as_str(), value].join(between),
            None => joined.push((name.clone(), value.clone())),
        }
    }
    joined
}

fn says_length(name: &str) -> bool {
    ["content-length", "transfer-encoding"]
        .iter()
        .any(|known| name.eq_ignore_ascii_case(known))
}

fn expects_body(method: &str) -> bool {
    WITH_BODY
        .iter()
        .any(|known| method.eq_ignore_ascii_case(known))
}

fn answered(result: Result<ureq::Response, ureq::Error>) -> Result<ureq::Response, SendError> {
    result
        .or_any_status()
        .map_err(|error| SendError::Transport(Box::new(error)))
}

/// Sends what is read as it is sent. What the reader meets with is told apart from what the network
/// does.
fn send_read(
    message: ureq::Request,
    reader: BodyReader,
    length: Option<u64>,
) -> Result<ureq::Response, SendError> {
    let failed = Arc::new(Mutex::new(None));
    let guarded = Guarded {
        reader,
        left: length,
        failed: Arc::clone(&failed),
    };
    let result = answered(message.send(guarded));
    let failed = lock(&failed).take();
    match failed {
        Some(error) => Err(SendError::Body(error)),
        None => result,
    }
}

/// The caller's body, whose error is kept. One that isn't as long as it is said to be is an error.
struct Guarded {
    reader: BodyReader,
    left: Option<u64>,
    failed: Arc<Mutex<Option<io::Error>>>,
}

impl Guarded {
    fn read_on(&mut self, buffer: &mut [u8]) -> io::Result<usize> {
        let read = self.reader.read(buffer)?;
        let Some(left) = self.left else {
            return Ok(read);
        };
        let is_short = read == 0 && left > 0 && !buffer.is_empty();
        match left.checked_sub(read as u64) {
            Some(left) if !is_short => {
                self.left = Some(left);
                Ok(read)
            }
            _ => Err(io::Error::new(
                ErrorKind::InvalidData,
                "the body has another length",
            )),
        }
    }
}

impl Read for Guarded {
    fn read(&mut self, buffer: &mut [u8]) -> io::Result<usize> {
        self.read_on(buffer).map_err(|error| match error.kind() {
            ErrorKind::Interrupted => error,
            _ => {
                *lock(&self.failed) = Some(error);
                io::Error::other("the body can't be read")
            }
        })
    }
}

/// The headers of a response, their names in lower case. Fails where ureq can't read a value, since
/// it isn't visible ASCII.
pub(crate) fn headers_of(response: &ureq::Response) -> Result<Vec<(String, String)>, SendError> {
    let names = response.headers_names();
    let mut pairs = Vec::with_capacity(names.len());
    for (place, name) in names.iter().enumerate() {
        let nth = names[..place].iter().filter(|known| *known == name).count();
        let values = response.all(name);
        let value = values
            .get(nth)
            .filter(|_| !name.is_empty())
            .ok_or(SendError::Head)?;
        pairs.push((name.clone(), String::from(*value)));
    }
    Ok(pairs)
}
