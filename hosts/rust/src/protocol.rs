//! The lines of JSON that a host and the engine say to each other.

use crate::client::Sums;
use crate::errors::{Error, Fault};
use crate::failures::FailureKind;
use serde::Deserialize;
use serde_json::value::RawValue;
use serde_json::{json, Value};
use std::time::Duration;

/// How many bytes of a body the engine reads.
pub(crate) const BODY_LIMIT: usize = 16384;
/// The kind of payloads that are outputs.
pub(crate) const OUTPUT_KIND: u64 = 1;
/// The kind of payloads that are errors.
pub(crate) const ERROR_KIND: u64 = 2;
/// How much of a line is told that can't be understood.
const TOLD: usize = 60;

/// A request as it goes on the wire.
pub(crate) struct WireRequest {
    pub(crate) method: String,
    pub(crate) url: String,
    pub(crate) headers: Vec<(String, String)>,
    pub(crate) body: Vec<u8>,
}

/// What the engine says.
pub(crate) enum Reply {
    /// There are so many seats.
    Opened(usize),
    Begin(Begin),
    /// Load the identity of this scheme.
    Load(String),
    /// The connection of this number isn't used again.
    Poison(u64),
    Park(Park),
    /// A line of the run's log.
    Entry(String),
    Done(Done),
    /// What the bucket of a place holds.
    Bucket(usize, Sums),
    /// There is no further bucket.
    End,
    /// The line changed nothing: why.
    Refused(String),
}

/// Send this request. Its connection is remembered as `capture`.
pub(crate) struct Begin {
    pub(crate) call: u64,
    pub(crate) request: WireRequest,
    pub(crate) connect: Option<Duration>,
    pub(crate) read: Option<Duration>,
    pub(crate) capture: Option<u64>,
}

/// The run waits. Only this call and this load are open. It is woken at `wake` at the latest.
pub(crate) struct Park {
    pub(crate) call: Option<u64>,
    pub(crate) scheme: Option<String>,
    pub(crate) wake: Option<u64>,
}

/// The run is over. `text` is its ending as `replay` prints it.
pub(crate) struct Done {
    pub(crate) ending: Value,
    pub(crate) text: String,
}

impl Done {
    /// Whether the run used its questions up.
    pub(crate) fn is_unfinished(&self) -> bool {
        self.ending.get(0).is_some_and(|word| word == "Unfinished")
    }
}

impl Reply {
    /// What a line says, without its line feed.
    pub(crate) fn read(line: &str) -> Result<Reply, Error> {
        parts_of(line)
            .and_then(|parts| reply_of(line, &parts))
            .ok_or_else(|| Error::Protocol(line.chars().take(TOLD).collect()))
    }

    /// Whether an answer ends with this line.
    pub(crate) fn is_last(&self) -> bool {
        match self {
            Reply::Opened(_) | Reply::Park(_) | Reply::Done(_) | Reply::End => true,
            Reply::Refused(_) => true,
            Reply::Begin(_) | Reply::Load(_) | Reply::Poison(_) => false,
            Reply::Entry(_) | Reply::Bucket(..) => false,
        }
    }
}

/// The parts of a line that is an array, as they stand there.
pub(crate) fn parts_of(line: &str) -> Option<Vec<&RawValue>> {
    serde_json::from_str(line).ok()
}

fn reply_of(line: &str, parts: &[&RawValue]) -> Option<Reply> {
    if read::<u64>(parts.first()?).is_some() {
        return Some(Reply::Entry(String::from(line)));
    }
    let word: String = read(parts.first()?)?;
    Some(match (word.as_str(), parts.get(1..)?) {
        ("opened", [seats]) => Reply::Opened(read(seats)?),
        ("begin", [_, call, request, timeouts, capture]) => {
            Reply::Begin(begin_of(call, request, timeouts, capture)?)
        }
        ("load", [_, scheme]) => Reply::Load(read(scheme)?),
        ("poison", [_, capture]) => Reply::Poison(read(capture)?),
        ("park", [_, call, scheme, wake]) => Reply::Park(Park {
            call: read(call)?,
            scheme: read(scheme)?,
            wake: read(wake)?,
        }),
        ("done", [_, _, ending]) => Reply::Done(Done {
            ending: read(ending)?,
            text: String::from(ending.get()),
        }),
        ("bucket", [place, sums]) => Reply::Bucket(read(place)?, sums_of(sums)?),
        ("end", []) => Reply::End,
        ("refused", [why, ..]) => Reply::Refused(read(why)?),
        _ => return None,
    })
}

fn begin_of(
    call: &RawValue,
    request: &RawValue,
    timeouts: &RawValue,
    capture: &RawValue,
) -> Option<Begin> {
    let [method, url, headers, body]: [Value; 4] = read(request)?;
    // a body that can be sent once stands behind a word
    let body = body.get(1).unwrap_or(&body);
    let timeouts: Value = read(timeouts)?;
    let span = |place: usize| timeouts.get(place)?.as_u64().map(Duration::from_nanos);
    Some(Begin {
        call: read(call)?,
        request: WireRequest {
            method: String::from(method.as_str()?),
            url: String::from(url.as_str()?),
            headers: headers_of(&headers)?,
            body: bytes_of(body)?,
        },
        connect: span(0),
        read: span(1),
        capture: read(capture)?,
    })
}

fn sums_of(sums: &RawValue) -> Option<Sums> {
    let [capacity, granted, available, held, forgotten] = read(sums)?;
    Some(Sums {
        capacity,
        granted,
        available,
        held,
        forgotten,
    })
}

fn read<'a, T: Deserialize<'a>>(part: &'a RawValue) -> Option<T> {
    serde_json::from_str(part.get()).ok()
}

/// Something that came, of a call or of a load.
pub(crate) enum News {
    /// The head of a response.
    Response {
        status: u16,
        headers: Vec<(String, String)>,
    },
    /// A piece of its body.
    Data(Vec<u8>),
    /// Its body is at its end.
    End,
    /// Its body broke off: whether a deadline passed, and why.
    Broken { is_slow: bool, text: String },
    /// No response came: of which kind that is, and why.
    Failed { kind: FailureKind, text: String },
    /// A load is done: what the engine is handed, and when that expires.
    Identity { data: String, expires: Option<u64> },
    /// A load failed: why.
    NoIdentity(String),
}

impl News {
    /// The event of this, of a call's number or of a load's scheme.
    pub(crate) fn event(&self, source: Value) -> Value {
        match self {
            News::Response { status, headers } => {
                json!(["response", source, status, header_rows(headers)])
            }
            News::Data(data) => json!(["data", source, blob_of(data)]),
            News::End => json!(["end", source]),
            News::Broken { is_slow, text } => {
                let kind = if *is_slow { "Timeout" } else { "Response" };
                json!(["broken", source, [kind, text]])
            }
            News::Failed { kind, text } => json!(["failed", source, kind_form(*kind), text]),
            News::Identity { data, expires } => {
                json!(["identity", source, [blob_of(data.as_bytes()), expires]])
            }
            News::NoIdentity(text) => json!(["no_identity", source, text]),
        }
    }
}

fn kind_form(kind: FailureKind) -> Value {
    match kind {
        FailureKind::Timeout => json!("Timeout"),
        FailureKind::User => json!("User"),
        FailureKind::Io => json!("Io"),
        FailureKind::Other => json!(["Other", null]),
    }
}

/// How bytes stand in JSON: visible ASCII, spaces, tabs and line ends as text, others in hex.
pub(crate) fn blob_of(data: &[u8]) -> Value {
    let is_text = |byte: &u8| matches!(byte, b'\t' | b'\n' | b'\r' | b' '..=b'~');
    match std::str::from_utf8(data) {
        Ok(text) if data.iter().all(is_text) => json!(text),
        _ => {
            let hex: String = data.iter().map(|byte| format!("{byte:02x}")).collect();
            json!({ "hex": hex })
        }
    }
}

/// The bytes of a blob. None in it, as of a body that is gone, are none.
pub(crate) fn bytes_of(blob: &Value) -> Option<Vec<u8>> {
    match blob {
        Value::Null => Some(Vec::new()),
        Value::String(text) => Some(text.clone().into_bytes()),
        _ => from_hex(blob.get("hex")?.as_str()?),
    }
}

fn from_hex(hex: &str) -> Option<Vec<u8>> {
    let digits: Option<Vec<u32>> = hex.chars().map(|digit| digit.to_digit(16)).collect();
    let pairs = digits?;
    let byte = |pair: &[u32]| match pair {
        [high, low] => u8::try_from(high * 16 + low).ok(),
        _ => None,
    };
    pairs.chunks(2).map(byte).collect()
}

/// Headers of the engine. Their values are what this host handed in, or the caller: texts.
pub(crate) fn headers_of(rows: &Value) -> Option<Vec<(String, String)>> {
    let pair = |row: &Value| {
        let value = bytes_of(row.get(1)?)?;
        let value = String::from_utf8_lossy(&value).into_owned();
        Some((String::from(row.get(0)?.as_str()?), value))
    };
    rows.as_array()?.iter().map(pair).collect()
}

pub(crate) fn header_rows(headers: &[(String, String)]) -> Value {
    headers
        .iter()
        .map(|(name, value)| json!([name, blob_of(value.as_bytes())]))
        .collect()
}

/// A fault by its form: its kind, its text at the end, and in between what it is about.
pub(crate) fn fault_of(form: &Value) -> Option<Fault> {
    let parts = form.as_array()?;
    let kind = String::from(parts.first()?.as_str()?);
    let text = String::from(parts.last()?.as_str()?);
    let detail = match (kind.as_str(), parts.get(1)) {
        ("Connector" | "Interceptor", Some(detail)) => detail.get(0).unwrap_or(detail).as_str(),
        _ => None,
    };
    Some(Fault {
        kind,
        detail: detail.map(String::from),
        text,
    })
}
