//! What the engine is told of a client.

use crate::clock::nanoseconds;
use crate::identities::{AuthScheme, IdentityCache};
use crate::protocol::blob_of;
use serde_json::{json, Value};
use std::time::Duration;

/// The statuses that are transient failures where nothing else is said.
const RETRIED_STATUSES: [u16; 4] = [500, 502, 503, 504];
/// The most tokens of which a number of thousandths is made.
const MOST_TOKENS: f64 = 4_000_000.0;

/// A budget that retries are paid from.
#[derive(Clone, Copy, Debug, PartialEq)]
pub struct Bucket {
    /// Tokens, with which it begins too.
    pub capacity: u32,
    /// Tokens that a retry costs, where nothing else is said of what failed before it.
    pub retry_cost: u32,
    /// Tokens that a retry costs behind an error of throttling.
    pub throttling_cost: u32,
    /// Tokens that a retry costs behind a transient error.
    pub transient_cost: u32,
    /// Tokens that a success adds, to the thousandth.
    pub reward: f64,
    /// Tokens that a second adds, to the thousandth.
    pub rate: f64,
}

impl Default for Bucket {
    fn default() -> Bucket {
        Bucket {
            capacity: 500,
            retry_cost: 5,
            throttling_cost: 5,
            transient_cost: 10,
            reward: 0.0,
            rate: 0.0,
        }
    }
}

impl Bucket {
    pub(crate) fn form(&self) -> Value {
        let costs = [self.retry_cost, self.throttling_cost, self.transient_cost];
        let [retry, throttling, transient] = costs;
        let (reward, rate) = (thousandths(self.reward), thousandths(self.rate));
        json!([self.capacity, retry, throttling, transient, reward, rate])
    }
}

fn thousandths(tokens: f64) -> u64 {
    (tokens.clamp(0.0, MOST_TOKENS) * 1000.0).round() as u64
}

/// What a bucket counts, in tokens. What is available, held and forgotten is always the capacity
/// and what was granted.
#[derive(Clone, Copy, Debug, PartialEq, Eq)]
pub struct Sums {
    /// What it began with.
    pub capacity: u64,
    /// What successes and time added.
    pub granted: u64,
    /// What can be paid from.
    pub available: u64,
    /// What open retries have.
    pub held: u64,
    /// What a further retry gave up for good.
    pub forgotten: u64,
}

/// How often a client tries, and how long it waits in between.
#[derive(Clone, Copy, Debug, PartialEq, Eq)]
pub struct Retry {
    /// The most attempts, the first included.
    pub max_attempts: u32,
    /// The first pause. Each further one is twice as long.
    pub initial_backoff: Duration,
    /// The longest pause.
    pub max_backoff: Duration,
    /// Whether a connection on which an attempt failed isn't used again.
    pub reconnect: bool,
    /// Whether a pause is taken whole, and not a random part of it.
    pub static_base: bool,
    /// Whether a throttled client is slowed down.
    pub mode: RetryMode,
}

/// Whether a throttled client is slowed down.
#[derive(Clone, Copy, Debug, Default, PartialEq, Eq)]
pub enum RetryMode {
    /// It isn't.
    #[default]
    Standard,
    /// How often it sends is limited, once it was throttled.
    Adaptive,
}

impl Default for Retry {
    fn default() -> Retry {
        Retry {
            max_attempts: 3,
            initial_backoff: Duration::from_secs(1),
            max_backoff: Duration::from_secs(20),
            reconnect: true,
            static_base: false,
            mode: RetryMode::Standard,
        }
    }
}

impl Retry {
    fn form(&self) -> Value {
        let mode = match self.mode {
            RetryMode::Standard => "Standard",
            RetryMode::Adaptive => "Adaptive",
        };
        let reconnect = match self.reconnect {
            true => "ReconnectOnTransientError",
            false => "ReuseAllConnections",
        };
        let first = nanoseconds(self.initial_backoff);
        let longest = nanoseconds(self.max_backoff);
        json!([
            mode,
            self.max_attempts,
            first,
            longest,
            reconnect,
            self.static_base,
            null
        ])
    }
}

/// Responses that are an error of the service. The first rule that a response meets counts.
#[derive(Clone, Debug, PartialEq, Eq)]
pub struct ErrorRule {
    status: u16,
    name: String,
    headers: Vec<(String, String)>,
    word: Option<String>,
}

impl ErrorRule {
    /// Responses of a status, and what the error is called. `throttle`, `transient` and `server`
    /// are the kinds of errors that are tried again.
    pub fn new(status: u16, name: impl Into<String>) -> ErrorRule {
        ErrorRule {
            status,
            name: name.into(),
            headers: Vec::new(),
            word: None,
        }
    }

    /// Only responses that have this header, with this value.
    pub fn header(mut self, name: impl Into<String>, value: impl Into<String>) -> ErrorRule {
        self.headers.push((name.into(), value.into()));
        self
    }

    /// Only responses that have this somewhere in the first 16384 bytes of their body.
    pub fn word(mut self, word: impl Into<String>) -> ErrorRule {
        self.word = Some(word.into());
        self
    }

    fn form(&self) -> Value {
        let word = self.word.as_ref().map(|word| blob_of(word.as_bytes()));
        let headers = crate::protocol::header_rows(&self.headers);
        json!([self.status, headers, word, blob_of(self.name.as_bytes())])
    }
}

/// An operation of a service, and its settings.
#[derive(Clone, Debug)]
pub struct Client {
    url: String,
    service: String,
    operation: String,
    bucket: Option<String>,
    retry: Option<Retry>,
    connect_timeout: Option<Duration>,
    read_timeout: Option<Duration>,
    operation_timeout: Option<Duration>,
    attempt_timeout: Option<Duration>,
    stall_grace: Option<Duration>,
    retried_statuses: Vec<u16>,
    errors: Vec<ErrorRule>,
    retry_after: Option<(String, Duration)>,
    prefix: Option<String>,
    auth: Vec<AuthScheme>,
    identity_cache: Option<IdentityCache>,
    seats: usize,
}

impl Client {
    /// A client of this address. The path of a request is put behind it.
    pub fn new(url: impl Into<String>) -> Client {
        Client {
            url: url.into(),
            service: String::from("service"),
            operation: String::from("operation"),
            bucket: None,
            retry: Some(Retry::default()),
            connect_timeout: None,
            read_timeout: None,
            operation_timeout: None,
            attempt_timeout: None,
            stall_grace: None,
            retried_statuses: RETRIED_STATUSES.to_vec(),
            errors: vec![ErrorRule::new(429, "throttle")],
            retry_after: None,
            prefix: None,
            auth: Vec::new(),
            identity_cache: Some(IdentityCache::default()),
            seats: 1,
        }
    }

    /// Names the service and the operation.
    pub fn named(mut self, service: impl Into<String>, operation: impl Into<String>) -> Client {
        self.service = service.into();
        self.operation = operation.into();
        self
    }

    /// Pays retries from this bucket of the engine. Without one the service's own has 500 tokens,
    /// and gets one back for each success.
    pub fn bucket(mut self, name: impl Into<String>) -> Client {
        self.bucket = Some(name.into());
        self
    }

    /// Says how often it tries.
    pub fn retry(mut self, retry: Retry) -> Client {
        self.retry = Some(retry);
        self
    }

    /// Makes one attempt.
    pub fn no_retry(mut self) -> Client {
        self.retry = None;
        self
    }

    /// How long a connection is waited for.
    pub fn connect_timeout(mut self, span: Duration) -> Client {
        self.connect_timeout = Some(span);
        self
    }

    /// How long a byte is waited for, while a request is sent or its response is read.
    pub fn read_timeout(mut self, span: Duration) -> Client {
        self.read_timeout = Some(span);
        self
    }

    /// How long all attempts may take, with the pauses between them.
    pub fn operation_timeout(mut self, span: Duration) -> Client {
        self.operation_timeout = Some(span);
        self
    }

    /// How long one attempt may take.
    pub fn attempt_timeout(mut self, span: Duration) -> Client {
        self.attempt_timeout = Some(span);
        self
    }

    /// Watches bodies: one fails where it was below a byte a second for longer than this.
    pub fn stall_grace(mut self, span: Duration) -> Client {
        self.stall_grace = Some(span);
        self
    }

    /// Statuses that are transient failures, in the place of 500, 502, 503 and 504.
    pub fn retried_statuses(mut self, statuses: impl Into<Vec<u16>>) -> Client {
        self.retried_statuses = statuses.into();
        self
    }

    /// Which responses are errors of a name, in the place of 429, which is `throttle`. A response
    /// that meets none of these rules is an error without a name from 400 on, and else an output.
    pub fn errors(mut self, rules: impl Into<Vec<ErrorRule>>) -> Client {
        self.errors = rules.into();
        self
    }

    /// A header whose number says how long a retry waits, in units of this span. A retry waits for
    /// none without this.
    pub fn retry_after(mut self, header: impl Into<String>, unit: Duration) -> Client {
        self.retry_after = Some((header.into(), unit));
        self
    }

    /// A text before the host of the address.
    pub fn prefix(mut self, prefix: impl Into<String>) -> Client {
        self.prefix = Some(prefix.into());
        self
    }

    /// A scheme that may sign, behind those before it. Without one requests aren't signed.
    pub fn auth(mut self, scheme: AuthScheme) -> Client {
        self.auth.push(scheme);
        self
    }

    /// How long identities are used again.
    pub fn identity_cache(mut self, cache: IdentityCache) -> Client {
        self.identity_cache = Some(cache);
        self
    }

    /// Loads an identity for each attempt.
    pub fn no_identity_cache(mut self) -> Client {
        self.identity_cache = None;
        self
    }

    /// How many runs it has at once, at least 1. Further ones wait for their turn. Each seat has
    /// a cache of identities of its own.
    pub fn seats(mut self, seats: usize) -> Client {
        self.seats = seats.max(1);
        self
    }

    pub(crate) fn seat_count(&self) -> usize {
        self.seats
    }

    pub(crate) fn bucket_name(&self) -> Option<&str> {
        self.bucket.as_deref()
    }

    pub(crate) fn connect(&self) -> Option<Duration> {
        self.connect_timeout
    }

    /// Whether the engine watches how bodies come.
    pub(crate) fn is_watched(&self) -> bool {
        self.stall_grace.is_some()
    }

    pub(crate) fn scheme(&self, id: &str) -> Option<&AuthScheme> {
        self.auth.iter().find(|scheme| scheme.id() == id)
    }

    /// The seat of a description, with the place of its bucket and its seed.
    pub(crate) fn seat_form(&self, bucket: Option<usize>, seed: u64) -> Value {
        let errors: Vec<Value> = self.errors.iter().map(ErrorRule::form).collect();
        let retry_after = self.retry_after.as_ref();
        let retry_after = retry_after.map(|(name, unit)| json!([name, nanoseconds(*unit)]));
        json!({
            "client": self.form(bucket),
            "errors": errors,
            "retry_after": retry_after,
            "seed": seed,
        })
    }

    /// The client object.
    fn form(&self, bucket: Option<usize>) -> Value {
        let spans = [self.connect_timeout, self.read_timeout];
        let deadlines = [self.operation_timeout, self.attempt_timeout];
        let timeouts: Vec<_> = spans
            .iter()
            .chain(&deadlines)
            .map(|span| span.map(nanoseconds))
            .collect();
        json!({
            "service": self.service,
            "operation": self.operation,
            "bucket": bucket,
            "retry": self.retry.map_or(json!("never"), |retry| retry.form()),
            "timeouts": timeouts,
            "url": self.url,
            "prefix": self.prefix,
            "sleep": true,
            "time": true,
            "poisoning": self.retry.is_some_and(|retry| retry.reconnect),
            "enforce": false,
            "v2": true,
            "stall": self.stall_grace.map(|grace| json!([false, true, nanoseconds(grace)])),
            "classifiers": ["modeled", "transient", ["status", self.retried_statuses]],
            "auth": self.auth_form(),
            "http_schemes": self.auth.iter().filter_map(AuthScheme::form).collect::<Vec<_>>(),
        })
    }

    fn auth_form(&self) -> Value {
        if self.auth.is_empty() {
            return json!("none");
        }
        let ids: Vec<&str> = self.auth.iter().map(AuthScheme::id).collect();
        // of an identity in a description the id alone counts
        let sources: Vec<Value> = ids.iter().map(|id| json!([id, 0, ["", null]])).collect();
        let cache = self
            .identity_cache
            .map_or(json!("none"), |cache| cache.form());
        json!([ids, ids, sources, null, cache])
    }
}
