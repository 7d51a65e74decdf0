//! Identities: where they come from, how they sign, and how secrets stay with the host.
//!
//! The engine signs with a *stand-in*, a random text. The host puts the secret in its place as it
//! sends. So no secret is in what the engine knows, logs or prints.

use crate::clock::nanoseconds;
use crate::failures::SendError;
use crate::protocol::WireRequest;
use crate::random;
use crate::sync::lock;
use serde_json::{json, Value};
use std::collections::VecDeque;
use std::error::Error as StdError;
use std::fmt;
use std::sync::{Arc, Mutex};
use std::time::{Duration, SystemTime};

const STAND_IN: &str = "wishqoram-secret-";
/// The digits of a stand-in behind that.
const DIGITS: usize = 32;
/// How many secrets of a seat are kept: more than a cache and a run can use at a time.
const KEPT_SECRETS: usize = 64;

/// A token or a key, and the moment when it expires. `Debug` doesn't show it.
#[derive(Clone, PartialEq, Eq)]
pub struct Identity {
    data: String,
    expires: Option<SystemTime>,
}

impl Identity {
    /// An identity that doesn't say when it expires.
    pub fn new(data: impl Into<String>) -> Identity {
        Identity {
            data: data.into(),
            expires: None,
        }
    }

    /// Says when it expires.
    pub fn expires(mut self, moment: SystemTime) -> Identity {
        self.expires = Some(moment);
        self
    }

    pub(crate) fn parts(&self) -> (&str, Option<SystemTime>) {
        (&self.data, self.expires)
    }
}

impl From<String> for Identity {
    fn from(data: String) -> Identity {
        Identity::new(data)
    }
}

impl From<&str> for Identity {
    fn from(data: &str) -> Identity {
        Identity::new(data)
    }
}

impl fmt::Debug for Identity {
    fn fmt(&self, f: &mut fmt::Formatter<'_>) -> fmt::Result {
        f.debug_struct("Identity")
            .field("expires", &self.expires)
            .finish_non_exhaustive()
    }
}

/// Why an identity couldn't be loaded. It is the cause of the error that the run ends with.
pub type SourceError = Box<dyn StdError + Send + Sync>;

type Source = dyn Fn() -> Result<Identity, SourceError> + Send + Sync;

/// A way to sign, and what loads its identity. That is called in a thread of its own, and may take
/// its time.
#[derive(Clone)]
pub struct AuthScheme {
    id: String,
    form: Option<Value>,
    source: Arc<Source>,
}

impl AuthScheme {
    /// A scheme of your own, which puts the identity itself into the header `authorization`.
    pub fn new<F>(id: impl Into<String>, source: F) -> AuthScheme
    where
        F: Fn() -> Result<Identity, SourceError> + Send + Sync + 'static,
    {
        AuthScheme {
            id: id.into(),
            form: None,
            source: Arc::new(source),
        }
    }

    /// `http-bearer-auth`: a token in the header `authorization`.
    pub fn bearer<F>(source: F) -> AuthScheme
    where
        F: Fn() -> Result<Identity, SourceError> + Send + Sync + 'static,
    {
        AuthScheme {
            form: Some(json!(["bearer"])),
            ..AuthScheme::new("http-bearer-auth", source)
        }
    }

    /// `http-api-key-auth`: a key in the header of this name, behind a prefix where there is one.
    pub fn key_in_header<F>(name: &str, prefix: Option<&str>, source: F) -> AuthScheme
    where
        F: Fn() -> Result<Identity, SourceError> + Send + Sync + 'static,
    {
        let form = Some(json!(["api_key", "Header", name, prefix]));
        AuthScheme {
            form,
            ..AuthScheme::new("http-api-key-auth", source)
        }
    }

    /// `http-api-key-auth`: a key in the query, under this name.
    pub fn key_in_query<F>(name: &str, source: F) -> AuthScheme
    where
        F: Fn() -> Result<Identity, SourceError> + Send + Sync + 'static,
    {
        let form = Some(json!(["api_key", "Query", name, null]));
        AuthScheme {
            form,
            ..AuthScheme::new("http-api-key-auth", source)
        }
    }

    pub(crate) fn id(&self) -> &str {
        &self.id
    }

    /// How it signs, where the engine has to be told.
    pub(crate) fn form(&self) -> Option<&Value> {
        self.form.as_ref()
    }

    pub(crate) fn load(&self) -> Result<Identity, SourceError> {
        (self.source)()
    }
}

impl fmt::Debug for AuthScheme {
    fn fmt(&self, f: &mut fmt::Formatter<'_>) -> fmt::Result {
        write!(f, "AuthScheme({})", self.id)
    }
}

/// How long a loaded identity is used again.
#[derive(Clone, Copy, Debug, PartialEq, Eq)]
pub struct IdentityCache {
    /// So long before it expires an identity counts as expired.
    pub buffer: Duration,
    /// How long one without a moment of its own is used: 15 minutes at the least.
    pub expiration: Duration,
    /// Of how many schemes an identity is kept.
    pub partitions: u64,
    /// How long a load may take. Without it that is reckoned from deadlines and retries.
    pub load_timeout: Option<Duration>,
}

impl Default for IdentityCache {
    fn default() -> IdentityCache {
        IdentityCache {
            buffer: Duration::from_secs(10),
            expiration: Duration::from_secs(900),
            partitions: 64,
            load_timeout: None,
        }
    }
}

impl IdentityCache {
    pub(crate) fn form(&self) -> Value {
        let load_timeout = self.load_timeout.map(nanoseconds);
        let (buffer, expiration) = (nanoseconds(self.buffer), nanoseconds(self.expiration));
        json!(["lazy", [buffer, expiration, self.partitions, load_timeout]])
    }
}

/// The secrets of a seat that the engine has stand-ins for.
pub(crate) struct Vault {
    keeps_secrets: bool,
    kept: Mutex<VecDeque<(String, String)>>,
}

impl Vault {
    pub(crate) fn new(keeps_secrets: bool) -> Vault {
        Vault {
            keeps_secrets,
            kept: Mutex::default(),
        }
    }

    /// What the engine is handed for a secret. One that no header can have is refused.
    pub(crate) fn handed(&self, secret: &str) -> Result<String, SourceError> {
        if !secret
            .bytes()
            .all(|byte| matches!(byte, b'\t' | b' '..=b'~'))
        {
            return Err("an identity has bytes that no header can have".into());
        }
        if !self.keeps_secrets {
            return Ok(String::from(secret));
        }
        let stand_in = format!("{STAND_IN}{}", random::digits());
        let mut kept = lock(&self.kept);
        kept.push_back((stand_in.clone(), String::from(secret)));
        if kept.len() > KEPT_SECRETS {
            kept.pop_front();
        }
        Ok(stand_in)
    }

    /// Puts the secrets in the place of their stand-ins.
    pub(crate) fn put_in(&self, request: &mut WireRequest) -> Result<(), SendError> {
        for (_, value) in &mut request.headers {
            *value = self.replaced(value, |secret| String::from(secret))?;
        }
        request.url = self.replaced(&request.url, escaped)?;
        Ok(())
    }

    fn replaced(&self, text: &str, written: fn(&str) -> String) -> Result<String, SendError> {
        const GONE: SendError = SendError::Request("the secret of a stand-in is gone");
        let mut parts = text.split(STAND_IN);
        let mut replaced = String::from(parts.next().unwrap_or_default());
        for part in parts {
            let digits = part.get(..DIGITS).ok_or(GONE)?;
            let stand_in = format!("{STAND_IN}{digits}");
            let kept = lock(&self.kept);
            let found = kept
                .iter()
                .find(|(known, _)| *known == stand_in)
                .ok_or(GONE)?;
            replaced.push_str(&written(&found.1));
            replaced.push_str(&part[DIGITS..]);
        }
        Ok(replaced)
    }
}

/// A secret as it stands in a query.
fn escaped(secret: &str) -> String {
    let mut escaped = String::new();
    for byte in secret.bytes() {
        match byte {
            b'a'..=b'z' | b'A'..=b'Z' | b'0'..=b'9' | b'-' | b'.' | b'_' | b'~' => {
                escaped.push(char::from(byte));
            }
            _ => escaped.push_str(&format!("%{byte:02X}")),
        }
    }
    escaped
}
