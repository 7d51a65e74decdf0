//! Makes calls as its words say, and prints what came of each as a line of JSON.
//!
//! ```text
//! calls '{"url":"http://127.0.0.1:8080","seats":8,"threads":8}' POST /x "what is sent"
//! calls script RECORDED
//! ```
//!
//! The settings are one object of JSON. Spans of time in it are seconds. The first line that is
//! printed names the engine's process. Where the settings have `on_input`, a line on standard input
//! has all calls cancelled (`"cancel"`) or the engine closed (`"close"`). Where they have `stay`,
//! it ends once that input does. With `script` it prints the script of `replay` for a recorded run.

use serde_json::{json, Value};
use std::error::Error as StdError;
use std::io::{self, Cursor, Read};
use std::process::ExitCode;
use std::sync::atomic::{AtomicUsize, Ordering};
use std::sync::{Arc, Weak};
use std::time::Duration;
use std::{env, fs, thread};
use wishqoram::{
    AuthScheme, Bucket, Cancellation, Client, Engine, Error, ErrorRule, Identity, Options, Request,
    RequestBody, Response, Retry, Secrets, SourceError,
};

fn main() -> ExitCode {
    let words: Vec<String> = env::args().skip(1).collect();
    let words: Vec<&str> = words.iter().map(String::as_str).collect();
    let result = match words.as_slice() {
        ["script", path] => print_script(path),
        [settings, method, path, body @ ..] if body.len() < 2 => make_calls(
            settings,
            method,
            path,
            body.first().copied().unwrap_or_default(),
        ),
        _ => Err("say the settings, a method, a path, and a body where there is one".into()),
    };
    match result {
        Ok(()) => ExitCode::SUCCESS,
        Err(error) => {
            eprintln!("{error}");
            ExitCode::FAILURE
        }
    }
}

type Result<T> = std::result::Result<T, Box<dyn StdError>>;

fn print_script(path: &str) -> Result<()> {
    let script = wishqoram::script_for_replay(&fs::read_to_string(path)?);
    print!("{}", script.ok_or("that is no print of a run")?);
    Ok(())
}

fn make_calls(settings: &str, method: &str, path: &str, body: &str) -> Result<()> {
    let settings = Settings(serde_json::from_str(settings)?);
    if settings.says("log") {
        log::set_logger(&Lines).map_err(|error| error.to_string())?;
        log::set_max_level(log::LevelFilter::Info);
    }
    let engine = Arc::new(engine_of(&settings)?);
    println!("{}", json!({ "process": engine.process_id() }));
    if let Some(folder) = settings.text("record") {
        engine.record(folder)?;
    }
    let cancellation = Cancellation::new();
    obey_input(&settings, &cancellation, Arc::downgrade(&engine));
    let request = with_headers(&settings, Request::new(method, path));
    let request = request.body(body_of(&settings, body)?);
    let options = options_of(&settings, &cancellation);
    let names = client_names(&settings);
    thread::scope(|scope| {
        for name in names.iter().cycle().take(settings.count("threads")) {
            let (engine, settings, request, options) = (&engine, &settings, &request, &options);
            scope.spawn(move || {
                for _ in 0..settings.count("calls") {
                    let result = engine.invoke(name, request.clone(), options.clone());
                    println!("{}", outcome_of(result));
                }
            });
        }
    });
    if settings.says("sums") {
        for (name, sums) in engine.sums()? {
            println!("{}", json!({ "bucket": name, "available": sums.available }));
        }
    }
    if settings.says("stay") {
        io::copy(&mut io::stdin(), &mut io::sink())?;
    }
    engine.close();
    Ok(())
}

/// Does what a line on standard input asks for.
fn obey_input(settings: &Settings, cancellation: &Cancellation, engine: Weak<Engine>) {
    let Some(word) = settings.text("on_input").map(String::from) else {
        return;
    };
    let cancellation = cancellation.clone();
    thread::spawn(move || {
        let mut line = String::new();
        if io::stdin().read_line(&mut line).is_ok() {
            match (word.as_str(), engine.upgrade()) {
                ("close", Some(engine)) => engine.close(),
                _ => cancellation.cancel(),
            }
        }
    });
}

/// The settings, by their names.
struct Settings(Value);

impl Settings {
    fn text(&self, name: &str) -> Option<&str> {
        self.0.get(name)?.as_str()
    }

    fn number(&self, name: &str) -> Option<u64> {
        self.0.get(name)?.as_u64()
    }

    fn small(&self, name: &str) -> Option<u32> {
        u32::try_from(self.number(name)?).ok()
    }

    /// One where nothing is said.
    fn count(&self, name: &str) -> usize {
        self.number(name)
            .and_then(|count| usize::try_from(count).ok())
            .unwrap_or(1)
    }

    fn says(&self, name: &str) -> bool {
        self.0.get(name).and_then(Value::as_bool).unwrap_or(false)
    }

    fn span(&self, name: &str) -> Option<Duration> {
        Some(Duration::from_secs_f64(self.0.get(name)?.as_f64()?))
    }

    fn list(&self, name: &str) -> &[Value] {
        self.0
            .get(name)
            .and_then(Value::as_array)
            .map_or(&[], Vec::as_slice)
    }
}

fn engine_of(settings: &Settings) -> std::result::Result<Engine, Error> {
    let mut builder = Engine::builder();
    for name in client_names(settings) {
        builder = builder.client(name, client_of(settings));
    }
    if let Some(capacity) = settings.small("bucket") {
        builder = builder.bucket(
            "b",
            Bucket {
                capacity,
                ..Bucket::default()
            },
        );
    }
    if let Some(fuel) = settings.number("fuel") {
        builder = builder.fuel(fuel);
    }
    if let Some(path) = settings.text("program") {
        builder = builder.program(path);
    }
    if settings.text("secrets") == Some("engine") {
        builder = builder.secrets(Secrets::Engine);
    }
    builder.start()
}

/// The names of the clients, which threads take in turn.
fn client_names(settings: &Settings) -> Vec<String> {
    ('a'..='z')
        .take(settings.count("clients"))
        .map(String::from)
        .collect()
}

type SetSpan = fn(Client, Duration) -> Client;

fn client_of(settings: &Settings) -> Client {
    let mut client = Client::new(settings.text("url").unwrap_or_default());
    client = match settings.says("no_retry") {
        true => client.no_retry(),
        false => client.retry(Retry {
            initial_backoff: settings.span("backoff").unwrap_or(Duration::from_secs(1)),
            max_attempts: settings.small("attempts").unwrap_or(3),
            static_base: settings.says("static_base"),
            reconnect: !settings.says("reuse"),
            ..Retry::default()
        }),
    };
    let spans: [(&str, SetSpan); 5] = [
        ("connect_timeout", Client::connect_timeout),
        ("read_timeout", Client::read_timeout),
        ("operation_timeout", Client::operation_timeout),
        ("attempt_timeout", Client::attempt_timeout),
        ("stall_grace", Client::stall_grace),
    ];
    for (name, set) in spans {
        if let Some(span) = settings.span(name) {
            client = set(client, span);
        }
    }
    if settings.number("bucket").is_some() {
        client = client.bucket("b");
    }
    if let Some(name) = settings.text("bucket_name") {
        client = client.bucket(name);
    }
    if let Some((name, unit)) = settings.text("retry_after").zip(settings.span("unit")) {
        client = client.retry_after(name, unit);
    }
    if settings.says("no_cache") {
        client = client.no_identity_cache();
    }
    let rules: Vec<ErrorRule> = settings.list("errors").iter().map(rule_of).collect();
    if !rules.is_empty() {
        client = client.errors(rules);
    }
    signing(settings, client).seats(settings.count("seats"))
}

/// A rule of a status, a name, and a word where there is one.
fn rule_of(form: &Value) -> ErrorRule {
    let status = form[0]
        .as_u64()
        .and_then(|status| u16::try_from(status).ok());
    let rule = ErrorRule::new(
        status.unwrap_or_default(),
        form[1].as_str().unwrap_or_default(),
    );
    match form[2].as_str() {
        Some(word) => rule.word(word),
        None => rule,
    }
}

/// The client with a scheme, if the settings have tokens for it. Each load takes the next token,
/// and fails behind the last one.
fn signing(settings: &Settings, client: Client) -> Client {
    let tokens: Vec<String> = settings
        .list("tokens")
        .iter()
        .filter_map(Value::as_str)
        .map(String::from)
        .collect();
    if tokens.is_empty() && !settings.says("no_tokens") {
        return client;
    }
    let next = AtomicUsize::new(0);
    let source = move || -> std::result::Result<Identity, SourceError> {
        let token = tokens.get(next.fetch_add(1, Ordering::SeqCst));
        let token = token.ok_or("there are no more tokens, a secret says")?;
        Ok(Identity::new(token.as_str()))
    };
    client.auth(match (settings.text("scheme"), settings.text("key")) {
        (Some("query"), Some(name)) => AuthScheme::key_in_query(name, source),
        (Some("header"), Some(name)) => AuthScheme::key_in_header(name, Some("key"), source),
        (Some("own"), _) => AuthScheme::new("own", source),
        _ => AuthScheme::bearer(source),
    })
}

/// The request with the headers of the settings. A number stands for a value of so many letters.
fn with_headers(settings: &Settings, mut request: Request) -> Request {
    let headers = settings.0.get("headers").and_then(Value::as_object);
    for (name, value) in headers.into_iter().flatten() {
        let length = value
            .as_u64()
            .and_then(|length| usize::try_from(length).ok());
        request = match (value.as_str(), length) {
            (Some(text), _) => request.header(name, text),
            (None, length) => request.header(name, "x".repeat(length.unwrap_or_default())),
        };
    }
    request
}

/// The body: what the words say, or a file, which the settings may have sent once.
fn body_of(settings: &Settings, body: &str) -> Result<RequestBody> {
    let Some(path) = settings.text("file") else {
        return Ok(RequestBody::from(body));
    };
    Ok(match settings.text("body") {
        Some("once") => RequestBody::once(fs::File::open(path)?),
        Some("bytes") => RequestBody::from(fs::read(path)?),
        Some("broken") => RequestBody::each(None, || {
            let failing = FailingReader(Cursor::new(b"a"));
            Ok(Box::new(failing))
        }),
        _ => RequestBody::file(path)?,
    })
}

/// A reader that fails behind its bytes.
struct FailingReader(Cursor<&'static [u8; 1]>);

impl Read for FailingReader {
    fn read(&mut self, buffer: &mut [u8]) -> io::Result<usize> {
        match self.0.read(buffer)? {
            0 => Err(io::Error::other("no more")),
            read => Ok(read),
        }
    }
}

fn options_of(settings: &Settings, cancellation: &Cancellation) -> Options {
    let options = Options::default().cancellation(cancellation);
    let options = match settings.span("timeout") {
        Some(span) => options.timeout(span),
        None => options,
    };
    match settings.says("stream") {
        true => options.stream(),
        false => options,
    }
}

/// What came of a call.
fn outcome_of(result: std::result::Result<Response, Error>) -> Value {
    let outcome = result.and_then(|response| {
        let (status, attempts) = (response.status(), response.attempts());
        let headers: Vec<_> = response
            .headers()
            .iter()
            .map(|(name, _)| name.to_owned())
            .collect();
        let front = response.body().len();
        let body = String::from_utf8_lossy(&response.into_bytes()?).into_owned();
        let (size, body) = (body.len(), body.chars().take(100).collect::<String>());
        Ok(json!({
            "status": status, "attempts": attempts, "headers": headers, "front": front,
            "size": size, "body": body,
        }))
    });
    outcome.unwrap_or_else(|error| {
        let fault = error.fault();
        json!({
            "error": name_of(&error),
            "text": error.to_string(),
            "status": error.response().map(Response::status),
            "body": error.response().map(Response::text),
            "attempts": error.attempts(),
            "kind": fault.map(|fault| &fault.kind),
            "detail": fault.and_then(|fault| fault.detail.as_ref()),
            "cause": first_cause_of(&error),
        })
    })
}

/// What the error began with, in words.
fn first_cause_of(error: &Error) -> Option<String> {
    let causes = std::iter::successors(error.source(), |cause| (*cause).source());
    causes.last().map(ToString::to_string)
}

fn name_of(error: &Error) -> &'static str {
    match error {
        Error::ConstructionFailure(_) => "ConstructionFailure",
        Error::TimeoutError(_) => "TimeoutError",
        Error::DispatchFailure(_) => "DispatchFailure",
        Error::ResponseError(_) => "ResponseError",
        Error::ServiceError(_) => "ServiceError",
        Error::Unfinished => "Unfinished",
        Error::Cancelled => "Cancelled",
        Error::InvocationTimeout(_) => "InvocationTimeout",
        Error::Body(_) => "Body",
        Error::ProgramEnded(_) => "ProgramEnded",
        Error::EngineClosed => "EngineClosed",
        Error::Refused(_) => "Refused",
        _ => "another error",
    }
}

/// A log that writes lines on standard error.
struct Lines;

impl log::Log for Lines {
    fn enabled(&self, _: &log::Metadata) -> bool {
        true
    }

    fn log(&self, record: &log::Record) {
        if record.target() == "wishqoram" {
            eprintln!("{}", record.args());
        }
    }

    fn flush(&self) {}
}
