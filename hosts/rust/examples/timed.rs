//! Makes the calls that lines on its input ask for, and says how long they took. `bench/hosts.py`
//! has it measure the engine beside a bare request.
//!
//! ```text
//! timed PROGRAM URL SEATS
//! ```
//!
//! The first line that is printed names the engine's process. A line `engine PATH RUNS THREADS`, or
//! `bare PATH RUNS THREADS`, makes so many runs by so many threads, and is answered by a line of
//! the nanoseconds and of how many of the runs ended with an output.

use std::error::Error as StdError;
use std::io::{self, BufRead, Write};
use std::process;
use std::sync::atomic::{AtomicUsize, Ordering};
use std::time::Instant;
use std::{env, thread};
use wishqoram::{Client, Engine, Options, Request};

/// What each request sends, as boto3 sends it for the operation ListTables of DynamoDB.
const BODY: &str = "{}";
const TYPE: (&str, &str) = ("content-type", "application/x-amz-json-1.0");
const TARGET: (&str, &str) = ("x-amz-target", "DynamoDB_20120810.ListTables");
/// The header by which a server knows which attempts are of one run.
const INVOCATION: &str = "amz-sdk-invocation-id";

type Result<T> = std::result::Result<T, Box<dyn StdError>>;

fn main() -> Result<()> {
    let words: Vec<String> = env::args().skip(1).collect();
    let [program, url, seats] = words.as_slice() else {
        return Err("say a program, an address and a number of seats".into());
    };
    let seats: usize = seats.parse()?;
    let client = Client::new(url.as_str()).seats(seats);
    let caller = Caller {
        engine: Engine::builder()
            .client("tables", client)
            .program(program)
            .start()?,
        agent: ureq::AgentBuilder::new()
            .max_idle_connections_per_host(seats)
            .build(),
        url: url.clone(),
        begun: AtomicUsize::new(0),
    };
    println!("{}", caller.engine.process_id());
    for line in io::stdin().lock().lines() {
        let (ns, ended) = caller.measured(&line?)?;
        println!("{ns} {ended}");
        io::stdout().flush()?;
    }
    Ok(())
}

struct Caller {
    engine: Engine,
    agent: ureq::Agent,
    url: String,
    /// How many runs were begun, which numbers them.
    begun: AtomicUsize,
}

impl Caller {
    /// The nanoseconds that the runs of this line took, and how many of them ended with an output.
    fn measured(&self, line: &str) -> Result<(u128, usize)> {
        let words: Vec<&str> = line.split_whitespace().collect();
        let [way, path, runs, threads] = words.as_slice() else {
            return Err("say engine or bare, a path, and how many runs and threads".into());
        };
        let call = match *way {
            "engine" => Caller::by_engine,
            _ => Caller::bare,
        };
        let (runs, threads): (usize, usize) = (runs.parse()?, threads.parse()?);
        let left = AtomicUsize::new(runs);
        let ended = AtomicUsize::new(0);
        let work = || {
            while take_one(&left) {
                ended.fetch_add(usize::from(call(self, path)), Ordering::SeqCst);
            }
        };
        let began = Instant::now();
        match threads {
            1 => work(),
            _ => thread::scope(|scope| {
                for _ in 0..threads {
                    scope.spawn(work);
                }
            }),
        }
        Ok((began.elapsed().as_nanos(), ended.into_inner()))
    }

    /// Whether a run of the engine ends with an output.
    fn by_engine(&self, path: &str) -> bool {
        let request = Request::post(path, BODY)
            .header(TYPE.0, TYPE.1)
            .header(TARGET.0, TARGET.1)
            .header(INVOCATION, self.next_id());
        let response = self.engine.invoke("tables", request, Options::default());
        response.is_ok_and(|response| !response.body().is_empty())
    }

    /// Whether a request by ureq alone is answered by an output.
    fn bare(&self, path: &str) -> bool {
        let request = self
            .agent
            .post(&format!("{}{path}", self.url))
            .set(TYPE.0, TYPE.1)
            .set(TARGET.0, TARGET.1)
            .set(INVOCATION, &self.next_id());
        let response = request.send_string(BODY);
        response.is_ok_and(|response| response.into_string().is_ok_and(|text| !text.is_empty()))
    }

    fn next_id(&self) -> String {
        let number = self.begun.fetch_add(1, Ordering::SeqCst);
        format!("{}-{number}", process::id())
    }
}

/// Takes one of what is left, where something is.
fn take_one(left: &AtomicUsize) -> bool {
    let taken = left.fetch_update(Ordering::SeqCst, Ordering::SeqCst, |left| {
        left.checked_sub(1)
    });
    taken.is_ok()
}
