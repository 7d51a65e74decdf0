//! Calls a service in ten lines.

use std::time::Duration;
use wishqoram::{Client, Engine, Options, Request};

fn main() -> Result<(), wishqoram::Error> {
    let forecast = Client::new("http://127.0.0.1:8080").read_timeout(Duration::from_secs(5));
    let engine = Engine::builder().client("forecast", forecast).start()?;
    engine.record("runs")?;
    let response = engine.invoke("forecast", Request::get("/today"), Options::default())?;
    println!("{} {}", response.status(), response.text());
    Ok(())
}
