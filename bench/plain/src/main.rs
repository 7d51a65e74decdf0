//! Replays a script from standard input, as `smithy_replay replay` does, and prints the run. With
//! the one word `trees` it reads and writes JSON by way of `serde_json::Value`.
#![forbid(unsafe_code)]

use plain_replay::ending::Ending;
use plain_replay::engine::run;
use plain_replay::limits::{is_within, INPUT_LIMIT};
use plain_replay::manner::Manner;
use plain_replay::print::Print;
use plain_replay::script::Script;
use plain_replay::world::ScriptWorld;
use std::env;
use std::io::{self, BufWriter, Read};
use std::process::ExitCode;

const BAD_WORDS: u8 = 1;
const BAD_SCRIPT: u8 = 2;
const READ_FAULT: u8 = 3;
const WRITE_FAULT: u8 = 4;
const TOO_LARGE: u8 = 6;

fn main() -> ExitCode {
    match replay() {
        Ok(status) | Err(status) => ExitCode::from(status),
    }
}

// Runs the script, prints the run, and answers the status that the program ends with.
fn replay() -> Result<u8, u8> {
    let manner = manner()?;
    let Script { head, answers } = read_script(manner)?;
    let mut world = ScriptWorld::new(answers, head.fuel as usize);
    let standing = run(&mut world, head.input.clone(), head.stop, head.fuel);
    let ending = Ending::of(&head, standing);
    let out = BufWriter::new(io::stdout().lock());
    let mut print = Print { out, manner };
    match print.run(&head, &world.into_log(), &ending) {
        Ok(()) => Ok(ending.status()),
        Err(_) => Err(WRITE_FAULT),
    }
}

fn manner() -> Result<Manner, u8> {
    let words: Vec<_> = env::args_os().skip(1).collect();
    match words.as_slice() {
        [] => Ok(Manner::Straight),
        [word] if word == "trees" => Ok(Manner::ByTrees),
        _ => Err(BAD_WORDS),
    }
}

fn read_script(manner: Manner) -> Result<Script, u8> {
    let mut input = Vec::new();
    let mut source = io::stdin().lock().take(INPUT_LIMIT as u64 + 1);
    source.read_to_end(&mut input).map_err(|_| READ_FAULT)?;
    if input.len() > INPUT_LIMIT {
        return Err(TOO_LARGE);
    }
    let script = manner.read(&input).map_err(|_| BAD_SCRIPT)?;
    if is_within(&script) {
        Ok(script)
    } else {
        Err(TOO_LARGE)
    }
}
