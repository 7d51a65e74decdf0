//! Recorded runs: the prints that `replay` would make of them, one file each.

use crate::errors::Error;
use crate::protocol::{parts_of, ERROR_KIND, OUTPUT_KIND};
use crate::sync::lock;
use serde_json::{json, Value};
use std::fs::{DirBuilder, OpenOptions};
use std::io::{self, ErrorKind, Write};
use std::os::unix::fs::{DirBuilderExt, OpenOptionsExt};
use std::path::{Path, PathBuf};
use std::sync::Mutex;

/// A folder that runs are recorded in, each in a file that its owner alone may read. The program's
/// `check` says yes to each of them.
#[derive(Debug)]
pub struct Recording {
    folder: PathBuf,
    state: Mutex<State>,
}

#[derive(Debug, Default)]
struct State {
    files: Vec<PathBuf>,
    is_ended: bool,
}

impl Recording {
    pub(crate) fn new(folder: &Path) -> Result<Recording, Error> {
        let made = DirBuilder::new().recursive(true).mode(0o700).create(folder);
        made.map_err(Error::Recording)?;
        Ok(Recording {
            folder: folder.to_path_buf(),
            state: Mutex::default(),
        })
    }

    /// Records no further runs.
    pub fn end(&self) {
        lock(&self.state).is_ended = true;
    }

    /// The files that were written, in the order of the runs' ends.
    pub fn files(&self) -> Vec<PathBuf> {
        lock(&self.state).files.clone()
    }

    /// The folder.
    pub fn folder(&self) -> &Path {
        &self.folder
    }

    pub(crate) fn is_ended(&self) -> bool {
        lock(&self.state).is_ended
    }

    /// Writes the print of a run into a file of its own.
    pub(crate) fn write(&self, client: &str, text: &str) -> io::Result<()> {
        let is_plain = |letter: char| letter.is_ascii_alphanumeric() || "-_".contains(letter);
        let name = client.replace(|letter| !is_plain(letter), "_");
        let mut state = lock(&self.state);
        let mut number = state.files.len() + 1;
        loop {
            let path = self.folder.join(format!("{number:06}-{name}.txt"));
            let opened = OpenOptions::new()
                .write(true)
                .create_new(true)
                .mode(0o600)
                .open(&path);
            match opened {
                Err(error) if error.kind() == ErrorKind::AlreadyExists => number += 1,
                Err(error) => return Err(error),
                Ok(mut file) => {
                    file.write_all(text.as_bytes())?;
                    state.files.push(path);
                    return Ok(());
                }
            }
        }
    }
}

/// The print of a run.
pub(crate) fn print_of(payload: &Value, fuel: u64, entries: &[String], ending: &str) -> String {
    let head = json!(["begin", payload, "None", OUTPUT_KIND, ERROR_KIND, fuel]);
    let mut print = format!("{head}\n");
    for line in entries.iter().map(String::as_str).chain([ending]) {
        print.push_str(line);
        print.push('\n');
    }
    print
}

/// The script of `replay` for a recorded run, which prints the same again. None where the text is
/// no print of a run.
///
/// `replay` has limits that a run hasn't: a head of 32 headers and of 8 KiB. It refuses the script
/// of a run that passes them.
pub fn script_for_replay(print: &str) -> Option<String> {
    let mut lines: Vec<&str> = print.lines().collect();
    lines.pop()?;
    let (head, entries) = lines.split_first()?;
    let head = parts_of(head)?;
    let [_, payload, stop, output_kind, error_kind, fuel] = head.as_slice() else {
        return None;
    };
    let answers: Option<Vec<String>> = entries.iter().map(|entry| answer_in(entry)).collect();
    Some(format!(
        "{{\"fuel\":{fuel},\"input\":{payload},\"output_kind\":{output_kind},\
         \"error_kind\":{error_kind},\"stop\":{stop},\"answers\":[{}]}}\n",
        answers?.join(","),
    ))
}

/// The kind of an entry, and its answer.
fn answer_in(entry: &str) -> Option<String> {
    match parts_of(entry)?.as_slice() {
        [_, kind, answer, ..] => Some(format!("[{kind},{answer}]")),
        _ => None,
    }
}
