//! The engine's program, a child process.

use crate::errors::{Error, ProgramEnd};
use crate::protocol::Reply;
use crate::sync::lock;
use serde_json::Value;
use std::env;
use std::ffi::OsString;
use std::fs::File;
use std::io::{self, BufRead, BufReader, Read, Write};
use std::os::unix::ffi::OsStringExt;
use std::os::unix::process::{CommandExt, ExitStatusExt};
use std::path::{Path, PathBuf};
use std::process::{Child, ChildStderr, ChildStdin, ChildStdout, Command, ExitStatus, Stdio};
use std::sync::mpsc::{channel, Receiver, Sender};
use std::sync::{Arc, Condvar, Mutex, PoisonError};
use std::thread::{self, JoinHandle};
use std::time::{Duration, Instant};

const VARIABLE: &str = "WISHQORAM_PROGRAM";
/// The script beside this crate, where that was built in its repository.
const BESIDE: &str = concat!(env!("CARGO_MANIFEST_DIR"), "/../../smithy_replay");
/// Bytes: the program ends at a longer line.
const LINE_LIMIT: usize = 1 << 24;
/// How much is kept of what the program writes on standard error.
const SAID_LIMIT: u64 = 65536;
/// How long the program has to end by itself.
const PATIENCE: Duration = Duration::from_secs(5);
/// How long is waited between two looks at it.
const LOOK: Duration = Duration::from_millis(2);

/// Finds the program to start: the given one, or that of the environment, or the repository's.
///
/// The repository's `smithy_replay` is a script. It is asked for its program, which it compiles
/// first where none stands. That takes minutes, once.
pub(crate) fn find(given: Option<PathBuf>) -> Result<PathBuf, Error> {
    let beside = || Some(PathBuf::from(BESIDE)).filter(|path| path.exists());
    let path = given
        .or_else(|| env::var_os(VARIABLE).map(PathBuf::from))
        .or_else(beside);
    let path = path.ok_or_else(|| {
        Error::ProgramNotFound(format!("say which one, or set {VARIABLE} to its path"))
    })?;
    let mut front = Vec::new();
    let read = File::open(&path).and_then(|file| file.take(2).read_to_end(&mut front));
    match read {
        // one may run a program that one may not read
        Err(error) if error.kind() != io::ErrorKind::PermissionDenied => Err(
            Error::ProgramNotFound(format!("{}: {error}", path.display())),
        ),
        _ if front == b"#!" => asked(&path),
        _ => Ok(path),
    }
}

fn asked(script: &Path) -> Result<PathBuf, Error> {
    let asked = Command::new(script)
        .arg("--which")
        .stderr(Stdio::inherit())
        .output();
    let failed = |why: String| Error::ProgramNotFound(format!("{}: {why}", script.display()));
    let asked = asked.map_err(|error| failed(error.to_string()))?;
    if !asked.status.success() {
        return Err(failed(format!("--which ends with {}", asked.status)));
    }
    let mut path = asked.stdout;
    path.truncate(path.trim_ascii_end().len());
    Ok(PathBuf::from(OsString::from_vec(path)))
}

/// A program that serves, and the pipe to it. Any thread may say something.
pub(crate) struct Program {
    id: u32,
    input: Mutex<Option<ChildStdin>>,
    answers: Mutex<Receiver<Vec<u8>>>,
    life: Arc<Life>,
}

/// Whether the program runs, and how it ended.
struct Life {
    child: Mutex<Child>,
    state: Mutex<LifeState>,
    changed: Condvar,
}

#[derive(Default)]
struct LifeState {
    is_closed: bool,
    end: Option<ProgramEnd>,
}

impl Program {
    /// Starts a program. `on_end` is told if it ends before it is closed.
    pub(crate) fn start(
        path: &Path,
        on_end: impl Fn(ProgramEnd) + Send + 'static,
    ) -> Result<Program, Error> {
        let cannot = |error| Error::ProgramNotFound(format!("{}: {error}", path.display()));
        let mut child = Command::new(path)
            .arg("serve")
            .stdin(Stdio::piped())
            .stdout(Stdio::piped())
            .stderr(Stdio::piped())
            .process_group(0) // Ctrl-C at a terminal is the host's alone
            .spawn()
            .map_err(cannot)?;
        let id = child.id();
        let (input, output, errors) =
            (child.stdin.take(), child.stdout.take(), child.stderr.take());
        let (child, state) = (Mutex::new(child), Mutex::default());
        let life = Arc::new(Life {
            child,
            state,
            changed: Condvar::new(),
        });
        let (sender, receiver) = channel();
        let program = Program {
            id,
            input: Mutex::new(input),
            answers: Mutex::new(receiver),
            life,
        };
        let threads = program.watch(output, errors, sender, on_end);
        threads.map_err(cannot)?;
        Ok(program)
    }

    /// Starts the threads that read what the program writes.
    fn watch(
        &self,
        output: Option<ChildStdout>,
        errors: Option<ChildStderr>,
        lines: Sender<Vec<u8>>,
        on_end: impl Fn(ProgramEnd) + Send + 'static,
    ) -> io::Result<()> {
        let thread = |what: &str| thread::Builder::new().name(format!("engine {}{what}", self.id));
        let errors = thread(" errors").spawn(move || errors.map(said).unwrap_or_default())?;
        let life = Arc::clone(&self.life);
        thread("").spawn(move || {
            if let Some(output) = output {
                pass_on(output, &lines);
            }
            drop(lines); // who waits for a line waits no longer
            if let Some(end) = life.bury(errors) {
                on_end(end);
            }
        })?;
        Ok(())
    }

    /// The process.
    pub(crate) fn id(&self) -> u32 {
        self.id
    }

    /// One exchange: a line, and the lines that answer it.
    pub(crate) fn say(&self, message: &Value) -> Result<Vec<Reply>, Error> {
        let mut line = message.to_string();
        line.push('\n');
        if line.len() > LINE_LIMIT {
            let length = line.len();
            let why = format!("it has {length} bytes, and the engine reads {LINE_LIMIT}");
            return Err(Error::Refused(why));
        }
        let answers = lock(&self.answers);
        if self.write(line.as_bytes()).is_err() {
            return Err(self.life.error());
        }
        let mut replies: Vec<Reply> = Vec::new();
        while !replies.last().is_some_and(Reply::is_last) {
            let Ok(line) = answers.recv() else {
                return Err(self.life.error());
            };
            let line = String::from_utf8_lossy(&line);
            // behind what isn't understood the pipe is out of step
            replies.push(Reply::read(&line).inspect_err(|_| self.life.kill())?);
        }
        Ok(replies)
    }

    fn write(&self, line: &[u8]) -> io::Result<()> {
        let mut input = lock(&self.input);
        let input = input.as_mut().ok_or(io::ErrorKind::BrokenPipe)?;
        input.write_all(line)?;
        input.flush()
    }

    /// Ends the program, which leaves no process behind.
    pub(crate) fn close(&self) {
        lock(&self.life.state).is_closed = true;
        // the end of its input ends it
        if !self.hang_up() || !self.life.is_over_in(PATIENCE) {
            self.life.kill();
            self.life.is_over_in(PATIENCE);
        }
    }

    /// Closes the pipe, unless a line is stuck in it.
    fn hang_up(&self) -> bool {
        let until = Instant::now() + PATIENCE;
        while Instant::now() < until {
            if let Ok(mut input) = self.input.try_lock() {
                input.take();
                return true;
            }
            thread::sleep(LOOK);
        }
        false
    }
}

impl Drop for Program {
    fn drop(&mut self) {
        self.close();
    }
}

impl Life {
    /// Waits for the end of a program that says no more. Answers by that end, unless it was wanted.
    fn bury(&self, errors: JoinHandle<String>) -> Option<ProgramEnd> {
        let status = self.exit_status();
        let end = ProgramEnd {
            status: status.and_then(|status| status.code()),
            signal: status.and_then(|status| status.signal()),
            said: errors.join().unwrap_or_default(),
        };
        let mut state = lock(&self.state);
        state.end = Some(end.clone());
        self.changed.notify_all();
        (!state.is_closed).then_some(end)
    }

    fn exit_status(&self) -> Option<ExitStatus> {
        let until = Instant::now() + PATIENCE;
        while Instant::now() < until {
            if let Ok(Some(status)) = lock(&self.child).try_wait() {
                return Some(status);
            }
            thread::sleep(LOOK);
        }
        self.kill();
        lock(&self.child).wait().ok()
    }

    fn kill(&self) {
        // it fails where the program ended already
        let _ = lock(&self.child).kill();
    }

    /// Whether the program ends in this time.
    fn is_over_in(&self, span: Duration) -> bool {
        let state = lock(&self.state);
        let waited = self
            .changed
            .wait_timeout_while(state, span, |state| state.end.is_none());
        waited
            .unwrap_or_else(PoisonError::into_inner)
            .0
            .end
            .is_some()
    }

    /// Why nothing can be said any more.
    fn error(&self) -> Error {
        if lock(&self.state).is_closed {
            return Error::EngineClosed;
        }
        self.is_over_in(PATIENCE * 2);
        let end = lock(&self.state).end.clone();
        let unseen = ProgramEnd {
            status: None,
            signal: None,
            said: String::new(),
        };
        Error::ProgramEnded(end.unwrap_or(unseen))
    }
}

/// Passes on the lines that the program writes, until it writes no more.
fn pass_on(output: ChildStdout, lines: &Sender<Vec<u8>>) {
    let mut output = BufReader::new(output);
    loop {
        let mut line = Vec::new();
        match output.read_until(b'\n', &mut line) {
            Ok(_) if line.pop() == Some(b'\n') => {}
            _ => return,
        }
        if lines.send(line).is_err() {
            return;
        }
    }
}

/// The front of what the program writes on standard error. The rest is let go.
fn said(mut errors: ChildStderr) -> String {
    let mut front = Vec::new();
    let read = errors.by_ref().take(SAID_LIMIT).read_to_end(&mut front);
    if read.is_ok() {
        let _ = io::copy(&mut errors, &mut io::sink());
    }
    String::from(String::from_utf8_lossy(&front).trim())
}
