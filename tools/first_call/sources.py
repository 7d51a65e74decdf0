"""Lays out the sources of a program of one command alone, as a repository of its own.

Each such command has two programs. The short one is compiled first; it doesn't say why it refused
its input. The explaining one says that as the whole program does, and takes longer to compile.
"""
import pathlib
import re
from typing import Dict, List, NamedTuple

# Parts of the programs are written here, so a newer version of this makes newer programs.
THIS = "../tools/first_call"


# The commands that have programs alone, and what serves each there.
ALONE = {
    "replay": "cli_replay::command::serve_replay(alloc, source, sink)",
    "check": "serve(alloc, &runcheck::command::Check, source, sink)",
    "wait": "serve(alloc, &cli_wait::WaitCommand, source, sink)",
    "waiters": "serve(alloc, &cli_waiters::WaitersCommand, source, sink)",
}
# The command whose run also answers what it left over of its script.
LEAVING = "replay"
# Modules of `json_scripts` that none of these commands calls: scripts of clients and of callers.
SCRIPTS_OF_CLIENTS = ["client", "fleet", "records", "workload"]
# What `cli_commands` is in an explaining program: `program` as it stands, and `run` as below.
LIB = "pub mod program;\npub mod run;\n"
RUN = """//! The program of one command.
use cli_replay::left_over::LeftOver;
use cli_shell::serve::serve;
use cli_shell::sink::Sink;
use cli_shell::source::Source;
use cli_shell::status::Status;
use smithy_types::Text;
use std::alloc::Global;
use std::sync::Wait;
use std::thread::Threads;

/// Serves the command.
pub fn run_noted<R: Threads + Wait + Sync, S: Source, K: Sink>(
    _rt: &R,
    alloc: Global,
    _words: &[Text],
    source: &mut S,
    sink: &mut K,
) -> (Status, Option<LeftOver>) {
    let (ended, left_over) = SERVES;
    (ended.status(), left_over)
}
"""
# What a short program has in the place of its crate and of `cli_commands`.
MAIN = """//! The program of one command, which doesn't say why it refused its input.
use cli_shell::serve::serve;
use cli_shell::standard::{StdSink, StdSource};
use std::process::ExitCode;

fn main(rt: HostRuntime) -> ExitCode {
    let alloc = rt.alloc();
    let mut reader = StdSource::new(rt.stdin());
    let mut writer = StdSink::new(rt.stdout());
    let source = &mut reader;
    let sink = &mut writer;
    let ended = SERVES;
    ExitCode::from(ended.status().number())
}
"""
# The same where the run answers what it left over, which is said as the whole program says it.
MAIN_LEAVING = MAIN.replace(
    "use cli_shell::serve::serve;",
    "use cli_refusals::left_over::{left_over_line, missed_line};\nuse cli_replay::left_over::LeftOver;",
).replace(
    "let ended = SERVES;",
    "let (ended, left_over) = SERVES;\n    if let Some(left) = left_over {\n"
    "        tell_left_over(&rt, left);\n    }",
)


class Crate(NamedTuple):
    """A line of crates.txt: the name with what stands behind it, and the crates that are used."""

    head: str
    uses: List[str]

    def name(self) -> str:
        return self.head.split()[0]


class Program(NamedTuple):
    """A program of one command alone, and whether it says why it refused its input."""

    command: str
    explains: bool

    def file(self) -> str:
        """The name of the file that it is kept in."""
        return ("unproved_" if self.explains else "short_") + self.command


def read_crates(text: str) -> Dict[str, Crate]:
    """The crates that crates.txt lists, by their names."""
    lines = [line.partition("#")[0].partition(":") for line in text.splitlines()]
    crates = [Crate(head.strip(), uses.split()) for head, _, uses in lines if head.strip()]
    return {crate.name(): crate for crate in crates}


def left_out(name: str, command: str) -> List[str]:
    """The modules of a crate that a program of this command does without. `waiters` alone reads a
    bucket; so the others need no crate of quotas."""
    if name != "json_scripts":
        return []
    return SCRIPTS_OF_CLIENTS if command == "waiters" else [*SCRIPTS_OF_CLIENTS, "buckets"]


def files_of(src: pathlib.Path, modules: List[str]) -> Dict[str, str]:
    """The sources in a crate's folder `src` but for these modules, by their paths."""
    files = {}
    for path in src.rglob("*.rt"):
        place = path.relative_to(src)
        if place.parts[0].partition(".")[0] not in modules:
            files[str(place)] = path.read_text(encoding="utf-8")
    for module in modules:
        files["lib.rt"] = files["lib.rt"].replace(f"pub mod {module};\n", "")
    return files


def commands_alone(src: pathlib.Path, command: str) -> Dict[str, str]:
    """The sources of `cli_commands` with one command alone: `program` as it stands, and `run` as
    above."""
    serves = ALONE[command] if command == LEAVING else f"({ALONE[command]}, None)"
    program = (src / "program.rt").read_text(encoding="utf-8")
    return {"lib.rt": LIB, "program.rt": program, "run.rt": RUN.replace("SERVES", serves)}


def short_main(main: str, command: str) -> str:
    """The source of a short program, beside that of the whole one."""
    if command != LEAVING:
        return MAIN.replace("SERVES", ALONE[command])
    telling = re.search(r"^fn tell_left_over\(.*?^}\n", main, re.MULTILINE | re.DOTALL)
    return MAIN_LEAVING.replace("SERVES", ALONE[command]) + "\n" + telling[0]


def sources_alone(top: pathlib.Path, name: str, program: Program) -> Dict[str, str]:
    """The sources of a crate in a program of one command alone, by their paths in `src`."""
    src = top / "crates" / name / "src"
    if name == "cli_commands":
        return commands_alone(src, program.command)
    if not program.explains and name == "smithy_replay":
        main = (src / "main.rt").read_text(encoding="utf-8")
        return {"main.rt": short_main(main, program.command)}
    if not program.explains and name == "cli_refusals":
        text = (src / "left_over.rt").read_text(encoding="utf-8")
        return {"lib.rt": "pub mod left_over;\n", "left_over.rt": text}
    return files_of(src, left_out(name, program.command))


def named_in(files: Dict[str, str], uses: List[str]) -> List[str]:
    """Those of these crates that the code of a crate names. Others stand in crates.txt since its
    contracts name them, or what its code names has their types."""
    text = "\n".join(files.values())
    return [use for use in dict.fromkeys(uses) if re.search(rf"\b{use}::", text)]


def write_sources(src: pathlib.Path, files: Dict[str, str]) -> None:
    """Writes the sources of a crate into its folder `src`."""
    for place, text in files.items():
        path = src / place
        path.parent.mkdir(parents=True, exist_ok=True)
        path.write_text(text, encoding="utf-8")


def lay_out(top: pathlib.Path, program: Program, to: pathlib.Path) -> List[str]:
    """Makes a repository of this program in the empty folder `to`, from the sources in that at
    `top`. Returns the folders that it is made of, from the folder of the crates on. `to` lies
    outside of `top`, where `rt` refuses sources that no crate has."""
    crates = read_crates((top / "crates.txt").read_text(encoding="utf-8"))
    # A short program calls its command itself.
    crates["smithy_replay"].uses.extend(crates["cli_commands"].uses)
    lines, wanted = [], ["smithy_replay"]
    for name, crate in reversed(crates.items()):
        if name in wanted:
            files = sources_alone(top, name, program)
            uses = named_in(files, crate.uses)
            write_sources(to / "crates" / name / "src", files)
            lines.insert(0, f"{crate.head}: {' '.join(uses)}\n")
            wanted += uses
    (to / "crates.txt").write_text("".join(lines), encoding="utf-8")
    return [*(f"{name}/src" for name in crates if name in wanted), THIS]
