//! The session of `nusb_sim` as plain Rust, by the rules of docs/SCRIPT.md: what the proved program
//! is timed against and compared with. Beside it the words `generate N`, and `live N` by std's threads,
//! lock and channels, `disk N`, `trace` and `check`. It has no status 7: where memory is wanting it aborts.

mod answer;
mod client;
mod control;
mod descriptors;
mod disk;
mod errno;
mod fault;
mod generated;
mod hex;
mod host;
mod journal;
mod kernel;
mod live;
mod names;
mod reader;
mod refusal;
mod script;
mod session;
mod text;
mod trace;
mod tree;
mod udev;
mod writer;

use fault::Fault;
use script::Script;
use session::Session;
use std::env;
use std::ffi::{OsStr, OsString};
use std::io::{self, BufWriter, Read, Write};
use std::process::ExitCode;
use text::{Show, Text};

const MOST_BYTES: u64 = 1 << 20;
const MOST_TRACE_BYTES: u64 = 1 << 24;
const BUFFER_BYTES: usize = 1 << 16;

const MOST_TRANSFERS: u64 = 1000;
const MOST_MESSAGES: u64 = 2000;
const MOST_ROUNDS: u64 = 500;

/// What the program's words ask for.
enum Task {
    Session,
    /// A script of so many messages.
    Generate(u32),
    /// So many transfers between two threads.
    Live(u32),
    /// So many rounds of commands at a disk.
    Disk(u32),
    /// The trace of a session, whose answers are dropped.
    Trace,
    /// A trace, which is checked.
    Check,
}

/// A number from 1 to the most.
fn count_of(word: &OsStr, most: u64) -> Result<u32, Fault> {
    script::number(word.as_encoded_bytes(), most)
        .filter(|count| *count > 0)
        .ok_or(Fault::Usage)
}

fn read_words() -> Result<Task, Fault> {
    let words: Vec<OsString> = env::args_os().skip(1).collect();
    match words.as_slice() {
        [] => Ok(Task::Session),
        [word] if word == "session" => Ok(Task::Session),
        [word, count] if word == "generate" => count_of(count, MOST_MESSAGES).map(Task::Generate),
        [word, count] if word == "live" => count_of(count, MOST_TRANSFERS).map(Task::Live),
        [word, count] if word == "disk" => count_of(count, MOST_ROUNDS).map(Task::Disk),
        [word] if word == "trace" => Ok(Task::Trace),
        [word] if word == "check" => Ok(Task::Check),
        _ => Err(Fault::Usage),
    }
}

/// All that is read, which is too long where it has more bytes than the most.
fn read_text(most: u64) -> Result<Vec<u8>, Fault> {
    let mut text = Vec::new();
    let mut source = io::stdin().lock().take(most + 1);
    source.read_to_end(&mut text).map_err(|_| Fault::Read)?;
    if text.len() as u64 > most {
        return Err(Fault::TooLong);
    }
    Ok(text)
}

fn write_answers(script: Script, out: &mut impl Write) -> io::Result<()> {
    let mut text = Text::default();
    let mut write_line = |line: &dyn Show| {
        text.clear();
        line.show(&mut text);
        text.word("\n");
        out.write_all(text.as_bytes())
    };
    let mut session = Session::new(script.devices, script.tree, script.packets);
    for line in script.lines {
        if let Some(answer) = session.take(line) {
            write_line(&answer)?;
        }
    }
    session.finish();
    for ticket in session.ticket_ends() {
        write_line(&ticket)?;
    }
    out.flush()
}

fn run_session() -> Result<(), Fault> {
    let script = Script::parse(&read_text(MOST_BYTES)?)?;
    let mut out = BufWriter::with_capacity(BUFFER_BYTES, io::stdout().lock());
    write_answers(script, &mut out).map_err(|_| Fault::Write)
}

/// Runs a script for its journal alone.
fn run_trace() -> Result<(), Fault> {
    let script = Script::parse(&read_text(MOST_BYTES)?)?;
    let mut session = Session::new(script.devices, script.tree, script.packets);
    session.keep_journal();
    for line in script.lines {
        session.take(line);
    }
    session.finish();
    write_whole(session.trace().as_bytes())
}

fn write_whole(bytes: &[u8]) -> Result<(), Fault> {
    let mut out = io::stdout().lock();
    out.write_all(bytes)
        .and_then(|()| out.flush())
        .map_err(|_| Fault::Write)
}

fn write_run(run: &dyn Show) -> Result<(), Fault> {
    let mut text = Text::default();
    run.show(&mut text);
    text.word("\n");
    write_whole(text.as_bytes())
}

fn run() -> Result<(), Fault> {
    match read_words()? {
        Task::Session => run_session(),
        Task::Generate(wanted) => write_run(&generated::run(wanted)),
        Task::Live(wanted) => write_run(&live::run(wanted)),
        Task::Disk(wanted) => write_run(&disk::run(wanted)),
        Task::Trace => run_trace(),
        Task::Check => write_run(&trace::check(&read_text(MOST_TRACE_BYTES)?)?),
    }
}

fn main() -> ExitCode {
    match run() {
        Ok(()) => ExitCode::SUCCESS,
        Err(fault) => {
            // Where this line can't be written the status alone tells.
            let _ = writeln!(io::stderr(), "{fault}");
            ExitCode::from(fault.status())
        }
    }
}
