//! What answers scripts.

use std::ffi::OsString;
use std::io::Write;
use std::process::{Command, Stdio};
use std::thread;

/// Answers whole scripts: one line for each call, and then one for the fate of each transfer.
///
/// Implementors are to give the same bytes for the same script, and answers of the beginning of a
/// script that are the beginning of its answers. The proved library does, by a law of what scripts
/// are answered (`beginnings_are_answered_alike`, crates/usb_session_beginnings).
pub trait Answers: Send {
    /// The answers of a script, or why there are none.
    fn answer(&mut self, script: &[u8]) -> Result<Vec<u8>, String>;
}

/// A program that reads a script from standard input and writes its answers, as `nusb_sim` does.
#[derive(Debug, Clone)]
pub struct Program {
    path: OsString,
}

impl Program {
    /// The program at this path.
    pub fn new(path: impl Into<OsString>) -> Program {
        Program { path: path.into() }
    }

    /// The program that the environment variable `NUSB_SIM` names.
    pub fn from_environment() -> Option<Program> {
        std::env::var_os("NUSB_SIM").map(Program::new)
    }
}

impl Answers for Program {
    fn answer(&mut self, script: &[u8]) -> Result<Vec<u8>, String> {
        let run = Command::new(&self.path)
            .stdin(Stdio::piped())
            .stdout(Stdio::piped())
            .stderr(Stdio::piped())
            .spawn();
        let mut run = run.map_err(|error| format!("{:?} does not start: {error}", self.path))?;
        let mut input = run.stdin.take();
        let output = thread::scope(|scope| {
            scope.spawn(move || input.as_mut().map(|input| input.write_all(script)));
            run.wait_with_output()
        });
        let output = output.map_err(|error| error.to_string())?;
        match output.status.success() {
            true => Ok(output.stdout),
            false => Err(format!(
                "{:?} ended with {}: {}",
                self.path,
                output.status,
                String::from_utf8_lossy(&output.stderr)
            )),
        }
    }
}
