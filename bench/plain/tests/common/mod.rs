//! Runs the program.

use std::io::Write;
use std::process::{Command, Output, Stdio};

/// What the program answers to words and a script.
pub fn run(words: &[&str], script: &[u8]) -> Output {
    let mut program = Command::new(env!("CARGO_BIN_EXE_nusb_sim_plain"))
        .args(words)
        .stdin(Stdio::piped())
        .stdout(Stdio::piped())
        .stderr(Stdio::piped())
        .spawn()
        .expect("the program starts");
    let mut stdin = program.stdin.take().expect("its standard input is a pipe");
    let script = script.to_vec();
    // A program that stops reading closes the pipe, which is no failure here.
    let writer = std::thread::spawn(move || stdin.write_all(&script));
    let output = program.wait_with_output().expect("the program ends");
    let _ = writer.join();
    output
}

/// Runs the program and compares its status, its output and its line on standard error.
pub fn expect(name: &str, words: &[&str], script: &[u8], status: i32, output: &str, report: &str) {
    let ran = run(words, script);
    assert_eq!(
        String::from_utf8_lossy(&ran.stdout),
        output,
        "output of: {name}"
    );
    assert_eq!(
        String::from_utf8_lossy(&ran.stderr),
        report,
        "standard error of: {name}"
    );
    assert_eq!(ran.status.code(), Some(status), "status of: {name}");
}
