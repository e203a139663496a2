//! The scripts whose answers were worked out by hand, by the library and by the program.

use usb_host_core::sim::{Answers, Program};

const FILES: [&str; 9] = [
    include_str!("../../../bench/plain/tests/worked/claims.txt"),
    include_str!("../../../bench/plain/tests/worked/clients.txt"),
    include_str!("../../../bench/plain/tests/worked/controls.txt"),
    include_str!("../../../bench/plain/tests/worked/descriptors.txt"),
    include_str!("../../../bench/plain/tests/worked/devices.txt"),
    include_str!("../../../bench/plain/tests/worked/readers.txt"),
    include_str!("../../../bench/plain/tests/worked/transfers.txt"),
    include_str!("../../../bench/plain/tests/worked/tree.txt"),
    include_str!("../../../bench/plain/tests/worked/writers.txt"),
];

/// Each script with what it shows and its answers. Behind `= ` stands what it shows, behind `> ` a
/// line of it, and the other lines are its answers.
fn rows() -> Vec<(&'static str, String, String)> {
    let mut rows = vec![(
        "the program's stored run",
        include_str!("../../../crates/nusb_sim/stdin").to_owned(),
        include_str!("../../../crates/nusb_sim/stdout").to_owned(),
    )];
    for case in FILES.iter().flat_map(|file| file.split("\n\n")) {
        let (head, lines) = case.split_once('\n').expect("a case has lines");
        let (mut script, mut answers) = (String::new(), String::new());
        for line in lines.lines() {
            let (text, line) = match line.strip_prefix("> ") {
                Some(line) => (&mut script, line),
                None => (&mut answers, line),
            };
            *text += &format!("{line}\n");
        }
        rows.push((head, script, answers));
    }
    rows
}

fn compare(answers: &mut dyn Answers) {
    for (name, script, expected) in rows() {
        let given = answers.answer(script.as_bytes()).unwrap();
        assert_eq!(String::from_utf8(given).unwrap(), expected, "{name}");
    }
}

#[test]
fn the_program_answers_as_worked_out() {
    if let Some(mut program) = Program::from_environment() {
        compare(&mut program);
    }
}

#[cfg(usb_core_c)]
#[test]
fn the_library_answers_as_worked_out() {
    compare(&mut usb_host_core::proved::Library::new());
}

/// The bench asks for its answers with each script anew. So what was answered has to stay.
#[cfg(usb_core_c)]
#[test]
fn the_answers_of_a_beginning_are_the_beginning_of_the_answers() {
    let mut library = usb_host_core::proved::Library::new();
    let mut answer =
        |script: &str| String::from_utf8(library.answer(script.as_bytes()).unwrap()).unwrap();
    for (name, script, whole) in rows() {
        let mut beginning = String::new();
        for line in script.lines() {
            beginning += &format!("{line}\n");
            let answers = answer(&beginning);
            let calls = answers.lines().filter(|line| !line.starts_with("ticket "));
            assert!(calls.zip(whole.lines()).all(|(one, other)| one == other), "{name}: {line}");
        }
    }
}

#[cfg(usb_core_c)]
#[test]
fn the_library_tells_why_a_script_is_not_answered() {
    let mut library = usb_host_core::proved::Library::new();
    let long = vec![b'\n'; (1 << 20) + 1];
    let rows: [(&[u8], &str); 3] = [
        (b"now\npoll\n", "malformed line 2"),
        (b"\xff", "malformed line 1"),
        (&long, "script too long"),
    ];
    for (script, error) in rows {
        assert_eq!(library.answer(script), Err(error.to_owned()));
    }
    assert_eq!(library.answer(b""), Ok(Vec::new()));
    assert_eq!(library.answer(&long[1..]), Ok(Vec::new()));
}
