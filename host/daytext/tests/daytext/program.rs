//! The program itself: files, standard input, exit statuses.

use std::fs;
use std::io::{Read, Write};
use std::path::PathBuf;
use std::process::{Child, Command, Output, Stdio};

fn start(arguments: &[&str]) -> Child {
    Command::new(env!("CARGO_BIN_EXE_daytext"))
        .args(arguments)
        .stdin(Stdio::piped())
        .stdout(Stdio::piped())
        .stderr(Stdio::piped())
        .spawn()
        .unwrap()
}

/// Runs the program; what it does not read of the input does not matter.
fn run(arguments: &[&str], input: &[u8]) -> Output {
    let mut child = start(arguments);
    let _ = child.stdin.take().unwrap().write_all(input);
    child.wait_with_output().unwrap()
}

#[track_caller]
fn answers(output: &Output, status: i32, out: &[u8], error: &str) {
    assert_eq!(String::from_utf8_lossy(&output.stderr), error);
    assert_eq!(output.stdout, out);
    assert_eq!(output.status.code(), Some(status));
}

/// A file for one test; the name must not be used by another.
fn file(name: &str, bytes: &[u8]) -> PathBuf {
    let path = PathBuf::from(env!("CARGO_TARGET_TMPDIR")).join(name);
    fs::write(&path, bytes).unwrap();
    path
}

#[test]
fn encode_and_decode_from_standard_input() {
    answers(&run(&["encode"], b"count 0\n"), 0, b"\x02\0\0\0", "");
    answers(
        &run(&["decode"], b"\x02\0\0\0"),
        0,
        b"# message 1\ncount 0\n",
        "",
    );
}

#[test]
fn due_from_a_file() {
    let path = file("due_from_a_file.txt", b"count 0\ndue 6 2 0\n");
    let output = run(&["due", path.to_str().unwrap()], b"");
    answers(
        &output,
        0,
        b"message verdict element record\n1 6 2 0\nend 1 0\n",
        "",
    );
}

#[test]
fn a_wrong_text_is_refused_with_status_2() {
    let output = run(&["encode"], b"count 0\n\nfoo\n");
    let error = "standard input:3: `foo` is not a word of the form\n";
    answers(&output, 2, b"", error);
    answers(
        &run(&["due"], b"count 0\n"),
        2,
        b"",
        "standard input:1: this message has no `due`\n",
    );
    let path = file("wrong_text.txt", b"bytes 0\n");
    let output = run(&["encode", path.to_str().unwrap()], b"");
    let sentence = "a hexadecimal digit stands alone; they come in pairs";
    answers(
        &output,
        2,
        b"",
        &format!("{}:1: {sentence}\n", path.display()),
    );
}

const LAST: &[u8] = b"end: all input was read; messages judged: 1, tape lines published: 0\n";
const EXPLAINED: &[u8] = b"message 1: no swap named, no action\n  \
    refused (verdict 6): action missing or unknown; element 2, action type\n";

#[test]
fn explain_takes_the_report_from_a_file_or_from_standard_input() {
    let day = file("explained.day", b"\x02\0\0\0");
    let report = b"message verdict element record\n1 6 2 0\nend 1 0\n";
    let report_file = file("explained.report", report);
    let out = [EXPLAINED, LAST].concat();
    let day = day.to_str().unwrap();
    answers(&run(&["explain", day], report), 0, &out, "");
    let both = ["explain", day, report_file.to_str().unwrap()];
    answers(&run(&both, b""), 0, &out, "");
}

#[test]
fn a_report_of_another_day_gives_status_1() {
    let day = file("mismatch.day", b"\x02\0\0\0");
    let report = b"message verdict element record\n1 6 2 0\nend 2 0\n";
    let error = "standard input:3: messages judged in this line: 2, in the lines before: 1\n";
    let output = run(&["explain", day.to_str().unwrap()], report);
    answers(&output, 1, EXPLAINED, error);
}

#[test]
fn a_file_that_cannot_be_read_gives_status_2() {
    for arguments in [["encode", "no/such/file"], ["explain", "no/such/file"]] {
        let output = run(&arguments, b"");
        let error = String::from_utf8(output.stderr).unwrap();
        assert!(
            error.starts_with("no/such/file: cannot be read: "),
            "{error}"
        );
        assert_eq!(output.status.code(), Some(2));
        assert!(output.stdout.is_empty());
    }
}

#[test]
fn usage() {
    let help = run(&["--help"], b"");
    let text = String::from_utf8(help.stdout).unwrap();
    assert!(text.starts_with("usage: daytext encode [FILE] "), "{text}");
    assert_eq!(help.status.code(), Some(0));
    let wrong: [&[&str]; 6] = [
        &[],
        &["write"],
        &["encode", "a", "b"],
        &["due", "a", "b"],
        &["explain"],
        &["explain", "a", "b", "c"],
    ];
    for arguments in wrong {
        answers(&run(arguments, b""), 2, b"", &text);
    }
}

#[test]
fn a_closed_pipe_is_no_failure() {
    let text = b"repeat 100000\n\n1 SWAP{n:6}\ndue 0 0 {n}\n\nagain\n";
    for word in ["encode", "due"] {
        let mut child = start(&[word]);
        let mut first = [0; 4];
        child.stdin.take().unwrap().write_all(text).unwrap();
        child.stdout.take().unwrap().read_exact(&mut first).unwrap();
        let output = child.wait_with_output().unwrap();
        answers(&output, 0, b"", "");
    }
}
