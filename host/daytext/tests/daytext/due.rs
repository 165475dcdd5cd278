//! The report that the `due` lines give.

use crate::common::fault;
use daytext::Fault;

#[track_caller]
fn gives(text: &str, report: &str) {
    let mut out = Vec::new();
    daytext::due(text.as_bytes(), &mut out).unwrap();
    assert_eq!(String::from_utf8(out).unwrap(), report);
}

#[track_caller]
fn is_refused(text: &str, line: usize, sentence: &str) {
    let mut out = Vec::new();
    let fault = fault(daytext::due(text.as_bytes(), &mut out));
    assert!(out.is_empty());
    let sentence = sentence.to_string();
    assert_eq!(fault, Fault { line, sentence });
}

#[test]
fn the_example_of_the_specification() {
    gives(
        "count 0\ndue 6 2 0\n",
        "message verdict element record\n1 6 2 0\nend 1 0\n",
    );
}

#[test]
fn identifiers_are_counted() {
    gives(
        "1 A\ndue 0 0 1\n\n1 B\ndue 9 4 0\n\n1 C\ndue 0 0 0\n\n1 D\ndue 0 0 02\n",
        "message verdict element record\n1 0 0 1\n2 9 4 0\n3 0 0 0\n4 0 0 2\nend 4 2\n",
    );
}

#[test]
fn no_message() {
    gives("", "message verdict element record\nend 0 0\n");
}

#[test]
fn the_due_decides_and_not_the_bytes() {
    gives(
        "bytes\ndue 0 0 7\n",
        "message verdict element record\n1 0 0 7\nend 1 1\n",
    );
}

#[test]
fn cut() {
    let report = "message verdict element record\n1 0 0 1\ncut 1 1\n";
    gives("1 A\ndue 0 0 1\n\nlength 9\n1 B\ndue cut\n", report);
    gives("1 A\ndue 0 0 1\n\nlength 9\ndue cut\n", report);
    gives("1 A\ndue 0 0 1\n\nraw 09\ndue cut\n", report);
    gives(
        "raw 09\ndue cut\n",
        "message verdict element record\ncut 0 0\n",
    );
}

#[test]
fn raw_bytes_have_no_line() {
    gives(
        "raw 01 00\n\n1 A\ndue 0 0 1\n",
        "message verdict element record\n1 0 0 1\nend 1 1\n",
    );
}

#[test]
fn counters() {
    gives(
        "repeat 3\n\n1 {n}\ndue 0 0 {n+9:4}\n\n1 {n}\ndue {n+14} {n-1} 0\n\nagain\n",
        "message verdict element record\n\
         1 0 0 10\n2 15 0 0\n3 0 0 11\n4 16 1 0\n5 0 0 12\n6 17 2 0\nend 6 3\n",
    );
    gives(
        "repeat 2\n\n1 {n}\ndue 1{n} 0 0\n\nagain\n",
        "message verdict element record\n1 11 0 0\n2 12 0 0\nend 2 0\n",
    );
}

#[test]
fn a_message_without_due() {
    let sentence = "this message has no `due`";
    is_refused("1 A\n", 1, sentence);
    is_refused("1 A\ndue 0 0 1\n\n# second\n1 B\n2 C\n", 5, sentence);
    is_refused("repeat 2\n\nlength 5\n\nagain\n", 3, sentence);
}

#[test]
fn a_text_that_breaks_the_form() {
    is_refused("1 A\ndue 20 0 0\n", 2, "the verdict is not one of 0 to 19");
    is_refused("1 A\nfoo\n", 2, "`foo` is not a word of the form");
}
