//! Reports that do not belong to their day, or are broken: the line, the
//! sentence, and what was explained before.

use crate::common::{day, fault, message, no_element, no_verdict, Random};
use daytext::Fault;

/// Two messages, of which the second is longer than 2,048 bytes.
fn two() -> Vec<u8> {
    day(&[message(&[(1, b"A"), (2, b"NEWT")]), vec![b'X'; 2049]])
}

const HEADING: &str = "message verdict element record\n";
const FIRST: &str = "message 1: swap A, action NEWT (a new swap)\n  \
                     accepted (verdict 0); dissemination identifier of its tape line: 000000000001\n";
const SECOND: &str = "message 2: longer than 2,048 bytes (2049) and passed over\n  \
                      refused (verdict 5): message layout wrong\n";

#[track_caller]
fn stops(day: &[u8], lines: &str, line: usize, sentence: &str, before: &str) {
    let report = format!("{HEADING}{lines}");
    let mut out = Vec::new();
    let fault = fault(daytext::explain(day, report.as_bytes(), &mut out));
    let sentence = sentence.to_string();
    assert_eq!(fault, Fault { line, sentence });
    assert_eq!(String::from_utf8(out).unwrap(), before);
}

#[test]
fn the_right_report() {
    let report = format!("{HEADING}1 0 0 1\n2 5 0 0\nend 2 1\n");
    let mut out = Vec::new();
    daytext::explain(&two(), report.as_bytes(), &mut out).unwrap();
    let last = "end: all input was read; messages judged: 2, tape lines published: 1\n";
    assert_eq!(
        String::from_utf8(out).unwrap(),
        format!("{FIRST}{SECOND}{last}")
    );
}

#[test]
fn headings() {
    let empty = fault(daytext::explain(b"", b"", &mut Vec::new()));
    assert_eq!(
        empty,
        Fault {
            line: 1,
            sentence: "the report is empty".to_string()
        }
    );
    for report in ["end 0 0\n", "message verdict element\nend 0 0\n", "\n"] {
        let wrong = fault(daytext::explain(b"", report.as_bytes(), &mut Vec::new()));
        let sentence = "the report does not start with `message verdict element record`";
        assert_eq!(
            wrong,
            Fault {
                line: 1,
                sentence: sentence.to_string()
            }
        );
    }
}

#[test]
fn too_few_lines() {
    stops(
        &two(),
        "1 0 0 1\nend 1 1\n",
        3,
        "the report ends too early: messages so far: 1, whole messages in the day: 2",
        FIRST,
    );
    let no_last = "the report stops here without `end` or `cut`";
    stops(&two(), "1 0 0 1\n", 2, no_last, FIRST);
    stops(&two(), "", 1, no_last, "");
}

#[test]
fn too_many_lines() {
    let lines = "1 0 0 1\n2 5 0 0\n3 0 0 2\nend 3 2\n";
    stops(
        &two(),
        lines,
        4,
        "this line is one too many: whole messages in the day: 2",
        &format!("{FIRST}{SECOND}"),
    );
    let mut cut = two();
    cut.extend([9, 0, 1]);
    stops(
        &cut,
        lines,
        4,
        "this line is one too many: whole messages in the day: 2",
        &format!("{FIRST}{SECOND}"),
    );
}

#[test]
fn lines_behind_the_last() {
    let last = "end: all input was read; messages judged: 0, tape lines published: 0\n";
    stops(
        b"",
        "end 0 0\n\n",
        3,
        "the report goes on behind its last line",
        last,
    );
}

/// Lines in the place of the second message, and what is wrong with them.
const BROKEN: [(&str, &str); 12] = [
    ("", "`` is neither four numbers nor `end` or `cut` with two"),
    (
        "2 5 0",
        "`2 5 0` is neither four numbers nor `end` or `cut` with two",
    ),
    (
        "end 2",
        "`end 2` is neither four numbers nor `end` or `cut` with two",
    ),
    (
        "stop 2 1",
        "`stop 2 1` is neither four numbers nor `end` or `cut` with two",
    ),
    (
        "2 5 0 0 0",
        "`2 5 0 0 0` is neither four numbers nor `end` or `cut` with two",
    ),
    ("2 5 x 0", "`x` is not a number"),
    ("2 5  0", "`` is not a number"),
    ("2 5 0 -1", "`-1` is not a number"),
    ("+2 5 0 0", "`+2` is not a number"),
    (
        "2 5 0 99999999999999999999",
        "`99999999999999999999` is not a number",
    ),
    ("end 2 x", "`x` is not a number"),
    (
        "2 0 0 1000000000000",
        "the identifier has more than 12 digits",
    ),
];

#[test]
fn broken_lines() {
    for (line, sentence) in BROKEN {
        stops(
            &two(),
            &format!("1 0 0 1\n{line}\nend 2 1\n"),
            3,
            sentence,
            FIRST,
        );
    }
}

#[test]
fn numbers_outside_the_tables() {
    let stops_at = |line: &str, sentence: &str| {
        let report = format!("1 0 0 1\n{line}\nend 2 1\n");
        stops(&two(), &report, 3, sentence, FIRST);
    };
    let (verdict, sentence) = no_verdict();
    stops_at(&format!("2 {verdict} 0 0"), &sentence);
    let (element, sentence) = no_element();
    stops_at(&format!("2 9 {element} 0"), &sentence);
}

#[test]
fn wrong_positions() {
    stops(
        &two(),
        "2 0 0 1\n",
        2,
        "the line is about message 2, but message 1 is next",
        "",
    );
    stops(
        &two(),
        "1 0 0 1\n1 0 0 1\n",
        3,
        "the line is about message 1, but message 2 is next",
        FIRST,
    );
}

#[test]
fn answers_that_the_message_cannot_have() {
    stops(
        &two(),
        "1 9 4 1\n",
        2,
        "a refused message has no tape line, but the line gives one",
        "",
    );
    for line in ["2 0 0 2", "2 9 1 0", "2 5 1 0"] {
        stops(
            &two(),
            &format!("1 0 0 1\n{line}\n"),
            3,
            "message 2 is longer than 2,048 bytes, which gives verdict 5 and element 0",
            FIRST,
        );
    }
}

#[test]
fn wrong_last_words() {
    stops(
        b"",
        "cut 0 0\n",
        2,
        "the report says `cut`, but the day stops inside no length and no message",
        "",
    );
    stops(
        b"\x09",
        "end 0 0\n",
        2,
        "the report says `end`, but the day stops inside the length of message 1",
        "",
    );
    stops(
        b"\x09\0A",
        "end 0 0\n",
        2,
        "the report says `end`, but the day stops inside message 1, at 1 of its 9 bytes",
        "",
    );
}

#[test]
fn counts_that_do_not_add_up() {
    let before = format!("{FIRST}{SECOND}");
    stops(
        &two(),
        "1 0 0 1\n2 5 0 0\nend 3 1\n",
        4,
        "messages judged in this line: 3, in the lines before: 2",
        &before,
    );
    stops(
        &two(),
        "1 0 0 1\n2 5 0 0\nend 2 2\n",
        4,
        "tape lines published in this line: 2, in the lines before: 1",
        &before,
    );
}

/// Any bytes as day and report: an answer or a fault, never a panic. The
/// right heading and numbers let some reports get further.
#[test]
fn any_bytes() {
    let mut random = Random::new(7);
    let mut explained = 0;
    for _ in 0..5000 {
        let length = random.below(60);
        let mut bytes = random.bytes(length);
        bytes.splice(..0, [4, 0, 1, 0, 1, 0]);
        let mut report = format!("{HEADING}1 5 0 0\n").into_bytes();
        let length = random.below(12);
        report.extend((0..length).map(|_| b"0123456789 \nendcut"[random.below(18)]));
        report.extend(random.bytes(2));
        let mut out = Vec::new();
        let result = daytext::explain(&bytes, &report, &mut out);
        assert!(result.is_err() || !out.is_empty());
        explained += usize::from(out.starts_with(b"message 1: as far as it can be read: "));
    }
    assert_eq!(explained, 5000);
}
