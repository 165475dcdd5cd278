//! Reports in words.

use crate::common::{day, message};

const UTI: &[u8] = b"LEDGERTESTSWAP0000001";
const TIME: &[u8] = b"2026-01-05T10:00:00Z";

#[track_caller]
fn gives(day: &[u8], report: &str, words: &str) {
    let mut out = Vec::new();
    daytext::explain(day, report.as_bytes(), &mut out).unwrap();
    assert_eq!(String::from_utf8(out).unwrap(), words);
}

/// A report with this line for its only message.
fn report(line: &str, last: &str) -> String {
    format!("message verdict element record\n{line}\n{last}\n")
}

#[test]
fn a_small_day() {
    let day = day(&[
        message(&[(1, UTI), (2, b"NEWT"), (3, b"TRAD"), (4, TIME)]),
        message(&[(1, UTI), (2, b"TERM"), (4, TIME)]),
        message(&[(1, UTI), (2, b"PRTO"), (3, b"PTNG"), (4, TIME)]),
        message(&[(2, b"newt")]),
        message(&[(1, UTI), (2, b"EROR"), (4, b"today")]),
    ]);
    let report = "message verdict element record\n\
                  1 0 0 1\n2 10 0 0\n3 0 0 0\n4 6 2 0\n5 9 4 0\nend 5 1\n";
    let words = "\
message 1: swap LEDGERTESTSWAP0000001, action NEWT (a new swap), event TRAD
  accepted (verdict 0); dissemination identifier of its tape line: 000000000001
message 2: swap LEDGERTESTSWAP0000001, action TERM (terminated)
  refused (verdict 10): event does not go with action
message 3: swap LEDGERTESTSWAP0000001, action PRTO (moved to another repository), event PTNG
  accepted (verdict 0); no tape line is written
message 4: no swap named, action newt (none of the seven actions)
  refused (verdict 6): action missing or unknown; element 2, action type
message 5: swap LEDGERTESTSWAP0000001, action EROR (entered in error)
  refused (verdict 9): value breaks its form; element 4, event timestamp
end: all input was read; messages judged: 5, tape lines published: 1
";
    gives(&day, report, words);
}

#[test]
fn each_action() {
    let meanings: [(&[u8], &str); 7] = [
        (b"NEWT", "NEWT (a new swap)"),
        (b"MODI", "MODI (a change of terms)"),
        (b"CORR", "CORR (a correction)"),
        (b"TERM", "TERM (terminated)"),
        (b"EROR", "EROR (entered in error)"),
        (b"REVI", "REVI (brought back)"),
        (b"PRTO", "PRTO (moved to another repository)"),
    ];
    for (action, words) in meanings {
        let words = format!(
            "message 1: swap A, action {words}\n  refused (verdict 9): value breaks its form; element 1, UTI\n\
             end: all input was read; messages judged: 1, tape lines published: 0\n"
        );
        let day = day(&[message(&[(1, b"A"), (2, action)])]);
        gives(&day, &report("1 9 1 0", "end 1 0"), &words);
    }
}

#[test]
fn price_and_spread() {
    let day = day(&[
        message(&[(1, UTI), (2, b"NEWT"), (3, b"TRAD"), (4, TIME)]),
        message(&[(1, UTI), (2, b"CORR"), (4, TIME)]),
        message(&[(1, UTI), (2, b"REVI"), (4, TIME)]),
    ]);
    let report = "message verdict element record\n1 19 0 0\n2 12 0 0\n3 11 28 0\nend 3 0\n";
    let words = "\
message 1: swap LEDGERTESTSWAP0000001, action NEWT (a new swap), event TRAD
  refused (verdict 19): package with both price and spread
message 2: swap LEDGERTESTSWAP0000001, action CORR (a correction)
  refused (verdict 12): price or spread too long for its notation
message 3: swap LEDGERTESTSWAP0000001, action REVI (brought back)
  refused (verdict 11): conditional element missing; element 28, spread currency
end: all input was read; messages judged: 3, tape lines published: 0
";
    gives(&day, report, words);
}

#[test]
fn no_message() {
    gives(
        b"",
        "message verdict element record\nend 0 0\n",
        "end: all input was read; messages judged: 0, tape lines published: 0\n",
    );
}

#[test]
fn an_overlong_message() {
    let mut value = vec![b'A'; 2043];
    let verdict = "  refused (verdict 5): message layout wrong\n\
                   end: all input was read; messages judged: 1, tape lines published: 0\n";
    let long = day(&[message(&[(1, &value)])]);
    gives(
        &long,
        &report("1 5 0 0", "end 1 0"),
        &format!("message 1: longer than 2,048 bytes (2049) and passed over\n{verdict}"),
    );
    value.pop();
    let longest = day(&[message(&[(1, &value)])]);
    let start = "A".repeat(60);
    gives(
        &longest,
        &report("1 5 0 0", "end 1 0"),
        &format!("message 1: as far as it can be read: swap {start}..., no action\n{verdict}"),
    );
}

/// The first line about a message that the report gives verdict 5.
#[track_caller]
fn first_line(message: &[u8], words: &str) {
    let words = format!(
        "message 1: as far as it can be read: {words}\n  refused (verdict 5): message layout wrong\n\
         end: all input was read; messages judged: 1, tape lines published: 0\n"
    );
    gives(
        &day(&[message.to_vec()]),
        &report("1 5 0 0", "end 1 0"),
        &words,
    );
}

#[test]
fn unreadable_messages() {
    let neither = "the swap cannot be read, the action cannot be read";
    first_line(b"", neither);
    first_line(b"\x05", neither);
    first_line(b"\x05\0", neither);
    first_line(b"\x01\0\x01\0", neither);
    first_line(b"\0\0", "no swap named, no action");
    // The first offset lies behind the end.
    first_line(b"\x01\0\x01\0\x09\0A", "the swap cannot be read, no action");
    // The offset lies in the entry itself.
    first_line(b"\x01\0\x01\0\x05\0A", "the swap cannot be read, no action");
    // Offsets that fall, and an empty value.
    first_line(
        b"\x02\0\x01\0\x0b\0\x02\0\x0a\0AB",
        "the swap cannot be read, action AB (none of the seven actions)",
    );
    first_line(
        b"\x02\0\x01\0\x0a\0\x02\0\x0a\0TERM",
        "the swap cannot be read, action TERM (terminated)",
    );
}

#[test]
fn messages_that_can_be_read_so_far() {
    // The count says one element more than there are.
    first_line(
        b"\x03\0\x01\0\x0a\0\x02\0\x0b\0AB",
        "swap A, the action cannot be read",
    );
    // Codes that do not rise.
    first_line(
        b"\x02\0\x02\0\x0a\0\x01\0\x0e\0TERMA",
        "swap A, action TERM (terminated)",
    );
}

#[test]
fn values_cannot_disturb_the_screen() {
    let value = b"\x1b[2J\nX";
    first_line(
        &message(&[(1, value), (3, b"\xff")]),
        "swap \\x1b[2J\\x0aX, no action, event \\xff",
    );
}

#[test]
fn long_values_are_cut_short() {
    let sixty = "B".repeat(60);
    let whole = message(&[(1, sixty.as_bytes())]);
    first_line(&whole, &format!("swap {sixty}, no action"));
    let longer = message(&[(1, &[b'B'; 61])]);
    first_line(&longer, &format!("swap {sixty}..., no action"));
}

#[test]
fn a_cut_day() {
    let mut bytes = day(&[message(&[(1, UTI), (2, b"REVI")])]);
    let explained = "message 1: swap LEDGERTESTSWAP0000001, action REVI (brought back)\n  \
                     refused (verdict 7): element missing; element 4, event timestamp\n";
    let counts = "messages judged: 1, tape lines published: 0\n";
    let report = report("1 7 4 0", "cut 1 0");
    bytes.push(10);
    gives(
        &bytes,
        &report,
        &format!("{explained}cut: the input stops inside the length of message 2; {counts}"),
    );
    bytes.extend([0, 1, 2, 3]);
    gives(
        &bytes,
        &report,
        &format!(
            "{explained}cut: the input stops inside message 2, at 3 of its 10 bytes; {counts}"
        ),
    );
}

#[test]
fn a_report_whose_lines_end_otherwise() {
    let words = "end: all input was read; messages judged: 0, tape lines published: 0\n";
    gives(b"", "message verdict element record\r\nend 0 0\r\n", words);
    gives(b"", "message verdict element record\nend 0 0", words);
}
