//! Texts that break the form: the line, and the sentence.

use crate::common::{encoded, no_element, no_verdict, refused, Random};
use daytext::{Fault, Stop};

#[track_caller]
fn is_refused(text: &str, line: usize, sentence: &str) {
    let sentence = sentence.to_string();
    assert_eq!(refused(text), Fault { line, sentence });
}

#[test]
fn words() {
    is_refused(
        "\nbytes 41\nbyte 42\n",
        3,
        "`byte` is not a word of the form",
    );
    is_refused("-1 A\n", 1, "`-1` is not a word of the form");
    is_refused("Count 1\n", 1, "`Count` is not a word of the form");
    is_refused("\x1b[2J\n", 1, "`\\x1b[2J` is not a word of the form");
    is_refused(
        "1 A\n 2 B\n",
        2,
        "the line starts with a space; it must start with an element's code or a word",
    );
    is_refused(
        "1 A\r\n\r\n1 B\r\n",
        2,
        "the line ends in a carriage return; a newline alone ends a line",
    );
}

#[test]
fn codes() {
    is_refused(
        "65536 A\n",
        1,
        "the code `65536` is not a number from 0 to 65535",
    );
    is_refused(
        "1 A\n12x B\n",
        2,
        "the code `12x` is not a number from 0 to 65535",
    );
    is_refused(
        "1\tA\n",
        1,
        "the code `1\\x09A` is not a number from 0 to 65535",
    );
}

#[test]
fn offsets() {
    is_refused(
        "1@65536 A\n",
        1,
        "the offset `65536` is not a number from 0 to 65535",
    );
    is_refused(
        "1 A\n\n2@ A\n",
        3,
        "the offset `` is not a number from 0 to 65535",
    );
    is_refused(
        "2@-1 A\n",
        1,
        "the offset `-1` is not a number from 0 to 65535",
    );
    is_refused(
        "2@{n} A\n",
        1,
        "the offset `\\{n}` is not a number from 0 to 65535",
    );
}

#[test]
fn counts_and_lengths() {
    let count = "behind `count` stands one number from 0 to 65535";
    for line in [
        "count",
        "count 65536",
        "count x",
        "count 1 2",
        "count -1",
        "count {n}",
    ] {
        is_refused(&format!("1 A\n{line}\n"), 2, count);
    }
    let length = "behind `length` stands one number from 0 to 65535";
    for line in [
        "length",
        "length 65536",
        "length 99999999999999999999",
        "length 1 1",
    ] {
        is_refused(&format!("1 A\n# x\n{line}\n"), 3, length);
    }
}

#[test]
fn hexadecimal_digits() {
    let alone = "a hexadecimal digit stands alone; they come in pairs";
    is_refused("bytes 00\nbytes 0\n", 2, alone);
    is_refused("bytes 00 1\n", 1, alone);
    is_refused("bytes 0 1\n", 1, alone);
    is_refused("raw 123\n", 1, alone);
    is_refused("bytes 0g\n", 1, "`0g` is not hexadecimal");
    is_refused("raw 00 +1\n", 1, "`+1` is not hexadecimal");
}

#[test]
fn fills() {
    let sentence = "behind `fill` stand a number from 0 to 65535 and two hexadecimal digits";
    for line in [
        "fill",
        "fill 1",
        "fill 65536 00",
        "fill 1 0",
        "fill 1 000",
        "fill 1 0g",
        "fill 1 00 00",
    ] {
        is_refused(&format!("{line}\n"), 1, sentence);
    }
}

#[test]
fn escapes() {
    let sentence = "behind a backslash stands x with two hexadecimal digits, a backslash or an \
                    opening brace";
    for value in ["\\", "\\n", "\\x4", "\\xg0", "A\\}", "\\X41"] {
        is_refused(&format!("1 A\n2 {value}\n"), 2, sentence);
    }
}

#[test]
fn counters() {
    let sentence = "an opening brace starts a counter, as {n}, {n+400}, {n-1}, {n:6} or \
                    {n+400:6}; the brace itself is \\{";
    for value in [
        "{",
        "{}",
        "{n",
        "{m}",
        "{n+}",
        "{n*2}",
        "{n:}",
        "{n:x}",
        "{n:65536}",
        "{n:6+4}",
        "{ n}",
    ] {
        is_refused(&format!("repeat 1\n\n1 {value}\n\nagain\n"), 3, sentence);
    }
    is_refused("1 A\n2 {n}\n", 2, "a counter stands outside a repeat");
    is_refused("1 A\ndue 0 0 {n}\n", 2, "a counter stands outside a repeat");
    is_refused(
        "repeat 1\n\nraw 00\n\nagain\n\n1 {n}\n",
        7,
        "a counter stands outside a repeat",
    );
}

#[test]
fn counters_below_zero() {
    is_refused(
        "repeat 5\n\n1 A\n2 {n-2}\n\nagain\n",
        4,
        "where the counter is 1 this comes to -1",
    );
    is_refused(
        "repeat 5\n\n1 A\ndue 0 0 {n-2}\n\nagain\n",
        4,
        "where the counter is 1 this comes to -1",
    );
}

#[test]
fn repeats() {
    is_refused("repeat 2\n\n1 A\n", 1, "this `repeat` has no `again`");
    is_refused(
        "1 A\n\nagain\n",
        3,
        "this `again` has no `repeat` before it",
    );
    is_refused(
        "repeat 1\n\nagain\n\nagain\n",
        5,
        "this `again` has no `repeat` before it",
    );
    is_refused(
        "repeat 2\n\n1 A\n\nrepeat 2\n\nagain\n\nagain\n",
        5,
        "a `repeat` stands inside another one, whose `again` has not come",
    );
    is_refused("repeat 1\n\nagain 1\n", 3, "behind `again` stands nothing");
    let number = "behind `repeat` stands one number from 0 to 4294967295";
    for line in ["repeat", "repeat x", "repeat 4294967296", "repeat 1 2"] {
        is_refused(&format!("1 A\n\n{line}\n\nagain\n"), 3, number);
    }
    let repeat = "`repeat` stands alone, with a blank line before and behind it";
    is_refused("repeat 2\n1 A\n\nagain\n", 1, repeat);
    is_refused("1 A\nrepeat 2\n\nagain\n", 2, repeat);
    let again = "`again` stands alone, with a blank line before and behind it";
    is_refused("repeat 2\n\n1 A\nagain\n", 4, again);
}

#[test]
fn lines_that_stand_twice() {
    is_refused(
        "count 1\n1 A\ncount 1\n",
        3,
        "the block has a second `count`",
    );
    is_refused("length 1\nlength 1\n", 2, "the block has a second `length`");
    is_refused(
        "1 A\ndue 0 0 0\ndue cut\n",
        3,
        "the block has a second `due`",
    );
    is_refused(
        "template t\n1 A\n\nlike t\nlike t\n",
        5,
        "the block has a second `like`",
    );
}

#[test]
fn dues() {
    let shape = "behind `due` stand verdict, element and identifier, or `cut`";
    for line in [
        "due",
        "due 0",
        "due 0 0",
        "due 0 0 0 0",
        "due cut 1",
        "due Cut",
    ] {
        is_refused(&format!("1 A\n{line}\n"), 2, shape);
    }
    is_refused("1 A\ndue 0 x 0\n", 2, "`x` in `due` is not a number");
    is_refused("1 A\ndue -1 0 0\n", 2, "`-1` in `due` is not a number");
    is_refused(
        "1 A\ndue 0 0 \\x31\n",
        2,
        "`\\\\x31` in `due` is not a number",
    );
    is_refused(
        "repeat 1\n\n1 A\ndue 0 0 a{n}\n\nagain\n",
        4,
        "`a\\{n}` in `due` is not a number",
    );
    is_refused("due 0 0 0\n", 1, "the block has a `due` but no message");
}

#[test]
fn numbers_of_dues() {
    let (verdict, sentence) = no_verdict();
    is_refused(&format!("1 A\ndue {verdict} 0 0\n"), 2, &sentence);
    is_refused("1 A\ndue 99999999999999999999 0 0\n", 2, &sentence);
    let (element, sentence) = no_element();
    is_refused(&format!("1 A\ndue 9 {element} 0\n"), 2, &sentence);
    is_refused(
        "1 A\ndue 0 0 1000000000000\n",
        2,
        "the identifier has more than 12 digits",
    );
    // Only the last counter is out of bounds.
    is_refused(
        &format!("repeat {element}\n\n1 A\ndue 9 {{n}} 0\n\nagain\n"),
        4,
        &sentence,
    );
}

#[test]
fn a_cut_that_is_not_last() {
    let sentence = "`due cut` stands in a block that is not the last one";
    is_refused("1 A\ndue cut\n\n1 B\n", 2, sentence);
    is_refused("raw 01\ndue cut\n\nrepeat 1\n\nagain\n", 2, sentence);
    is_refused("repeat 1\n\nraw 01\ndue cut\n\nagain\n", 4, sentence);
}

#[test]
fn raw_beside_other_lines() {
    let sentence = "beside `raw` nothing but `due cut` may stand in a block";
    for other in [
        "1 A",
        "count 0",
        "length 1",
        "bytes 00",
        "fill 1 00",
        "due 0 0 0",
        "like t",
        "without 1",
    ] {
        is_refused(&format!("\nraw 01\n{other}\n"), 2, sentence);
        is_refused(&format!("\n{other}\nraw 01\n"), 2, sentence);
    }
}

#[test]
fn names_of_templates() {
    for name in ["", " ", " a b", " a_b", " {n}", " \\x41", " \r"] {
        let sentence = "behind `template` stands one name of letters, digits and hyphens";
        is_refused(&format!("template{name}\n1 A\n"), 1, sentence);
        let sentence = "behind `like` stands one name of letters, digits and hyphens";
        is_refused(&format!("template a\n1 A\n\nlike{name}\n"), 4, sentence);
    }
    is_refused(
        "template t\n1 A\n\n1 A\n\ntemplate t\n2 B\n",
        6,
        "there is a template `t` already",
    );
}

#[test]
fn templates_that_are_not_there() {
    let sentence = "no template `t` stands before this line";
    is_refused("1 A\nlike t\n", 2, sentence);
    is_refused("like t\n\ntemplate t\n1 A\n", 1, sentence);
    is_refused("template t\n1 A\nlike t\n", 3, sentence);
    is_refused("template T\n1 A\n\nlike t\n", 4, sentence);
}

#[test]
fn lines_of_templates() {
    let alone = "a template has nothing but elements, `like` and `without`";
    for line in [
        "count 1",
        "length 1",
        "bytes 00",
        "fill 1 00",
        "raw 00",
        "due 0 0 0",
        "due cut",
    ] {
        is_refused(&format!("template t\n1 A\n{line}\n"), 3, alone);
    }
    let first = "`template` stands in the first line of its block";
    is_refused("1 A\ntemplate t\n", 2, first);
    is_refused("template t\n1 A\ntemplate u\n", 3, first);
    let none = "the template has no element";
    is_refused("\ntemplate t\n\n1 A\n", 2, none);
    is_refused(
        "template t\n1 A\n\ntemplate u\nlike t\nwithout 1\n",
        4,
        none,
    );
}

#[test]
fn codes_that_do_not_rise() {
    let rise = |code: u16, before: u16| {
        format!(
            "code {code} stands behind code {before}; in a block with `template` or `like` codes rise"
        )
    };
    is_refused("template t\n2 B\n1 A\n", 3, &rise(1, 2));
    is_refused("template t\n2 B\n2 B\n", 3, &rise(2, 2));
    let template = "template t\n2 B\n\n";
    is_refused(&format!("{template}like t\n5 X\n4 X\n"), 6, &rise(4, 5));
    is_refused(&format!("{template}5 X\n5 X\nlike t\n"), 5, &rise(5, 5));
    is_refused(
        &format!("{template}like t\n2 X\nwithout 2\n"),
        6,
        &rise(2, 2),
    );
    is_refused(
        &format!("{template}like t\nwithout 2\n2 X\n"),
        6,
        &rise(2, 2),
    );
    is_refused(
        &format!("{template}like t\nwithout 2\nwithout 2\n"),
        6,
        &rise(2, 2),
    );
}

#[test]
fn elements_that_cannot_be_left_out() {
    is_refused(
        "template t\n2 B\n\nlike t\nwithout 3\n",
        5,
        "the template `t` has no element 3",
    );
    let no_like = "`without` stands in a block that has no `like`";
    is_refused("1 A\nwithout 1\n", 2, no_like);
    is_refused("without 1\n", 1, no_like);
    is_refused("template t\n1 A\nwithout 2\n", 3, no_like);
    let number = "behind `without` stands one number from 0 to 65535";
    for line in ["without", "without 65536", "without x", "without 1 2"] {
        is_refused(&format!("template t\n1 A\n\nlike t\n{line}\n"), 5, number);
    }
}

#[test]
fn counters_of_templates() {
    let template = "template row\n1 A\n2 {n-2}\n\n";
    is_refused(
        &format!("{template}3 C\nlike row\n"),
        6,
        "a counter of the template `row` stands outside a repeat",
    );
    is_refused(
        &format!("{template}repeat 2\n\nlike row\n\nagain\n"),
        3,
        "where the counter is 1 this comes to -1",
    );
}

#[test]
fn messages_that_are_too_long() {
    is_refused(
        "raw 00\n\nfill 65535 41\nbytes 41\n",
        3,
        "the message has 65536 bytes, more than its length can say (65535); `length` puts another \
         number in front",
    );
    // Only the last counter, with its five digits, makes it too long.
    let text = "repeat 10000\n\n1 {n}\nfill 65525 41\n\nagain\n";
    assert_eq!(refused(text).line, 3);
    assert_eq!(encoded(text.replace("10000", "1")).len(), 2 + 65532);
}

#[test]
fn offsets_that_are_too_large() {
    let text = format!("length 1\n1 {}\n2 B\n", "A".repeat(65526));
    is_refused(
        &text,
        3,
        "the value stands at 65536, more than an offset can say (65535)",
    );
}

#[test]
fn too_many_elements() {
    let text = "raw 00\n\nlength 1\n".to_string() + &"1@0\n".repeat(65536);
    is_refused(
        &text,
        3,
        "the message has 65536 elements, more than its count can say",
    );
}

/// Pieces of which random texts are made.
const PIECES: [&[u8]; 28] = [
    b"count ",
    b"length ",
    b"bytes ",
    b"fill ",
    b"raw ",
    b"due ",
    b"cut",
    b"repeat ",
    b"again",
    b"{n}",
    b"{n-1:3}",
    b"\\x4",
    b"{",
    b"\\",
    b"@",
    b"#",
    b" ",
    b"1",
    b"7 ",
    b"41",
    b"\n",
    b"\n\n",
    b"\n\n",
    b"\xff",
    b"template t\n1 A\n\n",
    b"like t\n",
    b"without ",
    b"template ",
];

/// Any text is encoded, or refused with one of its lines.
#[test]
fn any_text() {
    let mut random = Random::new(8);
    let (mut taken, mut refused) = (0, 0);
    for _ in 0..50_000 {
        let pieces = 1 + random.below(9);
        let text: Vec<u8> = (0..pieces)
            .flat_map(|_| PIECES[random.below(PIECES.len())])
            .copied()
            .collect();
        let lines = text.split(|&byte| byte == b'\n').count();
        match daytext::encode(&text, &mut std::io::sink()) {
            Ok(()) => taken += 1,
            Err(Stop::Fault(fault)) => {
                assert!((1..=lines).contains(&fault.line));
                refused += 1;
            }
            Err(Stop::Output(error)) => panic!("{error}"),
        }
    }
    assert!(taken > 1000 && refused > 1000, "{taken} {refused}");
}
