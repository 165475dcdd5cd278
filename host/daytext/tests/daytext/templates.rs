//! Templates, and messages that are like them.

use crate::common::{day, encoded, message};

/// The template of most tests: elements 2, 4 and 6.
const TEMPLATE: &str = "template even\n2 B\n4 D\n6 F\n\n";

/// The text behind the template gives these messages.
#[track_caller]
fn gives(text: &str, messages: &[&[(u16, &[u8])]]) {
    let messages: Vec<Vec<u8>> = messages.iter().map(|elements| message(elements)).collect();
    assert_eq!(encoded(format!("{TEMPLATE}{text}")), day(&messages));
}

#[test]
fn a_template_is_no_message() {
    gives("", &[]);
    gives("# a comment\ntemplate odd\n1 A\n", &[]);
    gives("repeat 3\n\ntemplate odd\n1 A\n\nagain\n", &[]);
}

#[test]
fn a_message_has_the_elements_of_the_template() {
    gives("like even\n", &[&[(2, b"B"), (4, b"D"), (6, b"F")]]);
    gives(
        "like even\n\n1 X\n\nlike  even \n",
        &[
            &[(2, b"B"), (4, b"D"), (6, b"F")],
            &[(1, b"X")],
            &[(2, b"B"), (4, b"D"), (6, b"F")],
        ],
    );
}

#[test]
fn a_changed_value_stays_in_its_place() {
    gives("like even\n2 XX\n", &[&[(2, b"XX"), (4, b"D"), (6, b"F")]]);
    gives("like even\n4\n", &[&[(2, b"B"), (4, b""), (6, b"F")]]);
    gives(
        "like even\n2 X\n6 Z\n",
        &[&[(2, b"X"), (4, b"D"), (6, b"Z")]],
    );
}

#[test]
fn an_added_element_stands_before_the_larger_codes() {
    gives(
        "like even\n0 X\n5 Y\n65535 Z\n",
        &[&[
            (0, b"X"),
            (2, b"B"),
            (4, b"D"),
            (5, b"Y"),
            (6, b"F"),
            (65535, b"Z"),
        ]],
    );
}

#[test]
fn elements_are_left_out() {
    gives("like even\nwithout 4\n", &[&[(2, b"B"), (6, b"F")]]);
    gives("like even\nwithout 2\nwithout 6\n", &[&[(4, b"D")]]);
}

#[test]
fn a_message_can_be_left_without_elements() {
    let none = "like even\nwithout 2\nwithout 4\nwithout 6\n";
    gives(none, &[&[]]);
    assert_eq!(
        encoded(format!("{TEMPLATE}{none}bytes 41\n")),
        b"\x03\0\0\0A"
    );
}

#[test]
fn the_order_of_the_other_lines_does_not_matter() {
    let changed: &[(u16, &[u8])] = &[(2, b"B"), (3, b"C"), (6, b"X")];
    gives("like even\n3 C\nwithout 4\n6 X\ndue 0 0 1\n", &[changed]);
    gives("3 C\ndue 0 0 1\nwithout 4\nlike even\n6 X\n", &[changed]);
}

#[test]
fn a_template_like_another() {
    gives(
        "template more\nlike even\n1 A\n2 X\nwithout 6\n\nlike more\n3 C\n\nlike even\n",
        &[
            &[(1, b"A"), (2, b"X"), (3, b"C"), (4, b"D")],
            &[(2, b"B"), (4, b"D"), (6, b"F")],
        ],
    );
    gives(
        "template same-2\nlike even\n\nlike same-2\n",
        &[&[(2, b"B"), (4, b"D"), (6, b"F")]],
    );
}

#[test]
fn other_lines_work_beside_like() {
    let text = "like even\n4@9 DD\nwithout 6\ncount 7\nlength 1\nbytes 41\nfill 2 42\ndue 5 0 0\n";
    assert_eq!(
        encoded(format!("{TEMPLATE}{text}")),
        b"\x01\0\x07\0\x02\0\x0a\0\x04\0\x09\0BDDABB"
    );
}

#[test]
fn counters_of_a_template() {
    gives(
        "template row\n1 {n}\n2 X{n+1}\n\nrepeat 2\n\nlike row\n2 Y{n}\n\nagain\n\nlike row\n1 A\nwithout 2\n",
        &[
            &[(1, b"1"), (2, b"Y1")],
            &[(1, b"2"), (2, b"Y2")],
            &[(1, b"A")],
        ],
    );
}

#[test]
fn a_template_has_no_line_in_the_report() {
    let mut report = Vec::new();
    let text = format!("{TEMPLATE}like even\ndue 7 1 0\n");
    daytext::due(text.as_bytes(), &mut report).unwrap();
    let due = "message verdict element record\n1 7 1 0\nend 1 0\n";
    assert_eq!(String::from_utf8_lossy(&report), due);
}
