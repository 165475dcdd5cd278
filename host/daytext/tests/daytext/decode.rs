//! Bytes as text: which lines are chosen.

use crate::common::{decoded, encoded};

#[track_caller]
fn gives(day: &[u8], text: &str) {
    assert_eq!(decoded(day), text);
    assert_eq!(encoded(text), day);
}

#[test]
fn no_bytes() {
    gives(b"", "");
}

#[test]
fn elements() {
    gives(
        b"\x0d\0\x02\0\x01\0\x0a\0\x02\0\x0c\0ABC\x07\0\x01\0\xff\xff\x06\0X",
        "# message 1\n1 AB\n2 C\n\n# message 2\n65535 X\n",
    );
}

#[test]
fn values_are_escaped() {
    gives(
        b"\x0f\0\x01\0\x01\0\x06\0 a b{\\\x7f\n ",
        "# message 1\n1 \\x20a b\\{\\\\\\x7f\\x0a\\x20\n",
    );
    gives(b"\x07\0\x01\0\x01\0\x06\0 ", "# message 1\n1 \\x20\n");
    gives(b"\x08\0\x01\0\x01\0\x06\0\xff~", "# message 1\n1 \\xff~\n");
}

#[test]
fn empty_values() {
    gives(
        b"\x0b\0\x02\0\x07\0\x0a\0\x08\0\x0a\0A",
        "# message 1\n7\n8 A\n",
    );
}

#[test]
fn no_elements() {
    gives(b"\0\0", "# message 1\nbytes\n");
    gives(b"\x01\0A", "# message 1\nbytes 41\n");
    gives(b"\x02\0\0\0", "# message 1\ncount 0\n");
    gives(b"\x03\0\0\0A", "# message 1\ncount 0\nbytes 41\n");
}

#[test]
fn a_wrong_offset() {
    gives(
        b"\x0c\0\x02\0\x01\0\xf4\x01\x02\0\x0b\0AB",
        "# message 1\n1@500 A\n2 B\n",
    );
    // Where the second value starts is not known; its line has both values.
    gives(
        b"\x11\0\x03\0\x01\0\x0e\0\x02\0\x03\0\x03\0\x10\0ABC",
        "# message 1\n1\n2@3 AB\n3 C\n",
    );
}

#[test]
fn a_wrong_count() {
    // One entry, as its offset says, though the count is 3.
    gives(b"\x07\0\x03\0\x01\0\x06\0A", "# message 1\ncount 3\n1 A\n");
    gives(
        b"\x0c\0\x01\0\x01\0\x0a\0\x02\0\x0b\0AB",
        "# message 1\ncount 1\n1 A\n2 B\n",
    );
    // Two entries, though the first offset makes room for one.
    gives(
        b"\x0c\0\x02\0\x01\0\x06\0\x02\0\x0b\0AB",
        "# message 1\n1@6 A\n2 B\n",
    );
}

#[test]
fn what_is_not_elements_is_bytes() {
    gives(b"\x04\0\x05\0\x01\0", "# message 1\nbytes 05 00 01 00\n");
    let mut day = vec![33, 0];
    day.extend([0xff; 33]);
    let line = " ff".repeat(32);
    gives(&day, &format!("# message 1\nbytes{line}\nbytes ff\n"));
}

#[test]
fn many_elements_with_wrong_offsets_are_bytes() {
    // 29 entries that all point at 0: no line would be plain.
    let mut day = vec![118, 0, 29, 0];
    day.extend([0; 116]);
    let text = decoded(&day);
    assert!(text.starts_with("# message 1\nbytes 1d 00 00 "), "{text}");
    assert_eq!(encoded(text), day);
}

#[test]
fn input_that_stops() {
    gives(
        b"\x02",
        "# the input stops inside the length of message 1\nraw 02\n",
    );
    gives(
        b"\x02\0\0\0\x05",
        "# message 1\ncount 0\n\n# the input stops inside the length of message 2\nraw 05\n",
    );
    gives(b"\x05\0", "# the input stops inside message 1\nlength 5\n");
    gives(
        b"\x05\0A",
        "# the input stops inside message 1\nlength 5\nbytes 41\n",
    );
    gives(
        b"\x08\0\x01\0\x01\0\x06\0A",
        "# the input stops inside message 1\nlength 8\n1 A\n",
    );
}
