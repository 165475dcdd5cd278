//! Each kind of line, with the bytes that it stands for.

use crate::common::encoded;

#[track_caller]
fn gives(text: impl AsRef<[u8]>, bytes: &[u8]) {
    assert_eq!(encoded(text), bytes);
}

#[test]
fn one_element() {
    gives("1 A\n", b"\x07\0\x01\0\x01\0\x06\0A");
}

#[test]
fn two_elements() {
    gives("1 AB\n2 C\n", b"\x0d\0\x02\0\x01\0\x0a\0\x02\0\x0c\0ABC");
}

#[test]
fn elements_stay_in_the_order_of_the_text() {
    gives(
        "65535 X\n0 Y\n0 Z\n",
        b"\x11\0\x03\0\xff\xff\x0e\0\0\0\x0f\0\0\0\x10\0XYZ",
    );
}

#[test]
fn empty_values() {
    gives("7\n", b"\x06\0\x01\0\x07\0\x06\0");
    gives("7 \n", b"\x06\0\x01\0\x07\0\x06\0");
    gives("7@9\n", b"\x06\0\x01\0\x07\0\x09\0");
    gives("7\n8 A\n", b"\x0b\0\x02\0\x07\0\x0a\0\x08\0\x0a\0A");
}

#[test]
fn every_byte_of_a_value_counts() {
    gives("1  A \n", b"\x09\0\x01\0\x01\0\x06\0 A ");
    gives("1 #\t}\n", b"\x09\0\x01\0\x01\0\x06\0#\t}");
    gives(b"1 \xc3\xa9\0\n", b"\x09\0\x01\0\x01\0\x06\0\xc3\xa9\0");
    gives("1 A\r\n", b"\x08\0\x01\0\x01\0\x06\0A\r");
}

#[test]
fn escapes() {
    gives(
        r"1 \x00\xfF\\\{n}\x20",
        b"\x0d\0\x01\0\x01\0\x06\0\0\xff\\{n} ",
    );
}

#[test]
fn another_offset_moves_no_value() {
    gives(
        "1@500 A\n2 B\n",
        b"\x0c\0\x02\0\x01\0\xf4\x01\x02\0\x0b\0AB",
    );
}

#[test]
fn another_count() {
    gives("count 3\n1 A\n", b"\x07\0\x03\0\x01\0\x06\0A");
    gives("1 A\ncount 65535\n", b"\x07\0\xff\xff\x01\0\x06\0A");
    gives("count 0\n", b"\x02\0\0\0");
    gives("count 2\nbytes 41\n", b"\x03\0\x02\0A");
}

#[test]
fn another_length() {
    gives("length 9\n1 A\n", b"\x09\0\x01\0\x01\0\x06\0A");
    gives("bytes 41 42\nlength 1\n", b"\x01\0AB");
    gives("length 300\n", b"\x2c\x01");
    gives("length 0\n", b"\0\0");
}

#[test]
fn bytes_stand_behind_the_values() {
    gives(
        "1 A\nbytes 0aFf\nbytes 00 01  02 \n",
        b"\x0c\0\x01\0\x01\0\x06\0A\x0a\xff\0\x01\x02",
    );
    gives("bytes 00\n1 A\n", b"\x08\0\x01\0\x01\0\x06\0A\0");
}

#[test]
fn bytes_alone_are_the_message() {
    gives("bytes 010203\n", b"\x03\0\x01\x02\x03");
    gives("bytes\n", b"\0\0");
    gives("bytes \n", b"\0\0");
}

#[test]
fn fill() {
    gives("fill 3 5a\n", b"\x03\0ZZZ");
    gives("fill 2 5A\nbytes 00\nfill 1 59\n", b"\x04\0ZZ\0Y");
    gives("fill 0 5a\n", b"\0\0");
    gives("1 A\nfill 1 42\n", b"\x08\0\x01\0\x01\0\x06\0AB");
}

#[test]
fn raw_has_no_length() {
    gives("raw 05\n", b"\x05");
    gives("raw 01 02\nraw 03\ndue cut\n", b"\x01\x02\x03");
    gives("raw\n", b"");
}

#[test]
fn due_is_not_part_of_the_bytes() {
    gives("count 0\ndue 6 2 0\n", b"\x02\0\0\0");
    gives("length 5\nbytes 41\ndue cut\n", b"\x05\0A");
    gives("due 19 28 999999999999\ncount 0\n", b"\x02\0\0\0");
}

#[test]
fn encoding_takes_a_due_on_some_messages() {
    gives("bytes 41\ndue 5 0 0\n\nbytes 42\n", b"\x01\0A\x01\0B");
}

#[test]
fn blank_lines_stand_between_messages() {
    gives("bytes 41\n\nbytes 42\n", b"\x01\0A\x01\0B");
    gives("\n\nbytes 41\n \t\n\nbytes 42\n\n", b"\x01\0A\x01\0B");
    gives("bytes 41\nbytes 42", b"\x02\0AB");
    gives("bytes 41\n\nraw 42\n\nbytes 43\n", b"\x01\0AB\x01\0C");
}

#[test]
fn comments_end_no_block() {
    gives("# 1\nbytes 41\n# 2\nbytes 42\n# 3\n", b"\x02\0AB");
    gives("bytes 41\n#\n\n#\nbytes 42\n", b"\x01\0A\x01\0B");
}

#[test]
fn no_message() {
    gives("", b"");
    gives("\n", b"");
    gives("# nothing\n\n", b"");
}

#[test]
fn numbers_may_have_zeros_in_front() {
    gives("007 A\n", b"\x07\0\x01\0\x07\0\x06\0A");
    gives("length  0300 \n", b"\x2c\x01");
}

#[test]
fn the_longest_message() {
    let bytes = encoded("fill 65535 41\n");
    assert_eq!(bytes.len(), 65537);
    assert_eq!(bytes[..3], *b"\xff\xffA");
}

#[test]
fn a_longer_message_with_a_length() {
    let bytes = encoded("length 5\nfill 65535 41\nfill 1 42\n");
    assert_eq!(bytes.len(), 65538);
    assert_eq!(bytes[..3], *b"\x05\0A");
    assert_eq!(bytes[65536..], *b"AB");
}

#[test]
fn an_offset_can_be_named_where_the_true_one_does_not_fit() {
    let long = "A".repeat(65530);
    let text = format!("length 1\n1 {long}\n2@7 B\n");
    let bytes = encoded(text);
    assert_eq!(bytes[..12], *b"\x01\0\x02\0\x01\0\x0a\0\x02\0\x07\0");
    assert_eq!(bytes.len(), 2 + 10 + 65531);
}
