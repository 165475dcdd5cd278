//! Section "The message" and rule 5.

mod common;
use checker::sizes::{COUNT, ENTRY, LONGEST_MESSAGE};
use checker::{layout_right, value, LAST_CODE};
use common::*;

fn with_header(entries: &[(u16, u16)], values: &[u8]) -> Vec<u8> {
    let mut m = (entries.len() as u16).to_le_bytes().to_vec();
    for (code, offset) in entries {
        m.extend(code.to_le_bytes());
        m.extend(offset.to_le_bytes());
    }
    m.extend(values);
    m
}

#[test]
fn right_layouts() {
    assert!(layout_right(&[0, 0]));
    assert_eq!(value(&[0, 0], 1), None);
    let m = with_header(&[(1, 10), (LAST_CODE, 13)], b"abcd");
    assert!(layout_right(&m));
    assert_eq!(value(&m, 1), Some(&b"abc"[..]));
    assert_eq!(value(&m, LAST_CODE), Some(&b"d"[..]));
    for code in [0, 2, LAST_CODE - 1, LAST_CODE + 1, u16::MAX] {
        assert_eq!(value(&m, code), None);
    }
    let all: Elements = (1..=LAST_CODE).map(|code| (code, vec![b'x'])).collect();
    assert!(layout_right(&laid_out(&all)));
    let count = usize::from(LAST_CODE);
    assert_eq!(laid_out(&all).len(), COUNT + ENTRY * count + count);
    // n may reach 28: 2 bytes, 28 entries of 4 and 28 values of one byte
    assert_eq!((count, laid_out(&all).len()), (28, 142));
}

#[test]
fn a_value_is_a_part_of_the_message() {
    let m = with_header(&[(3, 6)], b"TRAD");
    let v = value(&m, 3).unwrap();
    assert!(std::ptr::eq(v, &m[6..]));
}

#[test]
fn wrong_layouts() {
    for m in [
        vec![],
        vec![0],
        vec![0, 0, 0],
        vec![LAST_CODE as u8 + 1, 0],
        vec![0xFF; 200],
        with_header(&[], b"a"),
        with_header(&[(1, 6)], b""),  // offset not below the length
        with_header(&[(0, 6)], b"a"), // code 0
        with_header(&[(LAST_CODE + 1, 6)], b"a"),
        with_header(&[(1, 7)], b"abc"), // first offset too high
        with_header(&[(1, 5)], b"abc"), // first offset too low
        with_header(&[(1, 10), (1, 11)], b"ab"), // code again
        with_header(&[(2, 10), (1, 11)], b"ab"), // code falls
        with_header(&[(1, 10), (2, 10)], b"ab"), // offset again
        with_header(&[(1, 10), (2, 9)], b"ab"), // offset falls
        with_header(&[(1, 10), (2, 12)], b"ab"), // offset at the length
        with_header(&[(1, 10), (2, 0xFFFF)], b"ab"),
        with_header(&[(1, 10), (256 + 2, 11)], b"ab"),
    ] {
        assert!(!layout_right(&m), "{m:?}");
        assert_eq!(value(&m, 1), None);
        assert_eq!(Book::new(1).submit_bytes(&m), refused(5, 0));
    }
    // a header cut short
    let m = laid_out(&newt());
    for length in 0..=COUNT + ENTRY * newt().len() {
        assert!(!layout_right(&m[..length]));
    }
    // an entry too many
    let many: Elements = (1..=LAST_CODE + 1).map(|code| (code, vec![b'x'])).collect();
    assert!(!layout_right(&laid_out(&many)));
}

#[test]
fn the_longest_message() {
    let value = vec![b'a'; LONGEST_MESSAGE - COUNT - ENTRY];
    let mut m = with_header(&[(1, 6)], &value);
    assert_eq!(m.len(), LONGEST_MESSAGE);
    assert!(layout_right(&m));
    m.push(b'a');
    assert!(!layout_right(&m));
}
