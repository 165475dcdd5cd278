//! Section "The day run": reports written by hand.

mod common;
use checker::day::report;
use checker::sizes::{COUNT, DAY_ROWS, ENTRY, LONGEST_MESSAGE};
use common::*;

/// A message led by its length.
fn framed(message: &[u8]) -> Vec<u8> {
    let length = u16::try_from(message.len()).unwrap();
    [&length.to_le_bytes(), message].concat()
}

/// What the day run writes, as text.
fn text(input: &[u8]) -> String {
    String::from_utf8(report(input)).unwrap()
}

/// The heading and these lines.
fn lines(lines: &[&str]) -> String {
    let mut text = String::from("message verdict element record\n");
    for line in lines {
        text += line;
        text += "\n";
    }
    text
}

/// The UTI of one of many swaps.
fn swap(number: usize) -> String {
    format!("5493001KJTIIGC8Y1R12N{number:06}")
}

/// The plain NEWT about one of many swaps.
fn newt_of(number: usize) -> Vec<u8> {
    laid_out(&with(newt(), 1, &swap(number)))
}

#[test]
fn the_example_of_the_specification() {
    let due = b"message verdict element record\n1 6 2 0\nend 1 0\n";
    assert_eq!(report(&[0x02, 0x00, 0x00, 0x00]), due);
}

#[test]
fn no_input() {
    assert_eq!(text(b""), lines(&["end 0 0"]));
}

#[test]
fn lengths_0_and_1() {
    assert_eq!(text(&[0, 0]), lines(&["1 5 0 0", "end 1 0"]));
    assert_eq!(text(&[1, 0, 7]), lines(&["1 5 0 0", "end 1 0"]));
    assert_eq!(text(&[1, 0]), lines(&["cut 0 0"]));
    let both = [0, 0, 1, 0, 0, 0, 0];
    let due = lines(&["1 5 0 0", "2 5 0 0", "3 5 0 0", "end 3 0"]);
    assert_eq!(text(&both), due);
}

/// Messages of every outcome that the last line counts, and their lines.
fn small_day() -> Vec<(Vec<u8>, &'static str)> {
    let both = laid_out(&with_spread(with_package(newt(), "1", "3"), "1", "3"));
    let of_1 = |m| laid_out(&with(m, 1, &swap(1)));
    vec![
        (vec![0, 0], "1 6 2 0"),
        (laid_out(&newt()), "2 0 0 1"),
        (vec![], "3 5 0 0"),
        (laid_out(&modi()), "4 0 0 2"),
        (vec![b'x'; LONGEST_MESSAGE + 2], "5 5 0 0"),
        (laid_out(&prto()), "6 0 0 0"),
        (laid_out(&without(modi(), 6)), "7 7 6 0"),
        (laid_out(&term()), "8 15 0 0"),
        (newt_of(1), "9 0 0 3"),
        (laid_out(&with_spread(newt(), "1.5", "4")), "10 12 0 0"),
        (both, "11 19 0 0"),
        (of_1(modi_as_newt()), "12 0 0 0"),
        (of_1(modi()), "13 0 0 4"),
        (of_1(modi()), "14 0 0 0"),
    ]
}

#[test]
fn a_day_cut_at_every_byte() {
    let day = small_day();
    let bytes: Vec<u8> = day
        .iter()
        .flat_map(|(message, _)| framed(message))
        .collect();
    // after so many messages, so many lines are on the tape
    let published = [0, 0, 1, 1, 2, 2, 2, 2, 2, 3, 3, 3, 3, 4, 4];
    let (mut judged, mut end) = (0, 0);
    for cut in 0..=bytes.len() {
        if judged < day.len() && cut == end + 2 + day[judged].0.len() {
            judged += 1;
            end = cut;
        }
        let word = if cut == end { "end" } else { "cut" };
        let last = format!("{word} {judged} {}", published[judged]);
        let mut due: Vec<&str> = day[..judged].iter().map(|(_, line)| *line).collect();
        due.push(&last);
        assert_eq!(text(&bytes[..cut]), lines(&due), "cut at {cut}");
    }
    assert_eq!((judged, end), (14, bytes.len()));
}

#[test]
fn the_longest_message_and_longer_ones() {
    // So long a value is no UTI, but there is no action: 6.
    let value = vec![b'A'; LONGEST_MESSAGE - COUNT - ENTRY];
    let longest = laid_out(&Elements::from([(1, value)]));
    assert_eq!(longest.len(), LONGEST_MESSAGE);
    let day = [framed(&longest), framed(&[&longest[..], b"A"].concat())].concat();
    assert_eq!(text(&day), lines(&["1 6 2 0", "2 5 0 0", "end 2 0"]));
    for length in [LONGEST_MESSAGE + 1, 4_096, 65_535] {
        // The bytes passed over would be accepted as messages of their own.
        let inside = framed(&newt_of(1)).repeat(300);
        let overlong = framed(&inside[..length]);
        let day = [overlong.clone(), overlong.clone(), framed(&newt_of(2))].concat();
        let due = lines(&["1 5 0 0", "2 5 0 0", "3 0 0 1", "end 3 1"]);
        assert_eq!(text(&day), due, "{length}");
        for cut in [1, 2, 3, length, length + 1] {
            let day = [&overlong, &overlong[..cut]].concat();
            assert_eq!(text(&day), lines(&["1 5 0 0", "cut 1 0"]), "{length} {cut}");
        }
    }
}

#[test]
fn a_swap_too_many_finds_no_row() {
    let mut day = Vec::new();
    let mut due = String::from("message verdict element record\n");
    for number in 1..=DAY_ROWS {
        day.extend(framed(&newt_of(number)));
        due += &format!("{number} 0 0 {number}\n");
    }
    let (more, last) = (DAY_ROWS + 1, DAY_ROWS + 2);
    day.extend(framed(&newt_of(more)));
    due += &format!("{more} 17 0 0\n");
    assert_eq!(text(&day), format!("{due}end {more} {DAY_ROWS}\n"));
    assert!(text(&day).ends_with("340 0 0 340\n341 17 0 0\nend 341 340\n"));
    // A swap that has a row goes on.
    day.extend(framed(&laid_out(&with(modi(), 1, &swap(DAY_ROWS)))));
    due += &format!("{last} 0 0 {more}\n");
    assert_eq!(text(&day), format!("{due}end {last} {more}\n"));
}
