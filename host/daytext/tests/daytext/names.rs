//! The tables of words beside the C header.

use daytext::names::{element, verdict, ACTIONS, ELEMENTS, VERDICTS};

fn header() -> String {
    let path = concat!(env!("CARGO_MANIFEST_DIR"), "/../../include/sdr.h");
    std::fs::read_to_string(path).unwrap()
}

/// The names and numbers of an enum in the header.
fn numbered(header: &str, name: &str) -> Vec<(String, usize)> {
    let (_, behind) = header.split_once(&format!("enum {name} {{")).unwrap();
    let (inside, _) = behind.split_once("};").unwrap();
    let entry = |line: &str| {
        let (name, behind) = line.trim().strip_prefix("SDR_")?.split_once(" = ")?;
        let digits: String = behind.chars().take_while(char::is_ascii_digit).collect();
        Some((name.to_string(), digits.parse().ok()?))
    };
    inside.lines().filter_map(entry).collect()
}

/// The words that `sdr_verdict_text` returns for a name.
fn words<'a>(header: &'a str, name: &str) -> &'a str {
    let (_, behind) = header
        .split_once(&format!("case SDR_{name}: return \""))
        .unwrap();
    behind.split_once("\";").unwrap().0
}

#[test]
fn verdicts_are_those_of_the_header() {
    let header = header();
    let verdicts = numbered(&header, "sdr_verdict_code");
    assert_eq!(verdicts.len(), VERDICTS.len());
    for (place, (name, number)) in verdicts.iter().enumerate() {
        assert_eq!(*number, place);
        assert_eq!(VERDICTS[place], words(&header, name));
    }
}

/// An element's name as the header writes it. The header leaves out words
/// of one name.
fn header_name(name: &str) -> String {
    let name = match name {
        "final contractual settlement date" => "settlement date",
        whole => whole,
    };
    name.to_uppercase().replace([' ', '-'], "_")
}

#[test]
fn elements_are_those_of_the_header() {
    let elements = numbered(&header(), "sdr_element_code");
    assert_eq!(elements.len(), ELEMENTS.len());
    for (place, (name, code)) in elements.iter().enumerate() {
        assert_eq!(*code, place + 1);
        assert_eq!(header_name(ELEMENTS[place]), *name);
    }
}

#[test]
fn actions_are_those_of_the_header() {
    let header = header();
    let (_, behind) = header.split_once("SDR_ACTION_TYPE = 2,").unwrap();
    let (line, _) = behind.split_once("*/").unwrap();
    let four_capitals =
        |word: &&str| word.len() == 4 && word.bytes().all(|b| b.is_ascii_uppercase());
    let named: Vec<&str> = line
        .split(|c: char| !c.is_ascii_alphabetic())
        .filter(four_capitals)
        .collect();
    assert_eq!(named, ACTIONS.map(|(action, _)| action));
}

#[test]
fn limits_are_those_of_the_header() {
    let header = header();
    let longest = daytext::names::LONGEST_MESSAGE;
    assert!(header.contains(&format!("#define SDR_LONGEST_MESSAGE {longest}\n")));
    let limit = daytext::names::IDENTIFIER_LIMIT;
    assert!(header.contains(&format!("#define SDR_IDENTIFIER_LIMIT UINT64_C({limit})\n")));
}

#[test]
fn numbers_outside_the_tables() {
    assert_eq!(verdict(0), Some("accepted"));
    assert_eq!(verdict(VERDICTS.len() as u64), None);
    assert_eq!(element(0), None);
    assert_eq!(element(1), Some("UTI"));
    assert_eq!(element(ELEMENTS.len() as u64 + 1), None);
}
