//! The examples of FORM.md.

use crate::common::encoded;

/// The texts between fences, in order.
fn examples() -> Vec<String> {
    let path = concat!(env!("CARGO_MANIFEST_DIR"), "/FORM.md");
    let form = std::fs::read_to_string(path).unwrap();
    let pieces = form.split("```\n").skip(1).step_by(2);
    pieces.map(str::to_string).collect()
}

#[test]
fn the_words_are_those_of_the_usage() {
    let output = std::process::Command::new(env!("CARGO_BIN_EXE_daytext"))
        .arg("--help")
        .output()
        .unwrap();
    let usage = String::from_utf8(output.stdout).unwrap();
    let words: Vec<String> = examples()[0]
        .lines()
        .map(|line| line.split("  ").next().unwrap().to_string())
        .collect();
    assert_eq!(words.len(), 4);
    for word in words {
        assert!(usage.contains(&word), "{word}");
    }
}

#[test]
fn the_example_of_a_day() {
    let examples = examples();
    let mut report = Vec::new();
    daytext::due(examples[1].as_bytes(), &mut report).unwrap();
    assert_eq!(
        String::from_utf8_lossy(&report),
        "message verdict element record\n1 0 0 1\n2 15 0 0\n3 15 0 0\n4 15 0 0\ncut 4 1\n"
    );
    let mut words = Vec::new();
    daytext::explain(&encoded(&examples[1]), &report, &mut words).unwrap();
    let words = String::from_utf8(words).unwrap();
    assert!(words.starts_with(&examples[4]), "{words}");
}

#[test]
fn the_example_of_templates() {
    let examples = examples();
    let (with, without) = (&examples[2], &examples[3]);
    assert!(with.contains("like eror"), "{with}");
    assert!(!without.contains("like"), "{without}");
    assert_eq!(encoded(with), encoded(without));
}
