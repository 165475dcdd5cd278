//! The table of questions, crates/vectors: the stored answers are the
//! checker's, and a few answers by hand for each word.

use checker::table::answered;
use std::fs;
use std::path::Path;

fn stored(name: &str) -> String {
    let package = Path::new(env!("CARGO_MANIFEST_DIR"));
    let path = package.join("../../crates/vectors").join(name);
    fs::read_to_string(path).expect("the table can be read")
}

#[test]
fn stored_answers() {
    let (answers, stored) = (answered(&stored("stdin")).unwrap(), stored("stdout"));
    for (number, (due, line)) in answers.lines().zip(stored.lines()).enumerate() {
        assert_eq!(line, due, "line {} of crates/vectors/stdout", number + 1);
    }
    assert_eq!(stored.lines().count(), answers.lines().count());
    assert_eq!(stored, answers);
}

#[test]
fn each_word() {
    for (question, answer) in [
        ("uti ABCDEFGHIJKLMNOPQRST1", "yes"),
        ("uti ABCDEFGHIJKLMNOPQRST", "no"),
        ("action TERM", "yes"),
        ("action term", "no"),
        ("event TRAD", "yes"),
        ("event TRA", "no"),
        ("time 2024-02-29T23:59:59Z", "yes"),
        ("time 2024-02-29", "no"),
        ("date 2024-02-29", "yes"),
        ("date 2024-02-29T23:59:59Z", "no"),
        ("cleared I", "yes"),
        ("cleared X", "no"),
        ("truth false", "yes"),
        ("truth Y", "no"),
        ("allocation PREA", "yes"),
        ("allocation TERM", "no"),
        ("package a", "yes"),
        ("package -", "no"),
        ("price -1.5", "yes"),
        ("price --1", "no"),
        ("notation 3", "yes"),
        ("notation 4", "no"),
        ("spread-notation 4", "yes"),
        ("spread-notation 2", "no"),
        ("currency USD", "yes"),
        ("currency CNH", "no"),
        ("currency US", "no"),
        ("notional 1.5", "yes"),
        ("notional -1.5", "no"),
        ("location US", "yes"),
        ("location XK", "no"),
        ("location USD", "no"),
        ("lei 5493001KJTIIGC8Y1R12", "yes"),
        ("lei 5493001KJTIIGC8Y1R13", "no"),
        ("class CO", "yes"),
        ("class OC", "no"),
        ("class #434f", "yes"),
        ("class", "no"),
        ("layout #0000", "yes"),
        ("layout #00", "no"),
        ("layout #01001c00060041", "yes"),
        ("layout #01001d00060041", "no"),
        ("element 2 #01000200060041ff", "41ff"),
        ("element 3 #01000200060041ff", "-"),
        ("element 28 #01001c00060041", "41"),
        ("pair CORR", "yes"),
        ("pair NEWT UPDT", "yes"),
        ("pair NEWT ETRM", "no"),
        ("step REVI 3", "1"),
        ("step REVI 1", "-"),
        ("cap 1000", "yes"),
        ("cap 1001", "no"),
        ("masked 1000 3", "0000000000000005"),
        ("masked 1000 1000.00001", "0000000000001000+"),
        ("shown -0010.50", "-10.5"),
        ("shown -0.0", "0"),
    ] {
        let due = format!("{question} -> {answer}\n");
        assert_eq!(answered(question), Ok(due));
    }
}

#[test]
fn lines_that_ask_nothing() {
    for line in [
        "",
        "swap 1",
        "uti #4",
        "uti #4g",
        "element 2",
        "element 2 #00",
        "pair",
        "pair newt TRAD",
        "step NEWT",
        "step NEWT x",
        "cap",
        "cap -1",
        "masked 1000",
        "masked 1000 -1",
        "shown x",
    ] {
        let table = format!("cap 1\n{line}\ncap 2\n");
        assert_eq!(answered(&table), Err(format!("not a question: {line}")));
    }
}
