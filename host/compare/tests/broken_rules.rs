//! One rule broken, two rules broken, several rules broken: the verdict due
//! is that of the first in checking order, with the lowest element at fault.

use compare::compared::Compared;
use compare::faults::{self, Case, Fault};
use compare::layout::{ledger_size, HEADER_SIZE, IDENTIFIER_LIMIT, SHORTEST_LEDGER};
use compare::lists::{codes, codes_of_full_messages, codes_with_a_form, takes, ACTIONS};
use compare::lists::{CLASSES, CONDITIONAL, NEEDED_BY_ALL, NEEDED_BY_FULL};
use compare::malformed;
use compare::message::described;
use compare::order::{OPENING, SUBMITTING};
use compare::random::Random;
use compare::tally::Tally;
use compare::{submissions, values};

/// Submits the case with the faults and holds both judges to what is due.
fn try_faults(compared: &mut Compared, random: &mut Random, action: &str, faults: &[Fault]) {
    let mut case = Case::sound(random, action);
    let due = case.break_rules(random, faults);
    submit(compared, &case, due, &format!("{action} with {faults:?}"));
}

fn submit(compared: &mut Compared, case: &Case, due: (u8, u8), text: &str) {
    compared.set_ledger(&case.ledger());
    compared.set_tape(&case.tape());
    let message = case.message();
    let answer = compared.submit(&message);
    let text = format!("{text}\n{}", described(&message));
    assert_eq!((answer.verdict, answer.element), due, "{text}");
    let line_due = due.0 == 0 && case.line_is_due();
    let identifier = if line_due { case.header.next } else { 0 };
    assert_eq!(answer.identifier, identifier, "{text}");
    let stays = compared.tape() == case.tape();
    assert_eq!(stays, !line_due, "{text}");
}

/// The faults that a message of the action can have.
fn fitting(action: &str) -> Vec<Fault> {
    let all = faults::all().into_iter();
    all.filter(|fault| fault.fits(action)).collect()
}

#[test]
fn sound_cases_are_accepted() {
    let mut random = Random::for_test(101);
    let mut compared = Compared::new();
    for action in ACTIONS {
        let mut without_line = 0;
        for _ in 0..300 {
            let case = Case::sound(&mut random, action);
            submit(&mut compared, &case, (0, 0), action);
            without_line += u32::from(!case.line_is_due());
        }
        match action {
            "PRTO" => assert_eq!(without_line, 300),
            // One in three repeats the stored terms.
            "MODI" => assert!((60..150).contains(&without_line), "{without_line}"),
            _ => assert_eq!(without_line, 0, "{action}"),
        }
    }
    println!("sound cases: {}", compared.tally);
    assert_eq!(compared.tally.verdict(0), compared.tally.submissions);
}

/// Where identifiers are spent only a message for which a line is due gets 18.
#[test]
fn spent_identifiers_and_no_line_due() {
    let mut random = Random::for_test(107);
    let mut compared = Compared::new();
    for action in ACTIONS {
        for _ in 0..150 {
            let mut case = Case::sound(&mut random, action);
            case.header.next = IDENTIFIER_LIMIT;
            let verdict = if case.line_is_due() { 18 } else { 0 };
            submit(&mut compared, &case, (verdict, 0), action);
            let unchanged = compared.ledger() == case.ledger();
            assert_eq!(unchanged, action != "PRTO", "{action}");
        }
    }
    println!("spent identifiers: {}", compared.tally);
    // Those accepted are the PRTOs and one MODI in three.
    assert!((180..225).contains(&compared.tally.verdict(0)));
}

#[test]
fn one_rule_broken() {
    let mut random = Random::for_test(102);
    let mut compared = Compared::new();
    for action in ACTIONS {
        for fault in fitting(action) {
            for _ in 0..8 {
                try_faults(&mut compared, &mut random, action, &[fault]);
            }
        }
    }
    println!("one rule: {}", compared.tally);
    every_verdict_was_met(&compared.tally, &SUBMITTING);
    every_element_was_met(&compared.tally);
}

#[test]
fn two_rules_broken() {
    let mut random = Random::for_test(103);
    let mut compared = Compared::new();
    for action in ACTIONS {
        let faults = fitting(action);
        for (n, first) in faults.iter().enumerate() {
            for second in &faults[n + 1..] {
                try_faults(&mut compared, &mut random, action, &[*first, *second]);
            }
        }
    }
    println!("two rules: {}", compared.tally);
    // The last rule is never the first of two.
    every_verdict_was_met(&compared.tally, &SUBMITTING[..SUBMITTING.len() - 1]);
    every_element_was_met(&compared.tally);
}

#[test]
fn up_to_six_rules_broken() {
    let mut random = Random::for_test(104);
    let mut compared = Compared::new();
    let all = faults::all();
    for _ in 0..submissions(15_000) {
        let action = *random.pick(&ACTIONS);
        let chosen = faults::some(&mut random, &all, action, 6);
        try_faults(&mut compared, &mut random, action, &chosen);
    }
    println!("up to six rules: {}", compared.tally);
}

#[test]
fn every_malformed_value() {
    let mut random = Random::for_test(105);
    let mut compared = Compared::new();
    for action in ACTIONS {
        for code in codes().filter(|&code| takes(action, code)) {
            for value in malformed::values(code) {
                let mut case = Case::sound(&mut random, action);
                case.message.set(code, &value);
                let due = if code == 2 { (6, 2) } else { (9, code) };
                submit(
                    &mut compared,
                    &case,
                    due,
                    &format!("{action} {code} {value:?}"),
                );
            }
        }
    }
    println!("malformed values: {}", compared.tally);
    for code in codes_with_a_form() {
        assert!(compared.tally.element(9, code) >= 4, "9 with {code}");
    }
}

#[test]
fn opening_refuses_1_before_2() {
    let mut random = Random::for_test(106);
    let mut compared = Compared::new();
    let about_the_header = [HEADER_SIZE - 1, HEADER_SIZE, HEADER_SIZE + 1];
    for length in [&[0, 1], &about_the_header[..], &[SHORTEST_LEDGER - 1]].concat() {
        compared.set_ledger(&random.bytes(length));
        assert_eq!(compared.open(&values::caps(&mut random)).verdict, 1);
        assert_eq!(
            compared.open(&[malformed::CAPS[0]; CLASSES.len()]).verdict,
            1
        );
    }
    for place in 0..CLASSES.len() {
        for cap in malformed::CAPS {
            compared.set_ledger(&random.bytes(ledger_size(2)));
            let mut caps = values::caps(&mut random);
            caps[place] = cap;
            assert_eq!(compared.open(&caps).verdict, 2, "{caps:?}");
        }
    }
    compared.set_ledger(&random.bytes(ledger_size(2)));
    assert_eq!(compared.open(&values::caps(&mut random)).verdict, 0);
    println!("opening: {}", compared.tally);
    every_verdict_was_met(&compared.tally, &OPENING);
    assert!(compared.tally.verdict(0) > 0);
}

fn every_verdict_was_met(tally: &Tally, verdicts: &[u8]) {
    for verdict in verdicts {
        assert!(tally.verdict(*verdict) > 0, "verdict {verdict}");
    }
}

/// Every element that 6, 7, 8, 9 and 11 can name was named.
fn every_element_was_met(tally: &Tally) {
    assert!(tally.element(6, 2) > 0);
    for code in NEEDED_BY_ALL.into_iter().chain(NEEDED_BY_FULL) {
        assert!(tally.element(7, code) > 0, "7 with {code}");
    }
    for code in codes_of_full_messages() {
        assert!(tally.element(8, code) > 0, "8 with {code}");
    }
    for code in codes_with_a_form() {
        assert!(tally.element(9, code) > 0, "9 with {code}");
    }
    for code in CONDITIONAL {
        assert!(tally.element(11, code) > 0, "11 with {code}");
    }
}
