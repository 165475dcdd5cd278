//! A refusal changes nothing, and empty buffers are refused.

use compare::compared::Compared;
use compare::faults::{self, Case};
use compare::layout::{ledger_size, Caps, DAY_CAPS, LINE_SIZE, SHORTEST_LEDGER, SMALLEST_CAP};
use compare::lists::{ACTIONS, CLASSES};
use compare::random::Random;
use compare::sound::{plain_new, swap};
use sdr::Answer;

const CAPS: Caps = DAY_CAPS;

fn refused(verdict: u8, element: u8) -> Answer {
    Answer {
        verdict,
        element,
        ..Answer::default()
    }
}

#[test]
fn a_refusal_changes_nothing() {
    let mut random = Random::for_test(901);
    let mut compared = Compared::new();
    for action in ACTIONS {
        for fault in faults::all().into_iter().filter(|fault| fault.fits(action)) {
            let mut case = Case::sound(&mut random, action);
            let (verdict, element) = case.break_rules(&mut random, &[fault]);
            let (ledger, tape) = (case.ledger(), case.tape());
            compared.set_ledger(&ledger);
            compared.set_tape(&tape);
            let answer = compared.submit(&case.message());
            assert_eq!(answer, refused(verdict, element), "{action} {fault:?}");
            assert_eq!(compared.ledger(), ledger, "{action} {fault:?}");
            assert_eq!(compared.tape(), tape, "{action} {fault:?}");
        }
    }
    println!("refusals: {}", compared.tally);
    assert_eq!(compared.tally.verdict(0), 0);
}

#[test]
fn a_refused_opening_changes_nothing() {
    let mut random = Random::for_test(902);
    let mut compared = Compared::new();
    for (length, caps) in [
        (0, CAPS),
        (SHORTEST_LEDGER - 1, CAPS),
        (SHORTEST_LEDGER, [SMALLEST_CAP - 1; CLASSES.len()]),
        (ledger_size(9), [0; CLASSES.len()]),
    ] {
        let ledger = random.bytes(length);
        compared.set_ledger(&ledger);
        let verdict = if length < SHORTEST_LEDGER { 1 } else { 2 };
        assert_eq!(compared.open(&caps), refused(verdict, 0));
        assert_eq!(compared.ledger(), ledger);
    }
}

#[test]
fn empty_buffers_are_refused() {
    let message = plain_new().encode();
    let mut compared = Compared::new();
    assert_eq!(compared.open(&CAPS), refused(1, 0));
    assert_eq!(compared.submit(&[]), refused(3, 0));
    assert_eq!(compared.submit(&message), refused(3, 0));
    assert_eq!(compared.status(&[]), refused(3, 0));
    assert_eq!(compared.totals().verdict, 3);
    compared.set_ledger(&vec![0; ledger_size(1)]);
    assert_eq!(compared.open(&CAPS), Answer::default());
    assert_eq!(compared.submit(&[]), refused(4, 0));
    assert_eq!(compared.submit(&message), refused(4, 0));
    assert_eq!(compared.status(&[]), refused(9, 1));
    compared.set_tape(&[b'x'; LINE_SIZE]);
    assert_eq!(compared.submit(&[]), refused(5, 0));
    assert_eq!(compared.submit(&message).verdict, 0);
}

#[test]
fn refusals_leave_the_next_acceptance_alone() {
    let mut compared = Compared::opened(2, &CAPS);
    let sound = plain_new();
    for broken in [sound.without(2), sound.without(9), sound.with(3, "ETRM")] {
        assert_ne!(compared.submit(&broken.encode()).verdict, 0);
    }
    assert_eq!(compared.submit(&sound.encode()).identifier, 1);
    assert_eq!(compared.submit(&sound.encode()), refused(15, 0));
    assert_eq!(compared.submit(&swap(2).encode()).identifier, 2);
}
