//! The matrix of events, Appendix F of the CFTC's specification.

use checker::is_pair;

const EVENTS: [&str; 12] = [
    "TRAD", "NOVA", "COMP", "ETRM", "CLRG", "EXER", "ALOC", "CLAL", "CREV", "PTNG", "CORP", "UPDT",
];

/// The table's rows: a mark for each event in the order above, then one for
/// "No Event type required".
const ROWS: [(&str, &str); 7] = [
    ("NEWT", "xxx.xxxx.xxx."),
    ("MODI", "xxx..xx.x.xx."),
    ("CORR", "............x"),
    ("TERM", ".xxxxxxxx.x.."),
    ("EROR", "............x"),
    ("REVI", "............x"),
    ("PRTO", ".........x..."),
];

#[test]
fn the_whole_table() {
    let mut pairs = 0;
    for (action, marks) in ROWS {
        for (i, mark) in marks.bytes().enumerate() {
            let event = EVENTS.get(i).map(|e| e.as_bytes());
            assert_eq!(
                is_pair(action.as_bytes(), event),
                mark == b'x',
                "{action} {event:?}"
            );
            pairs += usize::from(mark == b'x');
        }
    }
    assert_eq!(pairs, 31);
}

#[test]
fn pairs_named_in_the_specification() {
    assert!(is_pair(b"NEWT", Some(b"TRAD")));
    assert!(is_pair(b"MODI", Some(b"TRAD")));
    assert!(is_pair(b"TERM", Some(b"ETRM")));
    assert!(is_pair(b"PRTO", Some(b"PTNG")));
    assert!(!is_pair(b"NEWT", Some(b"ETRM")));
    for action in [b"CORR", b"EROR", b"REVI"] {
        assert!(is_pair(action, None));
        assert!(EVENTS.iter().all(|e| !is_pair(action, Some(e.as_bytes()))));
    }
}

/// Combinations that the examples and footnotes of Appendix F use.
#[test]
fn pairs_of_the_examples() {
    for pair in [
        "NEWT-TRAD",
        "MODI-TRAD",
        "TERM-ETRM",
        "TERM-NOVA",
        "NEWT-NOVA",
        "MODI-NOVA",
        "TERM-CLRG",
        "NEWT-CLRG",
        "TERM-COMP",
        "NEWT-COMP",
        "TERM-EXER",
        "MODI-EXER",
        "NEWT-EXER",
        "TERM-ALOC",
        "NEWT-ALOC",
        "MODI-CREV",
        "PRTO-PTNG",
        "NEWT-PTNG",
        "NEWT-UPDT",
    ] {
        let (action, event) = pair.split_once('-').unwrap();
        assert!(is_pair(action.as_bytes(), Some(event.as_bytes())), "{pair}");
    }
}

#[test]
fn codes_are_matched_byte_for_byte() {
    assert!(!is_pair(b"newt", Some(b"TRAD")));
    assert!(!is_pair(b"NEWT", Some(b"trad")));
    assert!(!is_pair(b"NEWT", None));
    assert!(!is_pair(b"NEWT", Some(b"")));
    assert!(!is_pair(b"NEWT", Some(b"TRADE")));
    assert!(!is_pair(b"NEWT ", Some(b"TRAD")));
    assert!(!is_pair(b"", None));
    // Actions of the CFTC that are not among the seven.
    assert!(!is_pair(b"VALU", None));
    assert!(!is_pair(b"MARU", None));
}
