//! The matrix of events (5.3), from Appendix F of the CFTC's specification.
//!
//! In the extracted text the heading "Update (UPDT)" stands one column too far
//! right and "No Event type required" one too far left. Footnote 128 (on
//! NEWT-UPDT) and footnote 127 (CORR, EROR and REVI have no event, "last
//! column") put them back.

type Code = [u8; 4];

/// Action and event, or the event's absence.
const PAIRS: [(&Code, Option<&Code>); 31] = [
    (b"NEWT", Some(b"TRAD")),
    (b"NEWT", Some(b"NOVA")),
    (b"NEWT", Some(b"COMP")),
    (b"NEWT", Some(b"CLRG")),
    (b"NEWT", Some(b"EXER")),
    (b"NEWT", Some(b"ALOC")),
    (b"NEWT", Some(b"CLAL")),
    (b"NEWT", Some(b"PTNG")),
    (b"NEWT", Some(b"CORP")),
    (b"NEWT", Some(b"UPDT")),
    (b"MODI", Some(b"TRAD")),
    (b"MODI", Some(b"NOVA")),
    (b"MODI", Some(b"COMP")),
    (b"MODI", Some(b"EXER")),
    (b"MODI", Some(b"ALOC")),
    (b"MODI", Some(b"CREV")),
    (b"MODI", Some(b"CORP")),
    (b"MODI", Some(b"UPDT")),
    (b"CORR", None),
    (b"TERM", Some(b"NOVA")),
    (b"TERM", Some(b"COMP")),
    (b"TERM", Some(b"ETRM")),
    (b"TERM", Some(b"CLRG")),
    (b"TERM", Some(b"EXER")),
    (b"TERM", Some(b"ALOC")),
    (b"TERM", Some(b"CLAL")),
    (b"TERM", Some(b"CREV")),
    (b"TERM", Some(b"CORP")),
    (b"EROR", None),
    (b"REVI", None),
    (b"PRTO", Some(b"PTNG")),
];

/// Rule 10: are action and event, or its absence, a pair of the matrix?
pub fn is_pair(action: &[u8], event: Option<&[u8]>) -> bool {
    PAIRS
        .iter()
        .any(|&(a, e)| a == action && e.map(Code::as_slice) == event)
}
