//! The order of checking: for each operation the verdict numbers of its rules,
//! the rule that is judged first in front.

use sdr::{ACCEPTED, DATES_DISORDERED, LAYOUT_WRONG};

/// The rules of opening.
pub const OPENING: [u8; 2] = [1, 2];

/// The rules of a submission.
pub const SUBMITTING: [u8; 17] = [3, 4, 5, 6, 7, 8, 9, 10, 11, 19, 12, 13, 14, 15, 16, 17, 18];

/// The rules of a status question.
pub const ASKING: [u8; 3] = [3, 9, 14];

/// The rules of a totals question.
pub const TOTALS: [u8; 1] = [3];

/// The rules of a submission that name an element.
pub const NAMING_AN_ELEMENT: [u8; 5] = [6, 7, 8, 9, 11];

/// The place of a submission's rule in the order.
pub fn place(verdict: u8) -> usize {
    let place = SUBMITTING.iter().position(|&rule| rule == verdict);
    place.unwrap_or_else(|| panic!("no submission is refused with {verdict}"))
}

/// The rules of a submission from one up to another.
pub fn from_to(first: u8, last: u8) -> &'static [u8] {
    &SUBMITTING[place(first)..=place(last)]
}

/// The rules of a submission that look at the message alone.
pub fn of_the_message() -> &'static [u8] {
    from_to(LAYOUT_WRONG, DATES_DISORDERED)
}

/// The verdict on a submission that breaks these rules and no others.
pub fn first_of(broken: &[u8]) -> u8 {
    let first = SUBMITTING.iter().find(|rule| broken.contains(rule));
    first.copied().unwrap_or(ACCEPTED)
}

/// The highest verdict number.
pub const HIGHEST_VERDICT: u8 = highest(&SUBMITTING, highest(&OPENING, 0));

const fn highest(rules: &[u8], so_far: u8) -> u8 {
    match rules {
        [] => so_far,
        [rule, rest @ ..] if *rule > so_far => highest(rest, *rule),
        [_, rest @ ..] => highest(rest, so_far),
    }
}

#[cfg(test)]
mod tests {
    use super::*;
    use std::path::Path;

    /// The numbers that include/sdr.h lists for an operation.
    fn listed(operation: &str) -> Vec<u8> {
        let package = Path::new(env!("CARGO_MANIFEST_DIR"));
        let header = std::fs::read_to_string(package.join("../../include/sdr.h"));
        let header = header.expect("include/sdr.h can be read");
        let start = format!(" *   {operation} ");
        let numbers = |line: &str| {
            line.split(", ")
                .map(|text| text.trim().parse().ok())
                .collect()
        };
        let lists = header.lines().filter_map(|line| line.strip_prefix(&start));
        let mut lists: Vec<Vec<u8>> = lists.filter_map(numbers).collect();
        assert_eq!(lists.len(), 1, "{operation} has one list of rules");
        lists.remove(0)
    }

    #[test]
    fn the_header_lists_the_same_order() {
        assert_eq!(listed("sdr_open"), OPENING);
        assert_eq!(listed("sdr_submit"), SUBMITTING);
        assert_eq!(listed("sdr_status"), ASKING);
        assert_eq!(listed("sdr_totals"), TOTALS);
    }

    #[test]
    fn every_rule_stands_once() {
        for (at, &verdict) in SUBMITTING.iter().enumerate() {
            assert_eq!(place(verdict), at, "{verdict}");
            assert!(verdict <= HIGHEST_VERDICT && !OPENING.contains(&verdict));
        }
        let last = SUBMITTING[SUBMITTING.len() - 1];
        assert_eq!(from_to(SUBMITTING[0], last), SUBMITTING);
        assert!(SUBMITTING.contains(&HIGHEST_VERDICT));
    }

    #[test]
    fn the_first_broken_rule_counts() {
        assert_eq!(from_to(9, 11), [9, 10, 11]);
        assert_eq!(first_of(&[17, 4, 10]), 4);
        assert_eq!(first_of(&[18]), 18);
        assert_eq!(first_of(&[12, 19, 13]), 19);
        assert_eq!(first_of(&[19, 11]), 11);
        assert_eq!(first_of(&[]), 0);
    }
}
