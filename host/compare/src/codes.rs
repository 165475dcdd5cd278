//! The codes of currencies and locations: the lists in data/, and codes of as
//! many capitals that are in neither.

use crate::lists::{CURRENCY_CODES, SETTLEMENT_LOCATION};
use crate::random::Random;
use crate::values::CAPITALS;
use std::sync::LazyLock;

const CURRENCY_FILE: &str = include_str!("../../../data/iso-4217.txt");
const LOCATION_FILE: &str = include_str!("../../../data/iso-3166-1.txt");

/// The currencies: the alphabetic codes of ISO 4217.
pub static CURRENCIES: LazyLock<Vec<&str>> = LazyLock::new(|| CURRENCY_FILE.lines().collect());
/// The locations: the two-letter codes of ISO 3166-1.
pub static LOCATIONS: LazyLock<Vec<&str>> = LazyLock::new(|| LOCATION_FILE.lines().collect());

/// The list that an element's value has to be in, where there is one.
pub fn list_of(element: u8) -> Option<&'static [&'static str]> {
    match element {
        SETTLEMENT_LOCATION => Some(&LOCATIONS),
        _ if CURRENCY_CODES.contains(&element) => Some(&CURRENCIES),
        _ => None,
    }
}

/// Every code of so many capitals, in the order of the alphabet.
pub fn of_capitals(size: usize) -> Vec<String> {
    if size == 0 {
        return vec![String::new()];
    }
    let shorter = of_capitals(size - 1);
    let longer = shorter
        .iter()
        .flat_map(|code| ('A'..='Z').map(move |letter| format!("{code}{letter}")));
    longer.collect()
}

/// A code of as many capitals that is not in the list.
pub fn unlisted(random: &mut Random, list: &[&str]) -> Vec<u8> {
    loop {
        let code = random.text(list[0].len(), CAPITALS);
        if !list.iter().any(|listed| listed.as_bytes() == code) {
            return code;
        }
    }
}

#[cfg(test)]
mod tests {
    use super::*;
    use crate::layout::{CURRENCY_SIZE, LOCATION_SIZE};
    use crate::lists::codes;
    use crate::values;
    use std::collections::BTreeSet;

    /// One code a line, rising, so none twice, and a newline after each.
    #[test]
    fn the_files_have_rising_codes_of_capitals() {
        for (file, list, size) in [
            (CURRENCY_FILE, &CURRENCIES, CURRENCY_SIZE),
            (LOCATION_FILE, &LOCATIONS, LOCATION_SIZE),
        ] {
            let lines: String = list.iter().map(|code| format!("{code}\n")).collect();
            assert_eq!(file, lines);
            assert!(list.is_sorted_by(|one, next| one < next));
            let capitals = |code: &str| code.bytes().all(|byte| byte.is_ascii_uppercase());
            assert!(list.iter().all(|code| code.len() == size && capitals(code)));
        }
    }

    #[test]
    fn four_elements_have_a_list() {
        let first = |element| Some((element, list_of(element)?[0]));
        let found: Vec<(u8, &str)> = codes().filter_map(first).collect();
        assert_eq!(found, [(19, "AED"), (21, "AED"), (22, "AD"), (28, "AED")]);
    }

    #[test]
    fn all_codes_of_capitals() {
        let codes = of_capitals(CURRENCY_SIZE);
        assert_eq!(codes.len(), 17_576);
        assert_eq!([&codes[0], &codes[1], &codes[26]], ["AAA", "AAB", "ABA"]);
        assert_eq!(codes[17_575], "ZZZ");
        assert!(codes.is_sorted_by(|one, next| one < next));
        assert_eq!(of_capitals(LOCATION_SIZE).len(), 676);
    }

    /// Random values are in the list, each of them now and then; random codes
    /// that are to be outside of it are.
    #[test]
    fn random_codes() {
        let mut random = Random::for_test(302);
        for (list, size, draw) in [
            (
                &CURRENCIES,
                CURRENCY_SIZE,
                values::currency as fn(&mut Random) -> Vec<u8>,
            ),
            (&LOCATIONS, LOCATION_SIZE, values::location),
        ] {
            let listed: BTreeSet<Vec<u8>> =
                list.iter().map(|code| code.as_bytes().into()).collect();
            let drawn: BTreeSet<Vec<u8>> = (0..5_000).map(|_| draw(&mut random)).collect();
            assert_eq!(drawn, listed);
            let others: BTreeSet<Vec<u8>> =
                (0..5_000).map(|_| unlisted(&mut random, list)).collect();
            assert!(others.is_disjoint(&listed) && others.len() > 400);
            let capitals = |code: &Vec<u8>| code.iter().all(u8::is_ascii_uppercase);
            assert!(others
                .iter()
                .all(|code| code.len() == size && capitals(code)));
        }
    }
}
