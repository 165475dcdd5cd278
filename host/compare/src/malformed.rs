//! Values that break the form of their element, and other values that a rule
//! refuses.

use crate::codes;
use crate::layout::{DATE_SIZE, LARGEST_CAP, LONGEST_PACKAGE_IDENTIFIER, SHORTEST_UTI};
use crate::layout::{SMALLEST_CAP, UTI_SIZE};
use crate::lists::*;
use crate::random::Random;
use crate::values::{remainder, CAPITALS};

/// A value that breaks the form of an element. Where the element has a list,
/// it is often a code of as many capitals.
pub fn value(random: &mut Random, code: u8) -> Vec<u8> {
    match codes::list_of(code) {
        Some(list) if random.once_in(2) => codes::unlisted(random, list),
        _ => random.pick(&values(code)).clone(),
    }
}

/// Values that break the form of an element, at least two for each code.
pub fn values(code: u8) -> Vec<Vec<u8>> {
    match code {
        UTI => utis(),
        ACTION_TYPE => list(&[
            "newt", "NEW", "NEWTS", "VALU", "MARU", "NEWT ", " NEWT", "TERN",
        ]),
        EVENT_TYPE => list(&[
            "trad", "TRA", "TRADE", "TR4D", "TRA ", "T", "@RAD", "TRA[", "Trad", "----",
        ]),
        EVENT_TIMESTAMP | REPORTING_TIMESTAMP | EXECUTION_TIMESTAMP => times(),
        EFFECTIVE_DATE | EXPIRATION_DATE | SETTLEMENT_DATE => dates(),
        CLEARED => list(&["y", "YES", " ", "X", "NN", "n", "i", "Y ", "T"]),
        _ if TRUTH_CODES.contains(&code) => truths(),
        ALLOCATION => list(&["post", "POS", "POSTS", "PREB", "UNAL ", "Prea", "ALOC", "P"]),
        PACKAGE_IDENTIFIER => package_identifiers(),
        PACKAGE_PRICE | PACKAGE_SPREAD => prices(),
        PRICE_NOTATION => list(&["2", "0", "4", "11", "1 ", " 3", "I", "-1", "1.0"]),
        SPREAD_NOTATION => list(&["2", "0", "5", "14", "4 ", " 1", "I", "-4", "4.0", "04"]),
        PRICE_CURRENCY | NOTIONAL_CURRENCY | SPREAD_CURRENCY => currencies(),
        NOTIONAL_AMOUNT => amounts(),
        SETTLEMENT_LOCATION => locations(),
        COUNTERPARTY_1 | COUNTERPARTY_2 => leis(),
        ASSET_CLASS => list(&["cr", "CRE", "C", "XX", "EQ ", "Fx", "OC", "IR\0", "CRIR"]),
        _ => panic!("no element has code {code}"),
    }
}

fn list(values: &[&str]) -> Vec<Vec<u8>> {
    values
        .iter()
        .map(|value| value.as_bytes().to_vec())
        .collect()
}

fn utis() -> Vec<Vec<u8>> {
    let sound = b"ABCDEFGHIJ0123456789K";
    let mut values = vec![
        sound[..SHORTEST_UTI - 1].to_vec(),
        vec![b'A'; UTI_SIZE + 1],
        vec![b'9'; 200],
        vec![b'A'],
    ];
    for wrong in b"a z-/:@[`{_\0\n\x80\xc1\xff" {
        for at in [0, 10, 20] {
            let mut value = sound.to_vec();
            value[at] = *wrong;
            values.push(value);
        }
    }
    let mut padded = sound.to_vec();
    padded.resize(UTI_SIZE, b' ');
    values.push(padded);
    values
}

fn dates() -> Vec<Vec<u8>> {
    list(&[
        "1899-12-31",
        "0000-01-01",
        "1900-02-29",
        "2023-02-29",
        "2100-02-29",
        "2024-02-30",
        "2024-00-10",
        "2024-13-10",
        "2024-01-00",
        "2024-01-32",
        "2024-04-31",
        "2024-06-31",
        "2024-09-31",
        "2024-11-31",
        "2024-1-10",
        "24-01-10",
        "2024/01/10",
        "2024-01-10 ",
        " 2024-01-1",
        "2024-01-1a",
        "20240110",
        "2024-01-10T",
        "12024-01-1",
        "2024-01",
        "2024-0A-10",
        "202:-01-10",
        "2024-01-/0",
        "-024-01-10",
    ])
}

fn times() -> Vec<Vec<u8>> {
    let mut values = list(&[
        "2024-03-01T24:00:00Z",
        "2024-03-01T23:60:00Z",
        "2024-03-01T23:59:60Z",
        "2024-03-01T10:15:30",
        "2024-03-01T10:15:30z",
        "2024-03-01t10:15:30Z",
        "2024-03-01 10:15:30Z",
        "2024-03-01T10-15-30Z",
        "2024-03-01T10:15Z",
        "2024-03-01T10:15:30.5Z",
        "2024-03-01T10:15:30ZZ",
        "2024-03-01T1a:15:30Z",
        "2024-03-01T10:1/:30Z",
        "2024-03-01T10:15:3:Z",
        "2024-03-01",
        "2024-03-01T10:15:30+",
        "2024-03-01T99:15:30Z",
    ]);
    for date in dates().into_iter().filter(|date| date.len() == DATE_SIZE) {
        values.push([date.as_slice(), b"T10:15:30Z"].concat());
    }
    values
}

fn truths() -> Vec<Vec<u8>> {
    list(&[
        "TRUE",
        "FALSE",
        "T",
        "F",
        "tRue",
        "truE",
        "True ",
        " True",
        "Falsee",
        "fals",
        "1",
        "0",
        "Y",
        "TrueFalse",
        "Tru\0",
        "Tr",
        "falsE",
    ])
}

fn package_identifiers() -> Vec<Vec<u8>> {
    let mut values = list(&[
        "A B", "A-B", "A_", " ", "a.b", "A/", "A:", "@", "[", "`", "{", "A\0",
    ]);
    values.push(vec![b'A'; LONGEST_PACKAGE_IDENTIFIER + 1]);
    values.push(vec![b'z'; 400]);
    values.push(b"caf\xe9".to_vec());
    values
}

/// Values that are no number at all.
fn no_numbers() -> Vec<Vec<u8>> {
    list(&[
        ".", "1.", ".5", "+1", "1.2.3", "1,5", " 1", "1 ", "1e5", "1-", "x", "0x1", "1..5", "1:",
        "/1", "1.-5", "1_0", "..", "1. 5",
    ])
}

fn prices() -> Vec<Vec<u8>> {
    let mut values = no_numbers();
    values.extend(list(&[
        "-",
        "--1",
        "-.5",
        "-1.",
        "- 1",
        "-+1",
        "1234567890123456789",
        "-1234567890123456789",
        "0000000000000000000",
        "0.12345678901234",
        "-0.12345678901234",
        "123456.7890123456789",
        "12345678901234567.89",
    ]));
    values
}

fn amounts() -> Vec<Vec<u8>> {
    let mut values = no_numbers();
    values.extend(list(&[
        "-1",
        "-0",
        "-",
        "12345678901234567890123456",
        "00000000000000000000000000",
        "123456789012345678901.23456",
        "1.123456",
        "0.000000",
        "1234567890123456789012345.6",
    ]));
    values
}

/// Values of another length or with other characters, then capitals that are
/// not in the list: some are in use all the same, some were withdrawn.
fn currencies() -> Vec<Vec<u8>> {
    list(&[
        "$", "US", "USDX", "XUSD", "USDEUR", "usd", "UsD", "cny", "Eur", "U5D", "US ", " US",
        "USD ", "U[D", "@BC", "USD\n", "US\0", "CNH", "RMB", "GBX", "BTC", "DEM", "HRK", "SLL",
        "AAA", "ZZZ",
    ])
}

fn locations() -> Vec<Vec<u8>> {
    list(&[
        "U", "USA", "USD", "USGB", "us", "Us", "uS", "hk", "U1", "U ", " U", "US ", "[A", "A@",
        "US\n", "U\0", "XK", "UK", "EU", "AN", "SU", "AA", "ZZ",
    ])
}

fn leis() -> Vec<Vec<u8>> {
    let sound = b"54930084UKLVMY22DS16";
    let mut values = list(&[
        "54930084UKLVMY22DS17",
        "54930084UKLVMY22DS15",
        "54930084UKLVMY22DS61",
        "45930084UKLVMY22DS16",
        "54930084UKLVMY22DS1",
        "54930084UKLVMY22DS160",
        "54930084uklvmy22ds16",
        "54930084UKLVMY22DS 1",
        "00000000000000000000",
    ]);
    for wrong in b"a/:@[`\0\x80" {
        let mut value = sound.to_vec();
        value[8] = *wrong;
        values.push(value);
    }
    values.push(lei_with_letters());
    values
}

/// Prices and spreads that are sound, but longer than the notation for decimals
/// allows.
pub const LONG_DECIMALS: [&str; 8] = [
    "123456789012",
    "-123456789012",
    "0.12345678901",
    "-0.12345678901",
    "000000000000",
    "1234567.89012",
    "123456789012345678",
    "12345.1234567890123",
];

/// Spreads that are sound, but longer than the notation for basis points
/// allows.
pub const LONG_BASIS_POINTS: [&str; 10] = [
    "123456",
    "-123456",
    "000000",
    "000001",
    "0.0",
    "-0.5",
    "1234.5",
    "12345.0",
    "123456789012345678",
    "12345.1234567890123",
];

/// Caps that are out of range or not their own rounded amount.
pub const CAPS: [u64; 16] = [
    0,
    5,
    995,
    SMALLEST_CAP - 1,
    1_001,
    1_050,
    9_950,
    100_500,
    250_000_001,
    250_400_000,
    125_000_000_000,
    LARGEST_CAP - 1,
    LARGEST_CAP + 1,
    1_000_050_000_000_000,
    1_050_000_000_000_000,
    u64::MAX,
];

/// A number that leaves 1 but ends in letters where check digits are due.
fn lei_with_letters() -> Vec<u8> {
    let pairs = CAPITALS
        .iter()
        .flat_map(|&first| CAPITALS.iter().map(move |&second| [first, second]));
    let candidates = pairs.map(|pair| [b"54930084UKLVMY22DS".as_slice(), &pair].concat());
    let mut fitting = candidates.filter(|lei| remainder(lei) == 1);
    fitting.next().expect("676 pairs hold each remainder")
}

#[cfg(test)]
mod tests {
    use super::*;

    /// None is in the element's list. Of the random ones, many have as many
    /// capitals as the codes of the list.
    #[test]
    fn malformed_codes_are_in_no_list() {
        let mut random = Random::for_test(303);
        for code in [19, 21, 22, 28] {
            let list = codes::list_of(code).expect("the element has a list");
            let drawn: Vec<Vec<u8>> = (0..1_000).map(|_| value(&mut random, code)).collect();
            let malformed = values(code).into_iter().chain(drawn.clone());
            for value in malformed {
                assert!(
                    !list.iter().any(|code| code.as_bytes() == value),
                    "{value:?}"
                );
            }
            let capitals = |value: &&Vec<u8>| {
                value.len() == list[0].len() && value.iter().all(u8::is_ascii_uppercase)
            };
            let count = drawn.iter().filter(capitals).count();
            assert!((500..900).contains(&count), "{count}");
        }
    }
}
