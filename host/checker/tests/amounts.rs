//! Section "The masked notional".

use checker::{is_cap, masked};

const LARGEST_CAP: u64 = 1_000_000_000_000_000;

#[test]
fn the_14_examples() {
    let table: [(&str, u64); 14] = [
        ("0", 5),
        ("2.49999", 5),
        ("7.5", 10),
        ("997.5", 1_000),
        ("1049.99999", 1_000),
        ("1050", 1_100),
        ("9950", 10_000),
        ("1499999.99999", 1_000_000),
        ("1500000", 2_000_000),
        ("104999999", 100_000_000),
        ("105000000", 110_000_000),
        ("525000000", 550_000_000),
        ("975000000", 1_000_000_000),
        ("125000000000", 150_000_000_000),
    ];
    for (amount, shown) in table {
        assert_eq!(
            masked(amount.as_bytes(), LARGEST_CAP),
            Some((shown, false)),
            "{amount}"
        );
    }
}

#[test]
fn each_band_and_its_ends() {
    let table: [(&str, u64); 38] = [
        ("7.49999", 5),
        ("12.5", 15),
        ("12.49999", 10),
        ("994.99999", 995),
        ("997.49999", 995),
        ("999.99999", 1_000),
        ("1000", 1_000),
        ("1000.00001", 1_000),
        ("9949.99999", 9_900),
        ("9999.99999", 10_000),
        ("10000", 10_000),
        ("10499.99999", 10_000),
        ("10500", 11_000),
        ("99499.99999", 99_000),
        ("99500", 100_000),
        ("100000", 100_000),
        ("104999.99999", 100_000),
        ("105000", 110_000),
        ("994999.99999", 990_000),
        ("995000", 1_000_000),
        ("1000000", 1_000_000),
        ("99499999.99999", 99_000_000),
        ("99500000", 100_000_000),
        ("100000000", 100_000_000),
        ("494999999.99999", 490_000_000),
        ("495000000", 500_000_000),
        ("500000000", 500_000_000),
        ("524999999.99999", 500_000_000),
        ("974999999.99999", 950_000_000),
        ("1000000000", 1_000_000_000),
        ("1499999999.99999", 1_000_000_000),
        ("1500000000", 2_000_000_000),
        ("99499999999.99999", 99_000_000_000),
        ("99500000000", 100_000_000_000),
        ("100000000000", 100_000_000_000),
        ("124999999999.99999", 100_000_000_000),
        ("974999999999999.99999", 975_000_000_000_000),
        ("999999999999999.99999", LARGEST_CAP),
    ];
    for (amount, shown) in table {
        assert_eq!(
            masked(amount.as_bytes(), LARGEST_CAP),
            Some((shown, false)),
            "{amount}"
        );
    }
}

#[test]
fn caps_and_the_plus_sign() {
    // The exact amount is compared with the cap, not the rounded one.
    assert_eq!(masked(b"250400000", 250_000_000), Some((250_000_000, true)));
    assert_eq!(
        masked(b"250000000", 250_000_000),
        Some((250_000_000, false))
    );
    assert_eq!(
        masked(b"250000000.00000", 250_000_000),
        Some((250_000_000, false))
    );
    assert_eq!(
        masked(b"250000000.00001", 250_000_000),
        Some((250_000_000, true))
    );
    assert_eq!(
        masked(b"249999999.99999", 250_000_000),
        Some((250_000_000, false))
    );
    assert_eq!(masked(b"1000", 1_000), Some((1_000, false)));
    assert_eq!(masked(b"1000.00001", 1_000), Some((1_000, true)));
    assert_eq!(masked(b"999.99999", 1_000), Some((1_000, false)));
    // 25 digits do not go into 64 bits.
    assert_eq!(
        masked(b"9999999999999999999999999", LARGEST_CAP),
        Some((LARGEST_CAP, true))
    );
    // 2 to the 64th plus 1,000, which a 64-bit number would take for 1,000
    assert_eq!(
        masked(b"18446744073709552616", LARGEST_CAP),
        Some((LARGEST_CAP, true))
    );
    // leading zeros
    assert_eq!(
        masked(b"0000000000000000000001050", LARGEST_CAP),
        Some((1_100, false))
    );
}

#[test]
fn any_number_is_answered() {
    assert_eq!(
        masked(b"9999999999999999999999999", u64::MAX),
        Some((u64::MAX, true))
    );
    assert_eq!(
        masked(b"18446744073709551615", u64::MAX),
        Some((18_446_744_050_000_000_000, false))
    );
    assert_eq!(
        masked(b"18446744073709551615.00001", u64::MAX),
        Some((u64::MAX, true))
    );
    assert_eq!(masked(b"0", 0), Some((5, false)));
    assert_eq!(masked(b"1", 0), Some((0, true)));
}

#[test]
fn not_an_amount() {
    for v in ["", "-1", "1.", ".1", "1.123456", "abc", "1,000"] {
        assert_eq!(masked(v.as_bytes(), LARGEST_CAP), None, "{v}");
    }
}

#[test]
fn which_caps_are_let_pass() {
    for cap in [
        1_000,
        1_100,
        9_900,
        10_000,
        11_000,
        100_000,
        110_000,
        1_000_000,
        2_000_000,
        100_000_000,
        110_000_000,
        250_000_000,
        500_000_000,
        550_000_000,
        1_000_000_000,
        100_000_000_000,
        150_000_000_000,
        999_950_000_000_000,
        LARGEST_CAP,
    ] {
        assert!(is_cap(cap), "{cap}");
        assert_eq!(masked(cap.to_string().as_bytes(), cap), Some((cap, false)));
    }
    for cap in [
        0,
        5,
        995,
        999,
        1_001,
        1_050,
        10_100,
        100_001,
        105_000,
        1_500_000,
        100_500_000,
        105_000_000,
        510_000_000,
        1_500_000_000,
        100_000_000_001,
        110_000_000_000,
        LARGEST_CAP + 1,
        LARGEST_CAP + 50_000_000_000,
        u64::MAX,
        u64::MAX - 9_551_615,
    ] {
        assert!(!is_cap(cap), "{cap}");
    }
}

/// Under a cap let pass, what is shown never exceeds the cap, and never falls
/// as the amount rises.
#[test]
fn shown_amounts_rise_with_amounts() {
    for cap in [1_000, 9_900, 250_000_000, 550_000_000, LARGEST_CAP] {
        let mut last = 0;
        let mut amount: u64 = 0;
        while amount < 2 * LARGEST_CAP {
            let (shown, plus) = masked(amount.to_string().as_bytes(), cap).unwrap();
            assert!(shown >= last && shown <= cap && shown >= 5);
            assert_eq!(plus, amount > cap);
            last = shown;
            amount += amount / 97 + 1;
        }
    }
}
