//! Section "Elements": dates, times, LEI, UTI, numbers, and the price shown.

use checker::*;

#[test]
fn dates() {
    for v in [
        "1900-01-01",
        "9999-12-31",
        "2024-02-29",
        "2000-02-29",
        "2400-02-29",
        "2023-02-28",
        "2023-04-30",
        "2023-12-31",
    ] {
        assert!(is_date(v.as_bytes()), "{v}");
    }
    for v in [
        "1899-12-31",
        "0000-01-01",
        "1900-02-29",
        "2100-02-29",
        "2023-02-29",
        "2024-02-30",
        "2023-04-31",
        "2023-06-31",
        "2023-09-31",
        "2023-11-31",
        "2023-01-32",
        "2023-00-10",
        "2023-13-10",
        "2023-10-00",
        "2023/10/01",
        "2023-1-001",
        "20231001",
        "2023-10-01 ",
        " 2023-10-1",
        "+023-10-01",
        "2023-10-0a",
        "",
        "2023-10-01T00:00:00Z",
    ] {
        assert!(!is_date(v.as_bytes()), "{v}");
    }
}

#[test]
fn leap_years_are_gregorian() {
    // 366 days in a year divisible by 4 but not by 100, or divisible by 400.
    let leap = [1904, 1996, 2000, 2004, 2024, 2400, 9996];
    let common = [1900, 1999, 2001, 2100, 2200, 2300, 2023, 2500, 9999];
    for year in leap {
        assert!(is_date(format!("{year}-02-29").as_bytes()), "{year}");
    }
    for year in common {
        assert!(!is_date(format!("{year}-02-29").as_bytes()), "{year}");
    }
    // 400 years have 146,097 days.
    let mut days = 0;
    for year in 2000..2400 {
        for month in 0..14 {
            for day in 0..33 {
                days += usize::from(is_date(format!("{year}-{month:02}-{day:02}").as_bytes()));
            }
        }
    }
    assert_eq!(days, 146_097);
}

#[test]
fn times() {
    for v in [
        "2024-02-29T00:00:00Z",
        "2024-02-29T23:59:59Z",
        "1900-01-01T10:00:00Z",
    ] {
        assert!(is_time(v.as_bytes()), "{v}");
    }
    for v in [
        "2023-02-29T00:00:00Z",
        "2024-02-29T24:00:00Z",
        "2024-02-29T23:60:00Z",
        "2024-02-29T23:59:60Z",
        "2024-02-29t00:00:00Z",
        "2024-02-29T00:00:00z",
        "2024-02-29T00:00:00",
        "2024-02-29T00:00:00+",
        "2024-02-29 00:00:00Z",
        "2024-02-29T00-00-00Z",
        "2024-02-29T0:00:000Z",
        "2024-02-29T00:00:00ZZ",
        "2024-02-29",
        "T00:00:00Z",
        "",
        "1899-12-31T00:00:00Z",
    ] {
        assert!(!is_time(v.as_bytes()), "{v}");
    }
}

#[test]
fn leis() {
    for v in [
        "5493001KJTIIGC8Y1R12",
        "529900T8BM49AURSDO55",
        "HWUPKR0MPOU8FGXBT394",
        "7LTWFZYICNSX8D621K86",
        "INR2EJN1ERAN0W5ZP974",
        "506700GE1G29325QX363",
    ] {
        assert!(is_lei(v.as_bytes()), "{v}");
        // A digit changed for another, or a letter for another, is noticed:
        // 97 divides no difference of 1 to 25 times a power of ten.
        for at in 0..20 {
            for b in *b"0123456789ABCDEFGHIJKLMNOPQRSTUVWXYZ" {
                let mut other = v.as_bytes().to_vec();
                if other[at] != b && other[at].is_ascii_digit() == b.is_ascii_digit() {
                    other[at] = b;
                    assert!(!is_lei(&other), "{v} {at} {b}");
                }
            }
        }
    }
    for v in [
        "",
        "5493001KJTIIGC8Y1R1",
        "5493001KJTIIGC8Y1R123",
        "5493001kjtiigc8y1r12",
        "5493001KJTIIGC8Y1R1 ",
        "5493001KJTIIGC8Y1R-2",
        "00000000000000000000",
    ] {
        assert!(!is_lei(v.as_bytes()), "{v}");
    }
    // 1 and 98 leave 1 when divided by 97.
    assert!(is_lei(b"00000000000000000001"));
    assert!(is_lei(b"00000000000000000098"));
    // B is 11: 1,165 is 12 times 97 and 1.
    assert!(is_lei(b"00000000000000000B65"));
    // A letter is not let pass among the last two, whatever is left.
    for a in b'A'..=b'Z' {
        for b in *b"0123456789ABCDEFGHIJKLMNOPQRSTUVWXYZ" {
            let mut v = *b"00000000000000000000";
            v[18] = a;
            v[19] = b;
            assert!(!is_lei(&v));
            v[18] = b;
            v[19] = a;
            assert!(!is_lei(&v));
        }
    }
}

#[test]
fn utis() {
    assert!(!is_uti(&[b'A'; 20]));
    assert!(is_uti(&[b'A'; 21]));
    assert!(is_uti(&[b'0'; 52]));
    assert!(!is_uti(&[b'0'; 53]));
    assert!(!is_uti(b""));
    for b in [b'a', b' ', b'-', 0, 0xFF, b'@', b'[', b'/', b':'] {
        let mut v = [b'Z'; 30];
        v[29] = b;
        assert!(!is_uti(&v), "{b}");
    }
}

#[test]
fn amounts() {
    for v in [
        "0",
        "00",
        "1",
        "0.0",
        "1.00000",
        "12345678901234567890.12345",
        "1234567890123456789012345",
        "0000000000000000000000000",
        "123456789012345678901234.5",
    ] {
        assert!(is_notional(v.as_bytes()), "{v}");
    }
    for v in [
        "",
        ".",
        "1.",
        ".5",
        "1.000000",
        "12345678901234567890123456",
        "00000000000000000000000001",
        "123456789012345678901.12345",
        "1234567890123456789012345.0",
        "-1",
        "+1",
        "1,000",
        "1e5",
        "1.2.3",
        " 1",
        "1 ",
        "1..2",
    ] {
        assert!(!is_notional(v.as_bytes()), "{v}");
    }
}

#[test]
fn prices() {
    for v in [
        "0",
        "-0",
        "-1",
        "123456789012345678",
        "-12345.1234567890123",
        "0.0000000000000",
        "12345678901234567.8",
    ] {
        assert!(is_price(v.as_bytes()), "{v}");
    }
    for v in [
        "",
        "-",
        "--1",
        "+1",
        "-.5",
        ".5",
        "5.",
        "1234567890123456789",
        "0.12345678901234",
        "123456.1234567890123",
        "1-",
        "1.-2",
    ] {
        assert!(!is_price(v.as_bytes()), "{v}");
    }
}

#[test]
fn notation_3_is_shorter() {
    for v in [
        "12345678901",
        "-12345678901",
        "1.0123456789",
        "0.0123456789",
        "-1.0123456789",
    ] {
        assert!(!price_too_long(v.as_bytes(), b"3"), "{v}");
    }
    // 12 digits; 11 after the point; leading and trailing zeros count
    for v in [
        "123456789012",
        "0.01234567890",
        "12.0123456789",
        "000000000001",
        "1.00000000000",
    ] {
        assert!(price_too_long(v.as_bytes(), b"3"), "{v}");
        // notation 1 has no limits but those of the form
        assert!(!price_too_long(v.as_bytes(), b"1"), "{v}");
    }
}

#[test]
fn notation_4_is_a_whole_number_of_five_digits() {
    for v in ["0", "-0", "257", "12345", "-99999", "00001"] {
        assert!(!price_too_long(v.as_bytes(), b"4"), "{v}");
    }
    // 6 digits; a digit after the point; zeros count as they are sent
    for v in [
        "123456", "-123456", "000001", "0.5", "0.0", "12345.0", "1234.5", "-1.0",
    ] {
        assert!(price_too_long(v.as_bytes(), b"4"), "{v}");
    }
}

#[test]
fn prices_shown() {
    for (v, shown) in [
        ("0", "0"),
        ("000", "0"),
        ("-0", "0"),
        ("-000.000", "0"),
        ("0.0", "0"),
        ("1", "1"),
        ("-1", "-1"),
        ("001", "1"),
        ("100", "100"),
        ("100.00", "100"),
        ("0100.50", "100.5"),
        ("0.5", "0.5"),
        ("000.50", "0.5"),
        ("-00.050", "-0.05"),
        ("10.010", "10.01"),
        ("-12345.1234567890123", "-12345.1234567890123"),
        ("123456789012345678", "123456789012345678"),
        ("0.0000000000001", "0.0000000000001"),
        ("-00000.0000000000000", "0"),
    ] {
        let (field, length) = shown_price(v.as_bytes()).unwrap();
        assert_eq!(&field[..length], shown.as_bytes(), "{v}");
        assert!(field[length..].iter().all(|&b| b == b' '), "{v}");
    }
    assert_eq!(shown_price(b"1."), None);
    assert_eq!(shown_price(b""), None);
    assert_eq!(shown_price(b"0.12345678901234"), None);
}
