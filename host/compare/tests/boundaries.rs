//! Lengths, amounts, dates, counts and identifiers at their bounds and one
//! step to each side. What is expected is derived by hand.

use compare::compared::Compared;
use compare::layout::{self, ledger_size, Caps, Header, Row, CAPACITY_IN_HEADER, HEADER_SIZE};
use compare::layout::{row_range, IDENTIFIER_IN_ROW, ROWS_IN_HEADER, TERMS_IN_LINE, UTI_IN_ROW};
use compare::layout::{CLASS_IN_LINE, IDENTIFIER_IN_LINE, NEWLINE_IN_LINE, NOTIONAL_IN_LINE};
use compare::layout::{DAY_CAPS, IDENTIFIER_LIMIT, LARGEST_CAP, LARGEST_CAPACITY, LINE_SIZE};
use compare::layout::{LONGEST_MESSAGE, LONGEST_PACKAGE_IDENTIFIER, NEXT_IN_HEADER};
use compare::layout::{NOTIONAL_SIZE, SHORTEST_LEDGER, SHORTEST_UTI, SMALLEST_CAP, UTI_SIZE};
use compare::layout::{PLUS_IN_LINE, PREVIOUS_IN_LINE, PRICE_IN_LINE, PRICE_SIZE};
use compare::lists::{CLASSES, LAST_CODE};
use compare::message::Message;
use compare::sound::{plain_new, plain_package, plain_short, swap};
use compare::terms::terms_of;
use compare::values::{lei_of, remainder};
use sdr::Answer;

const CAPS: Caps = DAY_CAPS;

/// A fresh ledger of two rows and a tape buffer.
fn opened(caps: Caps) -> Compared {
    Compared::opened(2, &caps)
}

/// Verdict and element of one message on a fresh ledger.
fn judged(message: &[u8]) -> (u8, u8) {
    let answer = opened(CAPS).submit(message);
    (answer.verdict, answer.element)
}

fn judged_with(code: u8, value: &str) -> (u8, u8) {
    judged(&plain_new().with(code, value).encode())
}

#[test]
fn lengths_of_a_uti() {
    let mut compared = opened(CAPS);
    for (length, due) in [
        (1, (9, 1)),
        (SHORTEST_UTI - 1, (9, 1)),
        (SHORTEST_UTI, (0, 0)),
        (UTI_SIZE, (0, 0)),
        (UTI_SIZE + 1, (9, 1)),
    ] {
        let uti = "A".repeat(length);
        assert_eq!(judged_with(1, &uti), due, "{length}");
        let answer = compared.status(uti.as_bytes());
        assert_eq!((answer.verdict, answer.element), due, "{length}");
    }
}

#[test]
fn lengths_of_a_message() {
    assert_eq!(judged(&[]), (5, 0));
    assert_eq!(judged(&[0]), (5, 0));
    assert_eq!(judged(&[1]), (5, 0));
    assert_eq!(judged(&[0, 0]), (6, 2));
    assert_eq!(judged(&[1, 0]), (5, 0));
    assert_eq!(judged(&[0, 0, 0]), (5, 0));
    assert_eq!(judged(&[0, 1]), (5, 0));
    assert_eq!(judged(&[1, 0, 1, 0, 6, 0]), (5, 0));
    assert_eq!(judged(&[1, 0, 1, 0, 6, 0, b'A']), (6, 2));
    assert_eq!(judged(&[1, 0, LAST_CODE, 0, 6, 0, b'A']), (6, 2));
    assert_eq!(judged(&[1, 0, LAST_CODE + 1, 0, 6, 0, b'A']), (5, 0));
    assert_eq!(judged(&[1, 0, 0, 0, 6, 0, b'A']), (5, 0));
    assert_eq!(judged(&[1, 0, 1, 0, 5, 0, b'A']), (5, 0));
    assert_eq!(judged(&[1, 0, 1, 0, 7, 0, b'A']), (5, 0));
    for (length, due) in [
        (LONGEST_MESSAGE - 1, (9, 16)),
        (LONGEST_MESSAGE, (9, 16)),
        (LONGEST_MESSAGE + 1, (5, 0)),
    ] {
        assert_eq!(judged(&message_of_length(length)), due, "{length}");
    }
}

/// A message that is sound but for a package identifier that fills it up.
fn message_of_length(length: usize) -> Vec<u8> {
    let shortest = plain_new().with(16, "A").encode().len();
    let message = plain_new().with(16, "A".repeat(length - shortest + 1));
    assert_eq!(message.encode().len(), length);
    message.encode()
}

#[test]
fn all_elements_at_once() {
    let mut message = plain_package("1", "5");
    message.set(11, "True").set(22, "US");
    message.set(26, "5").set(27, "1").set(28, "USD");
    assert_eq!(message.codes().len(), usize::from(LAST_CODE));
    // A package has no price beside a spread; other messages leave both out.
    assert_eq!(judged(&message.encode()), (19, 0));
    message.set(15, "False");
    assert_eq!(judged(&message.encode()), (0, 0));
    assert_eq!(judged(&message.with(25, "XX").encode()), (9, 25));
    assert_eq!(judged(&message.with(28, "usd").encode()), (9, 28));
}

#[test]
fn elements_of_a_full_message() {
    let new = plain_new();
    for (action, event) in [
        ("NEWT", Some("TRAD")),
        ("MODI", Some("TRAD")),
        ("CORR", None),
        ("REVI", None),
    ] {
        // On a fresh ledger only NEWT is admitted.
        let passes = if action == "NEWT" { (0, 0) } else { (15, 0) };
        let message = with_action(&new, action, event);
        assert_eq!(judged(&message.encode()), passes, "{action}");
        // Elements that are not needed, one at a time and all at once.
        let mut whole = message.clone();
        for (code, value) in [
            (11, "True"),
            (16, "P"),
            (17, "1"),
            (18, "1"),
            (19, "JPY"),
            (22, "GB"),
            (26, "1"),
            (27, "4"),
            (28, "JPY"),
        ] {
            let more = message.with(code, value);
            assert_eq!(judged(&more.encode()), passes, "{action} {code}");
            whole.set(code, value);
        }
        assert_eq!(judged(&whole.encode()), passes, "{action}");
        // The elements of a short message, and the action alone.
        let short = plain_short(action, event);
        assert_eq!(judged(&short.encode()), (7, 6), "{action}");
        assert_eq!(judged(&alone(action).encode()), (7, 1), "{action}");
    }
}

#[test]
fn elements_of_a_short_message() {
    for (action, event) in [
        ("TERM", Some("ETRM")),
        ("EROR", None),
        ("PRTO", Some("PTNG")),
    ] {
        let message = plain_short(action, event);
        assert_eq!(judged(&message.encode()), (15, 0), "{action}");
        let early = message.with(5, "1900-01-01T00:00:00Z");
        assert_eq!(judged(&early.encode()), (15, 0), "{action}");
        assert_eq!(judged(&alone(action).encode()), (7, 1), "{action}");
        // The elements of a full message.
        let full = with_action(&plain_new(), action, event);
        assert_eq!(judged(&full.encode()), (8, 6), "{action}");
    }
}

/// The message with another action and event.
fn with_action(message: &Message, action: &str, event: Option<&str>) -> Message {
    let message = message.with(2, action);
    match event {
        Some(event) => message.with(3, event),
        None => message.without(3),
    }
}

/// A message that has its action alone.
fn alone(action: &str) -> Message {
    Message::default().with(2, action)
}

#[test]
fn lengths_of_a_package_identifier() {
    let package = |length: usize| {
        plain_package("1", "5")
            .with(16, "z".repeat(length))
            .encode()
    };
    assert_eq!(judged(&package(0)), (5, 0));
    assert_eq!(judged(&package(1)), (0, 0));
    let longest = LONGEST_PACKAGE_IDENTIFIER;
    assert_eq!(judged(&package(longest)), (0, 0));
    assert_eq!(judged(&package(longest + 1)), (9, 16));
}

#[test]
fn digits_of_an_amount() {
    for sound in [
        "1234567890123456789012345",
        "0000000000000000000000000",
        "12345678901234567890.12345",
        "123456789012345678901234.5",
        "0.12345",
        "00.00000",
    ] {
        assert_eq!(judged_with(20, sound), (0, 0), "{sound}");
    }
    for wrong in [
        "12345678901234567890123456",
        "00000000000000000000000000",
        "123456789012345678901.12345",
        "1234567890123456789012345.6",
        "0.123456",
        "0.000000",
    ] {
        assert_eq!(judged_with(20, wrong), (9, 20), "{wrong}");
    }
}

/// Verdict and element.
type Due = (u8, u8);

/// Prices, what is due under notation 1 and under notation 3.
const PRICES: [(&str, Due, Due); 22] = [
    ("123456789012345678", (0, 0), (12, 0)),
    ("-123456789012345678", (0, 0), (12, 0)),
    ("1234567890123456789", (9, 17), (9, 17)),
    ("-1234567890123456789", (9, 17), (9, 17)),
    ("0.1234567890123", (0, 0), (12, 0)),
    ("0.12345678901234", (9, 17), (9, 17)),
    ("12345.1234567890123", (0, 0), (12, 0)),
    ("123456.1234567890123", (9, 17), (9, 17)),
    ("12345678901", (0, 0), (0, 0)),
    ("-12345678901", (0, 0), (0, 0)),
    ("123456789012", (0, 0), (12, 0)),
    ("000000000001", (0, 0), (12, 0)),
    ("0.1234567890", (0, 0), (0, 0)),
    ("-0.1234567890", (0, 0), (0, 0)),
    ("0.12345678901", (0, 0), (12, 0)),
    ("00.1234567890", (0, 0), (12, 0)),
    ("123456.78901", (0, 0), (0, 0)),
    ("-1234567890.1", (0, 0), (0, 0)),
    ("12345678901.5", (0, 0), (12, 0)),
    ("-1234567890.12", (0, 0), (12, 0)),
    ("-000000000000", (0, 0), (12, 0)),
    ("-1.00000000000", (0, 0), (12, 0)),
];

#[test]
fn digits_of_a_price() {
    for (price, plain, short) in PRICES {
        assert_eq!(
            judged(&plain_package("1", price).encode()),
            plain,
            "{price}"
        );
        assert_eq!(
            judged(&plain_package("3", price).encode()),
            short,
            "{price}"
        );
        // Without a package the price is left out, and 12 does not judge it.
        let left_out = plain_package("3", price).with(15, "False");
        assert_eq!(judged(&left_out.encode()), plain, "{price}");
    }
}

#[test]
fn prices_as_shown() {
    for (price, shown) in [
        ("0", "0"),
        ("-0", "0"),
        ("000", "0"),
        ("-00.00", "0"),
        ("0.0", "0"),
        ("007", "7"),
        ("-007", "-7"),
        ("100", "100"),
        ("100.00", "100"),
        ("0.50", "0.5"),
        ("-0.50", "-0.5"),
        ("00.05", "0.05"),
        ("10.010", "10.01"),
        ("-123456789012345678", "-123456789012345678"),
        ("-99999.9999999999999", "-99999.9999999999999"),
        ("00000.0000000000001", "0.0000000000001"),
    ] {
        let mut compared = opened(CAPS);
        assert_eq!(
            compared.submit(&plain_package("1", price).encode()).verdict,
            0
        );
        let due = format!("{shown:PRICE_SIZE$}");
        assert_eq!(compared.tape()[PRICE_IN_LINE], *due.as_bytes(), "{price}");
    }
}

#[test]
fn terms_as_shown() {
    let (new, not_cleared) = (plain_new(), plain_new().with(10, "N"));
    let no_spread = "";
    let package = |notation: &str| plain_package(notation, "-01.250");
    for (message, marks, price, location) in [
        (new.clone(), "Y FFF", "", ""),
        (new.with(10, "I"), "I FFF", "", ""),
        (new.with(12, "True"), "Y TFF", "", ""),
        (new.with(13, "true"), "Y FTF", "", ""),
        (new.with(22, "GB"), "Y FFF", "", "GB"),
        (not_cleared.with(11, "True"), "NTFFF", "", ""),
        (not_cleared.with(11, "true"), "NTFFF", "", ""),
        (not_cleared.with(11, "False"), "NFFFF", "", ""),
        (package("1"), "Y FFT", "-1.25               1USD", ""),
        (
            package("1").with(15, "true"),
            "Y FFT",
            "-1.25               1USD",
            "",
        ),
        (
            package("3").without(19),
            "Y FFT",
            "-1.25               3",
            "",
        ),
        // An element whose condition does not hold is left out.
        (new.with(11, "True"), "Y FFF", "", ""),
        (new.with(10, "I").with(11, "True"), "I FFF", "", ""),
        (package("1").with(15, "False"), "Y FFF", "", ""),
        (package("1").with(15, "false"), "Y FFF", "", ""),
        (package("3"), "Y FFT", "-1.25               3", ""),
        (new.with(19, "CHF"), "Y FFF", "", ""),
    ] {
        let mut compared = opened(CAPS);
        assert_eq!(compared.submit(&message.encode()).verdict, 0);
        let due = format!(
            "2024-03-01T10:15:30Z2024-03-042029-03-04{marks}{price:24}IR0000000001000000 USD{location:2}{no_spread:24}"
        );
        assert_eq!(
            compared.tape()[TERMS_IN_LINE],
            *due.as_bytes(),
            "{message:?}"
        );
    }
}

/// What a line shows for an amount of interest rate swaps under a cap.
fn shown(amount: &str, cap: u64) -> (u64, char) {
    let mut caps = [SMALLEST_CAP; CLASSES.len()];
    caps[1] = cap;
    let mut compared = opened(caps);
    let answer = compared.submit(&plain_new().with(20, amount).encode());
    assert_eq!(answer.verdict, 0, "{amount}");
    let text = String::from_utf8_lossy(&compared.tape()[NOTIONAL_IN_LINE]).into_owned();
    let number = text.parse().expect("the notional is a number");
    (number, char::from(compared.tape()[PLUS_IN_LINE][0]))
}

/// Amounts at bounds and ties, and 0.00001 beside them, with what is shown.
const BANDS: [(&str, u64); 77] = [
    ("0", 5),
    ("0.00001", 5),
    ("2.49999", 5),
    ("2.5", 5),
    ("4.99999", 5),
    ("7.49999", 5),
    ("7.5", 10),
    ("7.50001", 10),
    ("12.49999", 10),
    ("12.5", 15),
    ("997.49999", 995),
    ("997.5", 1_000),
    ("997.50001", 1_000),
    ("999.99999", 1_000),
    ("1000", 1_000),
    ("1000.00001", 1_000),
    ("1049.99999", 1_000),
    ("1050", 1_100),
    ("1050.00001", 1_100),
    ("9949.99999", 9_900),
    ("9950", 10_000),
    ("9950.00001", 10_000),
    ("9999.99999", 10_000),
    ("10000", 10_000),
    ("10050", 10_000),
    ("10499.99999", 10_000),
    ("10500", 11_000),
    ("10500.00001", 11_000),
    ("99499.99999", 99_000),
    ("99500", 100_000),
    ("99999.99999", 100_000),
    ("100000", 100_000),
    ("100500", 100_000),
    ("104999.99999", 100_000),
    ("105000", 110_000),
    ("105000.00001", 110_000),
    ("994999.99999", 990_000),
    ("995000", 1_000_000),
    ("999999.99999", 1_000_000),
    ("1000000", 1_000_000),
    ("1005000", 1_000_000),
    ("1499999.99999", 1_000_000),
    ("1500000", 2_000_000),
    ("1500000.00001", 2_000_000),
    ("99499999.99999", 99_000_000),
    ("99500000", 100_000_000),
    ("99999999.99999", 100_000_000),
    ("100000000", 100_000_000),
    ("100500000", 100_000_000),
    ("104999999.99999", 100_000_000),
    ("105000000", 110_000_000),
    ("105000000.00001", 110_000_000),
    ("494999999.99999", 490_000_000),
    ("495000000", 500_000_000),
    ("499999999.99999", 500_000_000),
    ("500000000", 500_000_000),
    ("505000000", 500_000_000),
    ("524999999.99999", 500_000_000),
    ("525000000", 550_000_000),
    ("974999999.99999", 950_000_000),
    ("975000000", 1_000_000_000),
    ("999999999.99999", 1_000_000_000),
    ("1000000000", 1_000_000_000),
    ("1025000000", 1_000_000_000),
    ("1499999999.99999", 1_000_000_000),
    ("1500000000", 2_000_000_000),
    ("99499999999.99999", 99_000_000_000),
    ("99500000000", 100_000_000_000),
    ("99999999999.99999", 100_000_000_000),
    ("100000000000", 100_000_000_000),
    ("100500000000", 100_000_000_000),
    ("124999999999.99999", 100_000_000_000),
    ("125000000000", 150_000_000_000),
    ("174999999999.99999", 150_000_000_000),
    ("175000000000", 200_000_000_000),
    ("999974999999999.99999", 999_950_000_000_000),
    ("999975000000000", 1_000_000_000_000_000),
];

#[test]
fn bands_and_ties() {
    for (amount, due) in BANDS {
        assert_eq!(shown(amount, LARGEST_CAP), (due, ' '), "{amount}");
    }
}

#[test]
fn amounts_at_below_and_above_a_cap() {
    for (amount, cap, due) in [
        ("249999999.99999", 250_000_000, (250_000_000, ' ')),
        ("250000000", 250_000_000, (250_000_000, ' ')),
        ("000250000000.00000", 250_000_000, (250_000_000, ' ')),
        ("250000000.00001", 250_000_000, (250_000_000, '+')),
        ("250400000", 250_000_000, (250_000_000, '+')),
        ("254999999", 250_000_000, (250_000_000, '+')),
        ("255000000", 250_000_000, (250_000_000, '+')),
        ("244999999.99999", 250_000_000, (240_000_000, ' ')),
        ("245000000", 250_000_000, (250_000_000, ' ')),
        ("999.99999", 1_000, (1_000, ' ')),
        ("1000", 1_000, (1_000, ' ')),
        ("1000.00001", 1_000, (1_000, '+')),
        ("1049.99999", 1_000, (1_000, '+')),
        ("3", 1_000, (5, ' ')),
        ("1000000000000000", LARGEST_CAP, (LARGEST_CAP, ' ')),
        ("1000000000000000.00001", LARGEST_CAP, (LARGEST_CAP, '+')),
        ("9999999999999999999999999", LARGEST_CAP, (LARGEST_CAP, '+')),
        ("18446744073709551616", 1_000, (1_000, '+')),
        ("18446744073709551621", LARGEST_CAP, (LARGEST_CAP, '+')),
    ] {
        assert_eq!(shown(amount, cap), due, "{amount} under {cap}");
    }
}

#[test]
fn each_class_has_its_own_cap() {
    let caps = [1_000, 1_100, 1_200, 1_300, 1_400];
    for (class, cap) in CLASSES.iter().zip(caps) {
        let mut compared = opened(caps);
        let message = plain_new().with(25, class).with(20, "5000");
        assert_eq!(compared.submit(&message.encode()).verdict, 0);
        let due = format!("{class}{cap:0NOTIONAL_SIZE$}+");
        let shown = CLASS_IN_LINE.start..PLUS_IN_LINE.end;
        assert_eq!(compared.tape()[shown], *due.as_bytes());
    }
}

#[test]
fn caps_at_opening() {
    let sound = [
        1_000,
        1_100,
        9_900,
        10_000,
        99_000,
        100_000,
        110_000,
        990_000,
        1_000_000,
        99_000_000,
        100_000_000,
        490_000_000,
        500_000_000,
        550_000_000,
        950_000_000,
        1_000_000_000,
        99_000_000_000,
        100_000_000_000,
        150_000_000_000,
        999_950_000_000_000,
        LARGEST_CAP,
    ];
    let wrong = [
        0,
        5,
        100,
        995,
        999,
        1_001,
        1_005,
        1_050,
        9_950,
        9_999,
        10_100,
        101_000,
        1_010_000,
        101_000_000,
        510_000_000,
        1_050_000_000,
        101_000_000_000,
        999_999_999_999_999,
        LARGEST_CAP + 1,
        LARGEST_CAP + 50_000_000_000,
        1 << 63,
        u64::MAX,
    ];
    let cases = sound.map(|cap| (cap, 0)).into_iter();
    for (cap, due) in cases.chain(wrong.map(|cap| (cap, 2))) {
        for place in 0..CLASSES.len() {
            let mut compared = Compared::new();
            compared.set_ledger(&vec![0xee; ledger_size(1)]);
            let mut caps = CAPS;
            caps[place] = cap;
            assert_eq!(compared.open(&caps).verdict, due, "{cap}");
        }
    }
}

#[test]
fn dates_and_leap_years() {
    for (date, sound) in [
        ("1900-01-01", true),
        ("1899-12-31", false),
        ("9999-12-31", true),
        ("1900-02-28", true),
        ("1900-02-29", false),
        ("2000-02-29", true),
        ("2000-02-30", false),
        ("2023-02-29", false),
        ("2024-02-29", true),
        ("2024-02-30", false),
        ("2100-02-29", false),
        ("2400-02-29", true),
        ("2024-01-31", true),
        ("2024-01-32", false),
        ("2024-04-30", true),
        ("2024-04-31", false),
        ("2024-12-31", true),
        ("2024-12-32", false),
        ("2024-13-01", false),
        ("2024-00-01", false),
        ("2024-01-00", false),
    ] {
        let due = |code| if sound { (0, 0) } else { (9, code) };
        let mut message = plain_new();
        message.set(8, "9999-12-31").set(9, "9999-12-31");
        assert_eq!(judged(&message.with(7, date).encode()), due(7), "{date}");
        message.set(7, "1900-01-01");
        assert_eq!(judged(&message.with(8, date).encode()), due(8), "{date}");
        message.set(8, "1900-01-01");
        assert_eq!(judged(&message.with(9, date).encode()), due(9), "{date}");
        let time = format!("{date}T00:00:00Z");
        assert_eq!(judged_with(4, &time), due(4), "{time}");
    }
}

#[test]
fn times_of_the_day() {
    for (clock, sound) in [
        ("00:00:00", true),
        ("23:59:59", true),
        ("24:00:00", false),
        ("23:60:00", false),
        ("23:59:60", false),
        ("19:09:09", true),
        ("20:00:00", true),
        ("29:00:00", false),
        ("00:59:00", true),
        ("00:00:59", true),
        ("00:61:00", false),
        ("00:00:61", false),
    ] {
        let due = |code| if sound { (0, 0) } else { (9, code) };
        let time = format!("2024-03-01T{clock}Z");
        assert_eq!(judged_with(4, &time), due(4), "{time}");
        let early = plain_new().with(6, "1900-01-01T00:00:00Z");
        assert_eq!(judged(&early.with(5, &time).encode()), due(5), "{time}");
        let late = plain_new().with(5, "9999-12-31T23:59:59Z");
        assert_eq!(judged(&late.with(6, &time).encode()), due(6), "{time}");
    }
}

#[test]
fn order_of_dates_and_times() {
    let order = |code: u8, value: &str, due: (u8, u8)| {
        assert_eq!(judged_with(code, value), due, "{code} {value}");
    };
    // Effective 2024-03-04, expiration 2029-03-04, settlement 2029-03-06.
    order(7, "2029-03-04", (0, 0));
    order(7, "2029-03-05", (13, 0));
    order(8, "2024-03-04", (0, 0));
    order(8, "2024-03-03", (13, 0));
    order(9, "2029-03-04", (0, 0));
    order(9, "2029-03-03", (13, 0));
    // Execution 10:15:30, reporting 10:20:00.
    order(5, "2024-03-01T10:15:30Z", (0, 0));
    order(5, "2024-03-01T10:15:29Z", (13, 0));
    order(6, "2024-03-01T10:20:00Z", (0, 0));
    order(6, "2024-03-01T10:20:01Z", (13, 0));
    // The event time is not judged.
    order(4, "1900-01-01T00:00:00Z", (0, 0));
    order(4, "9999-12-31T23:59:59Z", (0, 0));
}

#[test]
fn order_across_months_and_years() {
    // Effective, expiration and settlement.
    for (dates, due) in [
        (["2024-12-31", "2025-01-01", "2025-01-01"], 0),
        (["2025-01-01", "2024-12-31", "2025-01-01"], 13),
        (["2024-12-30", "2025-01-01", "2024-12-31"], 13),
        (["2024-01-31", "2024-02-01", "2024-02-01"], 0),
        (["2024-02-01", "2024-01-31", "2024-02-01"], 13),
        (["2024-01-01", "2024-02-01", "2024-01-31"], 13),
        (["2024-02-28", "2024-02-29", "2024-03-01"], 0),
        (["2024-03-01", "2024-02-29", "2024-03-01"], 13),
        (["2024-09-30", "2024-10-01", "2024-10-09"], 0),
        (["2024-10-09", "2024-10-10", "2024-10-09"], 13),
        (["1900-01-01", "9999-12-31", "9999-12-31"], 0),
        (["9999-12-31", "1900-01-01", "9999-12-31"], 13),
        (["1900-01-01", "9999-12-31", "1900-01-01"], 13),
    ] {
        let [effective, expiration, settlement] = dates;
        let message = plain_new().with(7, effective).with(8, expiration);
        let message = message.with(9, settlement);
        assert_eq!(judged(&message.encode()), (due, 0), "{dates:?}");
    }
    // Two times, the first before the second: execution, then reporting.
    for (earlier, later) in [
        ("2024-03-01T09:59:59Z", "2024-03-01T10:00:00Z"),
        ("2024-03-01T10:09:59Z", "2024-03-01T10:10:00Z"),
        ("2024-02-29T23:59:59Z", "2024-03-01T00:00:00Z"),
        ("2023-12-31T23:59:59Z", "2024-01-01T00:00:00Z"),
        ("1900-01-01T00:00:00Z", "9999-12-31T23:59:59Z"),
    ] {
        let message = plain_new().with(6, earlier).with(5, later);
        assert_eq!(judged(&message.encode()), (0, 0), "{earlier}");
        let message = plain_new().with(6, later).with(5, earlier);
        assert_eq!(judged(&message.encode()), (13, 0), "{earlier}");
    }
}

#[test]
fn check_digits_of_a_lei() {
    // 00, 01 and 99 pass where the remainder is 1.
    for (check, other) in [("97", "00"), ("98", "01"), ("02", "99")] {
        let bodies = (0..).map(|n| format!("{n:018}"));
        let mut fitting = bodies.filter(|body| lei_of(body.as_bytes()).ends_with(check.as_bytes()));
        let body = fitting.next().expect("some body has these check digits");
        for digits in [check, other] {
            let lei = format!("{body}{digits}");
            assert_eq!(remainder(lei.as_bytes()), 1);
            assert_eq!(judged_with(23, &lei), (0, 0), "{lei}");
            assert_eq!(judged_with(24, &lei), (0, 0), "{lei}");
        }
        let lei = format!("{body}50");
        assert_eq!(judged_with(23, &lei), (9, 23), "{lei}");
    }
}

#[test]
fn lengths_of_a_ledger() {
    for (length, verdict, capacity) in [
        (SHORTEST_LEDGER - 1, 1, 0),
        (SHORTEST_LEDGER, 0, 1),
        (SHORTEST_LEDGER + 1, 0, 1),
        (ledger_size(2) - 1, 0, 1),
        (ledger_size(2), 0, 2),
        (ledger_size(LARGEST_CAPACITY) - 1, 0, LARGEST_CAPACITY - 1),
        (ledger_size(LARGEST_CAPACITY), 0, LARGEST_CAPACITY),
        (ledger_size(LARGEST_CAPACITY) + 1, 0, LARGEST_CAPACITY),
        (ledger_size(LARGEST_CAPACITY + 1), 0, LARGEST_CAPACITY),
    ] {
        let mut compared = Compared::new();
        compared.set_ledger(&vec![0xee; length]);
        assert_eq!(compared.open(&CAPS).verdict, verdict, "{length}");
        if verdict == 0 {
            let written = layout::u32_at(compared.ledger(), CAPACITY_IN_HEADER);
            assert_eq!(written as usize, capacity, "{length}");
            let behind = &compared.ledger()[HEADER_SIZE..];
            assert!(behind.iter().all(|&byte| byte == 0xee));
            assert_eq!(compared.status(&[b'A'; SHORTEST_UTI]), Answer::default());
        }
    }
}

#[test]
fn rows_up_to_capacity() {
    for (length, rows) in [
        (SHORTEST_LEDGER, 1),
        (ledger_size(2) - 1, 1),
        (ledger_size(2), 2),
        (ledger_size(6) - 1, 5),
    ] {
        let mut compared = Compared::new();
        compared.set_ledger(&vec![0xee; length]);
        compared.set_tape(&[b'x'; LINE_SIZE]);
        assert_eq!(compared.open(&CAPS).verdict, 0);
        for n in 0..rows {
            let answer = compared.submit(&swap(n).encode());
            assert_eq!((answer.verdict, answer.identifier), (0, n + 1));
        }
        assert_eq!(compared.submit(&swap(rows).encode()).verdict, 17);
        // Known swaps go on, and their names are not free for NEWT.
        assert_eq!(compared.submit(&swap(0).encode()).verdict, 15);
        let changed = swap(0).with(2, "MODI").with(21, "EUR");
        assert_eq!(compared.submit(&changed.encode()).identifier, rows + 1);
        // Rows equal to capacity are no fault of the header.
        assert_eq!(compared.status(swap(0).value(1)).verdict, 0);
    }
}

/// A ledger of two rows in which the plain swap is live.
fn in_use(next: u64, identifier: u64) -> Vec<u8> {
    let mut ledger = vec![0xee; ledger_size(2)];
    let mut header = Header::opened(ledger.len(), CAPS);
    header.next = next;
    let terms = terms_of(&plain_new(), &CAPS);
    let rows = [Row::new(plain_new().value(1), identifier, terms)];
    header.count(&rows);
    layout::write(&mut ledger, &header, &rows);
    ledger
}

fn submit_to(ledger: &[u8], message: &Message) -> (Answer, Compared) {
    let mut compared = Compared::new();
    compared.set_ledger(ledger);
    compared.set_tape(&[b'x'; LINE_SIZE]);
    (compared.submit(&message.encode()), compared)
}

#[test]
fn the_next_identifier_at_its_end() {
    let new = swap(77);
    let ended = plain_short("TERM", Some("ETRM"));
    let ported = plain_short("PRTO", Some("PTNG"));
    for message in [&new, &ended] {
        let (answer, compared) = submit_to(&in_use(IDENTIFIER_LIMIT - 1, 1), message);
        assert_eq!((answer.verdict, answer.identifier), (0, 999_999_999_999));
        assert_eq!(compared.tape()[IDENTIFIER_IN_LINE], *b"999999999999");
        let next = layout::u64_at(compared.ledger(), NEXT_IN_HEADER);
        assert_eq!(next, IDENTIFIER_LIMIT);
        assert_eq!(
            submit_to(&in_use(IDENTIFIER_LIMIT, 1), message).0.verdict,
            18
        );
        assert_eq!(
            submit_to(&in_use(IDENTIFIER_LIMIT + 1, 1), message)
                .0
                .verdict,
            3
        );
        assert_eq!(submit_to(&in_use(0, 1), message).0.verdict, 3);
    }
    for (next, verdict) in [
        (IDENTIFIER_LIMIT - 1, 0),
        (IDENTIFIER_LIMIT, 0),
        (IDENTIFIER_LIMIT + 1, 3),
    ] {
        let (answer, _) = submit_to(&in_use(next, 1), &ported);
        assert_eq!((answer.verdict, answer.identifier), (verdict, 0));
    }
    // A last identifier of 999,999,999,999 is shown as the previous one.
    let (answer, _) = submit_to(&in_use(IDENTIFIER_LIMIT, IDENTIFIER_LIMIT - 1), &ported);
    assert_eq!(answer.verdict, 0);
}

#[test]
fn identifiers_that_carry() {
    let ended = plain_short("TERM", Some("ETRM"));
    for (previous, next, shown) in [
        (254, 255, "000000000255000000000254"),
        (255, 256, "000000000256000000000255"),
        (65_535, 65_536, "000000065536000000065535"),
        (4_294_967_294, 4_294_967_295, "004294967295004294967294"),
        (4_294_967_295, 4_294_967_296, "004294967296004294967295"),
        (549_755_813_887, 549_755_813_888, "549755813888549755813887"),
        (999_999_999_998, 999_999_999_999, "999999999999999999999998"),
    ] {
        let (answer, compared) = submit_to(&in_use(next, previous), &ended);
        assert_eq!((answer.verdict, answer.identifier), (0, next));
        let lead = IDENTIFIER_IN_LINE.start..PREVIOUS_IN_LINE.end;
        assert_eq!(compared.tape()[lead], *shown.as_bytes());
        let row = &compared.ledger()[row_range(0)];
        assert_eq!(layout::u64_at(row, IDENTIFIER_IN_ROW), next);
        let raised = layout::u64_at(compared.ledger(), NEXT_IN_HEADER);
        assert_eq!(raised, next + 1);
    }
}

#[test]
fn a_row_s_identifier_at_its_ends() {
    let next = 50;
    let uti = plain_new();
    let changed = plain_new().with(2, "MODI").with(21, "EUR");
    for (identifier, verdict) in [(0, 14), (1, 0), (49, 0), (50, 14), (51, 14), (u64::MAX, 14)] {
        let ledger = in_use(next, identifier);
        for message in [
            &changed,
            &plain_short("TERM", Some("ETRM")),
            &plain_short("PRTO", Some("PTNG")),
        ] {
            assert_eq!(
                submit_to(&ledger, message).0.verdict,
                verdict,
                "{identifier}"
            );
        }
        // NEWT of a known swap gets 15, but 14 comes first.
        let due = if verdict == 0 { 15 } else { 14 };
        assert_eq!(submit_to(&ledger, &plain_new()).0.verdict, due);
        // Other swaps do not mind.
        assert_eq!(submit_to(&ledger, &swap(5)).0.verdict, 0);
        let mut compared = Compared::new();
        compared.set_ledger(&ledger);
        let answer = compared.status(uti.value(1));
        let shown = if verdict == 0 {
            (1, identifier)
        } else {
            (0, 0)
        };
        assert_eq!(answer.verdict, verdict);
        assert_eq!((answer.status, answer.identifier), shown);
    }
}

#[test]
fn lengths_of_a_tape_buffer() {
    for (length, verdict) in [
        (0, 4),
        (1, 4),
        (LINE_SIZE - 1, 4),
        (LINE_SIZE, 0),
        (LINE_SIZE + 1, 0),
        (1000, 0),
    ] {
        for message in [plain_new(), plain_short("PRTO", Some("PTNG"))] {
            let mut compared = Compared::new();
            let known = message.value(2) == b"PRTO";
            let ledger = in_use(9, 3);
            compared.set_ledger(&ledger);
            compared.set_tape(&vec![b'x'; length]);
            let message = if known { message } else { swap(6) };
            let answer = compared.submit(&message.encode());
            assert_eq!(answer.verdict, verdict, "{length}");
            if known {
                assert!(compared.tape().iter().all(|&byte| byte == b'x'));
            } else if verdict == 0 {
                assert_eq!(compared.tape()[NEWLINE_IN_LINE], *b"\n");
                assert!(compared.tape()[LINE_SIZE..]
                    .iter()
                    .all(|&byte| byte == b'x'));
            }
        }
    }
}

/// A ledger of so many rows, of which the first are in use, with identifiers
/// from 1 on.
fn with_rows(capacity: usize, rows: u64) -> Vec<u8> {
    let mut ledger = vec![0xee; ledger_size(capacity)];
    let mut header = Header::opened(ledger.len(), CAPS);
    header.next = 200_000;
    let terms = terms_of(&plain_new(), &CAPS);
    let row = |n: u64| Row::new(swap(n).value(1), n + 1, terms);
    let rows: Vec<Row> = (0..rows).map(row).collect();
    header.count(&rows);
    layout::write(&mut ledger, &header, &rows);
    ledger
}

#[test]
fn rows_in_use_that_carry() {
    for rows in [255, 65_535] {
        let ledger = with_rows(rows as usize + 1, rows);
        let (answer, compared) = submit_to(&ledger, &swap(rows));
        assert_eq!(answer.identifier, 200_000);
        let raised = layout::u32_at(compared.ledger(), ROWS_IN_HEADER);
        assert_eq!(u64::from(raised), rows + 1);
        assert_eq!(layout::totals_in(compared.ledger()), [raised, 0, 0, 0]);
        let row = &compared.ledger()[row_range(rows as usize)];
        assert_eq!(row[UTI_IN_ROW].trim_ascii_end(), swap(rows).value(1));
    }
}

#[test]
fn a_hundred_thousand_rows() {
    let mut compared = Compared::new();
    compared.set_ledger(&with_rows(100_000, 100_000));
    compared.set_tape(&[b'x'; LINE_SIZE]);
    assert_eq!(compared.submit(&swap(100_000).encode()).verdict, 17);
    let changed = swap(99_999).with(2, "MODI").with(21, "EUR");
    assert_eq!(compared.submit(&changed.encode()).identifier, 200_000);
    assert_eq!(compared.tape()[PREVIOUS_IN_LINE], *b"000000100000");
    let answer = compared.status(swap(99_999).value(1));
    assert_eq!((answer.status, answer.identifier), (1, 200_000));
}
