//! Currencies and locations: the codes of the lists in data/ are accepted, and
//! nothing else is. What is due comes from these lists or is written by hand.

use compare::codes::{of_capitals, CURRENCIES, LOCATIONS};
use compare::compared::Compared;
use compare::layout::{self, ledger_size, row_range, Header, Row, DAY_CAPS, LINE_SIZE};
use compare::layout::{IDENTIFIER_LIMIT, LOCATION_IN_LINE, NOTIONAL_CURRENCY_IN_LINE};
use compare::layout::{PRICE_CURRENCY_IN_LINE, SHORTEST_LEDGER, SPREAD_CURRENCY_IN_LINE};
use compare::layout::{TERMS_IN_LINE, TERMS_IN_ROW};
use compare::lists::codes_with_a_form;
use compare::malformed;
use compare::message::{readable, Message};
use compare::random::Random;
use compare::sound::{plain_new, plain_package, plain_short, plain_spread, swap};
use compare::submissions;
use compare::terms::terms_of;
use std::ops::Range;

/// Notional currency and location in the line.
const BOTH: Range<usize> = NOTIONAL_CURRENCY_IN_LINE.start..LOCATION_IN_LINE.end;
/// So many bytes further back than in the line the masked terms stand in the
/// row.
const FURTHER: usize = TERMS_IN_ROW.start - TERMS_IN_LINE.start;
/// Notional currency and location in the row.
const BOTH_OF_ROW: Range<usize> = BOTH.start + FURTHER..BOTH.end + FURTHER;

/// How many codes the lists have.
const CURRENCY_COUNT: usize = 180;
const LOCATION_COUNT: usize = 249;

/// Verdict and element.
type Due = (u8, u8);

/// A fresh ledger of two rows and a tape buffer.
fn opened() -> Compared {
    Compared::opened(2, &DAY_CAPS)
}

/// Verdict and element of a message.
fn submitted(compared: &mut Compared, message: &Message) -> Due {
    let answer = compared.submit(&message.encode());
    (answer.verdict, answer.element)
}

/// Verdict and element of a message on a fresh ledger.
fn judged(message: &Message) -> Due {
    submitted(&mut opened(), message)
}

// Places.

/// An element that has a list, in a message that is sound but for it.
struct Place {
    /// What the text of a failure calls it.
    name: &'static str,
    message: Message,
    element: u8,
    list: &'static [&'static str],
    column: Range<usize>,
    /// Whether the element counts; else it is left out.
    counts: bool,
}

impl Place {
    /// A place of a currency.
    fn currency(name: &'static str, element: u8, message: Message) -> Place {
        let column = match element {
            19 => PRICE_CURRENCY_IN_LINE,
            21 => NOTIONAL_CURRENCY_IN_LINE,
            _ => SPREAD_CURRENCY_IN_LINE,
        };
        Place {
            name,
            message,
            element,
            list: &CURRENCIES,
            column,
            counts: true,
        }
    }

    /// Submits the message with this value to a fresh ledger. The answer is
    /// what is due. A refusal changes nothing; a line shows the value, or
    /// spaces where it is left out.
    fn check(&self, value: &[u8], due: Due) {
        let text = format!("{}: {}", self.name, readable(value));
        let mut compared = opened();
        let before = [compared.ledger(), compared.tape()].map(<[u8]>::to_vec);
        let message = self.message.with(self.element, value);
        let answer = compared.submit(&message.encode());
        assert_eq!((answer.verdict, answer.element), due, "{text}");
        if due != (0, 0) {
            assert_eq!(answer.identifier, 0, "{text}");
            assert_eq!([compared.ledger(), compared.tape()], before, "{text}");
            return;
        }
        assert_eq!(answer.identifier, 1, "{text}");
        let spaces = vec![b' '; value.len()];
        let shown = if self.counts { value } else { &spaces };
        assert_eq!(compared.tape()[self.column.clone()], *shown, "{text}");
    }

    /// The value is refused: it breaks the element's form.
    fn refuses(&self, value: impl AsRef<[u8]>) {
        self.check(value.as_ref(), (9, self.element));
    }

    /// The value is accepted.
    fn accepts(&self, value: impl AsRef<[u8]>) {
        self.check(value.as_ref(), (0, 0));
    }

    /// The value is accepted exactly if the list has it. Says whether it is.
    fn accepts_listed(&self, value: &[u8]) -> bool {
        let listed = self.list.iter().any(|code| code.as_bytes() == value);
        if listed {
            self.accepts(value);
        } else {
            self.refuses(value);
        }
        listed
    }

    /// The codes whose neighbours are tried: all of the list where the element
    /// counts, and a few where it is left out.
    fn codes(&self) -> &[&'static str] {
        if self.counts {
            self.list
        } else {
            &FEW
        }
    }

    /// How many of these values are accepted, which are those of the list.
    fn accepted<T: AsRef<[u8]>>(&self, values: impl IntoIterator<Item = T>) -> usize {
        let accepted = |value: &T| self.accepts_listed(value.as_ref());
        values.into_iter().filter(accepted).count()
    }
}

/// Some currencies, the first and the last of the list among them.
const FEW: [&str; 5] = ["AED", "CHE", "CNY", "USD", "ZWL"];

/// The places of currencies that count.
fn counting() -> Vec<Place> {
    vec![
        Place::currency("notional currency", 21, plain_new()),
        Place::currency("price currency", 19, plain_package("1", "5")),
        Place::currency("spread currency", 28, plain_spread("1", "5")),
    ]
}

/// The places of currencies that are left out: the form is judged all the same.
fn left_out() -> Vec<Place> {
    let (price, spread) = (plain_package("1", "5"), plain_spread("1", "5"));
    let places = [
        ("price currency alone", 19, plain_new()),
        ("price without a package", 19, price.with(15, "False")),
        ("price in decimals", 19, plain_package("3", "5")),
        ("price currency beside a spread", 19, spread.clone()),
        ("notation 1 beside a spread", 19, spread.with(18, "1")),
        ("spread currency alone", 28, plain_new()),
        ("spread without a package", 28, spread.with(15, "false")),
        ("spread in decimals", 28, plain_spread("3", "5")),
        ("spread in basis points", 28, plain_spread("4", "5")),
        ("spread currency beside a price", 28, price.clone()),
        ("notation 1 beside a price", 28, price.with(27, "1")),
    ];
    let left_out = |(name, element, message)| Place {
        counts: false,
        ..Place::currency(name, element, message)
    };
    places.into_iter().map(left_out).collect()
}

fn currencies() -> Vec<Place> {
    counting().into_iter().chain(left_out()).collect()
}

/// The place of the location, which is never left out.
fn location() -> Place {
    Place {
        name: "settlement location",
        message: plain_new(),
        element: 22,
        list: &LOCATIONS,
        column: LOCATION_IN_LINE,
        counts: true,
    }
}

fn places() -> Vec<Place> {
    currencies().into_iter().chain([location()]).collect()
}

// Every code.

#[test]
fn every_code_of_three_capitals_as_a_currency() {
    let codes = of_capitals(3);
    assert_eq!(codes.len(), 17_576);
    for place in counting() {
        assert_eq!(place.accepted(&codes), CURRENCY_COUNT, "{}", place.name);
    }
}

#[test]
fn every_code_of_three_capitals_as_a_currency_that_is_left_out() {
    let codes = of_capitals(3);
    for place in left_out() {
        assert_eq!(place.accepted(&codes), CURRENCY_COUNT, "{}", place.name);
    }
}

#[test]
fn every_code_of_two_capitals_as_a_location() {
    let codes = of_capitals(2);
    assert_eq!(codes.len(), 676);
    assert_eq!(location().accepted(&codes), LOCATION_COUNT);
}

#[test]
fn every_two_bytes_as_a_location() {
    let values = (0..=u16::MAX).map(u16::to_be_bytes);
    assert_eq!(location().accepted(values), LOCATION_COUNT);
}

/// Funds, metals, the code for tests and the one for no currency are in the
/// list of currencies.
const LISTED_CURRENCIES: [&str; 26] = [
    "AED", "USD", "EUR", "GBP", "JPY", "CNY", "HKD", "SLE", "VED", "VES", "BOV", "CHE", "CHW",
    "CLF", "COU", "MXV", "USN", "XAG", "XAU", "XPD", "XPT", "XDR", "XUA", "XTS", "XXX", "ZWL",
];

/// What traders say, what was withdrawn before July 2024 or came after it, and
/// what never was a currency.
const OTHER_CURRENCIES: [&str; 26] = [
    "CNH", "CNT", "RMB", "GBX", "USX", "NTD", "BTC", "XBT", "ETH", "DEM", "FRF", "XEU", "HRK",
    "LTL", "MRO", "STD", "BYR", "SLL", "VEF", "USS", "XCG", "AAA", "AEC", "ZWM", "ZZZ", "DSU",
];

const LISTED_LOCATIONS: [&str; 16] = [
    "AD", "US", "GB", "CN", "HK", "MO", "TW", "AQ", "AX", "BQ", "CW", "SX", "SS", "TL", "EH", "ZW",
];

/// Codes that are in use without being assigned, codes that were withdrawn,
/// and others.
const OTHER_LOCATIONS: [&str; 20] = [
    "XK", "UK", "EU", "EL", "EZ", "UN", "AC", "IC", "AN", "CS", "DD", "FX", "SU", "YU", "ZR", "XX",
    "AA", "AB", "ZX", "ZZ",
];

#[test]
fn codes_by_hand() {
    for place in currencies() {
        for code in LISTED_CURRENCIES {
            place.accepts(code);
        }
        for code in OTHER_CURRENCIES {
            place.refuses(code);
        }
    }
    for code in LISTED_LOCATIONS {
        location().accepts(code);
    }
    for code in OTHER_LOCATIONS {
        location().refuses(code);
    }
}

// Other values.

/// The code with each byte in each of its places. The code itself is met as
/// often as it has places.
fn with_each_byte(code: &str) -> Vec<Vec<u8>> {
    let changed = |at: usize, byte: u8| {
        let mut value = code.as_bytes().to_vec();
        value[at] = byte;
        value
    };
    (0..code.len())
        .flat_map(|at| (0..=u8::MAX).map(move |byte| changed(at, byte)))
        .collect()
}

#[test]
fn every_byte_in_each_place_of_a_currency() {
    for place in currencies() {
        let all = place.element == 21;
        for code in if all { place.list } else { &FEW } {
            assert!(place.accepted(with_each_byte(code)) >= 3, "{code}");
        }
    }
}

/// The code with one letter raised by one and the next one lowered by a base,
/// and the other way round: as numbers in that base the three are the same.
fn same_number(code: &str, at: usize, base: u8) -> [Vec<u8>; 2] {
    let changed = |by: u8, next_by: u8| {
        let mut value = code.as_bytes().to_vec();
        value[at] = value[at].wrapping_add(by);
        value[at + 1] = value[at + 1].wrapping_add(next_by);
        value
    };
    [
        changed(1, base.wrapping_neg()),
        changed(1_u8.wrapping_neg(), base),
    ]
}

#[test]
fn codes_that_are_the_same_number() {
    assert_eq!(same_number("USD", 0, 26), [b"V9D", b"TmD"]);
    for place in places() {
        for code in place.codes() {
            for base in [1, 10, 26, 27, 32, 36, 64, 100, 128] {
                for at in 0..code.len() - 1 {
                    place.accepted(same_number(code, at, base));
                }
            }
        }
    }
}

/// The code with small letters in all choices of places but none.
fn with_small_letters(code: &str) -> Vec<String> {
    let spelled = |choice: u32| {
        let letter = |(at, letter): (usize, char)| match choice >> at & 1 {
            1 => letter.to_ascii_lowercase(),
            _ => letter,
        };
        code.chars().enumerate().map(letter).collect()
    };
    (1..1 << code.len()).map(spelled).collect()
}

#[test]
fn small_letters() {
    assert_eq!(with_small_letters("US"), ["uS", "Us", "us"]);
    assert_eq!(with_small_letters("USD").len(), 7);
    for place in places() {
        for code in place.codes() {
            for value in with_small_letters(code) {
                place.refuses(value);
            }
        }
    }
}

/// Letters, and bytes that hosts take for the end of a text or for nothing.
fn surplus() -> Vec<Vec<u8>> {
    let others: [&[u8]; 8] = [b" ", b"\n", b"\r\n", b"\t", b"\0", b"1", b".", b"\xff"];
    let letters = of_capitals(1).into_iter().map(String::into_bytes);
    letters.chain(others.map(<[u8]>::to_vec)).collect()
}

#[test]
fn other_lengths() {
    let surplus = surplus();
    for place in places() {
        // No value is empty: the layout is wrong.
        place.check(b"", (5, 0));
        for code in place.codes().iter().map(|code| code.as_bytes()) {
            for length in 1..code.len() {
                place.refuses(&code[..length]);
                place.refuses(&code[length..]);
            }
            for more in &surplus {
                place.refuses([code, more].concat());
                place.refuses([more, code].concat());
            }
            for times in [2, 3, 100] {
                place.refuses(code.repeat(times));
            }
        }
        for byte in [0, b' ', b'\n', b'0', b'A', b'U', b'a', 255] {
            for length in 1..=5 {
                place.refuses(vec![byte; length]);
            }
        }
    }
}

#[test]
fn codes_of_the_other_list() {
    for place in currencies() {
        for location in LOCATIONS.iter() {
            place.refuses(location);
            place.refuses(format!("{location} "));
            place.refuses(format!(" {location}"));
            place.refuses(format!("{location}{location}"));
        }
        for currency in CURRENCIES.iter() {
            place.refuses(format!("USD{currency}"));
            place.refuses(format!("{currency}/USD"));
        }
    }
    let place = location();
    for currency in CURRENCIES.iter() {
        place.refuses(currency);
        place.refuses(format!("US{currency}"));
    }
    for location in LOCATIONS.iter() {
        place.refuses(format!("US{location}"));
        place.refuses(format!("{location}-US"));
    }
}

#[test]
fn random_values() {
    let mut random = Random::for_test(1001);
    let places = places();
    let alphabets: [&[u8]; 3] = [
        b"ABCDEHKNOSUXYZ",
        b"CHKNSUYchknsuy",
        b"CNHYUSDK 0\0\n\x80\xff",
    ];
    let mut accepted = vec![0; places.len()];
    let wanted = submissions(60_000);
    for _ in 0..wanted {
        let at = random.below(places.len());
        let alphabet = *random.pick(&alphabets);
        let length = random.between(1, 4);
        accepted[at] += places[at].accepted([random.text(length, alphabet)]);
    }
    println!("random values: of {wanted} accepted in each place {accepted:?}");
    assert!(accepted.iter().all(|&count| count > 0));
}

// The offshore yuan.

/// Traders call it CNH. It is reported as CNY, with the settlement location HK.
#[test]
fn offshore_yuan() {
    for place in currencies() {
        place.refuses("CNH");
        place.accepts("CNY");
    }
    let yuan = plain_new().with(21, "CNY").with(22, "HK");
    let mut compared = opened();
    for (wrong, due) in [
        (yuan.with(21, "CNH"), (9, 21)),
        (yuan.with(21, "CNH").without(22), (9, 21)),
        (yuan.with(21, "cny"), (9, 21)),
        (yuan.with(19, "CNH"), (9, 19)),
        (yuan.with(28, "CNH"), (9, 28)),
        (yuan.with(22, "CNH"), (9, 22)),
        (yuan.with(22, "Hk"), (9, 22)),
    ] {
        assert_eq!(submitted(&mut compared, &wrong), due, "{wrong:?}");
    }
    check_accepted(&mut compared, &yuan, 1, b"CNYHK");
    // Nothing asks for the location.
    assert_eq!(judged(&yuan.without(22)), (0, 0));
    for (quoted, element, column) in [
        (plain_package("1", "7.25"), 19, PRICE_CURRENCY_IN_LINE),
        (plain_spread("1", "-0.05"), 28, SPREAD_CURRENCY_IN_LINE),
    ] {
        let yuan = quoted.with(21, "CNY").with(22, "HK").with(element, "CNY");
        let mut compared = opened();
        let wrong = yuan.with(element, "CNH");
        assert_eq!(submitted(&mut compared, &wrong), (9, element));
        check_accepted(&mut compared, &yuan, 1, b"CNYHK");
        assert_eq!(compared.tape()[column], *b"CNY");
    }
}

// The life of a swap.

/// The elements that have a list, and for each a value that is not in it.
const FAULTS: [(u8, &str); 4] = [(19, "CNH"), (21, "CNH"), (22, "XK"), (28, "CNH")];

/// The message with all these faults.
fn with_faults(message: &Message) -> Message {
    let mut wrong = message.clone();
    for (element, value) in FAULTS {
        wrong.set(element, value);
    }
    wrong
}

/// The message with another action and event.
fn with_action(message: &Message, action: &str, event: Option<&str>) -> Message {
    let message = message.with(2, action);
    match event {
        Some(event) => message.with(3, event),
        None => message.without(3),
    }
}

/// Submits a message about the first row's swap that is accepted. Line and row
/// hold this notional currency with its location.
fn check_accepted(compared: &mut Compared, message: &Message, identifier: u64, due: &[u8]) {
    let answer = compared.submit(&message.encode());
    assert_eq!((answer.verdict, answer.identifier), (0, identifier));
    assert_eq!(compared.tape()[BOTH], *due);
    assert_eq!(compared.ledger()[row_range(0)][BOTH_OF_ROW], *due);
}

#[test]
fn codes_over_the_life_of_a_swap() {
    let mut compared = opened();
    for (n, (action, event, due)) in [
        ("NEWT", Some("TRAD"), "USDUS"),
        ("MODI", Some("TRAD"), "CNYHK"),
        ("CORR", None, "XTSAQ"),
        ("EROR", None, "XTSAQ"),
        ("REVI", None, "ZWLZW"),
        ("TERM", Some("ETRM"), "ZWLZW"),
        ("CORR", None, "AEDAD"),
        ("REVI", None, "XXXSX"),
    ]
    .into_iter()
    .enumerate()
    {
        let (currency, location) = due.split_at(3);
        let full = plain_new().with(21, currency).with(22, location);
        let mut message = with_action(&full, action, event);
        if ["EROR", "TERM"].contains(&action) {
            message = plain_short(action, event);
        } else {
            for (element, value) in FAULTS {
                let wrong = message.with(element, value);
                assert_eq!(submitted(&mut compared, &wrong), (9, element), "{action}");
            }
        }
        check_accepted(&mut compared, &message, n as u64 + 1, due.as_bytes());
    }
}

/// Header and row of a ledger of so many rows in which the plain swap is live,
/// with this notional currency and location.
fn in_use(rows: usize, currency: &str, location: &str) -> (Header, Row) {
    let mut header = Header::opened(ledger_size(rows), DAY_CAPS);
    header.next = 9;
    let message = plain_new().with(21, currency).with(22, location);
    let row = Row::new(message.value(1), 3, terms_of(&message, &DAY_CAPS));
    header.count(std::slice::from_ref(&row));
    (header, row)
}

/// Lends a ledger with this header and row, and a tape buffer of a line.
fn lent((header, row): &(Header, Row)) -> Compared {
    let mut ledger = vec![0xee; ledger_size(header.capacity as usize)];
    layout::write(&mut ledger, header, std::slice::from_ref(row));
    let mut compared = Compared::new();
    compared.set_ledger(&ledger);
    compared.set_tape(&[b'x'; LINE_SIZE]);
    compared
}

/// A ledger may hold codes that are in no list, from the time before. They are
/// shown like others; a message has to be right all the same.
#[test]
fn stored_codes_are_not_judged() {
    let stored = in_use(2, "CNH", "XK");
    let modi = plain_new().with(2, "MODI");
    let term = plain_short("TERM", Some("ETRM"));
    for short in [&term, &plain_short("EROR", None)] {
        check_accepted(&mut lent(&stored), short, 9, b"CNHXK");
    }
    let mut compared = lent(&stored);
    let answer = compared.status(plain_new().value(1));
    assert_eq!(
        (answer.verdict, answer.status, answer.identifier),
        (0, 1, 3)
    );
    let unchanged = modi.with(21, "CNH").with(22, "XK");
    assert_eq!(submitted(&mut compared, &unchanged), (9, 21));
    let unchanged = modi.with(21, "CNY").with(22, "XK");
    assert_eq!(submitted(&mut compared, &unchanged), (9, 22));
    let mended = modi.with(21, "CNY").with(22, "HK");
    check_accepted(&mut compared, &mended, 9, b"CNYHK");
    check_accepted(&mut compared, &term, 10, b"CNYHK");
}

/// They take none of the four elements: 8, whatever the value.
#[test]
fn short_messages_have_no_codes() {
    for (action, event) in [
        ("TERM", Some("ETRM")),
        ("EROR", None),
        ("PRTO", Some("PTNG")),
    ] {
        let message = plain_short(action, event);
        let mut compared = lent(&in_use(2, "USD", "US"));
        for (element, unlisted) in FAULTS {
            for value in ["USD", "US", "usd", "x", unlisted] {
                let wrong = message.with(element, value);
                assert_eq!(submitted(&mut compared, &wrong), (8, element), "{action}");
            }
        }
        let wrong = with_faults(&message);
        assert_eq!(submitted(&mut compared, &wrong), (8, 19), "{action}");
        assert_eq!(submitted(&mut compared, &message), (0, 0), "{action}");
    }
}

// The order of rules.

/// The four elements in one message, with every choice of them at fault.
#[test]
fn the_lowest_element_at_fault_is_named() {
    let sound = plain_new().with(19, "EUR").with(22, "GB").with(28, "JPY");
    for choice in 0..1 << FAULTS.len() {
        let chosen = FAULTS.iter().enumerate();
        let chosen = chosen.filter(|(n, _)| choice >> n & 1 == 1);
        let (mut message, mut due) = (sound.clone(), (0, 0));
        for (_, (element, value)) in chosen.rev() {
            message.set(*element, value);
            due = (9, *element);
        }
        assert_eq!(judged(&message), due, "{message:?}");
    }
}

/// Beside any other element that breaks its form.
#[test]
fn an_element_with_a_lower_code_is_named_first() {
    for (element, value) in FAULTS {
        let wrong = plain_new().with(element, value);
        assert_eq!(judged(&wrong), (9, element));
        for other in codes_with_a_form().filter(|&other| other != element) {
            for malformed in malformed::values(other) {
                let message = wrong.with(other, malformed);
                let due = (9, element.min(other));
                assert_eq!(judged(&message), due, "{message:?}");
            }
        }
    }
}

/// Messages that a rule behind 9 refuses on a fresh ledger.
fn refused_behind_9() -> Vec<(Message, Due)> {
    let (price, spread) = (plain_package("1", "5"), plain_spread("1", "5"));
    vec![
        (plain_new().with(3, "ETRM"), (10, 0)),
        (plain_new().without(3), (10, 0)),
        (plain_new().with(10, "N"), (11, 11)),
        (price.without(16), (11, 16)),
        (price.without(17), (11, 17)),
        (price.without(18), (11, 18)),
        (price.without(19), (11, 19)),
        (spread.without(27), (11, 27)),
        (spread.without(28), (11, 28)),
        (price.with(26, "5").with(27, "4"), (19, 0)),
        (plain_package("3", "123456789012"), (12, 0)),
        (plain_spread("4", "123456"), (12, 0)),
        (plain_new().with(8, "2024-03-03"), (13, 0)),
        (plain_new().with(9, "2029-03-03"), (13, 0)),
        (plain_new().with(5, "2024-03-01T10:15:29Z"), (13, 0)),
        (plain_new().with(2, "MODI"), (15, 0)),
    ]
}

/// The swap is closed, and counted so.
fn close(header: &mut Header, row: &mut Row) {
    row.status = sdr::CLOSED;
    header.count(std::slice::from_ref(row));
}

#[test]
fn codes_come_before_the_rules_behind_9() {
    for (message, due) in refused_behind_9() {
        assert_eq!(judged(&message), due, "{message:?}");
        for (element, value) in FAULTS {
            let wrong = message.with(element, value);
            assert_eq!(judged(&wrong), (9, element), "{wrong:?}");
        }
    }
    let stored = |change: fn(&mut Header, &mut Row)| {
        let (mut header, mut row) = in_use(2, "USD", "US");
        change(&mut header, &mut row);
        (header, row)
    };
    let modi = plain_new().with(2, "MODI");
    let later = modi.with(6, "2024-03-01T10:15:31Z");
    for (ledger, message, due) in [
        (stored(|_, row| row.identifier = 0), modi.clone(), 14),
        (stored(close), modi, 15),
        (stored(|_, _| ()), plain_new(), 15),
        (stored(|_, _| ()), later, 16),
        (in_use(1, "USD", "US"), swap(2), 17),
        (
            stored(|header, _| header.next = IDENTIFIER_LIMIT),
            swap(2),
            18,
        ),
    ] {
        let mut compared = lent(&ledger);
        for (element, value) in FAULTS {
            let wrong = message.with(element, value);
            assert_eq!(submitted(&mut compared, &wrong), (9, element), "{due}");
        }
        assert_eq!(submitted(&mut compared, &message), (due, 0));
    }
}

#[test]
fn codes_come_after_the_rules_before_9() {
    for (message, due) in [
        (plain_new().with(16, ""), (5, 0)),
        (plain_new().with(2, "newt"), (6, 2)),
        (plain_new().without(2), (6, 2)),
        (plain_new().without(1), (7, 1)),
        (plain_new().without(25), (7, 25)),
    ] {
        assert_eq!(judged(&message), due, "{message:?}");
        let wrong = with_faults(&message);
        assert_eq!(judged(&wrong), due, "{wrong:?}");
    }
    // 21 is not there: it is missing, and the other three are not looked at.
    let missing = with_faults(&plain_new()).without(21);
    assert_eq!(judged(&missing), (7, 21));
    let wrong = with_faults(&plain_new());
    let mut compared = opened();
    compared.set_tape(&[b'x'; LINE_SIZE - 1]);
    assert_eq!(submitted(&mut compared, &wrong), (4, 0));
    compared.set_ledger(&[0; SHORTEST_LEDGER]);
    assert_eq!(submitted(&mut compared, &wrong), (3, 0));
}
