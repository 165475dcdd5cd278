//! The tables of docs/SPECIFICATION.md are what core and checker do and what
//! the tests use.

use compare::codes::{list_of, CURRENCIES, LOCATIONS};
use compare::compared::Compared;
use compare::layout::*;
use compare::lists::{codes, ACTIONS, CLASSES, EVENTS, LAST_CODE};
use compare::lists::{PRICE_NOTATIONS, SPREAD_NOTATIONS};
use compare::matrix::{is_pair, status_after};
use compare::message::Message;
use compare::order;
use compare::sound::{plain_new, plain_package, plain_short, plain_spread};
use compare::terms::is_true;
use std::fs;
use std::ops::Range;
use std::path::Path;

/// The cells of a table, row by row, without its heading.
type Table = Vec<Vec<String>>;

/// The document from the line on that opens with these words.
fn from(opening: &str) -> Vec<String> {
    let package = Path::new(env!("CARGO_MANIFEST_DIR"));
    let text = fs::read_to_string(package.join("../../docs/SPECIFICATION.md"));
    let text = text.expect("docs/SPECIFICATION.md can be read");
    let lines = text.lines().skip_while(|line| !line.starts_with(opening));
    lines.map(str::to_string).collect()
}

/// The number of bytes that the paragraph with this opening says.
fn size(opening: &str) -> usize {
    number_before(opening, " bytes")
}

/// The number before these words in the paragraph with this opening.
fn number_before(opening: &str, words: &str) -> usize {
    let lines = from(opening);
    let end = lines.iter().position(|line| line.is_empty());
    let paragraph = lines[..end.unwrap_or(lines.len())].join(" ");
    let before = paragraph.split_once(words).expect("a number and words").0;
    let (_, digits) = before.rsplit_once(' ').expect("a number");
    number(digits) as usize
}

/// The first table behind the line that opens with these words.
fn table(opening: &str) -> Table {
    let rows: Table = from(opening)
        .iter()
        .skip_while(|line| !line.starts_with('|'))
        .take_while(|line| line.starts_with('|'))
        .map(|line| cells(line))
        .collect();
    assert!(rows.len() > 2, "{opening} has a table");
    rows[2..].to_vec()
}

fn cells(line: &str) -> Vec<String> {
    let inside = line.trim_matches('|');
    inside.split('|').map(|cell| cell.trim().into()).collect()
}

/// A number as the document writes it, with commas.
fn number(text: &str) -> u64 {
    let digits = text.replace(',', "");
    digits.parse().unwrap_or_else(|_| panic!("{text}"))
}

/// The fields of a layout: the columns offset and length.
fn fields(opening: &str) -> Vec<Range<usize>> {
    let field = |row: &Vec<String>| {
        let (offset, length) = (number(&row[0]) as usize, number(&row[1]) as usize);
        offset..offset + length
    };
    table(opening).iter().map(field).collect()
}

#[test]
fn the_line() {
    let line = [
        IDENTIFIER_IN_LINE,
        PREVIOUS_IN_LINE,
        ACTION_IN_LINE,
        EVENT_IN_LINE,
        EVENT_TIME_IN_LINE,
        TERMS_IN_LINE,
        NEWLINE_IN_LINE,
    ];
    assert_eq!(fields("**7.1**"), line);
    assert_eq!(size("**7.1**"), LINE_SIZE);
}

#[test]
fn the_masked_terms() {
    assert_eq!(fields("**7.2**"), FIELDS_OF_TERMS);
}

#[test]
fn the_header() {
    let header = [
        ROWS_IN_HEADER,
        FIRST_ROW_IN_HEADER,
        NEXT_IN_HEADER,
        CAPS_IN_HEADER,
        ROW_SIZE_IN_HEADER,
        CAPACITY_IN_HEADER,
        TOTALS_IN_HEADER,
    ];
    assert_eq!(fields("**8.1**"), header);
    assert_eq!(size("**8.1**"), HEADER_SIZE);
}

/// The totals stand in the order that 8.1 tells.
#[test]
fn the_totals() {
    let header = table("**8.1**");
    let content = &header[header.len() - 1][2];
    let (_, names) = content.split_once("how many swaps are ").expect("names");
    let (names, _) = names.split_once(", in this order").expect("an order");
    let names = names.replace(" and ", ", ");
    let names: Vec<&str> = names.split(", ").collect();
    for (name, step) in [
        ("live", None),
        ("closed", Some(plain_short("TERM", Some("ETRM")))),
        ("errored", Some(plain_short("EROR", None))),
        ("ported", Some(plain_short("PRTO", Some("PTNG")))),
    ] {
        let mut compared = opened();
        for message in [plain_new()].iter().chain(&step) {
            assert_eq!(compared.submit(&message.encode()).verdict, 0);
        }
        let due: Vec<u32> = names.iter().map(|&one| u32::from(one == name)).collect();
        assert_eq!(compared.totals().totals.to_vec(), due, "{name}");
    }
}

#[test]
fn a_row() {
    let row = [
        STATUS_IN_ROW..STATUS_IN_ROW + 1,
        LENGTH_IN_ROW..LENGTH_IN_ROW + 1,
        UTI_IN_ROW,
        IDENTIFIER_IN_ROW,
        TERMS_IN_ROW,
        TAIL_IN_ROW,
    ];
    assert_eq!(fields("**8.3**"), row);
    assert_eq!(size("**8.3**"), ROW_SIZE);
}

#[test]
fn lengths() {
    assert_eq!(size("**2.6**"), LONGEST_MESSAGE);
    assert_eq!(size("**8.2**"), SHORTEST_LEDGER);
    let codes = number_before("**2.1**", ", the number of known codes");
    assert_eq!(codes, usize::from(LAST_CODE));
    assert_eq!(number_before("**11.1**", " rows"), DAY_ROWS);
}

/// The lists of currencies and locations are as long as 4.14 says, and the
/// elements of these two forms are those that have a list.
#[test]
fn the_lists_of_codes() {
    let clause = "**4.14**";
    assert_eq!(number_before(clause, " alphabetic codes"), CURRENCIES.len());
    assert_eq!(number_before(clause, " two-letter codes"), LOCATIONS.len());
    let rows = table("## 3 Elements");
    for (row, code) in rows.iter().zip(codes()) {
        let due = match row[3].as_str() {
            "currency" => Some(CURRENCIES.as_slice()),
            "location" => Some(LOCATIONS.as_slice()),
            _ => None,
        };
        assert_eq!(number(&row[0]), u64::from(code));
        assert_eq!(list_of(code), due, "{row:?}");
    }
    assert_eq!(rows.len(), usize::from(LAST_CODE));
}

#[test]
fn the_order_of_rules() {
    let listed = |row: &Vec<String>| -> Vec<u8> {
        row[1].split(", ").map(|rule| number(rule) as u8).collect()
    };
    let orders: Vec<Vec<u8>> = table("**9.1**").iter().map(listed).collect();
    let operations = [
        &order::OPENING[..],
        &order::SUBMITTING,
        &order::ASKING,
        &order::TOTALS,
    ];
    assert_eq!(orders, operations);
}

#[test]
fn the_matrix() {
    let rows = table("**5.3**");
    assert_eq!(rows.len(), ACTIONS.len());
    let events: Vec<Option<&str>> = EVENTS
        .iter()
        .map(|&event| Some(event))
        .chain([None])
        .collect();
    for (row, action) in rows.iter().zip(ACTIONS) {
        assert_eq!((row[0].as_str(), row.len()), (action, 1 + events.len()));
        for (mark, event) in row[1..].iter().zip(&events) {
            assert_eq!(mark == "x", is_pair(action, *event), "{action} {event:?}");
        }
    }
}

#[test]
fn the_steps() {
    let statuses = ["unknown", "live", "closed", "errored", "ported"];
    let rows = table("**5.2**");
    assert_eq!(rows.len(), ACTIONS.len());
    for (row, action) in rows.iter().zip(ACTIONS) {
        assert_eq!(row[0], action);
        for (status, name) in statuses.iter().enumerate() {
            let admitted = row[2].split(", ").any(|from| from == *name);
            let after = if row[3] == "the same" {
                name
            } else {
                row[3].as_str()
            };
            let due = admitted.then(|| statuses.iter().position(|&to| to == after));
            let step = status_after(action, status as u8).map(|to| Some(usize::from(to)));
            assert_eq!(step, due, "{action} from {name}");
        }
    }
}

/// A ledger of one row, opened with the largest caps, and a tape buffer.
fn opened() -> Compared {
    Compared::opened(1, &[LARGEST_CAP; CLASSES.len()])
}

/// The notional that a line shows for an amount.
fn shown(amount: &str) -> u64 {
    let mut compared = opened();
    let message = plain_new().with(20, amount);
    assert_eq!(compared.submit(&message.encode()).verdict, 0, "{amount}");
    let digits = std::str::from_utf8(&compared.tape()[NOTIONAL_IN_LINE]);
    number(digits.expect("digits"))
}

/// Halfway between two multiples near the end of each band, and just below.
#[test]
fn the_bands() {
    const UNIT: u64 = 100_000;
    let text = |parts: u64| format!("{}.{:05}", parts / UNIT, parts % UNIT);
    for row in table("**6.1**") {
        let step = number(&row[1]);
        let end = match row[0].as_str() {
            "no limit" => 100 * step,
            limit => number(limit),
        };
        let halfway = (end - 2 * step) * UNIT + step * UNIT / 2;
        assert_eq!(shown(&text(halfway)), end - step, "{row:?}");
        assert_eq!(shown(&text(halfway - 1)), end - 2 * step, "{row:?}");
    }
}

#[test]
fn the_fourteen_examples() {
    let rows = table("**6.7**");
    let examples = rows
        .iter()
        .flat_map(|row| [(&row[0], &row[1]), (&row[2], &row[3])]);
    let mut count = 0;
    for (amount, due) in examples {
        assert_eq!(shown(&amount.replace(',', "")), number(due), "{amount}");
        count += 1;
    }
    assert_eq!(count, 14);
}

/// The verdict and element of a message about an unknown swap.
fn judged(message: &Message) -> (u8, u8) {
    let answer = opened().submit(&message.encode());
    (answer.verdict, answer.element)
}

/// The bytes of a cell: text in back quotes, or hexadecimal.
fn bytes(cell: &str) -> Vec<u8> {
    match cell.strip_prefix('`') {
        Some(text) => text.trim_end_matches('`').as_bytes().to_vec(),
        None => {
            let byte = |pair| u8::from_str_radix(pair, 16).expect("hexadecimal");
            cell.split(' ').map(byte).collect()
        }
    }
}

/// The layout is right, and so are the values; the swap is unknown.
#[test]
fn the_message_of_the_example() {
    let mut message = Vec::new();
    for row in table("This TERM has") {
        assert_eq!(message.len() as u64, number(&row[0]), "{row:?}");
        message.extend(bytes(&row[1]));
    }
    assert_eq!(message.len(), 91);
    let answer = opened().submit(&message);
    assert_eq!((answer.verdict, answer.element), (15, 0));
}

/// The code and the column needed of each element.
fn elements() -> Vec<(u8, String)> {
    let rows = table("## 3 Elements");
    let element = |row: &Vec<String>| (number(&row[0]) as u8, row[4].clone());
    let elements: Vec<(u8, String)> = rows.iter().map(element).collect();
    assert!(elements.iter().map(|(code, _)| *code).eq(1..=LAST_CODE));
    elements
}

/// What is answered where a needed element is missing.
fn missing(code: u8, needed: &str) -> Option<(u8, u8)> {
    match needed {
        "all" | "full" if code != 2 => Some((7, code)),
        "all" => Some((6, 2)),
        "by the matrix" => Some((10, 0)),
        _ => None,
    }
}

/// Whether each part of a condition, as of "if 15 is true and 17 is there",
/// holds; no condition does not.
fn holds(message: &Message, needed: &str) -> bool {
    let Some(condition) = needed.strip_prefix("if ") else {
        assert!(["all", "full", "by the matrix", "no"].contains(&needed));
        return false;
    };
    let condition = condition.replace(" and ", ", ");
    condition.split(", ").all(|part| {
        let (code, is) = part.split_once(" is ").expect("a part of a condition");
        let code = number(code) as u8;
        match is {
            "there" => message.has(code),
            "missing" => !message.has(code),
            "true" => is_true(message.value(code)),
            value => message.value(code) == value.as_bytes(),
        }
    })
}

/// What the conditions of the column needed say of a message.
fn by_conditions(elements: &[(u8, String)], message: &Message) -> (u8, u8) {
    let at_fault = |(code, needed): &&(u8, String)| !message.has(*code) && holds(message, needed);
    let lowest = elements.iter().find(at_fault);
    lowest.map_or((0, 0), |(code, _)| (11, *code))
}

/// Packages of every quote and notation, and a message that is none, with and
/// without elements that are left out.
fn full_messages() -> Vec<Message> {
    let prices = PRICE_NOTATIONS.map(|notation| plain_package(notation, "2"));
    let spreads = SPREAD_NOTATIONS.map(|notation| plain_spread(notation, "2"));
    let whole = plain_package("1", "2").with(15, "False").with(27, "1");
    let plain = [plain_new(), plain_new().with(26, "2"), whole.with(26, "2")];
    let spread_beside = plain_spread("1", "2").with(18, "1");
    let price_beside = plain_package("1", "2").with(27, "1");
    let messages = prices.into_iter().chain(spreads).chain(plain);
    let messages = messages.chain([spread_beside, price_beside]);
    messages
        .flat_map(|message| {
            let not_cleared = message.with(10, "N").with(11, "True");
            [message, not_cleared]
        })
        .collect()
}

/// The column needed: what is answered where the element is missing.
#[test]
fn the_elements() {
    let elements = elements();
    let short = plain_short("TERM", Some("ETRM"));
    let mut met = Vec::new();
    for (code, needed) in &elements {
        for message in full_messages() {
            let left = message.without(*code);
            let due = missing(*code, needed).unwrap_or_else(|| by_conditions(&elements, &left));
            assert_eq!(judged(&message), (0, 0), "{message:?}");
            assert_eq!(judged(&left), due, "{left:?}");
            met.push(due);
        }
        let brief = missing(*code, needed).filter(|_| needed != "full");
        let due = brief.unwrap_or((15, 0));
        assert_eq!(judged(&short.without(*code)), due, "{code}");
    }
    let conditional = elements
        .iter()
        .filter(|(_, needed)| needed.starts_with("if "));
    for (code, _) in conditional {
        assert!(met.contains(&(11, *code)), "11 with {code}");
    }
}
