//! Answers a table of questions, line by line. crates/vectors asks the core the
//! same table.
//!
//! A line is a word, a space and the rest, or the word alone (an empty value).
//! Fields have one space between them. A value that opens with '#' is
//! hexadecimal, any other is plain text.

use crate::amounts::{is_cap, masked};
use crate::elements::{
    has_form, Action, ACTION_TYPE, ALLOCATION, ASSET_CLASS, CLEARED, COUNTERPARTY_1,
    EFFECTIVE_DATE, EVENT_TIMESTAMP, EVENT_TYPE, NOTIONAL_AMOUNT, NOTIONAL_CURRENCY,
    PACKAGE_IDENTIFIER, PACKAGE_INDICATOR, PACKAGE_PRICE, PRICE_NOTATION, SETTLEMENT_LOCATION,
    SPREAD_NOTATION, UTI,
};
use crate::matrix::is_pair;
use crate::message::{layout_right, value};
use crate::price::shown_price;
use crate::rules::status_after;
use crate::sizes::NOTIONAL;

/// The words that ask for the form of a value, each with a code of that form.
const FORMS: [(&str, u16); 17] = [
    ("uti", UTI),
    ("action", ACTION_TYPE),
    ("event", EVENT_TYPE),
    ("time", EVENT_TIMESTAMP),
    ("date", EFFECTIVE_DATE),
    ("cleared", CLEARED),
    ("truth", PACKAGE_INDICATOR),
    ("allocation", ALLOCATION),
    ("package", PACKAGE_IDENTIFIER),
    ("price", PACKAGE_PRICE),
    ("notation", PRICE_NOTATION),
    ("spread-notation", SPREAD_NOTATION),
    ("currency", NOTIONAL_CURRENCY),
    ("notional", NOTIONAL_AMOUNT),
    ("location", SETTLEMENT_LOCATION),
    ("lei", COUNTERPARTY_1),
    ("class", ASSET_CLASS),
];

/// Each line of the table with " -> " and its answer; or the first line that
/// asks nothing.
pub fn answered(table: &str) -> Result<String, String> {
    let mut output = String::new();
    for line in table.lines() {
        let answer = answer(line).ok_or(format!("not a question: {line}"))?;
        output += &format!("{line} -> {answer}\n");
    }
    Ok(output)
}

fn answer(line: &str) -> Option<String> {
    let (word, rest) = line.split_once(' ').unwrap_or((line, ""));
    match word {
        "layout" => Some(yes_or_no(layout_right(&bytes(rest)?))),
        "element" => element(rest),
        "pair" => pair(rest),
        "step" => step(rest),
        "cap" => Some(yes_or_no(is_cap(rest.parse().ok()?))),
        "masked" => masked_notional(rest),
        "shown" => price(rest),
        form => {
            let &(_, code) = FORMS.iter().find(|(word, _)| *word == form)?;
            Some(yes_or_no(has_form(code, &bytes(rest)?)))
        }
    }
}

/// A code and a message whose layout is right: the element's bytes, or '-'
/// where the message has it not.
fn element(rest: &str) -> Option<String> {
    let (code, message) = rest.split_once(' ')?;
    let message = bytes(message)?;
    if !layout_right(&message) {
        return None;
    }
    let digits = |v: &[u8]| v.iter().map(|b| format!("{b:02x}")).collect();
    let found = value(&message, code.parse().ok()?).map(digits);
    Some(found.unwrap_or(none()))
}

/// An action and, where there is one, an event.
fn pair(rest: &str) -> Option<String> {
    let (action, event) = match rest.split_once(' ') {
        Some((action, event)) => (action, Some(event.as_bytes())),
        None => (rest, None),
    };
    Action::read(action.as_bytes())?;
    Some(yes_or_no(is_pair(action.as_bytes(), event)))
}

/// An action and a status: the status after, or '-' where there is no such step.
fn step(rest: &str) -> Option<String> {
    let (action, status) = rest.split_once(' ')?;
    let after = status_after(Action::read(action.as_bytes())?, status.parse().ok()?);
    Some(after.map_or(none(), |status| status.to_string()))
}

/// A cap and an amount: the notional as a line shows it, with its plus sign.
fn masked_notional(rest: &str) -> Option<String> {
    let (cap, amount) = rest.split_once(' ')?;
    let (shown, plus) = masked(amount.as_bytes(), cap.parse().ok()?)?;
    Some(format!("{shown:0NOTIONAL$}{}", if plus { "+" } else { "" }))
}

/// A price or spread as a line shows it, without padding.
fn price(rest: &str) -> Option<String> {
    let (field, length) = shown_price(rest.as_bytes())?;
    String::from_utf8(field[..length].to_vec()).ok()
}

fn yes_or_no(truth: bool) -> String {
    if truth { "yes" } else { "no" }.to_string()
}

/// What stands for a missing answer.
fn none() -> String {
    "-".to_string()
}

/// The bytes of a value.
fn bytes(text: &str) -> Option<Vec<u8>> {
    let Some(digits) = text.strip_prefix('#') else {
        return Some(text.as_bytes().to_vec());
    };
    let pair = |pair: &[u8]| {
        let pair = std::str::from_utf8(pair).ok().filter(|p| p.len() == 2)?;
        u8::from_str_radix(pair, 16).ok()
    };
    digits.as_bytes().chunks(2).map(pair).collect()
}
