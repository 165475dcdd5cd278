//! Sound messages: those that break no rule that looks at the message alone.

use crate::layout::{Num, BASIS_POINTS_NUM, DECIMAL_NUM, PRICE_NUM};
use crate::lists::*;
use crate::matrix::{events_of, is_full};
use crate::message::Message;
use crate::random::Random;
use crate::terms::{applies, is_package, is_quoted_by};
use crate::values;

/// A sound message of an action about a swap.
pub fn message(random: &mut Random, action: &str, uti: &[u8]) -> Message {
    let mut message = without_terms(random, action, uti);
    if is_full(action) {
        set_terms(random, &mut message);
    }
    message
}

/// The elements that short messages have too.
pub fn without_terms(random: &mut Random, action: &str, uti: &[u8]) -> Message {
    let mut message = Message::default();
    message.set(UTI, uti).set(ACTION_TYPE, action);
    if let Some(event) = random.pick(&events_of(action)) {
        message.set(EVENT_TYPE, event);
    }
    message.set(EVENT_TIMESTAMP, values::time(random));
    message.set(REPORTING_TIMESTAMP, values::time(random));
    message
}

/// A sound message of an action with this execution time.
pub fn message_executed(random: &mut Random, action: &str, uti: &[u8], at: &[u8]) -> Message {
    let mut message = message(random, action, uti);
    if is_full(action) {
        set_execution(random, &mut message, at);
    }
    message
}

/// Sets the execution time and a reporting time that is not before it.
pub fn set_execution(random: &mut Random, message: &mut Message, at: &[u8]) {
    message.set(EXECUTION_TIMESTAMP, at);
    message.set(REPORTING_TIMESTAMP, values::time_from(random, at));
}

fn set_terms(random: &mut Random, message: &mut Message) {
    let execution = values::time(random);
    set_execution(random, message, &execution);
    set_dates(random, message);
    message.set(CLEARED, random.pick(&CLEARED_VALUES));
    if applies(message, NON_STANDARDIZED_TERM) || random.once_in(3) {
        message.set(NON_STANDARDIZED_TERM, random.pick(&TRUTHS));
    }
    message.set(BLOCK_ELECTION, random.pick(&TRUTHS));
    message.set(LARGE_NOTIONAL_ELECTION, random.pick(&TRUTHS));
    message.set(ALLOCATION, random.pick(&ALLOCATIONS));
    message.set(PACKAGE_INDICATOR, random.pick(&TRUTHS));
    set_package(random, message);
    message.set(NOTIONAL_AMOUNT, values::amount(random));
    message.set(NOTIONAL_CURRENCY, values::currency(random));
    if random.once_in(2) {
        message.set(SETTLEMENT_LOCATION, values::location(random));
    }
    message.set(COUNTERPARTY_1, values::lei(random));
    message.set(COUNTERPARTY_2, values::lei(random));
    message.set(ASSET_CLASS, random.pick(&CLASSES));
}

fn set_dates(random: &mut Random, message: &mut Message) {
    let effective = values::date(random);
    let expiration = values::date_from(random, &effective);
    let settlement = values::date_from(random, &expiration);
    message.set(EFFECTIVE_DATE, effective);
    message.set(EXPIRATION_DATE, expiration);
    message.set(SETTLEMENT_DATE, settlement);
}

/// Sets the elements of a package: those that are needed, and some that are
/// left out.
fn set_package(random: &mut Random, message: &mut Message) {
    let package = is_package(message);
    let quoted_by = *random.pick(&QUOTES);
    if package || random.once_in(4) {
        message.set(PACKAGE_IDENTIFIER, values::package_identifier(random));
    }
    for quote in QUOTES {
        if package && quote == quoted_by {
            set_quote(random, message, &quote);
        } else {
            set_left_out(random, message, &quote);
        }
    }
}

/// Sets price or spread with a notation, and the currency where it is needed
/// or now and then.
pub fn set_quote(random: &mut Random, message: &mut Message, quote: &Quote) {
    let notation = *random.pick(quote.notations);
    message.set(quote.notation, notation);
    message.set(quote.number, values::price(random, most_digits(notation)));
    if notation == MONETARY || random.once_in(4) {
        message.set(quote.currency, values::currency(random));
    }
}

/// The most digits that a notation allows.
pub fn most_digits(notation: &str) -> Num {
    match notation {
        DECIMAL => DECIMAL_NUM,
        BASIS_POINTS => BASIS_POINTS_NUM,
        _ => PRICE_NUM,
    }
}

/// Sets some elements of a quote that are left out. In a package the number
/// is not among them.
fn set_left_out(random: &mut Random, message: &mut Message, quote: &Quote) {
    if !is_package(message) && random.once_in(4) {
        message.set(quote.number, values::price(random, PRICE_NUM));
    }
    if random.once_in(4) {
        message.set(quote.notation, random.pick(quote.notations));
    }
    if random.once_in(4) {
        message.set(quote.currency, values::currency(random));
    }
}

/// Makes a full message one of a package, with all that a package needs, where
/// it is none.
pub fn make_package(random: &mut Random, message: &mut Message) {
    if !is_package(message) {
        let quote = *random.pick(&QUOTES);
        make_quoted_by(random, message, &quote);
    }
}

/// Makes a full message one of a package that is quoted so, with all that this
/// needs, where it is none.
pub fn make_quoted_by(random: &mut Random, message: &mut Message, quote: &Quote) {
    if is_quoted_by(message, quote) {
        return;
    }
    if !is_package(message) {
        message.set(PACKAGE_INDICATOR, "True");
        message.set(PACKAGE_IDENTIFIER, values::package_identifier(random));
    }
    for other in QUOTES {
        message.remove(other.number);
    }
    set_quote(random, message, quote);
}

/// Makes a full message one of a package that has price and spread, each with
/// all that it needs.
pub fn make_quoted_twice(random: &mut Random, message: &mut Message) {
    make_package(random, message);
    for quote in QUOTES {
        if !is_quoted_by(message, &quote) {
            set_quote(random, message, &quote);
        }
    }
}

/// The UTI of the swap with this number.
pub fn uti_of(number: u64) -> String {
    format!("1000000000SWAP{number:010}")
}

/// The plain NEWT message about the swap with this number.
pub fn swap(number: u64) -> Message {
    plain_new().with(UTI, uti_of(number))
}

/// A plain NEWT message about swap 1, the same each time: a base for tests by
/// hand.
pub fn plain_new() -> Message {
    let mut message = Message::default();
    message
        .set(UTI, uti_of(1))
        .set(ACTION_TYPE, "NEWT")
        .set(EVENT_TYPE, "TRAD")
        .set(EVENT_TIMESTAMP, "2024-03-01T10:15:30Z")
        .set(REPORTING_TIMESTAMP, "2024-03-01T10:20:00Z")
        .set(EXECUTION_TIMESTAMP, "2024-03-01T10:15:30Z")
        .set(EFFECTIVE_DATE, "2024-03-04")
        .set(EXPIRATION_DATE, "2029-03-04")
        .set(SETTLEMENT_DATE, "2029-03-06")
        .set(CLEARED, "Y")
        .set(BLOCK_ELECTION, "False")
        .set(LARGE_NOTIONAL_ELECTION, "false")
        .set(ALLOCATION, "UNAL")
        .set(PACKAGE_INDICATOR, "False")
        .set(NOTIONAL_AMOUNT, "1000000")
        .set(NOTIONAL_CURRENCY, "USD")
        .set(COUNTERPARTY_1, "54930084UKLVMY22DS16")
        .set(COUNTERPARTY_2, "213800WSGIIZCXF1P572")
        .set(ASSET_CLASS, "IR");
    message
}

/// The plain NEWT message as one of a package with this notation and price.
pub fn plain_package(notation: &str, price: &str) -> Message {
    plain_quoted_by(&PRICE, notation, price)
}

/// The plain NEWT message as one of a package with this notation and spread.
pub fn plain_spread(notation: &str, spread: &str) -> Message {
    plain_quoted_by(&SPREAD, notation, spread)
}

/// The plain NEWT message as one of a package that is quoted so.
pub fn plain_quoted_by(quote: &Quote, notation: &str, number: &str) -> Message {
    let mut message = plain_new();
    message
        .set(PACKAGE_INDICATOR, "True")
        .set(PACKAGE_IDENTIFIER, "PACKAGE1")
        .set(quote.number, number)
        .set(quote.notation, notation)
        .set(quote.currency, "USD");
    message
}

/// A short message (TERM, EROR or PRTO) about the plain swap.
pub fn plain_short(action: &str, event: Option<&str>) -> Message {
    let mut message = Message::default();
    message
        .set(UTI, uti_of(1))
        .set(ACTION_TYPE, action)
        .set(EVENT_TIMESTAMP, "2024-04-01T09:00:00Z")
        .set(REPORTING_TIMESTAMP, "2024-04-01T09:05:00Z");
    if let Some(event) = event {
        message.set(EVENT_TYPE, event);
    }
    message
}

#[cfg(test)]
mod tests {
    use super::*;
    use crate::terms::says;

    fn messages() -> Vec<Message> {
        let mut random = Random::for_test(301);
        let uti = uti_of(1);
        let next = |_| message(&mut random, "NEWT", uti.as_bytes());
        (0..2_000).map(next).collect()
    }

    #[test]
    fn packages_are_quoted_by_price_or_spread_with_each_notation() {
        let messages = messages();
        for message in messages.iter().filter(|message| is_package(message)) {
            assert_ne!(
                is_quoted_by(message, &PRICE),
                is_quoted_by(message, &SPREAD)
            );
        }
        for quote in QUOTES {
            for notation in quote.notations {
                let fitting = |message: &&Message| {
                    is_quoted_by(message, &quote) && says(message, quote.notation, notation)
                };
                assert!(messages.iter().filter(fitting).count() > 100, "{notation}");
            }
        }
    }

    #[test]
    fn elements_that_are_left_out_are_there() {
        let messages = messages();
        let quotes = QUOTES.map(|quote| [quote.number, quote.notation, quote.currency]);
        for code in quotes.concat() {
            let left_out = |message: &&Message| message.has(code) && !applies(message, code);
            assert!(messages.iter().filter(left_out).count() > 100, "{code}");
        }
        // 18 and 19 beside a spread, 27 and 28 beside a price.
        for (quote, other) in [(SPREAD, PRICE), (PRICE, SPREAD)] {
            for code in [other.notation, other.currency] {
                let beside =
                    |message: &&Message| is_quoted_by(message, &quote) && message.has(code);
                assert!(messages.iter().filter(beside).count() > 50, "{code}");
            }
        }
    }
}
