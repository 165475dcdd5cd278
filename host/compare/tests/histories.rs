//! Demand 3: histories that agree in what is public have equal tapes; where
//! one premise is broken the tapes can differ.

use compare::compared::Compared;
use compare::cycles::{next_message, Model};
use compare::histories::{broken_premises, run, Call, History, Premise, Run};
use compare::layout::{ledger_size, Caps, DAY_CAPS, LINE_SIZE, NEXT_IN_HEADER};
use compare::layout::{ROW_SIZE, SMALLEST_CAP};
use compare::lists::{codes_of_full_messages, codes_with_a_form, ACTION_TYPE, CLASSES, QUOTES};
use compare::malformed;
use compare::message::Message;
use compare::random::Random;
use compare::showing::disguised;
use compare::sound::{self, plain_package, plain_spread, swap};
use compare::terms::{is_quoted_by, shown_price};
use compare::values;
use compare::{matrix, submissions};

/// Swaps and calls of a random history.
const SWAPS: usize = 8;
const CALLS: usize = 30;

/// Two histories that agree in what is public, and nothing more.
fn pair_of_histories(random: &mut Random) -> (History, History) {
    let caps = values::caps(random);
    let (first_length, second_length) = lengths(random);
    let names = values::utis(random, 2 * SWAPS);
    let (utis, others) = names.split_at(SWAPS);
    let mut model = Model::opened(first_length, caps);
    let (mut first, mut second) = (Vec::new(), Vec::new());
    for _ in 0..CALLS {
        let calls = if random.once_in(4) {
            refused_pair(random)
        } else {
            let message = next_message(random, &model, utis);
            model.submit(&message, LINE_SIZE);
            let renamed = renamed(&message, utis, others);
            let other = disguised(random, &renamed, &caps);
            (call(random, message.encode()), call(random, other.encode()))
        };
        first.push(calls.0);
        second.push(calls.1);
    }
    let first = history(random, first_length, caps, first);
    let second = history(random, second_length, caps, second);
    (first, second)
}

/// Two lengths: of one capacity that may run out, or of two that do not.
fn lengths(random: &mut Random) -> (usize, usize) {
    if random.once_in(2) {
        let rows = random.between(1, SWAPS - 1);
        return (
            ledger_size(rows),
            ledger_size(rows) + random.between(1, ROW_SIZE - 1),
        );
    }
    let longer = SWAPS + random.between(1, 9);
    (
        ledger_size(SWAPS),
        ledger_size(longer) + random.below(ROW_SIZE),
    )
}

fn history(random: &mut Random, length: usize, caps: Caps, calls: Vec<Call>) -> History {
    History {
        ledger: random.bytes(length),
        caps,
        tampering: (0, Vec::new()),
        calls,
    }
}

/// A call with old bytes in the tape buffer.
fn call(random: &mut Random, message: Vec<u8>) -> Call {
    let length = values::tape_length(random);
    let tape = random.bytes(length);
    Call { message, tape }
}

/// The message with its swap under another name.
fn renamed(message: &Message, utis: &[Vec<u8>], others: &[Vec<u8>]) -> Message {
    let place = utis.iter().position(|uti| uti == message.value(1));
    message.with(1, &others[place.expect("a swap of the history")])
}

/// Two calls that are refused with the same number for different reasons.
fn refused_pair(random: &mut Random) -> (Call, Call) {
    let verdict = *random.pick(&[4, 5, 6, 7, 8, 9, 10, 11, 19, 12, 13, 15]);
    (refused(random, verdict), refused(random, verdict))
}

/// A call that is refused with this number on every ledger of a history.
fn refused(random: &mut Random, verdict: u8) -> Call {
    let uti = values::uti(random);
    let full = sound::message(random, "NEWT", &uti);
    let short = sound::message(random, "TERM", &uti);
    let message = match verdict {
        5 => {
            let length = random.between(1, 60);
            let surplus = random.bytes(length);
            return call(random, [vec![0, 0], surplus].concat());
        }
        6 => full.with(2, random.pick(&malformed::values(2))),
        7 => full.without(*random.pick(&[1, 4, 5, 6, 9, 12, 20, 25])),
        8 => {
            let codes: Vec<u8> = codes_of_full_messages().collect();
            short.with(*random.pick(&codes), "value")
        }
        9 => {
            let codes: Vec<u8> = codes_with_a_form().collect();
            let code = *random.pick(&codes);
            full.with(code, malformed::value(random, code))
        }
        10 => full.with(3, random.pick(&["ETRM", "CREV", "ABCD"])),
        11 => full.with(10, "N").without(11),
        19 => plain_package("1", "5").with(26, "5").with(27, "3"),
        12 => {
            let spread = *random.pick(&malformed::LONG_BASIS_POINTS);
            plain_spread("4", spread)
        }
        13 => full
            .with(7, "2030-01-02")
            .with(8, "2030-01-01")
            .with(9, "2030-01-01"),
        15 => short,
        _ => full,
    };
    let mut call = call(random, message.encode());
    if verdict == 4 {
        call.tape.truncate(random.below(LINE_SIZE));
    }
    call
}

#[test]
fn tapes_of_agreeing_histories_are_equal() {
    let mut random = Random::for_test(701);
    let mut compared = Compared::new();
    let (mut pairs, mut lines, mut different, mut silent) = (0, 0, 0, 0);
    while compared.tally.submissions < submissions(24_000) {
        let (first, second) = pair_of_histories(&mut random);
        let first = run(&mut compared, &first);
        let second = run(&mut compared, &second);
        assert_eq!(broken_premises(&first, &second), []);
        assert!(first.tape == second.tape, "tapes differ in pair {pairs}");
        assert_eq!(first.totals, second.totals);
        assert_eq!(first.totals.totals.iter().sum::<u32>(), new_swaps(&first));
        pairs += 1;
        lines += first.tape.len() / LINE_SIZE;
        let differ = |place: &usize| first.messages[*place] != second.messages[*place];
        different += (0..CALLS).filter(differ).count();
        let places = modifications_without_line(&first);
        assert_eq!(places, modifications_without_line(&second));
        silent += places.into_iter().filter(differ).count();
    }
    println!(
        "histories: {pairs} pairs, {lines} lines, {silent} modifications without one, {}",
        compared.tally
    );
    assert!(lines > 5 * pairs && different > 20 * pairs);
    // There are some in most pairs, with other values on each side.
    assert!(silent > pairs / 2, "{silent} in {pairs} pairs");
}

/// How many NEWT messages were accepted.
fn new_swaps(run: &Run) -> u32 {
    let accepted = (0..run.verdicts.len()).filter(|&place| run.verdicts[place] == 0);
    let new = accepted.filter(|&place| run.message(place).text(ACTION_TYPE) == "NEWT");
    new.count() as u32
}

/// The places of the MODI messages that were accepted and wrote no line.
fn modifications_without_line(run: &Run) -> Vec<usize> {
    let is_one = |&place: &usize| {
        run.verdicts[place] == 0
            && run.identifiers[place] == 0
            && run.message(place).text(ACTION_TYPE) == "MODI"
    };
    (0..run.verdicts.len()).filter(is_one).collect()
}

/// The premises that two histories break, and whether their tapes differ.
fn compare_histories(first: &History, second: &History) -> (Vec<Premise>, bool) {
    let mut compared = Compared::new();
    let first = run(&mut compared, first);
    let second = run(&mut compared, second);
    (broken_premises(&first, &second), first.tape != second.tape)
}

/// A plain history of these messages.
fn plain(messages: &[Message]) -> History {
    let call = |message: &Message| Call {
        message: message.encode(),
        tape: vec![b'x'; LINE_SIZE],
    };
    History {
        ledger: vec![0; ledger_size(5)],
        caps: DAY_CAPS,
        tampering: (0, Vec::new()),
        calls: messages.iter().map(call).collect(),
    }
}

fn change(n: u64) -> Message {
    swap(n).with(2, "MODI")
}

fn correct(n: u64) -> Message {
    swap(n).with(2, "CORR").without(3)
}

fn short(n: u64, action: &str, event: Option<&str>) -> Message {
    let message = sound::plain_short(action, event);
    message.with(1, swap(n).value(1))
}

/// Two new swaps, then the message.
fn ending_with(message: Message) -> History {
    plain(&[swap(1), swap(2), message])
}

fn breaks_only(premise: Premise, first: &History, second: &History) {
    assert_eq!(compare_histories(first, first), (Vec::new(), false));
    assert_eq!(compare_histories(second, first), (vec![premise], true));
    assert_eq!(compare_histories(first, second), (vec![premise], true));
}

#[test]
fn a_verdict_number_broken() {
    let first = ending_with(swap(3));
    let second = ending_with(swap(3).with(24, "54930084UKLVMY22DS17"));
    breaks_only(Premise::Verdict, &first, &second);
}

#[test]
fn an_action_broken() {
    let new = swap(1);
    let error = short(1, "EROR", None);
    let second = correct(1).with(4, error.value(4));
    let histories = [error, second].map(|message| plain(&[new.clone(), message]));
    breaks_only(Premise::Action, &histories[0], &histories[1]);
}

#[test]
fn an_event_broken() {
    let first = ending_with(swap(3));
    let second = ending_with(swap(3).with(3, "NOVA"));
    breaks_only(Premise::Event, &first, &second);
}

#[test]
fn an_event_time_broken() {
    let first = ending_with(short(2, "TERM", Some("ETRM")));
    let later = short(2, "TERM", Some("ETRM")).with(4, "2024-04-01T09:00:01Z");
    breaks_only(Premise::EventTime, &first, &ending_with(later));
}

/// Public elements of a package with a price, and another value for each.
const PUBLIC: [(u8, &str); 15] = [
    (6, "2024-03-01T10:15:29Z"),
    (7, "2024-03-05"),
    (8, "2029-03-05"),
    (10, "I"),
    (11, "False"),
    (12, "True"),
    (13, "True"),
    (15, "False"),
    (17, "12.6"),
    (18, "3"),
    (19, "EUR"),
    (20, "1500000"),
    (21, "EUR"),
    (22, "GB"),
    (25, "FX"),
];

/// Public elements of a package with a spread, and other values for them.
const PUBLIC_OF_SPREAD: [(u8, &str); 6] = [
    (15, "False"),
    (26, "13"),
    (26, "-12"),
    (27, "3"),
    (27, "4"),
    (28, "EUR"),
];

/// Each change of a package breaks the premise of masked terms and no other.
fn each_breaks_terms(package: &Message, changes: &[(u8, &str)]) {
    let package = package.with(1, swap(3).value(1));
    let first = ending_with(package.clone());
    for (code, value) in changes {
        let changed = package.with(*code, value);
        breaks_only(Premise::Terms, &first, &ending_with(changed));
    }
}

#[test]
fn masked_terms_broken() {
    let mut package = plain_package("1", "12.5");
    package.set(10, "N").set(11, "True").set(22, "US");
    each_breaks_terms(&package, &PUBLIC);
    each_breaks_terms(&plain_spread("1", "12"), &PUBLIC_OF_SPREAD);
}

#[test]
fn price_and_spread_are_told_apart() {
    let [price, spread] = [plain_package("1", "12"), plain_spread("1", "12")]
        .map(|package| ending_with(package.with(1, swap(3).value(1))));
    breaks_only(Premise::Terms, &price, &spread);
}

/// Messages with a spread, without one or with a price, and what may be sent
/// besides since it is left out.
#[test]
fn what_is_left_out_is_not_public() {
    let no_package = [(17, "5"), (18, "3"), (26, "1.5"), (27, "4"), (28, "EUR")];
    let left_out: [(Message, &[(u8, &str)]); 4] = [
        (swap(3), &no_package),
        (plain_package("1", "12"), &[(27, "1"), (28, "EUR")]),
        (plain_spread("1", "12"), &[(18, "1"), (19, "EUR")]),
        (
            plain_spread("4", "12").without(28),
            &[(18, "3"), (28, "EUR")],
        ),
    ];
    for (message, more) in left_out {
        let message = message.with(1, swap(3).value(1));
        let mut whole = message.clone();
        for (code, value) in more {
            whole.set(*code, value);
        }
        let histories = [message, whole].map(ending_with);
        let due = (Vec::new(), false);
        assert_eq!(compare_histories(&histories[0], &histories[1]), due);
    }
}

#[test]
fn stored_terms_broken() {
    // The terms that TERM shows are those of the last full message.
    let ended = short(1, "TERM", Some("ETRM"));
    let first = plain(&[swap(1), correct(1), ended.clone()]);
    let second = plain(&[swap(1), correct(1).with(21, "EUR"), ended]);
    breaks_only(Premise::Terms, &first, &second);
}

/// A change that shows nothing in one list shows something in the other.
#[test]
fn a_line_more_breaks_the_terms() {
    let first = ending_with(change(1));
    let second = ending_with(change(1).with(21, "EUR"));
    breaks_only(Premise::Terms, &first, &second);
    // So it does where the change is the same and the terms before it are not.
    let second = plain(&[swap(1).with(21, "EUR"), swap(2), change(1)]);
    breaks_only(Premise::Terms, &first, &second);
}

/// A change that shows nothing leaves no trace, whatever it holds and whatever
/// swap it is about. Premises may ask for more than the tapes need.
#[test]
fn changes_that_show_nothing_leave_equal_tapes() {
    let other = change(1)
        .with(5, "2024-03-02T00:00:00Z")
        .with(9, "2030-01-01")
        .with(14, "POST")
        .with(16, "P")
        .with(20, "1499999.99999")
        .with(23, "EXAMPLEOSTERMOOR0190")
        .with(24, "EXAMPLEBRACKWATER111")
        .with(26, "-5");
    let first = plain(&[swap(1), swap(2), change(1), correct(1)]);
    for (message, broken) in [
        (other.clone(), vec![]),
        (other.with(3, "UPDT"), vec![Premise::Event]),
        (
            other.with(4, "2024-03-02T00:00:00Z"),
            vec![Premise::EventTime],
        ),
        (other.with(1, swap(2).value(1)), vec![Premise::Swap]),
    ] {
        let second = plain(&[swap(1), swap(2), message, correct(1)]);
        assert_eq!(compare_histories(&first, &second), (broken, false));
    }
}

#[test]
fn the_same_swap_broken_both_ways() {
    // A change names the first swap in one list and the second in the other.
    for message in [correct, |n| short(n, "TERM", Some("NOVA"))] {
        let first = ending_with(message(1));
        let second = ending_with(message(2));
        breaks_only(Premise::Swap, &first, &second);
    }
}

#[test]
fn caps_broken() {
    let message = swap(3).with(20, "300000000");
    let first = ending_with(message.clone());
    let mut second = ending_with(message);
    second.caps = [1_000_000_000; CLASSES.len()];
    breaks_only(Premise::Caps, &first, &second);
}

#[test]
fn an_opening_broken() {
    let first = ending_with(swap(3));
    let mut moved = ending_with(swap(3));
    moved.tampering = (NEXT_IN_HEADER.start, 2u64.to_le_bytes().to_vec());
    assert_eq!(
        compare_histories(&first, &moved),
        (vec![Premise::Opening], true)
    );
    assert_eq!(
        compare_histories(&moved, &moved),
        (vec![Premise::Opening], false)
    );

    // Opening is refused, since a cap is wrong, over a ledger in use.
    let mut refused = ending_with(swap(3));
    let mut ledger = vec![0; ledger_size(5)];
    let mut header = compare::layout::Header::opened(ledger.len(), first.caps);
    header.next = 70;
    compare::layout::write(&mut ledger, &header, &[]);
    refused.ledger = ledger;
    refused.caps = [SMALLEST_CAP - 1; CLASSES.len()];
    let (broken, differ) = compare_histories(&first, &refused);
    assert_eq!((broken[0], differ), (Premise::Opening, true));
}

#[test]
fn lengths_broken() {
    let first = ending_with(swap(3));
    let second = plain(&[swap(1), swap(2)]);
    breaks_only(Premise::Length, &first, &second);
}

#[test]
fn premises_do_not_ask_too_much() {
    // Refused messages may differ in all but their number.
    let first = ending_with(swap(3).with(24, "54930084UKLVMY22DS17"));
    let second = ending_with(short(2, "TERM", Some("term")));
    assert_eq!(compare_histories(&first, &second), (Vec::new(), false));
    // The names of the swaps may change places.
    let first = plain(&[swap(1), swap(2), correct(1)]);
    let second = plain(&[swap(2), swap(1), correct(2)]);
    assert_eq!(compare_histories(&first, &second), (Vec::new(), false));
}

#[test]
fn random_histories_with_one_public_change() {
    let mut random = Random::for_test(702);
    let mut compared = Compared::new();
    let mut tried = 0;
    while compared.tally.submissions < submissions(12_000) {
        let (first, mut second) = pair_of_histories(&mut random);
        let before = run(&mut compared, &first);
        let Some((place, premise)) = change_one(&mut random, &before, &mut second) else {
            continue;
        };
        let after = run(&mut compared, &second);
        let broken = broken_premises(&before, &after);
        assert_eq!(broken, [premise], "place {place}");
        assert!(before.tape != after.tape, "place {place}");
        tried += 1;
    }
    println!("one change: {tried} pairs, {}", compared.tally);
    assert!(tried > 50);
}

/// Changes the currency, or price or spread of one accepted message, or the
/// event time of one that wrote a line.
fn change_one(
    random: &mut Random,
    before: &Run,
    history: &mut History,
) -> Option<(usize, Premise)> {
    let place = random.below(before.verdicts.len());
    let message = Message::decode(&history.calls[place].message)?;
    if before.verdicts[place] != 0 {
        return None;
    }
    let full = matrix::is_full(&message.text(ACTION_TYPE));
    let (code, value, premise) = if full && random.once_in(2) {
        let (code, value) = change_of_terms(random, &message);
        (code, value, Premise::Terms)
    } else if before.identifiers[place] != 0 {
        (4, values::time(random), Premise::EventTime)
    } else {
        return None;
    };
    if message.value(code) == value {
        return None;
    }
    history.calls[place].message = message.with(code, value).encode();
    Some((place, premise))
}

/// Another price or spread where there is one, or a currency.
fn change_of_terms(random: &mut Random, message: &Message) -> (u8, Vec<u8>) {
    match QUOTES.iter().find(|quote| is_quoted_by(message, quote)) {
        // Any notation allows one digit.
        Some(quote) if random.once_in(2) => {
            let shown = shown_price(message.value(quote.number));
            let other = if shown == b"7" { b"8" } else { b"7" };
            (quote.number, other.to_vec())
        }
        _ => (21, values::currency(random)),
    }
}
