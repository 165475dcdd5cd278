//! The four totals: how many swaps are live, closed, errored and ported. What
//! is expected is derived by hand or counted row by row.

use compare::compared::Compared;
use compare::cycles::{next_message, Model};
use compare::garbage::shift_totals;
use compare::judge::{Judge, BOTH};
use compare::layout::*;
use compare::message::Message;
use compare::random::Random;
use compare::sound::{plain_new, plain_short, swap, uti_of};
use compare::terms::terms_of;
use compare::{submissions, values};
use sdr::{Answer, Totals, CLOSED, ERRORED, LIVE, PORTED, UNKNOWN};

const CAPS: Caps = DAY_CAPS;

fn modi(swap: &Message) -> Message {
    swap.with(2, "MODI")
}

fn corr(swap: &Message) -> Message {
    swap.with(2, "CORR").without(3)
}

fn revi(swap: &Message) -> Message {
    swap.with(2, "REVI").without(3)
}

fn short(swap: &Message, action: &str, event: Option<&str>) -> Message {
    plain_short(action, event).with(1, swap.value(1))
}

fn term(swap: &Message) -> Message {
    short(swap, "TERM", Some("ETRM"))
}

fn eror(swap: &Message) -> Message {
    short(swap, "EROR", None)
}

fn prto(swap: &Message) -> Message {
    short(swap, "PRTO", Some("PTNG"))
}

/// The totals as they are answered with verdict 0.
fn totals(compared: &mut Compared) -> [u32; TOTALS] {
    let answer = compared.totals();
    assert_eq!(answer.verdict, 0);
    answer.totals
}

/// Submits a message that is accepted.
fn accept(compared: &mut Compared, message: &Message) {
    assert_eq!(compared.submit(&message.encode()).verdict, 0, "{message:?}");
}

/// Submits a message that gets this verdict.
fn refuse(compared: &mut Compared, message: &Message, verdict: u8) {
    let due = Answer {
        verdict,
        ..Answer::default()
    };
    assert_eq!(compared.submit(&message.encode()), due, "{message:?}");
}

fn lent(ledger: &[u8]) -> Compared {
    let mut compared = Compared::new();
    compared.set_ledger(ledger);
    compared.set_tape(&[b'x'; LINE_SIZE]);
    compared
}

/// The totals by a look at every row in use, as the screen did it before.
fn scan(ledger: &[u8]) -> [u32; TOTALS] {
    let mut counts = [0; TOTALS];
    for place in 0..u32_at(ledger, ROWS_IN_HEADER) as usize {
        let status = ledger[row_range(place)][STATUS_IN_ROW];
        counts[usize::from(status) - 1] += 1;
    }
    counts
}

// Steps.

#[test]
fn a_ledger_just_opened() {
    let mut compared = Compared::opened(2, &CAPS);
    assert_eq!(totals(&mut compared), [0, 0, 0, 0]);
    assert_eq!(compared.ledger()[TOTALS_IN_HEADER], [0; 16]);
    assert_eq!(compared.ledger()[HEADER_SIZE..], [0xee; 2 * ROW_SIZE]);
    // Opening a ledger in use takes the totals back to 0.
    accept(&mut compared, &swap(1));
    assert_eq!(totals(&mut compared), [1, 0, 0, 0]);
    assert_eq!(compared.open(&CAPS).verdict, 0);
    assert_eq!(totals(&mut compared), [0, 0, 0, 0]);
}

#[test]
fn the_life_of_two_swaps() {
    let mut compared = Compared::opened(2, &CAPS);
    let (first, second) = (swap(1), swap(2));
    for (message, verdict, due) in [
        (term(&first), 15, [0, 0, 0, 0]),
        (first.clone(), 0, [1, 0, 0, 0]),
        (first.clone(), 15, [1, 0, 0, 0]),
        (modi(&first).with(21, "EUR"), 0, [1, 0, 0, 0]),
        (modi(&first).with(21, "EUR"), 0, [1, 0, 0, 0]),
        (second.clone(), 0, [2, 0, 0, 0]),
        (swap(3), 17, [2, 0, 0, 0]),
        (term(&first), 0, [1, 1, 0, 0]),
        (corr(&first), 0, [1, 1, 0, 0]),
        (term(&first), 15, [1, 1, 0, 0]),
        (eror(&first), 0, [1, 0, 1, 0]),
        (eror(&second), 0, [0, 0, 2, 0]),
        (revi(&first), 0, [1, 0, 1, 0]),
        (corr(&first), 0, [1, 0, 1, 0]),
        (prto(&first), 0, [0, 0, 1, 1]),
        (
            revi(&second).with(6, "2024-03-01T10:15:31Z"),
            16,
            [0, 0, 1, 1],
        ),
        (revi(&second), 0, [1, 0, 0, 1]),
        (term(&second), 0, [0, 1, 0, 1]),
        (revi(&second), 0, [1, 0, 0, 1]),
        (prto(&second), 0, [0, 0, 0, 2]),
        (revi(&second), 15, [0, 0, 0, 2]),
    ] {
        let answer = compared.submit(&message.encode());
        assert_eq!(
            (answer.verdict, answer.element),
            (verdict, 0),
            "{message:?}"
        );
        assert_eq!(totals(&mut compared), due, "{message:?}");
    }
}

/// The status after an action; none where the status before does not admit it.
fn after(action: &str, status: u8) -> Option<u8> {
    match (status, action) {
        (LIVE, "MODI" | "CORR") => Some(LIVE),
        (LIVE, "TERM") => Some(CLOSED),
        (LIVE | CLOSED, "EROR") => Some(ERRORED),
        (LIVE, "PRTO") => Some(PORTED),
        (CLOSED, "CORR") => Some(CLOSED),
        (CLOSED | ERRORED, "REVI") => Some(LIVE),
        _ => None,
    }
}

/// One message of every action about a swap, and a MODI that shows nothing.
fn every_action(swap: &Message) -> [Message; 8] {
    [
        swap.clone(),
        modi(swap),
        modi(swap).with(21, "EUR"),
        corr(swap),
        term(swap),
        eror(swap),
        revi(swap),
        prto(swap),
    ]
}

/// A ledger of nine rows with two live swaps, one closed, three errored and two
/// ported.
fn of_eight_swaps() -> Compared {
    let mut compared = Compared::opened(9, &CAPS);
    for n in 11..=18 {
        accept(&mut compared, &swap(n));
    }
    let steps: [fn(&Message) -> Message; 6] = [term, eror, eror, eror, prto, prto];
    for (step, n) in steps.into_iter().zip(13..) {
        accept(&mut compared, &step(&swap(n)));
    }
    assert_eq!(totals(&mut compared), [2, 1, 3, 2]);
    compared
}

/// Takes every step behind a ledger in which the swap has this status, and so
/// many further steps behind each.
fn walk(compared: &mut Compared, status: u8, further: u32, steps: &mut u32) {
    let before = compared.ledger().to_vec();
    for message in every_action(&swap(1)) {
        compared.set_ledger(&before);
        let new = after(&message.text(2), status);
        let answer = compared.submit(&message.encode());
        assert_eq!(answer.verdict, if new.is_some() { 0 } else { 15 });
        let status = new.unwrap_or(status);
        let mut due = [2, 1, 3, 2];
        due[usize::from(status) - 1] += 1;
        assert_eq!(totals(compared), due, "{status} after {message:?}");
        assert_eq!(scan(compared.ledger()), due);
        *steps += 1;
        if further > 0 {
            walk(compared, status, further - 1, steps);
        }
    }
}

/// Every sequence of four messages about one swap, refused ones too, beside
/// eight others.
#[test]
fn every_sequence_of_actions() {
    let mut compared = of_eight_swaps();
    accept(&mut compared, &swap(1));
    assert_eq!(totals(&mut compared), [3, 1, 3, 2]);
    let mut steps = 0;
    walk(&mut compared, LIVE, 3, &mut steps);
    assert_eq!(steps, 8 + 64 + 512 + 4_096);
}

/// The sum is the number of NEWT messages accepted, whatever else comes.
#[test]
fn as_many_as_new_swaps_accepted() {
    let mut random = Random::for_test(1001);
    let mut all = 0;
    while all < submissions(6_000) {
        let rows = random.between(1, 30);
        let mut compared = Compared::opened(rows, &CAPS);
        let mut model = Model::opened(ledger_size(rows), CAPS);
        let utis = values::utis(&mut random, rows + 3);
        let mut accepted = 0;
        for _ in 0..300 {
            let message = next_message(&mut random, &model, &utis);
            model.submit(&message, LINE_SIZE);
            let answer = compared.submit(&message.encode());
            accepted += u32::from(answer.verdict == 0 && message.value(2) == b"NEWT");
            let sum: u32 = totals(&mut compared).iter().sum();
            assert_eq!(sum, accepted);
        }
        assert!(accepted > 0);
        all += compared.tally.submissions;
    }
}

// Totals as they are stored.

/// The header of a ledger of a length with so many rows in use.
fn header(length: usize, rows: u32, totals: [u32; TOTALS]) -> Header {
    let mut header = Header::opened(length, CAPS);
    header.rows = rows;
    header.next = 500_000;
    header.totals = totals;
    header
}

/// What the totals question answers in a ledger of so many rows.
fn asked(capacity: usize, rows: u32, stored: [u32; TOTALS]) -> Totals {
    let mut ledger = vec![0xee; ledger_size(capacity)];
    let header = header(ledger.len(), rows, stored);
    ledger[..HEADER_SIZE].copy_from_slice(&header.encode());
    lent(&ledger).totals()
}

fn counted(totals: [u32; TOTALS]) -> Totals {
    Totals { verdict: 0, totals }
}

const REFUSED: Totals = Totals {
    verdict: 3,
    totals: [0; TOTALS],
};

/// The rows are not looked at: here they hold no swap.
#[test]
fn totals_are_answered_as_they_are_stored() {
    for (rows, stored) in [
        (0, [0, 0, 0, 0]),
        (1, [0, 0, 1, 0]),
        (300, [255, 44, 1, 0]),
        (300, [0, 0, 0, 300]),
    ] {
        assert_eq!(asked(301, rows, stored), counted(stored));
        // One row more or less in use, or one more of a status.
        for other in [rows.checked_sub(1), Some(rows + 1)].into_iter().flatten() {
            assert_eq!(asked(301, other, stored), REFUSED, "{other} {stored:?}");
        }
        for place in 0..TOTALS {
            let mut more = stored;
            more[place] += 1;
            assert_eq!(asked(301, rows, more), REFUSED, "{rows} {more:?}");
        }
    }
    for (rows, stored) in [
        (74_575, [74_565, 1, 2, 7]),
        (74_575, [1, 74_565, 2, 7]),
        (74_575, [1, 2, 74_565, 7]),
        (74_575, [1, 2, 7, 74_565]),
        (100_000, [65_536, 256, 1, 34_207]),
    ] {
        assert_eq!(asked(100_000, rows, stored), counted(stored));
    }
}

/// The safe wrapper hands over what the core writes.
#[test]
fn the_wrapper_answers_the_same() {
    let mut compared = of_eight_swaps();
    let due = counted([2, 1, 3, 2]);
    assert_eq!(compared.totals(), due);
    assert_eq!(sdr::totals(compared.ledger()), due);
    let answers = [UNKNOWN, LIVE, CLOSED, ERRORED, PORTED].map(|status| due.of(status));
    assert_eq!(answers, [0, 2, 1, 3, 2]);
}

/// A ledger in which the first row holds the plain swap with this status. The
/// others in use hold no swap.
fn with_one_swap(capacity: usize, status: u8, rows: u32, totals: [u32; TOTALS]) -> Vec<u8> {
    let mut ledger = vec![0xee; ledger_size(capacity)];
    let mut row = Row::new(plain_new().value(1), 7, terms_of(&plain_new(), &CAPS));
    row.status = status;
    let header = header(ledger.len(), rows, totals);
    write(&mut ledger, &header, &[row]);
    ledger
}

#[test]
fn totals_that_carry() {
    let plain = plain_new();
    for (status, rows, before, message, due) in [
        (LIVE, 256, [256, 0, 0, 0], term(&plain), [255, 1, 0, 0]),
        (LIVE, 511, [256, 255, 0, 0], term(&plain), [255, 256, 0, 0]),
        (
            CLOSED,
            511,
            [255, 256, 0, 0],
            revi(&plain),
            [256, 255, 0, 0],
        ),
        (
            ERRORED,
            511,
            [255, 0, 256, 0],
            revi(&plain),
            [256, 0, 255, 0],
        ),
        (LIVE, 511, [256, 0, 0, 255], prto(&plain), [255, 0, 0, 256]),
        (LIVE, 255, [255, 0, 0, 0], swap(2), [256, 0, 0, 0]),
    ] {
        let mut compared = lent(&with_one_swap(600, status, rows, before));
        accept(&mut compared, &message);
        assert_eq!(totals(&mut compared), due, "{message:?}");
    }
    for (status, before, message, due) in [
        (LIVE, [65_536, 0, 0, 1], prto(&plain), [65_535, 0, 0, 2]),
        (CLOSED, [1, 65_536, 0, 0], eror(&plain), [1, 65_535, 1, 0]),
        (CLOSED, [65_535, 2, 0, 0], revi(&plain), [65_536, 1, 0, 0]),
    ] {
        let mut compared = lent(&with_one_swap(65_537, status, 65_537, before));
        accept(&mut compared, &message);
        assert_eq!(totals(&mut compared), due, "{message:?}");
    }
}

// Damaged totals.

/// Every operation but opening answers 3.
fn refused_with_3(ledger: &[u8], text: &str) {
    let mut compared = lent(ledger);
    assert_eq!(compared.totals(), REFUSED, "{text}");
    assert_eq!(compared.status(plain_new().value(1)).verdict, 3, "{text}");
    assert_eq!(compared.status(b"").verdict, 3, "{text}");
    for message in every_action(&plain_new()) {
        refuse(&mut compared, &message, 3);
    }
    refuse(&mut compared, &swap(2), 3);
    assert_eq!(compared.submit(b"").verdict, 3, "{text}");
}

const MOST: u32 = u32::MAX;

/// The sum is exact: at 32 bits all of these but the last two are 3.
#[test]
fn sums_that_wrap() {
    let (half, quarter) = (1 << 31, 1 << 30);
    for totals in [
        // 2^32 + 3.
        [MOST, 4, 0, 0],
        [4, MOST, 0, 0],
        [1, 0, MOST, 3],
        [3, 0, 1, MOST],
        [half, half + 3, 0, 0],
        [half + 1, 1, 1, half],
        [quarter + 3, quarter, quarter, quarter],
        // Twice and three times 2^32, and 3.
        [MOST, MOST, 5, 0],
        [2, MOST, 3, MOST],
        [half + 3, half, half, half],
        [MOST, MOST, MOST, 6],
        [6, MOST, MOST, MOST],
        // 2^34 - 4, and 2^31 + 3.
        [MOST, MOST, MOST, MOST],
        [half + 3, 0, 0, 0],
    ] {
        let ledger = with_one_swap(5, LIVE, 3, totals);
        refused_with_3(&ledger, &format!("{totals:?}"));
    }
    for totals in [[MOST, 1, 0, 0], [1, 0, 0, MOST], [half, 0, half, 0]] {
        let ledger = with_one_swap(5, LIVE, 0, totals);
        refused_with_3(&ledger, &format!("{totals:?}"));
    }
    let full = with_one_swap(3, LIVE, 3, [3, MOST, 1, 0]);
    refused_with_3(&full, "a full ledger");
}

#[test]
fn each_total_damaged() {
    for status in [LIVE, CLOSED, ERRORED, PORTED] {
        let place = usize::from(status) - 1;
        let mut sound = [0; TOTALS];
        sound[place] = 3;
        let mut compared = lent(&with_one_swap(5, status, 3, sound));
        assert_eq!(totals(&mut compared), sound);
        assert_eq!(compared.status(plain_new().value(1)).status, status);
        for at in 0..TOTALS {
            for bit in 0..32 {
                let mut damaged = sound;
                damaged[at] ^= 1 << bit;
                let ledger = with_one_swap(5, status, 3, damaged);
                refused_with_3(&ledger, &format!("{damaged:?}"));
            }
        }
    }
}

/// A row whose status has the total 0 is wrong, for every message about its
/// swap and for the status question.
#[test]
fn the_total_of_the_swap_s_own_status_is_0() {
    for (status, stored) in [
        (LIVE, [0, 3, 0, 0]),
        (LIVE, [0, 1, 1, 1]),
        (CLOSED, [3, 0, 0, 0]),
        (CLOSED, [1, 0, 0, 2]),
        (ERRORED, [2, 1, 0, 0]),
        (ERRORED, [0, 0, 0, 3]),
        (PORTED, [1, 1, 1, 0]),
        (PORTED, [0, 0, 3, 0]),
    ] {
        let ledger = with_one_swap(5, status, 3, stored);
        let mut compared = lent(&ledger);
        let refused = Answer {
            verdict: 14,
            ..Answer::default()
        };
        assert_eq!(compared.status(plain_new().value(1)), refused, "{stored:?}");
        for message in every_action(&plain_new()) {
            refuse(&mut compared, &message, 14);
        }
        assert_eq!(compared.ledger(), ledger);
        assert_eq!(compared.tape(), [b'x'; LINE_SIZE]);
        // The totals are right for all that the header tells, and other swaps
        // are not concerned.
        assert_eq!(totals(&mut compared), stored);
        assert_eq!(compared.status(swap(2).value(1)), Answer::default());
        refuse(&mut compared, &term(&swap(2)), 15);
        accept(&mut compared, &swap(2));
    }
}

/// The total of another status may be 0, or more than there are rows of it.
#[test]
fn totals_of_other_statuses_do_not_matter() {
    let plain = plain_new();
    for (status, stored, message, due) in [
        (LIVE, [1, 0, 0, 2], term(&plain), [0, 1, 0, 2]),
        (LIVE, [1, 2, 0, 0], prto(&plain), [0, 2, 0, 1]),
        (LIVE, [3, 0, 0, 0], eror(&plain), [2, 0, 1, 0]),
        (LIVE, [1, 1, 1, 0], corr(&plain), [1, 1, 1, 0]),
        (LIVE, [2, 0, 1, 0], modi(&plain), [2, 0, 1, 0]),
        (CLOSED, [0, 1, 2, 0], revi(&plain), [1, 0, 2, 0]),
        (CLOSED, [0, 3, 0, 0], eror(&plain), [0, 2, 1, 0]),
        (CLOSED, [2, 1, 0, 0], corr(&plain), [2, 1, 0, 0]),
        (ERRORED, [0, 0, 1, 2], revi(&plain), [1, 0, 0, 2]),
        (PORTED, [0, 0, 2, 1], swap(2), [1, 0, 2, 1]),
    ] {
        let mut compared = lent(&with_one_swap(5, status, 3, stored));
        assert_eq!(compared.status(plain.value(1)).status, status);
        accept(&mut compared, &message);
        assert_eq!(totals(&mut compared), due, "{status} {stored:?}");
    }
}

/// Three live swaps in a ledger whose header tells of one. While the total is
/// 0, a live row is wrong; a new swap raises it again.
#[test]
fn a_total_that_runs_out() {
    let terms = terms_of(&plain_new(), &CAPS);
    let rows = [1, 2, 3].map(|n| Row::new(uti_of(n).as_bytes(), n, terms));
    let mut ledger = vec![0xee; ledger_size(4)];
    let header = header(ledger.len(), 3, [1, 0, 0, 2]);
    write(&mut ledger, &header, &rows);
    let mut compared = lent(&ledger);
    assert_eq!(compared.status(swap(3).value(1)).status, LIVE);
    accept(&mut compared, &term(&swap(1)));
    assert_eq!(totals(&mut compared), [0, 1, 0, 2]);
    assert_eq!(compared.status(swap(1).value(1)).status, CLOSED);
    for n in [2, 3] {
        assert_eq!(compared.status(swap(n).value(1)).verdict, 14);
        refuse(&mut compared, &term(&swap(n)), 14);
        refuse(&mut compared, &swap(n), 14);
    }
    accept(&mut compared, &swap(4));
    assert_eq!(totals(&mut compared), [1, 1, 0, 2]);
    accept(&mut compared, &prto(&swap(3)));
    assert_eq!(totals(&mut compared), [0, 1, 0, 3]);
    refuse(&mut compared, &eror(&swap(4)), 14);
    accept(&mut compared, &revi(&swap(1)));
    assert_eq!(totals(&mut compared), [1, 0, 0, 3]);
    assert_eq!(compared.status(swap(4).value(1)).status, LIVE);
}

/// A ledger after some life with its model and the swaps' UTIs. Some of its
/// totals have moved at random.
fn shifted(random: &mut Random) -> (Vec<u8>, Model, Vec<Vec<u8>>) {
    let rows = random.between(1, 8);
    let mut model = Model::opened(ledger_size(rows), CAPS);
    let utis = values::utis(random, rows + 1);
    for _ in 0..20 {
        let message = next_message(random, &model, &utis);
        model.submit(&message, LINE_SIZE);
    }
    let mut ledger = vec![0xee; ledger_size(rows)];
    write(&mut ledger, &model.header, &model.rows);
    shift_totals(random, &mut ledger);
    (ledger, model, utis)
}

/// One message on such a ledger: the model says what is due where the total of
/// the swap's status is not 0.
fn check_shifted(random: &mut Random, compared: &mut Compared) {
    let (ledger, mut model, utis) = shifted(random);
    let mut stored = totals_in(&ledger);
    let message = next_message(random, &model, &utis);
    let uti = message.value(1);
    let old = model.status(uti);
    let is_wrong = old != UNKNOWN && stored[total_place(old)] == 0;
    compared.set_ledger(&ledger);
    let asked = compared.status(uti);
    let due = if is_wrong { (14, 0) } else { (0, old) };
    assert_eq!((asked.verdict, asked.status), due, "{stored:?}");
    let verdict = model.submit(&message, LINE_SIZE).verdict;
    // Action and event are judged before the row.
    let due = if is_wrong && verdict != 10 {
        14
    } else {
        verdict
    };
    let answer = compared.submit(&message.encode());
    assert_eq!(answer.verdict, due, "{stored:?}");
    if due == 0 {
        if old != UNKNOWN {
            stored[total_place(old)] -= 1;
        }
        stored[total_place(model.status(uti))] += 1;
    }
    assert_eq!(totals(compared), stored);
}

#[test]
fn totals_moved_at_random() {
    let mut random = Random::for_test(1002);
    let mut compared = Compared::new();
    compared.set_tape(&[b'x'; LINE_SIZE]);
    while compared.tally.submissions < submissions(4_000) {
        check_shifted(&mut random, &mut compared);
    }
    println!("totals moved at random: {}", compared.tally);
    for verdict in [0, 10, 14, 15] {
        assert!(compared.tally.verdict(verdict) > 100, "verdict {verdict}");
    }
}

/// The total is judged with the row: after the rules of the message, before
/// those of status, time, capacity and identifiers.
#[test]
fn a_total_of_0_in_the_order_of_rules() {
    let other_time = "2024-03-01T10:15:29Z";
    let new = plain_new();
    let broken = with_one_swap(1, LIVE, 1, [0, 1, 0, 0]);
    let mut spent = broken.clone();
    spent[NEXT_IN_HEADER].copy_from_slice(&IDENTIFIER_LIMIT.to_le_bytes());
    for ledger in [&broken, &spent] {
        let mut compared = lent(ledger);
        for (message, verdict) in [
            (new.with(16, ""), 5),
            (modi(&new).with(3, "ETRM"), 10),
            (modi(&new).with(8, "2024-03-03"), 13),
            (modi(&new).with(6, other_time), 14),
            (new.clone(), 14),
            (revi(&new), 14),
            (swap(2), 17),
        ] {
            refuse(&mut compared, &message, verdict);
        }
        for (message, due) in [
            (modi(&new).with(21, "usd"), (9, 21)),
            (modi(&new).with(10, "N"), (11, 11)),
        ] {
            let answer = compared.submit(&message.encode());
            assert_eq!((answer.verdict, answer.element), due);
        }
        let answer = compared.status(b"swap");
        assert_eq!((answer.verdict, answer.element), (9, 1));
        compared.set_tape(&[b'x'; LINE_SIZE - 1]);
        refuse(&mut compared, &modi(&new), 4);
    }
}

// Ledgers of the layouts before.

/// A ledger as it was laid out when the header had 64 bytes and no totals.
fn of_old(length: usize, row_size: usize, rows: &[Row]) -> Vec<u8> {
    const OLD_HEADER: usize = 64;
    let mut header = header(length, rows.len() as u32, [0; TOTALS]);
    header.first_row = OLD_HEADER as u32;
    header.row_size = row_size as u32;
    header.capacity = ((length - OLD_HEADER) / row_size) as u32;
    let mut ledger = header.encode()[..OLD_HEADER].to_vec();
    for row in rows {
        ledger.extend(&row.encode()[..row_size]);
    }
    ledger.resize(length, 0);
    ledger
}

#[test]
fn ledgers_of_the_layouts_before() {
    let terms = terms_of(&plain_new(), &CAPS);
    let rows = [1, 2, 3].map(|n| Row::new(uti_of(n).as_bytes(), n, terms));
    for used in 0..=rows.len() {
        // Lengths of 1 to 6 rows then, and of as many now.
        let lengths = (1..=6).flat_map(|n| [64 + 184 * n, 64 + 160 * n, ledger_size(n)]);
        for length in lengths {
            for row_size in [184, 160] {
                if (length - 64) / row_size < used {
                    continue;
                }
                let ledger = of_old(length, row_size, &rows[..used]);
                let text = format!("{length} bytes, {used} rows of {row_size}");
                refused_with_3(&ledger, &text);
                // With the numbers of today the first row lies on the totals.
                let mut today = ledger.clone();
                let capacity = capacity(length) as u32;
                today[FIRST_ROW_IN_HEADER].copy_from_slice(&(HEADER_SIZE as u32).to_le_bytes());
                today[ROW_SIZE_IN_HEADER].copy_from_slice(&(ROW_SIZE as u32).to_le_bytes());
                today[CAPACITY_IN_HEADER].copy_from_slice(&capacity.to_le_bytes());
                if used > 0 {
                    refused_with_3(&today, &text);
                }
            }
        }
    }
}

#[test]
fn the_shortest_ledger() {
    for (length, verdict) in [(248, 1), (263, 1), (264, 0), (447, 0)] {
        let mut compared = lent(&vec![0xee; length]);
        assert_eq!(compared.open(&CAPS).verdict, verdict, "{length}");
        let opened = compared.totals();
        assert_eq!(opened.verdict, if verdict == 0 { 0 } else { 3 });
        if verdict == 0 {
            accept(&mut compared, &swap(1));
            refuse(&mut compared, &swap(2), 17);
            assert_eq!(totals(&mut compared), [1, 0, 0, 0]);
            assert_eq!(compared.ledger()[HEADER_SIZE..][..2], [LIVE, 24]);
        }
    }
}

// The screen.

/// The rows that are written without a submission.
const WRITTEN: usize = 99_000;

/// How the statuses of these rows follow each other.
const PATTERN: [u8; 11] = [1, 1, 2, 1, 3, 1, 1, 2, 4, 1, 1];

/// A ledger of the largest capacity with the written rows, 9,000 times the
/// pattern.
fn large_ledger() -> Vec<u8> {
    let terms = terms_of(&plain_new(), &CAPS);
    let row = |n: usize| Row {
        status: PATTERN[n % PATTERN.len()],
        ..Row::new(uti_of(n as u64).as_bytes(), n as u64 + 1, terms)
    };
    let rows: Vec<Row> = (0..WRITTEN).map(row).collect();
    let mut ledger = vec![0xee; ledger_size(LARGEST_CAPACITY)];
    let totals = [63_000, 18_000, 9_000, 9_000];
    let header = header(ledger.len(), WRITTEN as u32, totals);
    write(&mut ledger, &header, &rows);
    ledger
}

/// In turn a NEWT of another swap, and a message about a written row.
fn message_on_the_screen(n: usize) -> Message {
    if n.is_multiple_of(2) {
        return swap((WRITTEN + n / 2) as u64);
    }
    let place = n * 7_919 % WRITTEN;
    every_action(&swap(place as u64))[1 + n / 2 % 7].clone()
}

/// Submits so many messages to a judge; the totals are always those that a scan
/// counts. Answers the messages accepted.
fn use_screen(judge: &dyn Judge, ledger: &mut [u8], messages: usize) -> usize {
    let (mut totals, mut accepted) = ([7; TOTALS], 0);
    for n in 0..messages {
        let message = message_on_the_screen(n).encode();
        let answer = judge.submit(ledger, &mut [0; LINE_SIZE], &message);
        assert!([0, 15, 17].contains(&answer.verdict), "{answer:?}");
        accepted += usize::from(answer.verdict == 0);
        if n % 20 < 2 || n + 1 == messages {
            assert_eq!(judge.totals(ledger, &mut totals), Answer::default());
            assert_eq!(totals, scan(ledger), "{} {n}", judge.name());
        }
    }
    accepted
}

#[test]
fn a_scan_of_100_000_rows_counts_the_same() {
    let sound = large_ledger();
    assert_eq!(scan(&sound), totals_in(&sound));
    let ledgers = BOTH.map(|judge| {
        let mut ledger = sound.clone();
        let accepted = use_screen(judge, &mut ledger, 2_200);
        // 1,100 NEWTs find 1,000 free rows; of the other messages more than
        // one in three is admitted.
        assert!(accepted > 1_000 + 1_100 / 3, "{accepted}");
        let totals = totals_in(&ledger);
        assert_eq!(totals.iter().sum::<u32>(), 100_000);
        assert!(totals
            .iter()
            .zip(totals_in(&sound))
            .all(|(after, before)| *after != before));
        ledger
    });
    assert!(ledgers[0] == ledgers[1]);
}
