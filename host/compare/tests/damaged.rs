//! Damaged ledgers: headers, rows, lengths, and bytes changed at random.

use compare::compared::Compared;
use compare::cycles::{next_message, Model};
use compare::garbage::flip;
use compare::layout::{self, ledger_size, Caps, Header, Row, EXECUTION_IN_TERMS, HEADER_SIZE};
use compare::layout::{IDENTIFIER_LIMIT, LARGEST_CAPACITY, LINE_SIZE, PREVIOUS_IN_LINE};
use compare::layout::{
    LARGEST_CAP, SHORTEST_UTI, SMALLEST_CAP, TAIL_SIZE, TERMS_IN_LINE, UTI_SIZE,
};
use compare::layout::{ROW_SIZE, SHORTEST_LEDGER, TOTALS};
use compare::lists::CLASSES;
use compare::malformed;
use compare::message::Message;
use compare::random::Random;
use compare::sound::{plain_new, plain_short};
use compare::terms::terms_of;
use compare::{submissions, values};
use sdr::{Answer, CLOSED, ERRORED, LIVE, PORTED, UNKNOWN};

const CAPS: Caps = [1_000, 250_000_000, 100_000, 1_000_000_000, 150_000_000_000];
const NEXT: u64 = 40;

/// The header of a ledger with the three rows.
fn header(length: usize) -> Header {
    let mut header = Header::opened(length, CAPS);
    header.next = NEXT;
    in_use(&mut header, 3);
    header
}

/// So many rows in use, all of them live.
fn in_use(header: &mut Header, rows: u32) {
    header.rows = rows;
    header.totals = [rows, 0, 0, 0];
}

fn rows() -> Vec<Row> {
    let terms = terms_of(&plain_new(), &CAPS);
    let plain = Row::new(plain_new().value(1), 7, terms);
    let before = Row::new(b"1000000000SWAP000000000", 8, terms);
    let after = Row::new(b"1000000000SWAP00000000012", 9, terms);
    vec![before, plain, after]
}

fn ledger_of(header: &Header, rows: &[Row], length: usize) -> Vec<u8> {
    let mut ledger = vec![0xee; length];
    layout::write(&mut ledger, header, rows);
    ledger
}

fn lent(ledger: &[u8]) -> Compared {
    let mut compared = Compared::new();
    compared.set_ledger(ledger);
    compared.set_tape(&[b'x'; LINE_SIZE]);
    compared
}

/// A change that shows another currency than the row.
fn changed() -> Message {
    plain_new().with(2, "MODI").with(21, "EUR")
}

/// The verdicts of a submission and of a status question. The totals question
/// gets 3 where these do, and else 0.
fn verdicts(ledger: &[u8]) -> (u8, u8) {
    let mut compared = lent(ledger);
    let asked = compared.status(plain_new().value(1)).verdict;
    let totals = compared.totals().verdict;
    let submitted = compared.submit(&changed().encode()).verdict;
    assert_eq!(totals, if asked == 3 { 3 } else { 0 });
    (submitted, asked)
}

/// Numbers that are not this size, among them the other sizes of a ledger.
fn other_sizes(size: usize) -> Vec<u32> {
    let others = [
        0,
        size - 1,
        size + 1,
        HEADER_SIZE,
        ROW_SIZE,
        SHORTEST_LEDGER,
        size << 8,
        size << 24,
        u32::MAX as usize,
    ];
    let others = others.into_iter().filter(|&other| other != size);
    others.map(|other| other as u32).collect()
}

/// The length of a ledger of five rows and some bytes more.
const LENGTH: usize = ledger_size(5) + 9;

/// A sound header with this change gets 3.
fn refused(change: impl Fn(&mut Header)) {
    let mut header = header(LENGTH);
    change(&mut header);
    let ledger = ledger_of(&header, &rows(), LENGTH);
    assert_eq!(verdicts(&ledger), (3, 3), "{header:?}");
}

#[test]
fn each_field_of_the_header() {
    let sound = ledger_of(&header(LENGTH), &rows(), LENGTH);
    assert_eq!(verdicts(&sound), (0, 0));
    for rows in [6, 7, 256, 1 << 24, u32::MAX] {
        refused(|header| in_use(header, rows));
    }
    for first in other_sizes(HEADER_SIZE) {
        refused(|header| header.first_row = first);
    }
    for next in [0, IDENTIFIER_LIMIT + 1, 1 << 40, 1 << 63, u64::MAX] {
        refused(|header| header.next = next);
    }
    for row_size in other_sizes(ROW_SIZE) {
        refused(|header| header.row_size = row_size);
    }
    for capacity in [0, 3, 4, 6, 5 << 8, LARGEST_CAPACITY as u32, u32::MAX] {
        refused(|header| header.capacity = capacity);
    }
    for class in 0..CLASSES.len() {
        for cap in malformed::CAPS {
            refused(|header| header.caps[class] = cap);
        }
    }
}

/// Three rows are in use, all of them live.
#[test]
fn totals_that_do_not_add_up() {
    for rows in [0, 1, 2, 4, 5, 6, 3 << 8, 3 << 24, u32::MAX] {
        refused(|header| header.rows = rows);
    }
    for live in [0, 1, 2, 4, 5, 3 << 8, 3 << 24, 3 | 1 << 31, u32::MAX] {
        refused(|header| header.totals[0] = live);
    }
    for place in 1..TOTALS {
        for total in [1, 2, 3, 1 << 8, 1 << 16, 1 << 31, u32::MAX] {
            refused(|header| header.totals[place] = total);
        }
    }
}

#[test]
fn headers_that_look_odd_and_are_sound() {
    let length = ledger_size(5);
    let mut odd = header(length);
    // Next and rows in use need not fit together; rows may equal capacity.
    odd.next = IDENTIFIER_LIMIT;
    assert_eq!(verdicts(&ledger_of(&odd, &rows(), length)), (18, 0));
    let mut full = header(ledger_size(3));
    full.next = 10;
    assert_eq!(verdicts(&ledger_of(&full, &rows(), ledger_size(3))), (0, 0));
    // Each class has the lowest and the highest cap.
    for class in 0..CLASSES.len() {
        for cap in [SMALLEST_CAP, LARGEST_CAP] {
            let mut capped = header(length);
            capped.caps[class] = cap;
            assert_eq!(verdicts(&ledger_of(&capped, &rows(), length)), (0, 0));
        }
    }
    // No row in use: the swap is unknown.
    let mut empty = header(length);
    in_use(&mut empty, 0);
    assert_eq!(verdicts(&ledger_of(&empty, &rows(), length)), (15, 0));
    in_use(&mut empty, 1);
    assert_eq!(verdicts(&ledger_of(&empty, &rows(), length)), (15, 0));
    // Totals that are no count of the rows: nobody counts.
    for totals in [[2, 1, 0, 0], [1, 0, 2, 0], [1, 0, 0, 2], [1, 1, 1, 0]] {
        let mut other = header(length);
        other.totals = totals;
        assert_eq!(verdicts(&ledger_of(&other, &rows(), length)), (0, 0));
    }
}

#[test]
fn a_ledger_lent_shorter_or_longer() {
    let opened = header(ledger_size(5));
    for (length, due) in [
        (ledger_size(5), (0, 0)),
        (ledger_size(6) - 1, (0, 0)),
        (ledger_size(6), (3, 3)),
        (ledger_size(5) - 1, (3, 3)),
        (ledger_size(3), (3, 3)),
        (SHORTEST_LEDGER, (3, 3)),
        (SHORTEST_LEDGER - 1, (3, 3)),
        (HEADER_SIZE, (3, 3)),
        (HEADER_SIZE - 1, (3, 3)),
        (0, (3, 3)),
    ] {
        let mut ledger = ledger_of(&opened, &rows(), ledger_size(7));
        ledger.truncate(length);
        assert_eq!(verdicts(&ledger), due, "{length}");
    }
}

/// Rows had 160 bytes before they had room for a spread.
#[test]
fn a_ledger_with_rows_of_160_bytes() {
    // 880 bytes are a header and 5 rows of 160 bytes, or 4 rows of 184 bytes
    // and 64 more.
    for (length, row_size, capacity, due) in [
        (880, 184, 4, (0, 0)),
        (880, 160, 5, (3, 3)),
        (880, 160, 4, (3, 3)),
        (880, 184, 5, (3, 3)),
        // The shortest ledgers: of two sizes, with room for one row.
        (264, 184, 1, (15, 0)),
        (264, 160, 1, (3, 3)),
        (240, 160, 1, (3, 3)),
        (240, 184, 1, (3, 3)),
    ] {
        let mut header = header(length);
        in_use(&mut header, capacity.min(3));
        header.row_size = row_size;
        header.capacity = capacity;
        let ledger = ledger_of(&header, &rows(), length);
        assert_eq!(
            verdicts(&ledger),
            due,
            "{length} bytes, {row_size}, {capacity}"
        );
    }
    // A header and a row of 160 bytes are too short to be opened.
    for (length, due) in [(240, 1), (263, 1), (264, 0)] {
        let mut compared = lent(&vec![0xee; length]);
        assert_eq!(compared.open(&CAPS).verdict, due, "{length}");
    }
}

/// The verdicts where the plain swap's row is changed.
fn verdicts_with(change: impl Fn(&mut Row)) -> (u8, u8) {
    let length = ledger_size(5);
    let mut rows = rows();
    change(&mut rows[1]);
    verdicts(&ledger_of(&header(length), &rows, length))
}

#[test]
fn rows_with_a_wrong_status_or_identifier() {
    for status in [0, 5, 6, 49, 128, 255] {
        assert_eq!(
            verdicts_with(|row| row.status = status),
            (14, 14),
            "{status}"
        );
    }
    // None of the other statuses has a total.
    for status in [CLOSED, ERRORED, PORTED] {
        let change = |row: &mut Row| row.status = status;
        assert_eq!(verdicts_with(change), (14, 14), "{status}");
    }
    for identifier in [0, NEXT, NEXT + 1, 1 << 40, u64::MAX] {
        let change = |row: &mut Row| row.identifier = identifier;
        assert_eq!(verdicts_with(change), (14, 14), "{identifier}");
    }
    for identifier in [1, 2, NEXT - 1] {
        let change = |row: &mut Row| row.identifier = identifier;
        assert_eq!(verdicts_with(change), (0, 0), "{identifier}");
    }
}

#[test]
fn a_wrong_row_of_another_swap_is_no_fault() {
    let length = ledger_size(5);
    for row in [0, 2] {
        let mut rows = rows();
        rows[row].status = 9;
        rows[row].identifier = 0;
        assert_eq!(verdicts(&ledger_of(&header(length), &rows, length)), (0, 0));
    }
}

#[test]
fn rows_with_another_length_are_not_the_swap_s() {
    for length in [0, 1, 20, 21, 23, 25, 52, 53, 128, 24 + 128, 255] {
        // The message's UTI has 24 characters.
        assert_eq!(
            verdicts_with(|row| row.length = length),
            (15, 0),
            "{length}"
        );
    }
    assert_eq!(verdicts_with(|row| row.uti[0] ^= 1), (15, 0));
    assert_eq!(verdicts_with(|row| row.uti[23] ^= 1), (15, 0));
}

#[test]
fn every_byte_of_a_uti_is_compared() {
    let mut header = header(SHORTEST_LEDGER);
    in_use(&mut header, 1);
    for size in [SHORTEST_UTI, UTI_SIZE] {
        let uti = vec![b'A'; size];
        let row = Row::new(&uti, 7, terms_of(&plain_new(), &CAPS));
        let status = |row: &Row| {
            let ledger = ledger_of(&header, std::slice::from_ref(row), SHORTEST_LEDGER);
            lent(&ledger).status(&uti).status
        };
        assert_eq!(status(&row), LIVE);
        for at in 0..size {
            let mut other = row.clone();
            other.uti[at] = b'a';
            assert_eq!(status(&other), UNKNOWN, "byte {at} of {size}");
        }
    }
}

#[test]
fn padding_terms_and_tail_are_not_judged() {
    assert_eq!(verdicts_with(|row| row.uti[24..].fill(b'Z')), (0, 0));
    assert_eq!(verdicts_with(|row| row.tail = [1; TAIL_SIZE]), (0, 0));
    assert_eq!(
        verdicts_with(|row| row.terms[EXECUTION_IN_TERMS.end..].fill(0xff)),
        (0, 0)
    );
    // All but the execution time, which MODI has to repeat.
    assert_eq!(
        verdicts_with(|row| row.terms[EXECUTION_IN_TERMS][19] = b'z'),
        (16, 0)
    );
}

#[test]
fn a_change_leaves_padding_and_tail() {
    let length = ledger_size(5);
    let mut rows = rows();
    rows[1].uti[24..].fill(b'Z');
    rows[1].tail = [9; TAIL_SIZE];
    rows[1].terms[EXECUTION_IN_TERMS.end..].fill(0xff);
    rows[1].status = CLOSED;
    let mut before = header(length);
    before.totals = [2, 1, 0, 0];
    for (message, status, totals) in [
        (plain_new().with(2, "CORR").without(3), CLOSED, [2, 1, 0, 0]),
        (plain_new().with(2, "REVI").without(3), LIVE, [3, 0, 0, 0]),
        (plain_short("EROR", None), ERRORED, [2, 0, 1, 0]),
    ] {
        let mut compared = lent(&ledger_of(&before, &rows, length));
        assert_eq!(compared.submit(&message.encode()).identifier, NEXT);
        let mut due = rows.clone();
        due[1].status = status;
        due[1].identifier = NEXT;
        if message.has(6) {
            due[1].terms = terms_of(&message, &CAPS);
        }
        let mut after = before.clone();
        after.next += 1;
        after.totals = totals;
        assert_eq!(compared.ledger(), ledger_of(&after, &due, length));
        assert_eq!(compared.tape()[TERMS_IN_LINE], due[1].terms);
    }
}

#[test]
fn the_first_of_two_rows_with_one_uti_counts() {
    let length = ledger_size(5);
    let mut rows = rows();
    rows[2] = rows[1].clone();
    rows[1].status = CLOSED;
    rows[1].identifier = 11;
    rows[2].identifier = 12;
    let mut header = header(length);
    header.totals = [2, 1, 0, 0];
    let mut compared = lent(&ledger_of(&header, &rows, length));
    let answer = compared.status(plain_new().value(1));
    assert_eq!((answer.status, answer.identifier), (CLOSED, 11));
    assert_eq!(compared.submit(&changed().encode()).verdict, 15);
    let ended = plain_short("EROR", None);
    assert_eq!(compared.submit(&ended.encode()).identifier, NEXT);
    assert_eq!(compared.tape()[PREVIOUS_IN_LINE], *b"000000000011");
    assert_eq!(compared.ledger()[layout::row_range(2)], rows[2].encode());
    // A wrong first row is 14, though the second is sound.
    rows[1].status = 0;
    let mut compared = lent(&ledger_of(&header, &rows, length));
    let refused = Answer {
        verdict: 14,
        ..Answer::default()
    };
    assert_eq!(compared.status(plain_new().value(1)), refused);
    assert_eq!(compared.submit(&changed().encode()), refused);
}

/// A ledger that has seen some life, with its model and the swaps' UTIs.
fn lived(random: &mut Random) -> (Vec<u8>, Model, Vec<Vec<u8>>) {
    let rows = random.between(2, 12);
    let length = ledger_size(rows) + random.below(ROW_SIZE);
    let mut model = Model::opened(length, values::caps(random));
    let utis = values::utis(random, rows + 1);
    for _ in 0..30 {
        let message = next_message(random, &model, &utis);
        model.submit(&message, LINE_SIZE);
    }
    let mut ledger = random.bytes(length);
    layout::write(&mut ledger, &model.header, &model.rows);
    (ledger, model, utis)
}

#[test]
fn bytes_of_the_ledger_changed_at_random() {
    let mut random = Random::for_test(401);
    let mut compared = Compared::new();
    let mut tape = random.bytes(LINE_SIZE + 14);
    while compared.tally.submissions < submissions(25_000) {
        let (sound, model, utis) = lived(&mut random);
        for _ in 0..25 {
            let mut ledger = sound.clone();
            let end = if random.once_in(3) {
                HEADER_SIZE
            } else {
                ledger.len()
            };
            flip(&mut random, &mut ledger[..end]);
            compared.set_ledger(&ledger);
            flip(&mut random, &mut tape);
            compared.set_tape(&tape);
            let uti = random.pick(&utis);
            compared.status(uti);
            let message = next_message(&mut random, &model, &utis);
            compared.submit(&message.encode());
            compared.status(message.value(1));
            compared.totals();
        }
    }
    println!("changed ledgers: {}", compared.tally);
    for verdict in [0, 3, 14, 15] {
        assert!(compared.tally.verdict(verdict) > 0, "verdict {verdict}");
    }
}

#[test]
fn bytes_of_the_message_changed_at_random() {
    let mut random = Random::for_test(402);
    let mut compared = Compared::new();
    let tape = random.bytes(LINE_SIZE + 4);
    while compared.tally.submissions < submissions(25_000) {
        let (ledger, model, utis) = lived(&mut random);
        for _ in 0..25 {
            compared.set_ledger(&ledger);
            compared.set_tape(&tape);
            let mut message = next_message(&mut random, &model, &utis).encode();
            let end = if random.once_in(3) { 40 } else { message.len() };
            let end = end.min(message.len());
            flip(&mut random, &mut message[..end]);
            compared.submit(&message);
        }
    }
    println!("changed messages: {}", compared.tally);
    for verdict in [0, 5, 6, 9, 10, 15] {
        assert!(compared.tally.verdict(verdict) > 0, "verdict {verdict}");
    }
}
