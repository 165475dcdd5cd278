//! The totals: clauses 8.1, 8.5 and 8.8, their part in verdicts 3 and 14, and
//! the totals question (10.8).

mod common;
use checker::sizes::{header, line, row, LARGEST_CAPACITY};
use checker::{open, status, totals, Answer};
use common::*;
use std::collections::BTreeSet;

const OTHER: &str = "ANOTHERSWAP0000000000001";

/// The message about the other swap.
fn of_other(m: Elements) -> Elements {
    with(m, 1, OTHER)
}

fn eror() -> Elements {
    short("EROR", None)
}

fn corr() -> Elements {
    full("CORR", None)
}

fn revi() -> Elements {
    full("REVI", None)
}

/// One message of each action, and a MODI that shows what the NEWT shows.
fn each_action() -> [Elements; 8] {
    [
        newt(),
        modi(),
        modi_as_newt(),
        corr(),
        term(),
        eror(),
        revi(),
        prto(),
    ]
}

/// The totals are these, in the header and in the answer.
fn totals_are(book: &Book, due: [u32; 4]) {
    assert_eq!(totals(&book.ledger), (0, due));
    assert_eq!(book.totals(), due);
}

/// Submission and both questions answer 3, and the totals are zeros.
fn breaks_the_ledger(book: &Book) {
    let mut book = book.clone();
    for m in each_action() {
        book.refuse(&m, 3, 0);
    }
    assert_eq!(status(&book.ledger, UTI.as_bytes()), refused(3, 0));
    assert_eq!(totals(&book.ledger), (3, [0; 4]));
}

/// Five rows, of which four are in use: one for each status, of other swaps.
fn one_of_each() -> Book {
    let mut book = Book::new(5);
    let of = |n: u8, m| with(m, 1, &format!("{OTHER}{n}"));
    for n in 1..=4 {
        book.accept(&of(n, newt()));
    }
    book.accept(&of(2, term()));
    book.accept(&of(3, eror()));
    book.accept(&of(4, prto()));
    totals_are(&book, [1, 1, 1, 1]);
    book
}

#[test]
fn opening_writes_totals_of_0() {
    for filler in [0, 0xEE, 0xFF] {
        let mut ledger = vec![filler; 264];
        assert_eq!(open(&mut ledger, &CAPS), 0);
        assert_eq!(ledger[4..8], [80, 0, 0, 0]);
        assert_eq!(ledger[64..80], [0; 16]);
        assert_eq!(ledger[80..], [filler; 184]);
        assert_eq!(totals(&ledger), (0, [0; 4]));
    }
    // an opening that is refused leaves them, another one does not
    let mut book = one_of_each();
    assert_eq!(open(&mut book.ledger, &[0; 5]), 2);
    totals_are(&book, [1, 1, 1, 1]);
    assert_eq!(open(&mut book.ledger, &CAPS), 0);
    totals_are(&book, [0; 4]);
}

/// Four u32 from offset 64, by status, least significant byte first.
#[test]
fn where_the_totals_stand() {
    let mut book = Book::new(LARGEST_CAPACITY);
    book.set_u32(header::ROWS, 100_000);
    let bytes = [3, 2, 1, 0, 0x98, 0x83, 0, 0, 3, 1, 0, 0, 2, 0, 0, 0];
    book.ledger[64..80].copy_from_slice(&bytes);
    let (live, closed, errored, ported) = (66_051, 33_688, 259, 2);
    let due = (0, [live, closed, errored, ported]);
    assert_eq!(totals(&book.ledger), due);
}

#[test]
fn each_step() {
    let after = |book: &Book, m: Elements, due| {
        let mut book = book.clone();
        book.accept(&m);
        totals_are(&book, due);
        book
    };
    let unknown = one_of_each();
    let live = after(&unknown, newt(), [2, 1, 1, 1]);
    after(&live, modi(), [2, 1, 1, 1]);
    after(&live, modi_as_newt(), [2, 1, 1, 1]);
    after(&live, corr(), [2, 1, 1, 1]);
    after(&live, eror(), [1, 1, 2, 1]);
    after(&live, prto(), [1, 1, 1, 2]);
    let closed = after(&live, term(), [1, 2, 1, 1]);
    after(&closed, corr(), [1, 2, 1, 1]);
    after(&closed, revi(), [2, 1, 1, 1]);
    let errored = after(&closed, eror(), [1, 1, 2, 1]);
    after(&errored, revi(), [2, 1, 1, 1]);
}

#[test]
fn the_life_of_a_swap() {
    let mut book = Book::new(1);
    for (m, due) in [
        (newt(), [1, 0, 0, 0]),
        (modi(), [1, 0, 0, 0]),
        (modi(), [1, 0, 0, 0]), // no line
        (corr(), [1, 0, 0, 0]),
        (term(), [0, 1, 0, 0]),
        (corr(), [0, 1, 0, 0]),
        (revi(), [1, 0, 0, 0]),
        (eror(), [0, 0, 1, 0]),
        (revi(), [1, 0, 0, 0]),
        (term(), [0, 1, 0, 0]),
        (eror(), [0, 0, 1, 0]),
        (revi(), [1, 0, 0, 0]),
        (prto(), [0, 0, 0, 1]),
    ] {
        book.accept(&m);
        totals_are(&book, due);
    }
}

/// After every list of up to five accepted messages about two swaps each total
/// is the number of rows with that status, and they add up to the NEWT messages.
#[test]
fn the_totals_are_a_full_count() {
    fn go(book: &Book, newts: u32, left: u8, seen: &mut BTreeSet<Vec<u8>>) {
        let statuses: Vec<u8> = (0..book.u32_at(header::ROWS))
            .map(|place| book.row(place as usize)[row::STATUS])
            .collect();
        let number = |status| statuses.iter().filter(|&&s| s == status).count() as u32;
        let count = [1, 2, 3, 4].map(number);
        totals_are(book, count);
        assert_eq!(count.iter().sum::<u32>(), newts);
        seen.insert(statuses);
        if left == 0 {
            return;
        }
        for m in each_action()
            .into_iter()
            .flat_map(|m| [of_other(m.clone()), m])
        {
            let mut next = book.clone();
            if next.submit(&m).verdict == 0 {
                let newts = newts + u32::from(m[&2] == b"NEWT");
                go(&next, newts, left - 1, seen);
            }
        }
    }
    let mut seen = BTreeSet::new();
    go(&Book::new(2), 0, 5, &mut seen);
    // no row, one of each status, two of any statuses
    assert_eq!(seen.len(), 1 + 4 + 16);
}

/// Totals that carry from byte to byte, up to the largest ledger. The first row
/// is the swap's, the others are nobody's.
#[test]
fn large_totals() {
    let mut book = Book::new(LARGEST_CAPACITY);
    book.accept(&newt());
    for n in [255, 65_535, 99_999] {
        let mut book = book.clone();
        book.set_u32(header::ROWS, n);
        book.set_totals([n, 0, 0, 0]);
        book.accept(&of_other(newt()));
        totals_are(&book, [n + 1, 0, 0, 0]);
        book.accept(&term());
        totals_are(&book, [n, 1, 0, 0]);
        // all but one are closed
        book.set_totals([1, n, 0, 0]);
        book.accept(&revi());
        totals_are(&book, [2, n - 1, 0, 0]);
    }
}

#[test]
fn a_refusal_moves_no_total() {
    let mut book = Book::new(1);
    book.accept(&newt());
    book.refuse(&of_other(newt()), 17, 0);
    book.refuse(&newt(), 15, 0);
    book.set_u64(header::NEXT_IDENTIFIER, 1_000_000_000_000);
    for m in [term(), eror(), corr(), modi()] {
        book.refuse(&m, 18, 0);
    }
    totals_are(&book, [1, 0, 0, 0]);
    // what writes no line passes; PRTO changes the status
    book.accept(&modi_as_newt());
    totals_are(&book, [1, 0, 0, 0]);
    book.accept(&prto());
    totals_are(&book, [0, 0, 0, 1]);
}

#[test]
fn totals_that_do_not_add_up() {
    let sound = one_of_each();
    let mut book = sound.clone();
    for place in 0..4 {
        for bad in [0, 2, 5, 100_000, 0x8000_0001, u32::MAX] {
            let mut totals = [1; 4];
            totals[place] = bad;
            book.set_totals(totals);
            breaks_the_ledger(&book);
        }
    }
    book.set_totals([0; 4]);
    breaks_the_ledger(&book);
    book.set_totals([u32::MAX; 4]);
    breaks_the_ledger(&book);
    // the rows in use are others
    for bad in [0, 3, 5] {
        let mut book = sound.clone();
        book.set_u32(header::ROWS, bad);
        breaks_the_ledger(&book);
    }
}

/// Four rows are in use. In 32 bits each of these sums would be 4.
#[test]
fn the_sum_is_exact() {
    let mut book = one_of_each();
    for totals in [
        [0x8000_0000, 0x8000_0004, 0, 0],
        [0x4000_0001; 4],
        [u32::MAX, 5, 0, 0],
        [u32::MAX, 2, 2, 1],
        [u32::MAX, u32::MAX, 6, 0],
        [u32::MAX, u32::MAX, u32::MAX, 7],
    ] {
        let wrapped = totals.into_iter().fold(0, u32::wrapping_add);
        assert_eq!(wrapped, 4);
        for turns in 0..4 {
            let mut totals = totals;
            totals.rotate_left(turns);
            book.set_totals(totals);
            breaks_the_ledger(&book);
        }
    }
    let mut book = Book::new(1);
    book.set_totals([0x4000_0000; 4]);
    breaks_the_ledger(&book);
}

/// The sum alone is judged, not how the rows share it.
#[test]
fn totals_that_are_not_a_count() {
    let mut book = one_of_each();
    for totals in [[4, 0, 0, 0], [0, 0, 0, 4], [0, 3, 1, 0], [2, 0, 0, 2]] {
        book.set_totals(totals);
        totals_are(&book, totals);
        assert_eq!(status(&book.ledger, UTI.as_bytes()), Answer::default());
    }
    // a NEWT finds no row, so no total can be 0 for it
    book.set_totals([0, 3, 1, 0]);
    book.accept(&newt());
    totals_are(&book, [1, 3, 1, 0]);
}

/// The swap's status has total 0: 14, whatever the action, and in the status
/// question.
#[test]
fn a_total_of_0() {
    let mut book = Book::new(2);
    book.accept(&newt());
    let disordered = with(newt(), 8, "2000-01-01");
    for of_row in 1..=4 {
        // the total of any other status may be 0
        book.set_only_status(of_row);
        let asked = status(&book.ledger, UTI.as_bytes());
        assert_eq!((asked.verdict, asked.status), (0, of_row));
        for place in (0..4).filter(|place| place + 1 != usize::from(of_row)) {
            let mut totals = [0; 4];
            totals[place] = 1;
            let mut broken = book.clone();
            broken.set_totals(totals);
            assert_eq!(status(&broken.ledger, UTI.as_bytes()), refused(14, 0));
            // 14 comes before 15, 16 and 18, and after 4 and 13
            for m in each_action() {
                broken.refuse(&m, 14, 0);
            }
            broken.refuse(&with(modi(), 6, "2024-02-29T10:15:31Z"), 14, 0);
            broken.refuse(&disordered, 13, 0);
            let mut spent = broken.clone();
            spent.set_u64(header::NEXT_IDENTIFIER, 1_000_000_000_000);
            spent.refuse(&corr(), 14, 0);
            let mut cut = broken.clone();
            cut.tape.truncate(line::SIZE - 1);
            cut.refuse(&corr(), 4, 0);
            // neither the totals question nor another swap meets it
            totals_are(&broken, totals);
            broken.accept(&of_other(newt()));
            totals[0] += 1;
            totals_are(&broken, totals);
        }
    }
}

/// Messages about one swap move the totals that another's row is judged by.
#[test]
fn a_total_of_0_comes_and_goes() {
    let mut book = Book::new(2);
    book.accept(&newt());
    book.accept(&of_other(newt()));
    book.accept(&of_other(term()));
    totals_are(&book, [1, 1, 0, 0]);
    book.set_totals([2, 0, 0, 0]);
    book.refuse(&of_other(corr()), 14, 0);
    book.refuse(&of_other(revi()), 14, 0);
    assert_eq!(status(&book.ledger, OTHER.as_bytes()), refused(14, 0));
    // the live swap goes on
    book.accept(&modi());
    totals_are(&book, [2, 0, 0, 0]);
    book.accept(&term());
    totals_are(&book, [1, 1, 0, 0]);
    // and the total of the other's status is no longer 0
    assert_eq!(status(&book.ledger, OTHER.as_bytes()).status, 2);
    book.accept(&of_other(corr()));
    totals_are(&book, [1, 1, 0, 0]);
    book.accept(&of_other(revi()));
    totals_are(&book, [2, 0, 0, 0]);
    book.refuse(&corr(), 14, 0);
    assert_eq!(status(&book.ledger, UTI.as_bytes()), refused(14, 0));
}

/// Every other fault of the header, with totals of 1 in it.
#[test]
fn zeros_beside_3() {
    let sound = one_of_each();
    for (at, bad) in [
        (header::ROWS, 6),
        (header::FIRST_ROW, 64),
        (header::FIRST_ROW, 79),
        (header::FIRST_ROW, 81),
        (header::ROW_SIZE, 183),
        (header::ROW_SIZE, 185),
        (header::CAPACITY, 4),
        (header::CAPACITY, 6),
    ] {
        let mut book = sound.clone();
        book.set_u32(at, bad);
        breaks_the_ledger(&book);
    }
    for bad in [0, 1_000_000_000_001] {
        let mut book = sound.clone();
        book.set_u64(header::NEXT_IDENTIFIER, bad);
        breaks_the_ledger(&book);
    }
    for class in 0..5 {
        let mut book = sound.clone();
        book.set_u64(header::CAPS + 8 * class, 999);
        breaks_the_ledger(&book);
    }
    // a ledger cut short: five rows have 920 bytes, and 183 more make no sixth
    for length in 0..1_000 {
        assert_eq!(totals(&sound.ledger[..length]), (3, [0; 4]));
    }
    let mut longer = sound.ledger.clone();
    for length in 1_000..1_184 {
        assert_eq!(longer.len(), length);
        assert_eq!(totals(&longer), (0, [1; 4]));
        longer.push(0);
    }
    assert_eq!(totals(&longer), (3, [0; 4]));
}

/// The totals question looks at no row.
#[test]
fn rows_of_any_bytes() {
    let sound = one_of_each();
    for filler in [0, 1, 5, 0xFF] {
        let mut book = sound.clone();
        book.ledger[header::SIZE..].fill(filler);
        totals_are(&book, [1, 1, 1, 1]);
    }
    // nor at the identifiers in them, where few are given or all are spent
    for next in [1, 1_000_000_000_000] {
        let mut book = sound.clone();
        book.set_u64(header::NEXT_IDENTIFIER, next);
        totals_are(&book, [1, 1, 1, 1]);
    }
}

/// A header of 64 bytes with no rows in use, and rows from there on.
fn old_ledger(length: usize, capacity: u32) -> Book {
    let mut book = Book::new(1);
    book.ledger = vec![0; length];
    book.set_u32(4, 64);
    book.set_u64(8, 1);
    for class in 0..5 {
        book.set_u64(16 + 8 * class, 250_000_000);
    }
    book.set_u32(56, 184);
    book.set_u32(60, capacity);
    book
}

#[test]
fn ledgers_of_the_old_layout() {
    // in 248, 432 and 447 bytes there was room for a row more than there is now
    for (length, capacity) in [(248, 1), (432, 2), (447, 2)] {
        let mut book = old_ledger(length, capacity);
        breaks_the_ledger(&book);
        book.set_u32(4, 80);
        breaks_the_ledger(&book);
    }
    // elsewhere the offset of the first row tells
    for (length, capacity) in [(264, 1), (431, 1), (448, 2), (62_640, 340)] {
        let mut book = old_ledger(length, capacity);
        breaks_the_ledger(&book);
        // also with a row in use, whose first bytes stand where the totals do now
        book.set_u32(0, 1);
        book.ledger[64..248].fill(b' ');
        breaks_the_ledger(&book);
        book.ledger[64..80].copy_from_slice(&[1, 0, 0, 0, 0, 0, 0, 0, 0, 0, 0, 0, 0, 0, 0, 0]);
        breaks_the_ledger(&book);
        book.set_u32(4, 80);
        totals_are(&book, [1, 0, 0, 0]);
        assert_eq!(open(&mut book.ledger, &CAPS), 0);
        totals_are(&book, [0; 4]);
    }
}
