//! Any bytes get an answer, and a refusal changes no byte.

mod common;
use checker::sizes::{header, line, row, SHORTEST_LEDGER, TOTALS};
use checker::*;
use common::*;

/// A plain generator of numbers (xorshift), the same on each run.
struct Numbers(u64);

impl Numbers {
    fn next(&mut self) -> u64 {
        self.0 ^= self.0 << 13;
        self.0 ^= self.0 >> 7;
        self.0 ^= self.0 << 17;
        self.0
    }

    fn below(&mut self, n: usize) -> usize {
        (self.next() % n as u64) as usize
    }

    fn byte(&mut self) -> u8 {
        match self.below(4) {
            0 => 0,
            1 => 0xFF,
            2 => b"0123456789.-TFZ:ANY"[self.below(19)],
            _ => self.next() as u8,
        }
    }

    fn bytes(&mut self, longest: usize) -> Vec<u8> {
        let length = self.below(longest + 1);
        (0..length).map(|_| self.byte()).collect()
    }

    fn change(&mut self, bytes: &mut Vec<u8>) {
        if bytes.is_empty() {
            return;
        }
        let at = self.below(bytes.len());
        match self.below(8) {
            0 => bytes.truncate(at),
            1 => bytes.push(self.byte()),
            _ => bytes[at] = self.byte(),
        }
    }
}

fn some_messages() -> Vec<Elements> {
    vec![
        newt(),
        with_package(newt(), "-12.50", "1"),
        with_package(modi(), "0.0250", "3"),
        with_spread(newt(), "-12.50", "1"),
        with_spread(modi(), "25", "4"),
        with_spread(with_package(modi(), "0.0250", "3"), "0.0250", "3"),
        modi(),
        modi_as_newt(),
        full("CORR", None),
        full("REVI", None),
        term(),
        short("EROR", None),
        prto(),
    ]
}

/// Is a line due for a message that is accepted? Not for PRTO, nor for a MODI
/// that would leave the stored terms alone if it were a CORR. The first row is
/// the swap's.
fn is_line_due(before: &Book, message: &[u8]) -> bool {
    let terms = |book: &Book| book.row(0)[row::TERMS..row::TAIL].to_vec();
    match value(message, 2) {
        Some(b"PRTO") => false,
        Some(b"MODI") => {
            let element = |code| Some((code, value(message, code)?.to_vec()));
            let modi: Elements = (1..=LAST_CODE).filter_map(element).collect();
            let mut corrected = before.clone();
            corrected.accept(&with(without(modi, 3), 2, "CORR"));
            terms(&corrected) != terms(before)
        }
        _ => true,
    }
}

/// The totals after a swap went from one status to another; unknown has none.
fn moved(mut totals: [u32; TOTALS], old: u8, new: u8) -> [u32; TOTALS] {
    for status in 1..=4 {
        let total = &mut totals[usize::from(status) - 1];
        *total += u32::from(status == new);
        *total -= u32::from(status == old);
    }
    totals
}

/// The rows in use by status.
fn count(book: &Book) -> [u32; TOTALS] {
    let rows = book.u32_at(header::ROWS) as usize;
    let is = |place, status| book.row(place)[row::STATUS] == status;
    [1, 2, 3, 4].map(|status| (0..rows).filter(|&place| is(place, status)).count() as u32)
}

#[test]
fn leaves_take_any_bytes() {
    let mut numbers = Numbers(1);
    for _ in 0..100_000 {
        let v = numbers.bytes(60);
        let cap = numbers.next() >> numbers.below(64);
        let _ = (is_date(&v), is_time(&v), is_lei(&v), is_uti(&v));
        let _ = (is_currency(&v), is_location(&v));
        let _ = (price_too_long(&v, b"4"), price_too_long(&v, &v));
        let _ = (is_cap(cap), is_pair(&v, Some(&v)));
        assert_eq!(is_notional(&v), masked(&v, cap).is_some());
        assert_eq!(is_price(&v), shown_price(&v).is_some());
        let code = numbers.next() as u16;
        assert!(layout_right(&v) || value(&v, code).is_none());
    }
}

#[test]
fn messages_of_any_bytes() {
    let mut numbers = Numbers(2);
    let mut book = Book::new(4);
    book.accept(&newt());
    for _ in 0..50_000 {
        let m = numbers.bytes(300);
        let answer = book.submit_bytes(&m);
        assert!(matches!(answer.verdict, 5..=7));
    }
}

#[test]
fn changed_messages_and_ledgers() {
    let mut numbers = Numbers(3);
    let mut verdicts = [0; 20];
    let mut modi_lines = [0; 2];
    let mut wrong_totals = 0;
    for round in 0..60_000 {
        let mut book = Book::new(1 + numbers.below(3));
        book.accept(&newt());
        if numbers.below(2) == 0 {
            book.accept(&term());
        }
        if numbers.below(4) == 0 {
            // one row is in use, so the sum is right
            let mut totals = [0; TOTALS];
            totals[numbers.below(TOTALS)] = 1;
            book.set_totals(totals);
        }
        if numbers.below(3) == 0 {
            for _ in 0..=numbers.below(3) {
                numbers.change(&mut book.ledger);
            }
        }
        if numbers.below(20) == 0 {
            book.tape.truncate(numbers.below(line::SIZE + SPARE));
        }
        let messages = some_messages();
        let mut m = messages[numbers.below(messages.len())].clone();
        let code = 1 + numbers.below(LAST_CODE.into()) as u16;
        match numbers.below(4) {
            0 => drop(m.remove(&code)),
            1 => {
                let v = m.entry(code).or_insert(vec![b'1']);
                numbers.change(v);
                if v.is_empty() {
                    v.push(b'N');
                }
            }
            2 => set(&mut m, 1, "ANOTHERSWAP0000000000001"),
            _ => {}
        }
        let mut bytes = laid_out(&m);
        if round % 5 == 0 {
            numbers.change(&mut bytes);
        }
        let before = book.clone();
        let answer = book.submit_bytes(&bytes);
        verdicts[usize::from(answer.verdict)] += 1;
        let names = matches!(answer.verdict, 6 | 7 | 8 | 9 | 11);
        assert_eq!(names, answer.element != 0);
        if answer.verdict == 0 {
            // An accepted message is one of the right form, and each line
            // takes one identifier.
            assert!(layout_right(&bytes));
            let next = before.u64_at(header::NEXT_IDENTIFIER);
            let is_due = is_line_due(&before, &bytes);
            assert_eq!(answer.identifier, if is_due { next } else { 0 });
            assert_eq!(
                book.u64_at(header::NEXT_IDENTIFIER),
                next + u64::from(is_due)
            );
            let uti = value(&bytes, 1).unwrap();
            let asked = status(&book.ledger, uti);
            assert!((1..=4).contains(&asked.status));
            assert!(!is_due || asked.identifier == next);
            let old = status(&before.ledger, uti).status;
            let due = moved(before.totals(), old, asked.status);
            assert_eq!(totals(&book.ledger), (0, due));
            if value(&bytes, 2) == Some(b"MODI") {
                modi_lines[usize::from(is_due)] += 1;
                assert!(is_due || book == before);
            }
        }
        let asked = status(&book.ledger, UTI.as_bytes());
        assert!(matches!(asked.verdict, 0 | 3 | 14));
        let due = if asked.verdict == 3 {
            (3, [0; TOTALS])
        } else {
            (0, book.totals())
        };
        assert_eq!(totals(&book.ledger), due);
        wrong_totals += u32::from(due.0 == 0 && due.1 != count(&book));
    }
    assert!(wrong_totals > 0);
    for verdict in [0, 3, 4, 5, 6, 7, 8, 9, 10, 11, 14, 15, 17, 19] {
        assert!(verdicts[verdict] > 0, "{verdict}: {verdicts:?}");
    }
    assert!(modi_lines.iter().all(|&n| n > 0), "{modi_lines:?}");
}

#[test]
fn ledgers_of_any_bytes() {
    let mut numbers = Numbers(4);
    let m = laid_out(&newt());
    for _ in 0..50_000 {
        let mut ledger = numbers.bytes(600);
        let mut tape = numbers.bytes(200);
        let before = (ledger.clone(), tape.clone());
        assert_eq!(submit(&mut ledger, &mut tape, &m).verdict, 3);
        assert_eq!(status(&ledger, UTI.as_bytes()).verdict, 3);
        assert_eq!(totals(&ledger), (3, [0; TOTALS]));
        assert!((ledger.clone(), tape) == before);
        let caps = [(); 5].map(|()| numbers.next() >> numbers.below(64));
        let verdict = open(&mut ledger, &caps);
        assert!(matches!(
            (ledger.len() < SHORTEST_LEDGER, verdict),
            (true, 1) | (false, 0 | 2)
        ));
        let after = if verdict == 0 { 0 } else { 3 };
        assert_eq!(totals(&ledger), (after, [0; TOTALS]));
    }
}
