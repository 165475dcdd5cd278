//! How each rule is broken.

use super::{Case, Damage, Fault, Layout, Order, TooLong, WrongRow};
use crate::layout::{self, Header, COUNT_SIZE, ENTRY_SIZE, EXECUTION_IN_TERMS, HEADER_SIZE};
use crate::layout::{total_place, SHORTEST_LEDGER, TOTALS, U16_SIZE};
use crate::layout::{IDENTIFIER_LIMIT, LINE_SIZE, LONGEST_MESSAGE, OFFSET_IN_ENTRY, ROW_SIZE};
use crate::lists::*;
use crate::malformed;
use crate::matrix;
use crate::message::Message;
use crate::random::Random;
use crate::sound;
use crate::values;
use sdr::UNKNOWN;

impl Case {
    pub(super) fn break_rule(&mut self, random: &mut Random, fault: Fault) {
        match fault {
            Fault::LedgerWrong(damage) => self.damage(random, damage),
            Fault::TapeShort => self.tape_length = random.below(LINE_SIZE),
            Fault::LayoutWrong(layout) => self.layout = Some(layout),
            Fault::ActionWrong => self.spoil_action(random),
            Fault::ElementMissing(code) => _ = self.message.remove(code),
            Fault::ElementNotTaken(code) => self.add_not_taken(random, code),
            Fault::FormBroken(code) => self.malform(random, code),
            Fault::NotAPair => self.part_pair(random),
            Fault::ConditionalMissing(code) => self.leave_out(random, code),
            Fault::PriceAndSpread => sound::make_quoted_twice(random, &mut self.message),
            Fault::PriceTooLong(long) => self.lengthen(random, long),
            Fault::DatesDisordered(order) => self.disorder(order),
            Fault::RowWrong(wrong) => self.spoil_row(random, wrong),
            Fault::NotAdmitted(status) => self.set_status(random, status),
            Fault::OtherTime => self.other_time(random),
            Fault::LedgerFull => self.fill_up(),
            Fault::IdentifiersSpent => self.spend(random),
        }
    }

    fn damage(&mut self, random: &mut Random, damage: Damage) {
        let right = layout::capacity(self.ledger_length) as u32;
        let header = &mut self.header;
        match damage {
            Damage::Short => self.ledger_length = random.below(SHORTEST_LEDGER),
            Damage::ManyRows => {
                header.rows = header.capacity + 1 + random.below(3) as u32;
                header.totals = values::totals(random, header.rows);
            }
            Damage::OtherRows => {
                let sum = sum(&header.totals);
                let others = (0..=header.capacity.max(1)).filter(|&rows| u64::from(rows) != sum);
                header.rows = *random.pick(&others.collect::<Vec<u32>>());
            }
            Damage::FirstRow => header.first_row = wrong_size(random, HEADER_SIZE),
            Damage::NextZero => header.next = 0,
            Damage::NextHigh => {
                header.next = *random.pick(&[IDENTIFIER_LIMIT + 1, u64::MAX, 1 << 40, 1 << 63])
            }
            Damage::Cap(class) => header.caps[class] = *random.pick(&malformed::CAPS),
            Damage::RowSize => header.row_size = wrong_size(random, ROW_SIZE),
            Damage::CapacityLow => header.capacity = right.max(1) - 1,
            Damage::CapacityHigh => header.capacity = right + 1,
            Damage::Total(place) => header.totals[place] = wrong_total(random, header, place),
            Damage::TotalsWrap => header.totals = wrapping_totals(random, header.rows),
        }
    }

    fn spoil_action(&mut self, random: &mut Random) {
        if random.once_in(4) {
            self.message.remove(ACTION_TYPE);
            return;
        }
        self.malform(random, ACTION_TYPE);
    }

    fn add_not_taken(&mut self, random: &mut Random, code: u8) {
        let value = if random.once_in(2) {
            malformed::value(random, code)
        } else {
            sound_value(random, code)
        };
        self.message.set(code, value);
    }

    fn malform(&mut self, random: &mut Random, code: u8) {
        let wrong = malformed::value(random, code);
        self.message.set(code, wrong);
    }

    fn part_pair(&mut self, random: &mut Random) {
        let action = self.message.text(ACTION_TYPE);
        let events = EVENTS.map(Some);
        let further = [None, Some("ABCD"), Some("TRAE"), Some("ZZZZ")];
        let wrong: Vec<Option<&str>> = events
            .into_iter()
            .chain(further)
            .filter(|event| !matrix::is_pair(&action, *event))
            .collect();
        match random.pick(&wrong) {
            Some(event) => _ = self.message.set(EVENT_TYPE, event),
            None => _ = self.message.remove(EVENT_TYPE),
        }
    }

    fn leave_out(&mut self, random: &mut Random, code: u8) {
        let message = &mut self.message;
        match code {
            NON_STANDARDIZED_TERM => _ = message.set(CLEARED, NOT_CLEARED),
            PRICE_NOTATION => sound::make_quoted_by(random, message, &PRICE),
            SPREAD_NOTATION => sound::make_quoted_by(random, message, &SPREAD),
            PRICE_CURRENCY => self.make_monetary(random, &PRICE),
            SPREAD_CURRENCY => self.make_monetary(random, &SPREAD),
            _ => sound::make_package(random, message),
        }
        self.message.remove(code);
        // A package without a price may have a spread.
        if code == PACKAGE_PRICE {
            self.message.remove(PACKAGE_SPREAD);
        }
    }

    fn make_monetary(&mut self, random: &mut Random, quote: &Quote) {
        sound::make_quoted_by(random, &mut self.message, quote);
        self.message.set(quote.notation, MONETARY);
    }

    fn lengthen(&mut self, random: &mut Random, long: TooLong) {
        let (quote, notation, wrong) = match long {
            TooLong::DecimalPrice => (PRICE, DECIMAL, &malformed::LONG_DECIMALS[..]),
            TooLong::DecimalSpread => (SPREAD, DECIMAL, &malformed::LONG_DECIMALS[..]),
            TooLong::BasisPoints => (SPREAD, BASIS_POINTS, &malformed::LONG_BASIS_POINTS[..]),
        };
        sound::make_quoted_by(random, &mut self.message, &quote);
        self.message.set(quote.notation, notation);
        self.message.set(quote.number, random.pick(wrong));
    }

    fn disorder(&mut self, order: Order) {
        match order {
            Order::Expiration => {
                self.message.set(EFFECTIVE_DATE, "2024-03-02");
                self.message.set(EXPIRATION_DATE, "2024-03-01");
                self.message.set(SETTLEMENT_DATE, "2024-03-01");
            }
            Order::Settlement => {
                self.message.set(EFFECTIVE_DATE, "2024-03-01");
                self.message.set(EXPIRATION_DATE, "2024-03-01");
                self.message.set(SETTLEMENT_DATE, "2024-02-29");
            }
            Order::Reporting => {
                _ = self
                    .message
                    .set(REPORTING_TIMESTAMP, "1900-01-01T00:00:00Z")
            }
        }
    }

    fn spoil_row(&mut self, random: &mut Random, wrong: WrongRow) {
        let next = self.header.next;
        let row = &mut self.rows[self.row];
        match wrong {
            WrongRow::Status(status) => row.status = status,
            WrongRow::IdentifierZero => row.identifier = 0,
            WrongRow::IdentifierNext => row.identifier = next,
            WrongRow::IdentifierHigh => row.identifier = u64::MAX,
            // A status that is none, from another fault, has no total.
            WrongRow::TotalZero if !ROW_STATUSES.contains(&row.status) => {}
            WrongRow::TotalZero => {
                let totals = &mut self.header.totals;
                let own = total_place(row.status);
                let other = (own + random.between(1, TOTALS - 1)) % TOTALS;
                totals[other] += std::mem::take(&mut totals[own]);
            }
        }
        self.name_row();
    }

    /// Makes the message name the swap of the case's row.
    fn name_row(&mut self) {
        let uti = self.rows[self.row].uti().to_vec();
        self.message.set(UTI, uti);
    }

    fn set_status(&mut self, random: &mut Random, status: u8) {
        if status == UNKNOWN {
            let unknown = self.unknown_uti(random);
            self.message.set(UTI, unknown);
            return;
        }
        let row = &mut self.rows[self.row];
        self.header.totals[total_place(row.status)] -= 1;
        self.header.totals[total_place(status)] += 1;
        row.status = status;
        self.name_row();
    }

    fn unknown_uti(&self, random: &mut Random) -> Vec<u8> {
        loop {
            let uti = values::similar_uti(random, self.rows[self.row].uti());
            if self.rows.iter().all(|row| row.uti() != uti) {
                return uti;
            }
        }
    }

    /// Another execution time than the row's, often in one character only.
    fn other_time(&mut self, random: &mut Random) {
        let stored = self.rows[self.row].terms[EXECUTION_IN_TERMS].to_vec();
        let mut other = stored.clone();
        while other == stored {
            other = values::time(random);
            if random.once_in(2) {
                other = stored.clone();
                other[*random.pick(&[12, 14, 15, 17, 18])] = *random.pick(b"0123");
            }
        }
        sound::set_execution(random, &mut self.message, &other);
    }

    fn fill_up(&mut self) {
        let rows = self.rows.len();
        self.ledger_length = layout::ledger_size(rows) + self.ledger_length % ROW_SIZE;
        self.header.capacity = rows as u32;
    }

    /// No identifier is left, and a line is due.
    fn spend(&mut self, random: &mut Random) {
        self.header.next = IDENTIFIER_LIMIT;
        while !self.line_is_due() {
            self.message
                .set(NOTIONAL_CURRENCY, values::currency(random));
        }
    }
}

/// A number that a header holds in the place of a size.
fn wrong_size(random: &mut Random, size: usize) -> u32 {
    let size = size as u32;
    let shortest = SHORTEST_LEDGER as u32;
    *random.pick(&[0, size - 1, size + 1, shortest, size << 8, size | 1 << 31])
}

/// The exact sum of totals.
fn sum(totals: &[u32]) -> u64 {
    totals.iter().map(|&total| u64::from(total)).sum()
}

/// A total with which those of the header do not add up to the rows in use.
fn wrong_total(random: &mut Random, header: &Header, place: usize) -> u32 {
    let others = sum(&header.totals) - u64::from(header.totals[place]);
    let right = u64::from(header.rows).saturating_sub(others) as u32;
    let near = [
        right.wrapping_sub(1),
        right + 1,
        right + 256,
        right | 1 << 31,
    ];
    *random.pick(&[&near[..], &[u32::MAX]].concat())
}

/// Totals that add up to so many rows and once, twice or three times 2^32.
fn wrapping_totals(random: &mut Random, rows: u32) -> [u32; TOTALS] {
    let times = random.between(1, TOTALS - 1);
    let mut totals = [0; TOTALS];
    totals[..times].fill(u32::MAX);
    totals[times] = rows + times as u32;
    totals.rotate_right(random.below(TOTALS));
    totals
}

/// A value that keeps the form of a code that only full messages take.
fn sound_value(random: &mut Random, code: u8) -> Vec<u8> {
    loop {
        let mut full = sound::message(random, "NEWT", b"");
        sound::make_package(random, &mut full);
        if full.has(code) {
            return full.value(code).to_vec();
        }
    }
}

/// The bytes of a message whose layout is spoiled.
pub(super) fn spoiled(message: &Message, fault: Layout) -> Vec<u8> {
    let mut bytes = message.encode();
    let count = message.codes().len();
    if count < 2 {
        return Vec::new();
    }
    let entry = |n: usize| COUNT_SIZE + ENTRY_SIZE * n;
    let last = entry(count - 1);
    match fault {
        Layout::Empty => bytes.clear(),
        Layout::OneByte => bytes.truncate(1),
        Layout::CountHigher => bytes[0] += 1,
        Layout::CountLower => bytes[0] -= 1,
        Layout::CountZero => bytes[0] = 0,
        Layout::CountTooHigh => bytes[1] = 1,
        Layout::CodeZero => bytes[entry(0)] = 0,
        Layout::CodeTooHigh => bytes[last] = LAST_CODE + 1,
        Layout::CodesEqual => bytes[last] = bytes[last - ENTRY_SIZE],
        Layout::FirstOffset => bytes[entry(0) + OFFSET_IN_ENTRY] += 1,
        Layout::OffsetsEqual => {
            let before = last - ENTRY_SIZE + OFFSET_IN_ENTRY;
            bytes.copy_within(before..last, last + OFFSET_IN_ENTRY)
        }
        Layout::OffsetAtEnd => {
            let end = bytes.len();
            set_u16(&mut bytes, last + OFFSET_IN_ENTRY, end)
        }
        Layout::CutAtLastValue => {
            let length = bytes.len()
                - message
                    .value(*message.codes().last().expect("an element"))
                    .len();
            bytes.truncate(length)
        }
        Layout::TooLong => bytes.resize(LONGEST_MESSAGE + 1, b'0'),
    }
    bytes
}

fn set_u16(bytes: &mut [u8], at: usize, number: usize) {
    bytes[at..at + U16_SIZE].copy_from_slice(&(number as u16).to_le_bytes());
}
