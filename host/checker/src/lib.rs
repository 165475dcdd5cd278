//! A plain checker of swap data messages, to be read beside
//! docs/SPECIFICATION.md. Sections, clauses (8.4) and rules, which are its
//! verdicts, are those of that document.
//!
//! Judging takes no memory from the heap and never panics, whatever the bytes.

#![forbid(unsafe_code)]

mod amounts;
pub mod day;
mod elements;
mod forms;
mod judge;
mod ledger;
mod line;
mod lists;
mod matrix;
mod message;
mod price;
mod rules;
pub mod sizes;
pub mod table;

pub use amounts::{is_cap, masked};
pub use elements::LAST_CODE;
pub use forms::{is_date, is_lei, is_notional, is_price, is_time, is_uti};
pub use judge::{open, status, submit, totals};
pub use lists::{is_currency, is_location};
pub use matrix::is_pair;
pub use message::{layout_right, value};
pub use price::{price_too_long, shown_price};
pub use rules::Answer;
