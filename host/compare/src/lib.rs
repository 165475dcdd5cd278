//! Tests of the swap data validation core beside a separately written checker.
//!
//! Both are lent copies of the same ledger, tape buffer and message; their
//! answers and every byte afterwards have to be equal ([`compared`]). What is
//! submitted comes from generators ([`sound`], [`showing`], [`faults`],
//! [`cycles`]) that also say which verdict is due. What they know of the specification stands in
//! [`layout`] (sizes, offsets and limits), [`lists`], [`codes`] (of currencies
//! and locations) and [`order`] (of rules).

pub mod calls;
pub mod codes;
pub mod compared;
pub mod cycles;
pub mod dayrun;
pub mod days;
pub mod faults;
pub mod garbage;
pub mod guarded;
pub mod histories;
pub mod judge;
pub mod layout;
pub mod lists;
pub mod malformed;
pub mod matrix;
pub mod message;
pub mod mix;
pub mod order;
pub mod random;
pub mod showing;
pub mod sound;
pub mod tally;
pub mod terms;
pub mod values;

/// How many submissions a random part makes: as many as the environment
/// variable SDR_SUBMISSIONS says, and at least the default.
pub fn submissions(default: u64) -> u64 {
    match std::env::var("SDR_SUBMISSIONS") {
        Ok(text) => default.max(text.parse().expect("SDR_SUBMISSIONS is a number")),
        Err(_) => default,
    }
}
