//! Tests of the form, its bytes, and reports in words. Bytes and sentences
//! that are due are written by hand.

mod common;
mod decode;
mod due;
mod encode;
mod explain;
mod form;
mod mismatches;
mod names;
mod program;
mod refusals;
mod repeats;
mod round_trip;
mod templates;
