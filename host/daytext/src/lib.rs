//! A day of messages as text that people write and read. FORM.md tells the
//! form of the text.
//!
//! `encode` turns the text into the bytes of a day, `decode` turns bytes into
//! text, `due` writes the report that the text's `due` lines give, and
//! `explain` puts a report into words. Nothing here judges a message.
//!
//! A module uses only modules of the lines below its own, or to its right:
//!
//! - `encode`, `due`, `decode`, `explain`: the entry points
//! - `words`, `check`
//! - `text`, `block`, `templates`, `entry`: a text read as a day
//! - `bytes`, `report`, `answer`: a block's bytes, a message's answer
//! - `day`, `messages`, `values`, `lines`, `names`, `numbers`, `fault`

#![forbid(unsafe_code)]

mod answer;
mod block;
mod bytes;
mod check;
mod day;
mod decode;
mod due;
mod encode;
mod entry;
mod explain;
mod fault;
mod lines;
mod messages;
pub mod names;
mod numbers;
mod report;
mod templates;
mod text;
mod values;
mod words;

pub use decode::decode;
pub use due::due;
pub use encode::encode;
pub use explain::explain;
pub use fault::{Fault, Stop};
