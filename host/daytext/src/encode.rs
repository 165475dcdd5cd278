//! A text's day written as bytes.

use crate::bytes::block_bytes;
use crate::check::check;
use crate::fault::Stop;
use crate::text::parse;
use std::io::Write;

/// Writes the bytes of the day that a text describes. A text that is wrong
/// is refused before the first byte.
pub fn encode(text: &[u8], out: &mut impl Write) -> Result<(), Stop> {
    let day = parse(text)?;
    check(&day)?;
    for part in &day.parts {
        for n in 1..=part.times {
            for block in &part.blocks {
                out.write_all(&block_bytes(block, n)?)?;
            }
        }
    }
    Ok(())
}
