//! What can be wrong only once the counters have their numbers.

use crate::answer::due_answer;
use crate::bytes::block_bytes;
use crate::day::{Block, Day};
use crate::fault::Fault;

/// Tries each block with the first and the last number of its counter.
/// Numbers and lengths never fall as the counter rises, so what is right at
/// both ends is right in between.
pub fn check(day: &Day) -> Result<(), Fault> {
    for part in day.parts.iter().filter(|part| part.times > 0) {
        for block in &part.blocks {
            check_block(block, 1)?;
            if part.times > 1 {
                check_block(block, part.times)?;
            }
        }
    }
    Ok(())
}

fn check_block(block: &Block, n: u64) -> Result<(), Fault> {
    block_bytes(block, n)?;
    if let Some(due) = &block.due {
        due_answer(due, n)?;
    }
    Ok(())
}
