//! The answer to a message, and the one that is due.

use crate::day::Due;
use crate::fault::Fault;
use crate::names;
use crate::numbers::decimal;

/// What is said of a message behind its position.
#[derive(Debug)]
pub struct Answer {
    pub verdict: u64,
    pub element: u64,
    pub identifier: u64,
}

impl Answer {
    /// Takes verdict, element and identifier if there are such.
    pub fn new([verdict, element, identifier]: [u64; 3]) -> Result<Answer, String> {
        if names::verdict(verdict).is_none() {
            Err(format!(
                "the verdict is not one of 0 to {}",
                names::VERDICTS.len() - 1
            ))
        } else if element != 0 && names::element(element).is_none() {
            Err(format!(
                "the element is not one of 0 to {}",
                names::ELEMENTS.len()
            ))
        } else if identifier >= names::IDENTIFIER_LIMIT {
            Err("the identifier has more than 12 digits".to_string())
        } else {
            Ok(Answer {
                verdict,
                element,
                identifier,
            })
        }
    }
}

/// The answer that is due with n as the counter; none for `cut`.
pub fn due_answer(due: &Due, n: u64) -> Result<Option<Answer>, Fault> {
    let fault = |sentence| Fault::new(due.line, sentence);
    let Some(values) = &due.numbers else {
        return Ok(None);
    };
    let mut numbers = [0; 3];
    for (number, value) in numbers.iter_mut().zip(values) {
        let mut digits = Vec::new();
        value.put(n, &mut digits).map_err(fault)?;
        // More digits than 64 bits hold are out of bounds in any case.
        *number = decimal(&digits).unwrap_or(u64::MAX);
    }
    Answer::new(numbers).map(Some).map_err(fault)
}
