//! The bytes of a block.

use crate::day::{Block, Body, Content, Element, Elements};
use crate::fault::Fault;

/// The bytes of a block with n as the counter.
pub fn block_bytes(block: &Block, n: u64) -> Result<Vec<u8>, Fault> {
    match &block.content {
        Content::Raw(bytes) => Ok(bytes.clone()),
        Content::Message { length, body } => {
            let body = body_bytes(block.line, body, n)?;
            let length = length.map_or_else(|| true_length(block.line, &body), Ok)?;
            let mut bytes = length.to_le_bytes().to_vec();
            bytes.extend(body);
            Ok(bytes)
        }
    }
}

fn true_length(line: usize, body: &[u8]) -> Result<u16, Fault> {
    let length = body.len();
    u16::try_from(length).map_err(|_| {
        let sentence = format!(
            "the message has {length} bytes, more than its length can say (65535); \
             `length` puts another number in front"
        );
        Fault::new(line, sentence)
    })
}

fn body_bytes(line: usize, body: &Body, n: u64) -> Result<Vec<u8>, Fault> {
    match body {
        Body::Absent => Ok(Vec::new()),
        Body::Bytes(bytes) => Ok(bytes.clone()),
        Body::Elements(elements) => element_bytes(line, elements, n),
    }
}

fn element_bytes(line: usize, message: &Elements, n: u64) -> Result<Vec<u8>, Fault> {
    let elements = &message.elements;
    let count = message
        .count
        .map_or_else(|| true_count(line, elements), Ok)?;
    let start = 2 + 4 * elements.len();
    let mut bytes = count.to_le_bytes().to_vec();
    let mut values = Vec::new();
    for element in elements {
        let place = start + values.len();
        let offset = element
            .offset
            .map_or_else(|| true_offset(element.line, place), Ok)?;
        bytes.extend(element.code.to_le_bytes());
        bytes.extend(offset.to_le_bytes());
        let fault = |sentence| Fault::new(element.line, sentence);
        element.value.put(n, &mut values).map_err(fault)?;
    }
    bytes.extend(values);
    bytes.extend(&message.further);
    Ok(bytes)
}

fn true_count(line: usize, elements: &[Element]) -> Result<u16, Fault> {
    let count = elements.len();
    u16::try_from(count).map_err(|_| {
        let sentence = format!("the message has {count} elements, more than its count can say");
        Fault::new(line, sentence)
    })
}

fn true_offset(line: usize, place: usize) -> Result<u16, Fault> {
    u16::try_from(place).map_err(|_| {
        let sentence = format!("the value stands at {place}, more than an offset can say (65535)");
        Fault::new(line, sentence)
    })
}
