//! What a text says, read but not yet written as bytes.

use crate::values::Value;

#[derive(Debug, Default)]
pub struct Day {
    pub parts: Vec<Part>,
}

/// Blocks that are written once, or as often as their repeat says.
#[derive(Debug)]
pub struct Part {
    pub times: u64,
    pub blocks: Vec<Block>,
}

#[derive(Debug)]
pub struct Block {
    /// The number of the block's first line.
    pub line: usize,
    pub content: Content,
    pub due: Option<Due>,
}

#[derive(Debug)]
pub enum Content {
    /// Bytes of the day with no length in front.
    Raw(Vec<u8>),
    /// A message; `length` stands in place of its true length.
    Message { length: Option<u16>, body: Body },
}

#[derive(Debug)]
pub enum Body {
    /// Nothing: the block is a length alone.
    Absent,
    Bytes(Vec<u8>),
    Elements(Elements),
}

#[derive(Debug)]
pub struct Elements {
    /// Stands in place of the number of elements.
    pub count: Option<u16>,
    pub elements: Vec<Element>,
    /// The bytes behind the values.
    pub further: Vec<u8>,
}

#[derive(Debug, Clone)]
pub struct Element {
    pub line: usize,
    pub code: u16,
    /// Stands in place of the true offset.
    pub offset: Option<u16>,
    pub value: Value,
}

#[derive(Debug)]
pub struct Due {
    pub line: usize,
    /// Verdict, element and identifier; none where the line says `cut`.
    pub numbers: Option<[Value; 3]>,
}
