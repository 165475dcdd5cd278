//! UTIs of one issuer, each told from the others by a number.

/// The issuer: the 20 characters that open a UTI.
const ISSUER: &str = "5493001KJTIIGC8Y1R12";
/// The length of a UTI where all are of one length.
const LENGTH: usize = 42;
/// The lengths of UTIs that differ in length.
const SHORTEST: usize = 32;
const LENGTHS: usize = 11;

/// How the UTIs of a ledger are alike.
#[derive(Clone, Copy, PartialEq, Eq)]
pub enum Shape {
    /// Of one length, with one beginning; they differ at the end.
    SharedPrefix,
    /// Of one length, with one end; they differ at the start.
    SharedSuffix,
    /// Of 32 to 42 characters, with one beginning; they differ at the end.
    MixedLengths,
}

impl Shape {
    pub const ALL: [Shape; 3] = [
        Shape::SharedPrefix,
        Shape::SharedSuffix,
        Shape::MixedLengths,
    ];

    pub fn name(self) -> &'static str {
        match self {
            Shape::SharedPrefix => "shared prefix",
            Shape::SharedSuffix => "shared suffix",
            Shape::MixedLengths => "mixed lengths",
        }
    }

    /// The UTI with this number.
    pub fn uti(self, number: usize) -> String {
        match self {
            Shape::SharedPrefix => ended_by(number, LENGTH),
            Shape::SharedSuffix => format!("{number:08}{}{ISSUER}", "SWAPOFONECOOPS"),
            Shape::MixedLengths => ended_by(number, SHORTEST + number % LENGTHS),
        }
    }
}

/// The UTI of so many characters that ends in this number.
fn ended_by(number: usize, length: usize) -> String {
    let width = length - ISSUER.len();
    format!("{ISSUER}{number:0width$}")
}
