//! Tables in markdown.

use crate::timing::Figures;

/// Prints a heading and the head of a table.
pub fn head(title: &str, columns: &[&str]) {
    println!("\n### {title}\n");
    println!("| {} |", columns.join(" | "));
    println!("|{}", "---|".repeat(columns.len()));
}

/// Prints one line of a table.
pub fn line(cells: &[String]) {
    println!("| {} |", cells.join(" | "));
}

/// A median with its spread, in nanoseconds.
pub fn nanoseconds(figures: Figures) -> String {
    told(figures, 1.0)
}

/// A median with its spread, in milliseconds.
pub fn milliseconds(figures: Figures) -> String {
    told(figures, 1e6)
}

fn told(figures: Figures, unit: f64) -> String {
    let [median, least, most] =
        [figures.median, figures.least, figures.most].map(|time| grouped(time / unit));
    format!("{median} ({least} to {most})")
}

/// The ratio of two medians.
pub fn ratio(one: Figures, other: Figures) -> String {
    format!("{:.2}", one.median / other.median)
}

/// How many times one median is the other, where it is many times.
pub fn times(one: Figures, other: Figures) -> String {
    count((one.median / other.median).round() as usize)
}

/// A number with commas, with one decimal where it is small.
fn grouped(number: f64) -> String {
    if number < 100.0 {
        return format!("{number:.1}");
    }
    count(number.round() as usize)
}

/// A whole number with commas.
pub fn count(number: usize) -> String {
    let digits = number.to_string();
    let mut text = String::new();
    for (at, digit) in digits.chars().enumerate() {
        if at > 0 && (digits.len() - at).is_multiple_of(3) {
            text.push(',');
        }
        text.push(digit);
    }
    text
}
