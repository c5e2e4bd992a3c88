//! How numbers are shown, and what the linked functions answered.

use mboxalind::Answer;

/// A number of nanoseconds with three digits that count.
pub fn ns(taken: f64) -> String {
    match taken {
        t if t < 10.0 => format!("{t:.2}"),
        t if t < 100.0 => format!("{t:.1}"),
        t => format!("{t:.0}"),
    }
}

pub fn ratio(ours: f64, theirs: f64) -> String {
    format!("{:.2}", ours / theirs)
}

/// Bytes that were written: no work here is refused.
pub fn bytes(answer: Answer) -> u64 {
    answer.written().expect("ours takes the text") as u64
}
