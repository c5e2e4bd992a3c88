//! 01's session, the stored answers, and the model's answers as the host's.
#![allow(dead_code)]

use mboxalind::{Answer, Refusal};

pub const LIST: &[u8] =
    b"010001\n080000\n10000100ff\n09\n120001\n0e\n0c\n02\n0f0003000200000001\n060000\n05\n900003\n";

pub fn refused(number: u8, line: u32) -> Answer {
    Answer::Refused(Refusal { number, line })
}

pub fn of_model(answer: Result<usize, model::Refusal>) -> Answer {
    match answer {
        Ok(bytes) => Answer::Written(bytes),
        Err(r) => refused(r.number, r.line as u32),
    }
}

/// Each stored record's script and answer; oracle/README.md has the format.
pub fn stored() -> Vec<(Vec<u8>, Vec<u8>)> {
    let bytes = std::fs::read("../crates/replay/data/answers.txt").expect("the stored answers");
    let mut rest = &bytes[..];
    let mut records = Vec::new();
    while !rest.is_empty() {
        let length = |at| {
            let digits = std::str::from_utf8(&rest[at..at + 8]).expect("digits");
            usize::from_str_radix(digits, 16).expect("a length")
        };
        let (script, end) = (18 + length(1), 18 + length(1) + length(9));
        records.push((rest[18..script].to_vec(), rest[script..end].to_vec()));
        rest = &rest[end..];
    }
    records
}
