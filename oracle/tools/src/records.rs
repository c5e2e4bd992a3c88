//! Stored answers: records of a mark, two lengths, a script and what is printed for it.
//! A head line of 18 bytes: the mark, eight hex digits, eight hex digits, LF. Then the bytes of both, as long as said.

use std::path::Path;

/// Whose answer it is.
#[derive(Clone, Copy, Debug, PartialEq, Eq)]
pub enum Mark {
    /// the original's own list
    Original,
    /// refused by the original too, at this line; the number is 01's
    Refused,
    /// 01's alone: the model's answer
    Ours,
}

impl Mark {
    pub fn letter(self) -> u8 {
        match self {
            Mark::Original => b'o',
            Mark::Refused => b'r',
            Mark::Ours => b'm',
        }
    }
}

pub fn write(mark: Mark, script: &[u8], printed: &[u8], out: &mut Vec<u8>) {
    out.push(mark.letter());
    let head = format!("{:08x}{:08x}\n", script.len(), printed.len());
    out.extend_from_slice(head.as_bytes());
    out.extend_from_slice(script);
    out.extend_from_slice(printed);
}

/// A record: mark, script, what is printed.
pub type Record<'a> = (u8, &'a [u8], &'a [u8]);

/// All records, or none where the bytes are no records.
pub fn read(mut bytes: &[u8]) -> Option<Vec<Record<'_>>> {
    let mut records = Vec::new();
    while !bytes.is_empty() {
        let head = std::str::from_utf8(bytes.get(..18)?).ok()?;
        let script = usize::from_str_radix(head.get(1..9)?, 16).ok()?;
        let printed = usize::from_str_radix(head.get(9..17)?, 16).ok()?;
        let body = bytes.get(18..18 + script + printed)?;
        records.push((bytes[0], &body[..script], &body[script..]));
        bytes = &bytes[18 + script + printed..];
    }
    Some(records)
}

/// The scripts of the stored answers that the gate replays.
pub fn stored_scripts() -> Vec<Vec<u8>> {
    let folder = Path::new(env!("CARGO_MANIFEST_DIR")).join("../../crates/replay/data");
    let bytes = std::fs::read(folder.join("answers.txt")).expect("the stored answers");
    let records = read(&bytes).expect("records");
    let scripts = records.into_iter().map(|(_, script, _)| script.to_vec());
    scripts.collect()
}
