//! For each refusal of 01 and each frame: the shortest script that meets it, and what the original does with that frame.

use model::{Frame, Placement};
use oracle::every::{alphabet, every, needs_alphabet, samples_alphabet};
use rune::{drive, Stop};
use std::collections::BTreeMap;

/// What the original does with the last frame; none where it doesn't get there.
fn theirs(frames: &[Frame]) -> Option<String> {
    match drive(frames).stop {
        None => Some("takes it".into()),
        Some((line, _)) if line + 1 < frames.len() => None,
        Some((_, Stop::Refused(words))) => Some(format!("refuses: {words}")),
        Some((_, Stop::Untold(why))) => Some(format!("can't be told: {why}")),
    }
}

/// Numbers in a text differ from script to script.
fn kind(words: &str) -> String {
    words.chars().filter(|c| !c.is_ascii_digit()).collect()
}

/// By number, opcode and the original's words: the script, and the words with their numbers.
type Table = BTreeMap<(u8, u8, String), (Vec<Frame>, String)>;

fn collect(alphabet: &[Frame], table: &mut Table) {
    every(Placement::ByHead, alphabet, 5, &mut |frames| {
        let refusal = model::play(Placement::ByHead, frames, None).1.err();
        if let (Some(refusal), Some(words)) = (refusal, theirs(frames)) {
            let opcode = frames[refusal.line].opcode();
            let key = (refusal.number, opcode, kind(&words));
            let shorter = |old: &(Vec<Frame>, String)| frames.len() < old.0.len();
            if table.get(&key).is_none_or(shorter) {
                table.insert(key, (frames.to_vec(), words));
            }
        }
        true
    });
}

fn main() {
    let mut table = Table::new();
    collect(&alphabet(), &mut table);
    collect(&needs_alphabet(), &mut table);
    collect(&samples_alphabet(), &mut table);
    for ((number, opcode, _), (frames, words)) in table {
        let script = String::from_utf8(Frame::script(&frames)).expect("a script");
        let script = script.trim_end().replace('\n', " / ");
        println!("{number:2} {opcode:02x}  {script}  the original {words}");
    }
}
