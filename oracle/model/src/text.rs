//! Document 01, "Script frames" and "Numbers given back", 1 and 2: texts, read; with the title of W-211.

use crate::edition::is_title;
use crate::fault::{Fault, Plant};
use crate::{refused, Frame, Placement, Refusal, Script, LINES};

/// A line without its LF, and whether LF ended it.
pub struct RawLine<'a> {
    pub bytes: &'a [u8],
    pub ended: bool,
}

/// Text after the last LF is a line only if it has a byte.
pub fn split(text: &[u8]) -> Vec<RawLine<'_>> {
    let mut lines = Vec::new();
    let mut rest = text;
    while !rest.is_empty() {
        match rest.iter().position(|b| *b == b'\n') {
            Some(end) => {
                lines.push(RawLine {
                    bytes: &rest[..end],
                    ended: true,
                });
                rest = &rest[end + 1..];
            }
            None => {
                lines.push(RawLine {
                    bytes: rest,
                    ended: false,
                });
                rest = &[];
            }
        }
    }
    lines
}

fn digit(byte: u8, plant: Plant) -> Option<u16> {
    match byte {
        b'0'..=b'9' => Some(u16::from(byte - b'0')),
        b'a'..=b'f' => Some(u16::from(byte - b'a') + 10),
        b'A'..=b'F' if plant == Some(Fault::UpperCase) => Some(u16::from(byte - b'A') + 10),
        _ => None,
    }
}

fn number(digits: &[u8], plant: Plant) -> Option<u16> {
    let mut value = 0;
    for byte in digits {
        value = value * 16 + digit(*byte, plant)?;
    }
    Some(value)
}

/// The opcode and the operands of a line; none where it is malformed for any table of opcodes.
pub fn parts(line: &RawLine<'_>, plant: Plant) -> Option<(u8, Vec<u16>)> {
    if !line.ended || line.bytes.len() < 2 || line.bytes.len() % 4 != 2 {
        return None;
    }
    let opcode = number(&line.bytes[..2], plant)? as u8;
    let mut operands = Vec::new();
    for four in line.bytes[2..].chunks(4) {
        operands.push(number(four, plant)?);
    }
    Some((opcode, operands))
}

/// Is the line this text's title? None stands later than line 1, even by a planted fault.
pub fn titles(i: usize, line: &RawLine<'_>, plant: Plant) -> bool {
    let title = |(opcode, operands): (u8, Vec<u16>)| is_title(i, opcode, &operands, plant);
    i < 2 && parts(line, plant).is_some_and(title)
}

/// How many lines a text may have; "That line counts as a frame" (W-211).
pub fn most_lines(titled: bool, plant: Plant) -> usize {
    match titled && plant == Some(Fault::TitleBesideLimit) {
        true => LINES + 1,
        false => LINES,
    }
}

/// "Text: the first line with 1 or 2, before any step; line 2,048 gives 2 whatever it holds"
pub fn read_script(text: &[u8], plant: Plant) -> Result<Script, Refusal> {
    let mut script = Script::default();
    for (i, line) in split(text).iter().enumerate() {
        if i == most_lines(script.is_titled(), plant) {
            return refused(2, i);
        }
        if titles(i, line, plant) {
            script.placement = Placement::Lowest;
            continue;
        }
        let frame = parts(line, plant).and_then(|(o, xs)| Frame::from_parts(o, &xs));
        match frame {
            Some(frame) => script.frames.push(frame),
            None if !line.ended && plant == Some(Fault::TornLineNext) => return refused(1, i + 1),
            None => return refused(1, i),
        }
    }
    Ok(script)
}
