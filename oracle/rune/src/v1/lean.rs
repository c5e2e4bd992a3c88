//! The original taken through a script with nothing beside it: for measurements. The text is read and the list written as one
//! would in plain Rust; buffers are kept from script to script.

use model::{Frame, LINES};

use super::books::Nobody;
use super::drive::{write_line, Driver, Shown};
use super::Scopes;
use crate::SourceId;

#[derive(Default)]
pub struct Lean {
    frames: Vec<Frame>,
    list: Vec<u8>,
}

fn digit(byte: u8) -> Option<u16> {
    match byte {
        b'0'..=b'9' => Some(u16::from(byte - b'0')),
        b'a'..=b'f' => Some(u16::from(byte - b'a') + 10),
        _ => None,
    }
}

fn number(digits: &[u8]) -> Option<u16> {
    let mut value = 0;
    for byte in digits {
        value = value << 4 | digit(*byte)?;
    }
    Some(value)
}

/// A line without its LF.
pub fn frame(line: &[u8]) -> Option<Frame> {
    let opcode = number(line.get(..2)?)? as u8;
    let one = |at: usize| number(&line[at..at + 4]);
    match line.len() {
        2 => Frame::from_parts(opcode, &[]),
        6 => Frame::from_parts(opcode, &[one(2)?]),
        10 => Frame::from_parts(opcode, &[one(2)?, one(6)?]),
        _ => None,
    }
}

impl Lean {
    fn read(&mut self, script: &[u8]) -> Option<()> {
        self.frames.clear();
        let text = match script {
            [] => return Some(()),
            _ => script.strip_suffix(b"\n")?,
        };
        for line in text.split(|b| *b == b'\n') {
            self.frames.push(frame(line)?);
        }
        (self.frames.len() <= LINES).then_some(())
    }

    /// The list; none where the text is malformed or the original refuses a step.
    pub fn translate(&mut self, script: &[u8]) -> Option<&[u8]> {
        self.read(script)?;
        self.list.clear();
        let scopes = Scopes::new(SourceId).expect("growth never fails here");
        let mut driver = Driver::new(&scopes, Nobody);
        for frame in &self.frames {
            let shown = driver.step(*frame).ok()?;
            write_line(frame.opcode(), &shown, &mut self.list);
        }
        write_line(0x90, &Shown::One(scopes.size()), &mut self.list);
        Some(&self.list)
    }
}
