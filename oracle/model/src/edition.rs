//! W-211 of document 02: the two editions, and the line that names the second; and the placement of W-203, which no line names.

use crate::fault::{Fault, Plant};
use crate::list::write_line;
use crate::{Frame, Line};

/// Where an allocation goes: how an insert chooses its slot, and of the last one also where a run begins.
#[derive(Clone, Copy, Debug, Default, PartialEq, Eq)]
pub enum Placement {
    /// edition 1, of document 01: the head's segment comes first
    #[default]
    ByHead,
    /// edition 2: "the lowest clear slot of all, whatever was removed last"
    Lowest,
    /// where a list from elsewhere shows it (W-203), a run from there on
    Exactly(usize),
}

const TITLE: u8 = 0xf0;
const EDITION: u16 = 2;

/// "A script whose first line is `f00002` follows edition 2"; "`f0` with another number or on a later line is 1". Lists are read alike.
pub fn is_title(line: usize, opcode: u8, operands: &[u16], plant: Plant) -> bool {
    let first = line == 0 || line == 1 && plant == Some(Fault::TitleLater);
    let known = match operands {
        [EDITION] => true,
        [_] => plant == Some(Fault::TitleAnyNumber),
        _ => false,
    };
    opcode == TITLE && first && known
}

/// The title as a list has it: "its list line repeats it".
pub fn title() -> Line {
    Line {
        opcode: TITLE,
        operands: vec![EDITION],
    }
}

/// Do these lines begin with a title?
pub fn is_titled(lines: &[Line]) -> bool {
    lines.first().is_some_and(|line| line.opcode == TITLE)
}

/// A script, read: the title is no frame of it.
#[derive(Clone, Debug, Default, PartialEq, Eq)]
pub struct Script {
    pub placement: Placement,
    pub frames: Vec<Frame>,
}

impl Script {
    /// These frames in edition 2.
    pub fn tight(frames: &[Frame]) -> Script {
        Script {
            placement: Placement::Lowest,
            frames: frames.to_vec(),
        }
    }

    pub fn is_titled(&self) -> bool {
        self.placement == Placement::Lowest
    }

    /// The line of the first frame: "That line counts as a frame".
    pub fn first_line(&self) -> usize {
        usize::from(self.is_titled())
    }

    pub fn text(&self) -> Vec<u8> {
        let mut out = Vec::new();
        if self.is_titled() {
            write_line(TITLE, &[EDITION], &mut out);
        }
        for frame in &self.frames {
            frame.write(&mut out);
        }
        out
    }
}
