//! Document 01, "Script frames", and W-201 and W-205 of document 02: a frame, and its text.

use crate::NeedNumber;

/// Where the value of a write comes from: 10 has it, 14 "writes the next recorded sample" (W-205).
#[derive(Clone, Copy, Debug, PartialEq, Eq)]
pub enum Source {
    Constant(u16),
    NextSample,
}

/// In the order of the opcodes 01 to 14, then 20 to 25; 10 and 14 are one.
#[derive(Clone, Copy, Debug, PartialEq, Eq)]
pub enum Frame {
    Child,
    Pop(u16),
    Dangle(u16),
    Restore(u16),
    PopLast,
    Alloc,
    AllocIn(u16),
    Linear(u16),
    Define { name: u16, handle: u16 },
    Get(u16),
    Take(u16),
    Free(u16),
    FreeQuietly(u16),
    Forget(u16),
    Drain,
    Write { handle: u16, source: Source },
    Read(u16),
    ReadName(u16),
    Defer(u16),
    Assigned(u16),
    Ignore,
    AllocNeed(NeedNumber),
    Output(NeedNumber),
    FreeNeed(NeedNumber),
}

impl Frame {
    pub fn opcode(&self) -> u8 {
        match self {
            Frame::Child => 0x01,
            Frame::Pop(_) => 0x02,
            Frame::Dangle(_) => 0x03,
            Frame::Restore(_) => 0x04,
            Frame::PopLast => 0x05,
            Frame::Alloc => 0x06,
            Frame::AllocIn(_) => 0x07,
            Frame::Linear(_) => 0x08,
            Frame::Define { .. } => 0x09,
            Frame::Get(_) => 0x0a,
            Frame::Take(_) => 0x0b,
            Frame::Free(_) => 0x0c,
            Frame::FreeQuietly(_) => 0x0d,
            Frame::Forget(_) => 0x0e,
            Frame::Drain => 0x0f,
            Frame::Write { source, .. } => match source {
                Source::Constant(_) => 0x10,
                Source::NextSample => 0x14,
            },
            Frame::Read(_) => 0x11,
            Frame::ReadName(_) => 0x12,
            Frame::Defer(_) => 0x20,
            Frame::Assigned(_) => 0x21,
            Frame::Ignore => 0x22,
            Frame::AllocNeed(_) => 0x23,
            Frame::Output(_) => 0x24,
            Frame::FreeNeed(_) => 0x25,
        }
    }

    /// None where the opcode is unknown or has other operands.
    pub fn from_parts(opcode: u8, operands: &[u16]) -> Option<Frame> {
        Some(match (opcode, operands) {
            (0x01, []) => Frame::Child,
            (0x02, [s]) => Frame::Pop(*s),
            (0x03, [s]) => Frame::Dangle(*s),
            (0x04, [s]) => Frame::Restore(*s),
            (0x05, []) => Frame::PopLast,
            (0x06, []) => Frame::Alloc,
            (0x07, [s]) => Frame::AllocIn(*s),
            (0x08, [n]) => Frame::Linear(*n),
            (0x09, [name, handle]) => Frame::Define {
                name: *name,
                handle: *handle,
            },
            (0x0a, [name]) => Frame::Get(*name),
            (0x0b, [name]) => Frame::Take(*name),
            (0x0c, [h]) => Frame::Free(*h),
            (0x0d, [h]) => Frame::FreeQuietly(*h),
            (0x0e, [h]) => Frame::Forget(*h),
            (0x0f, []) => Frame::Drain,
            (0x11, [h]) => Frame::Read(*h),
            (0x12, [name]) => Frame::ReadName(*name),
            (0x10 | 0x14, _) => return Frame::of_writes(opcode, operands),
            _ => return Frame::of_needs(opcode, operands),
        })
    }

    fn of_writes(opcode: u8, operands: &[u16]) -> Option<Frame> {
        let (handle, source) = match (opcode, operands) {
            (0x10, [handle, value]) => (*handle, Source::Constant(*value)),
            (0x14, [handle]) => (*handle, Source::NextSample),
            _ => return None,
        };
        Some(Frame::Write { handle, source })
    }

    fn of_needs(opcode: u8, operands: &[u16]) -> Option<Frame> {
        Some(match (opcode, operands) {
            (0x20, [s]) => Frame::Defer(*s),
            (0x21, [h]) => Frame::Assigned(*h),
            (0x22, []) => Frame::Ignore,
            (0x23, [n]) => Frame::AllocNeed(NeedNumber(*n)),
            (0x24, [n]) => Frame::Output(NeedNumber(*n)),
            (0x25, [n]) => Frame::FreeNeed(NeedNumber(*n)),
            _ => return None,
        })
    }

    fn operands(&self) -> Vec<u16> {
        match *self {
            Frame::Child | Frame::PopLast | Frame::Alloc | Frame::Drain | Frame::Ignore => vec![],
            Frame::Pop(x) | Frame::Dangle(x) | Frame::Restore(x) | Frame::AllocIn(x) => vec![x],
            Frame::Linear(x) | Frame::Get(x) | Frame::Take(x) | Frame::Free(x) => vec![x],
            Frame::FreeQuietly(x) | Frame::Forget(x) | Frame::Read(x) => vec![x],
            Frame::ReadName(x) | Frame::Defer(x) | Frame::Assigned(x) => vec![x],
            Frame::AllocNeed(n) | Frame::Output(n) | Frame::FreeNeed(n) => vec![n.0],
            Frame::Define { name, handle } => vec![name, handle],
            Frame::Write { handle, source } => match source {
                Source::Constant(value) => vec![handle, value],
                Source::NextSample => vec![handle],
            },
        }
    }

    /// The frame's line with its LF.
    pub fn write(&self, out: &mut Vec<u8>) {
        crate::list::write_line(self.opcode(), &self.operands(), out);
    }

    /// The text of a script.
    pub fn script(frames: &[Frame]) -> Vec<u8> {
        let mut out = Vec::new();
        for frame in frames {
            frame.write(&mut out);
        }
        out
    }
}
