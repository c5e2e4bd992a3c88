//! A plain reading of document 01, and of what landed of document 02: no thought of speed or of proof, only of its words. It is a witness of its own in
//! comparisons, and it knows the refusals that the original doesn't (handles, held and written marks, room limits).

mod address_set;
mod edition;
mod fault;
mod frame;
mod list;
mod machine;
mod programs;
mod recording;
mod scopes;
mod session;
mod slots;
mod supplier;
mod text;

pub use edition::{is_titled, title, Placement, Script};
pub use fault::{Fault, Plant, FAULTS};
pub use frame::{Frame, Source};
pub use list::{print_refusal, write_list, Line};
pub use machine::{read_list, run, run_recorded, run_recorded_with, Lent};
pub use programs::{
    checker, checker_with, recorded_runner, recorded_runner_with, runner, runner_with, taken,
    translator, translator_with,
};
pub use recording::{
    is_state, read_recording, read_recording_with, samples, samples_from, RECORDING_LINES,
};
pub use scopes::{Id, Scopes};
pub use session::{play, play_script, translate, translate_with, NeedNumber, Session};
pub use slots::{Slots, SEGMENT, SEGMENTS, SLOTS};
pub use supplier::{agrees, agrees_with, verdict, verdict_with, Flaw, Verdict, Why};
pub use text::read_script;

/// "Scripts: 2,048 frames"
pub const LINES: usize = 2048;
/// W-206: "Raise .. handles to 8,192"
pub const HANDLES: usize = 8192;
/// "Needs are numbered from 0, at most 64 in a script." (W-201)
pub const NEEDS: usize = 64;
/// W-206: "text buffers become 57,344 bytes"; 01: "a program refuses longer input by 17"
pub const BUFFER: usize = 57344;
/// 01's slots and "Text buffers: 32,768 bytes", which W-206 raises: a fault may keep them, and what stood at them is asked still.
pub const SLOTS_BEFORE: usize = 1024;
pub const BUFFER_BEFORE: usize = 32768;

/// "A refusal is answered as a number and a line (from 0; line 0 for 17)." The line of 24 is the recording's.
#[derive(Clone, Copy, Debug, PartialEq, Eq)]
pub struct Refusal {
    pub number: u8,
    pub line: usize,
}

impl Refusal {
    /// As the exported functions answer it: the number in the high 32 bits, the line in the low 32.
    pub fn answer(self) -> u64 {
        (u64::from(self.number) << 32) + self.line as u64
    }

    /// The other way round.
    pub fn of(answer: u64) -> Refusal {
        Refusal {
            number: (answer >> 32) as u8,
            line: (answer & 0xffff_ffff) as usize,
        }
    }
}

/// A refusal in one line.
pub fn refused<T>(number: u8, line: usize) -> Result<T, Refusal> {
    Err(Refusal { number, line })
}
