//! The proved `translate`, `run`, `read_recording`, `run_recorded` and `agrees` for a Rust host: byte slices in, an [`Answer`] out; `agrees`
//! says yes or no.
//!
//! Each takes the memory that it writes to from the caller, and asks for nothing else: no allocation, no file, no global state.
//! [`Recording`] keeps what `read_recording` and `run_recorded` need of a recording from one part to the next.

mod recording;
mod unread;
mod words;

pub use recording::{Ran, Recording, MOST_SAMPLES};
pub use unread::{Text, Unread};
pub use words::words;

use std::fmt;

/// A text buffer has so many bytes, and no list is longer (W-206).
pub const TEXT: usize = 57_344;
/// No list needs more cells: a size goes up to the number of slots.
pub const CELLS: usize = 4096;

/// What a call came to.
#[derive(Clone, Copy, Debug, PartialEq, Eq)]
#[must_use]
pub enum Answer {
    /// so many bytes of the lent memory were written
    Written(usize),
    /// nothing was written: cells and lent memory are as they were
    Refused(Refusal),
}

/// "A refusal is answered as a number and a line (from 0; line 0 for 17)." The line of 24 is the recording's.
#[derive(Clone, Copy, Debug, PartialEq, Eq)]
pub struct Refusal {
    pub number: u8,
    pub line: u32,
}

impl Refusal {
    /// The documents' words for the number.
    pub fn words(&self) -> &'static str {
        words(self.number)
    }
}

impl fmt::Display for Refusal {
    fn fmt(&self, f: &mut fmt::Formatter<'_>) -> fmt::Result {
        let Refusal { number, line } = self;
        let whose = if *number == 24 {
            " of the recording"
        } else {
            ""
        };
        let words = self.words();
        write!(f, "refused by {number} at line {line}{whose}: {words}")
    }
}

impl std::error::Error for Refusal {}

impl Answer {
    /// For `?`.
    pub fn written(self) -> Result<usize, Refusal> {
        match self {
            Answer::Written(bytes) => Ok(bytes),
            Answer::Refused(refusal) => Err(refusal),
        }
    }

    /// The number in the high 32 bits and the line in the low 32; or 0 there and the bytes written.
    fn new(answer: u64) -> Answer {
        match (answer >> 32) as u8 {
            0 => Answer::Written(answer as usize),
            number => Answer::Refused(Refusal {
                number,
                line: answer as u32,
            }),
        }
    }
}

// A slice goes over as its first byte's place and its length.
#[link(name = "mboxalind", kind = "static")]
extern "C" {
    #[cfg(translate)]
    #[link_name = "translate"]
    fn translate_lent(script: *const u8, script_len: usize, list: *mut u8, list_len: usize) -> u64;

    #[cfg(agrees)]
    #[link_name = "agrees"]
    fn agrees_lent(script: *const u8, script_len: usize, list: *const u8, list_len: usize) -> u64;

    #[link_name = "run"]
    fn run_lent(
        list: *const u8,
        list_len: usize,
        cells: *mut u8,
        cells_len: usize,
        out: *mut u8,
        out_len: usize,
    ) -> u64;

    #[link_name = "read_recording"]
    fn read_recording_lent(
        state: u64,
        samples: *mut u8,
        samples_len: usize,
        part: *const u8,
        part_len: usize,
    ) -> u64;

    #[link_name = "run_recorded"]
    fn run_recorded_lent(
        list: *const u8,
        list_len: usize,
        state: u64,
        samples: *const u8,
        samples_len: usize,
        cells: *mut u8,
        cells_len: usize,
        out: *mut u8,
        out_len: usize,
        left: *mut u8,
        left_len: usize,
    ) -> u64;
}

/// Translates a script into `list`. No list of a script is longer than [`TEXT`] bytes. A script whose first line is `f00002` follows edition 2,
/// which gives the lowest clear slot of all, and its list begins with that line; [`run`] and [`run_recorded`] read both kinds of lists.
#[cfg(translate)]
pub fn translate(script: &[u8], list: &mut [u8]) -> Answer {
    // SAFETY: both are slices, so they may be read, and the second written, over their lengths, and they don't overlap. The
    // function is proved to stay within them.
    let answer =
        unsafe { translate_lent(script.as_ptr(), script.len(), list.as_mut_ptr(), list.len()) };
    Answer::new(answer)
}

/// Whether a list from elsewhere agrees with a script (W-203): its lines are those of the script but for addresses, drain counts and size, and its
/// addresses are fair. A list that gets a yes prints, when it is run, what the script means; a script that our rules refuse gets a no. What can't
/// be read is refused, by 1 or 2. Both texts may be of any length, and nothing is written.
#[cfg(agrees)]
pub fn agrees(script: &[u8], list: &[u8]) -> Result<bool, Unread> {
    unread::told(script, list, |script, list| {
        // SAFETY: both are slices, so they may be read over their lengths. The function is proved to stay within them, and writes nothing.
        let answer =
            unsafe { agrees_lent(script.as_ptr(), script.len(), list.as_ptr(), list.len()) };
        Answer::new(answer).written().map(|yes| yes == 1)
    })
}

/// Runs a list over lent cells, two bytes each, high first, and writes what its loads show into `out`, 7 bytes a load. Cells
/// from the list's size on stay as they are.
pub fn run(list: &[u8], cells: &mut [u8], out: &mut [u8]) -> Answer {
    // SAFETY: as for translate.
    let answer = unsafe {
        run_lent(
            list.as_ptr(),
            list.len(),
            cells.as_mut_ptr(),
            cells.len(),
            out.as_mut_ptr(),
            out.len(),
        )
    };
    Answer::new(answer)
}

/// Reads a part of a recording: the next state, from 0 at the start on. The samples of its lines are kept in `samples`, two bytes each,
/// high first, as far as there is room. A number that is no reader's state gets 29 times 2^32, and the samples stay.
pub fn read_recording(state: u64, samples: &mut [u8], part: &[u8]) -> u64 {
    // SAFETY: as for translate.
    unsafe {
        read_recording_lent(
            state,
            samples.as_mut_ptr(),
            samples.len(),
            part.as_ptr(),
            part.len(),
        )
    }
}

/// Runs a list as [`run`] does, beside a recording: `state` is the reader's after all parts, `samples` what it kept. On success the first
/// four bytes of `left`, high first, have the number of samples left over.
pub fn run_recorded(
    list: &[u8],
    state: u64,
    samples: &[u8],
    cells: &mut [u8],
    out: &mut [u8],
    left: &mut [u8],
) -> Answer {
    // SAFETY: as for translate.
    let answer = unsafe {
        run_recorded_lent(
            list.as_ptr(),
            list.len(),
            state,
            samples.as_ptr(),
            samples.len(),
            cells.as_mut_ptr(),
            cells.len(),
            out.as_mut_ptr(),
            out.len(),
            left.as_mut_ptr(),
            left.len(),
        )
    };
    Answer::new(answer)
}

#[cfg(test)]
mod tests {
    use super::*;

    #[test]
    fn an_answer_is_taken_apart() {
        assert_eq!(Answer::new(0), Answer::Written(0));
        assert_eq!(Answer::new(TEXT as u64), Answer::Written(TEXT));
        // the last line that a list may have before its size line
        let last = MOST_SAMPLES as u32 - 1;
        let refusal = Refusal {
            number: 20,
            line: last,
        };
        let answer = (20 << 32) + u64::from(last);
        assert_eq!(Answer::new(answer), Answer::Refused(refusal));
    }

    #[test]
    fn each_number_has_its_words() {
        let known: Vec<u8> = (1..=24).chain([29]).collect();
        for number in 0..=255 {
            let told = words(number) != "a number that has no words here";
            assert_eq!(told, known.contains(&number));
        }
    }

    #[test]
    fn a_refusal_speaks() {
        let answer = Answer::new((7 << 32) + 3);
        let said = answer.written().map_err(|r| r.to_string());
        assert_eq!(said, Err("refused by 7 at line 3: no slot".into()));
        let answer = Answer::new((24 << 32) + 4_294_967_295);
        let said = answer.written().map_err(|r| r.to_string());
        let words = "refused by 24 at line 4294967295 of the recording: recording line malformed, torn, or one too many";
        assert_eq!(said, Err(words.into()));
    }
}
