//! W-205 of document 02, "Recorded counters through a script": recordings, whole and in parts.

use crate::fault::{Fault, Plant};
use crate::list::write_digits;
use crate::text::{parts, split, RawLine};
use crate::{refused, Refusal};

/// "A recording has at most 4,294,967,295 lines; one more counts as malformed."
pub const RECORDING_LINES: usize = 4_294_967_295;

/// "one frame a line, `30` and a 16-bit counter, LF"
fn sample(line: &RawLine<'_>) -> Option<u16> {
    match parts(line, None)? {
        (0x30, operands) if operands.len() == 1 => Some(operands[0]),
        _ => None,
    }
}

/// The samples of a recording from line `first` on, or 24 at its first malformed line; a torn last line is one.
pub fn samples_from(first: usize, bytes: &[u8]) -> Result<Vec<u16>, Refusal> {
    let mut samples = Vec::new();
    for (line, raw) in (first..).zip(split(bytes)) {
        match sample(&raw) {
            Some(value) if line < RECORDING_LINES => samples.push(value),
            _ => return refused(24, line),
        }
    }
    Ok(samples)
}

/// The samples of a whole recording.
pub fn samples(recording: &[u8]) -> Result<Vec<u16>, Refusal> {
    samples_from(0, recording)
}

/// What is known between two parts.
pub(crate) struct Reader {
    /// the line that is read
    pub(crate) line: usize,
    /// its bytes so far; none where it is malformed
    begun: Option<Vec<u8>>,
}

/// Where a malformed line stands in a state.
const MALFORMED: u64 = 7;

/// May a line begin so?
fn begins(bytes: &[u8]) -> bool {
    let Some(rest) = b"300000".get(bytes.len()..) else {
        return false;
    };
    let bytes = &[bytes, rest].concat();
    sample(&RawLine { bytes, ended: true }).is_some()
}

impl Reader {
    /// A state is column · 2^48 + value · 2^32 + line. None where no bytes leave it.
    pub(crate) fn of(state: u64) -> Option<Reader> {
        let (column, value, line) = (state >> 48, state >> 32 & 0xffff, state & 0xffff_ffff);
        let line = line as usize;
        let mut begun = b"30".to_vec();
        match column {
            MALFORMED => return (value == 0).then_some(Reader { line, begun: None }),
            0..=2 => begun.truncate(column as usize),
            3..=6 => write_digits(value as usize, column as u32 - 2, &mut begun),
            _ => return None,
        }
        let reader = Reader {
            line,
            begun: Some(begun),
        };
        let past = line == RECORDING_LINES && column > 0;
        (!past && reader.state() == state).then_some(reader)
    }

    pub(crate) fn state(&self) -> u64 {
        let (column, value) = match &self.begun {
            None => (MALFORMED, 0),
            Some(bytes) => {
                let digits = String::from_utf8_lossy(bytes.get(2..).unwrap_or_default());
                let value = u64::from_str_radix(&digits, 16).unwrap_or(0);
                (bytes.len() as u64, value)
            }
        };
        (column << 48) + (value << 32) + self.line as u64
    }

    /// The bytes so far and the part, line by line.
    fn feed(&mut self, samples: &mut [u8], part: &[u8]) {
        let Some(begun) = self.begun.take() else {
            return;
        };
        for raw in split(&[&begun, part].concat()) {
            let room = self.line < RECORDING_LINES;
            match sample(&raw) {
                Some(value) if room => {
                    keep(samples, self.line, value);
                    self.line += 1;
                }
                _ => {
                    let goes_on = room && !raw.ended && begins(raw.bytes);
                    self.begun = goes_on.then(|| raw.bytes.to_vec());
                    return;
                }
            }
        }
        self.begun = Some(Vec::new());
    }

    /// How many samples there are at the end, or 24.
    pub(crate) fn ended(&self, plant: Plant) -> Result<usize, Refusal> {
        match self.begun.as_ref().map(Vec::len) {
            Some(0) => Ok(self.line),
            Some(6) if plant == Some(Fault::TornSampleTaken) => Ok(self.line + 1),
            _ if plant == Some(Fault::MalformedLineNext) => refused(24, self.line + 1),
            _ => refused(24, self.line),
        }
    }

    fn lose_digit(&mut self) {
        if let Some([_, _, .., last]) = self.begun.as_deref_mut() {
            *last = b'0';
        }
    }
}

/// "a sample is two bytes, high first", as far as there is room
fn keep(samples: &mut [u8], line: usize, value: u16) {
    if let Some(place) = samples.chunks_exact_mut(2).nth(line) {
        place.copy_from_slice(&value.to_be_bytes());
    }
}

/// The next state, 0 at the start; 29 times 2^32 for a number that isn't a reader's state.
pub fn read_recording_with(state: u64, samples: &mut [u8], part: &[u8], plant: Plant) -> u64 {
    let Some(mut reader) = Reader::of(state) else {
        return 29 << 32;
    };
    if plant == Some(Fault::CutLosesDigit) {
        reader.lose_digit();
    }
    reader.feed(samples, part);
    reader.state()
}

/// See [`read_recording_with`].
pub fn read_recording(state: u64, samples: &mut [u8], part: &[u8]) -> u64 {
    read_recording_with(state, samples, part, None)
}

/// Is the number a reader's state?
pub fn is_state(state: u64) -> bool {
    Reader::of(state).is_some()
}
