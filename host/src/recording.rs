//! A recording that is fed part by part, and a list's run beside it.

use crate::{read_recording, run_recorded, Refusal};

/// No list takes more samples: it has 2,048 lines at most.
pub const MOST_SAMPLES: usize = 2048;

/// How far a recording was read, and the samples that are kept of it.
#[derive(Clone, Debug, PartialEq, Eq)]
pub struct Recording {
    state: u64,
    samples: Vec<u8>,
}

/// What a run beside a recording came to.
#[derive(Clone, Copy, Debug, PartialEq, Eq)]
pub struct Ran {
    /// so many bytes of `out` were written
    pub bytes: usize,
    /// so many samples are left over
    pub left: u32,
}

impl Default for Recording {
    /// Keeps as many samples as any list takes.
    fn default() -> Self {
        Recording::keeping(MOST_SAMPLES)
    }
}

impl Recording {
    /// Nothing is read yet; the first `most` samples will be kept.
    pub fn keeping(most: usize) -> Self {
        Recording {
            state: 0,
            samples: vec![0; 2 * most],
        }
    }

    /// Reads the next part, of any length.
    pub fn feed(&mut self, part: &[u8]) {
        self.state = read_recording(self.state, &mut self.samples, part);
    }

    /// How many lines were read to their end. Where one is malformed, those before it.
    pub fn lines(&self) -> u32 {
        self.state as u32
    }

    /// The first malformed line, if there was one; a line that is torn may go on, so a run alone tells it.
    pub fn malformed(&self) -> Option<u32> {
        (self.state >> 48 == 7).then_some(self.lines())
    }

    /// The samples that were kept, in order.
    pub fn samples(&self) -> impl Iterator<Item = u16> + '_ {
        let pairs = self.samples.chunks_exact(2).take(self.lines() as usize);
        pairs.map(|pair| u16::from_be_bytes([pair[0], pair[1]]))
    }

    /// Runs a list beside what was read, as [`crate::run`] does.
    pub fn run(&self, list: &[u8], cells: &mut [u8], out: &mut [u8]) -> Result<Ran, Refusal> {
        let mut left = [0; 4];
        let answer = run_recorded(list, self.state, &self.samples, cells, out, &mut left);
        let bytes = answer.written()?;
        let left = u32::from_be_bytes(left);
        Ok(Ran { bytes, left })
    }
}
