//! Recordings read in parts by plain Rust, for figures: byte by byte, and a whole line at a time where one lies there. Both do what
//! `read_recording` does: they check every byte, count the lines and keep the first samples in lent bytes.

/// The line that is read, how many of its bytes were read, and the number of its digits so far.
#[derive(Clone, Copy, Debug, Default, PartialEq, Eq)]
pub struct Reader {
    line: u32,
    column: u8,
    value: u16,
}

const LAST: u32 = u32::MAX;
const MALFORMED: u8 = 7;

/// Of each byte the digit's value; of a byte that is no digit more than 15.
const VALUES: [u8; 256] = {
    let mut values = [0xff; 256];
    let mut digit = 0;
    while digit < 16 {
        values[b"0123456789abcdef"[digit] as usize] = digit as u8;
        digit += 1;
    }
    values
};

fn value(byte: u8) -> u8 {
    VALUES[usize::from(byte)]
}

/// The sample of seven bytes.
fn sample(seven: &[u8]) -> Option<u16> {
    let &[b'3', b'0', a, b, c, d, b'\n'] = seven else {
        return None;
    };
    let [a, b, c, d] = [value(a), value(b), value(c), value(d)];
    let number = u16::from(a) << 12 | u16::from(b) << 8 | u16::from(c) << 4 | u16::from(d);
    ((a | b | c | d) < 16).then_some(number)
}

impl Reader {
    /// As `read_recording` numbers it.
    pub fn state(&self) -> u64 {
        u64::from(self.column) << 48 | u64::from(self.value) << 32 | u64::from(self.line)
    }

    fn end_line(&mut self, samples: &mut [u8], value: u16) {
        let at = 2 * self.line as usize;
        if let Some(place) = samples.get_mut(at..at + 2) {
            place.copy_from_slice(&value.to_be_bytes());
        }
        self.line += 1;
    }

    fn malformed(&mut self) {
        self.column = MALFORMED;
        self.value = 0;
    }

    fn byte(&mut self, samples: &mut [u8], byte: u8) {
        let fits = match self.column {
            _ if self.line == LAST => false,
            0 => byte == b'3',
            1 => byte == b'0',
            2..=5 => value(byte) < 16,
            6 => byte == b'\n',
            _ => false,
        };
        match self.column {
            _ if !fits => self.malformed(),
            6 => {
                self.end_line(samples, self.value);
                (self.column, self.value) = (0, 0);
            }
            column => {
                let digits = self.value << 4 | u16::from(value(byte));
                self.value = if column < 2 { 0 } else { digits };
                self.column += 1;
            }
        }
    }

    /// An automaton by bytes.
    pub fn by_bytes(&mut self, samples: &mut [u8], part: &[u8]) {
        for byte in part {
            self.byte(samples, *byte);
        }
    }

    /// A whole line at a time, but for a line that the cuts divide.
    pub fn by_lines(&mut self, samples: &mut [u8], part: &[u8]) {
        let begun = match self.column {
            0 => 0,
            MALFORMED => return,
            column => part.len().min(7 - usize::from(column)),
        };
        let (rest, part) = part.split_at(begun);
        self.by_bytes(samples, rest);
        let lines = part.chunks_exact(7);
        let torn = lines.remainder();
        for seven in lines {
            match sample(seven) {
                Some(value) if self.column == 0 && self.line < LAST => {
                    self.end_line(samples, value)
                }
                _ => return self.malformed(),
            }
        }
        self.by_bytes(samples, torn);
    }
}
