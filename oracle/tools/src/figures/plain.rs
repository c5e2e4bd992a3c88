//! The frame machine in plain Rust, for figures: the original has none. It reads, checks and obeys as `run` does, in one buffer of lines.
//! A list with a 14 it refuses, as `run` does.

#[derive(Default)]
pub struct Machine {
    lines: Vec<(u8, u16, u16)>,
}

fn number(digits: &[u8]) -> Option<u16> {
    let mut value = 0;
    for byte in digits {
        let digit = match byte {
            b'0'..=b'9' => byte - b'0',
            b'a'..=b'f' => byte - b'a' + 10,
            _ => return None,
        };
        value = value << 4 | u16::from(digit);
    }
    Some(value)
}

/// Opcode, the first two operands, and how many there are.
fn parts(line: &[u8]) -> Option<(u8, u16, u16, usize)> {
    if line.len() % 4 != 2 {
        return None;
    }
    let opcode = number(&line[..2])? as u8;
    let (mut first, mut count) = ([0; 2], 0);
    for four in line[2..].chunks_exact(4) {
        let operand = number(four)?;
        if let Some(place) = first.get_mut(count) {
            *place = operand;
        }
        count += 1;
    }
    Some((opcode, first[0], first[1], count))
}

fn fits(opcode: u8, first: u16, count: usize) -> bool {
    match opcode {
        0x01 | 0x06 | 0x07 | 0x08 | 0x0a | 0x0b | 0x11 | 0x12 | 0x90 => count == 1,
        0x20..=0x24 => count == 1,
        0x02..=0x05 | 0x09 | 0x0c | 0x0d | 0x0e | 0x25 => count == 0,
        0x0f => count == usize::from(first) + 1,
        0x10 => count == 2,
        _ => false,
    }
}

impl Machine {
    /// The size.
    fn read(&mut self, list: &[u8]) -> Option<usize> {
        self.lines.clear();
        let mut size = None;
        for line in list.strip_suffix(b"\n")?.split(|b| *b == b'\n') {
            let (opcode, a, b, count) = parts(line)?;
            if size.is_some() || !fits(opcode, a, count) {
                return None;
            }
            match opcode {
                0x90 => size = Some(usize::from(a)),
                0x10..=0x12 => self.lines.push((opcode, a, b)),
                _ => {}
            }
        }
        size
    }

    /// How many bytes of `out` were written; none where the list or the memory is refused.
    pub fn run(&mut self, list: &[u8], cells: &mut [u8], out: &mut [u8]) -> Option<usize> {
        let size = self.read(list)?;
        let loads = self.lines.iter().filter(|l| l.0 != 0x10).count();
        let low = self.lines.iter().all(|l| usize::from(l.1) < size);
        if !low || size > model::SLOTS || cells.len() / 2 < size || out.len() < 7 * loads {
            return None;
        }
        cells[..2 * size].fill(0);
        let mut written = 0;
        for (opcode, a, b) in &self.lines {
            let cell = &mut cells[2 * usize::from(*a)..][..2];
            match opcode {
                0x10 => cell.copy_from_slice(&b.to_be_bytes()),
                _ => {
                    let digit = |n: u8| b"0123456789abcdef"[usize::from(n & 15)];
                    let shown = [
                        digit(cell[0] >> 4),
                        digit(cell[0]),
                        digit(cell[1] >> 4),
                        digit(cell[1]),
                    ];
                    let line = &mut out[written..][..7];
                    line[..2].copy_from_slice(b"a0");
                    line[2..6].copy_from_slice(&shown);
                    line[6] = b'\n';
                    written += 7;
                }
            }
        }
        Some(written)
    }
}
