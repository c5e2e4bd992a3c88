//! The frame machine: lists, read and obeyed, with a recording beside them (W-205). A title (W-211) is read and does nothing.

use crate::edition::{is_titled, title};
use crate::fault::{Fault, Plant};
use crate::recording::Reader;
use crate::text::{most_lines, parts, split, titles, RawLine};
use crate::{refused, Line, Refusal, SLOTS, SLOTS_BEFORE};

/// W-206: "The size line may go up to 4,096."
fn most_size(plant: Plant) -> usize {
    match plant {
        Some(Fault::SizeLineKept) => SLOTS_BEFORE,
        _ => SLOTS,
    }
}

/// "`90`, four digits and LF"
fn size_line(line: &RawLine<'_>) -> Option<u16> {
    match parts(line, None)? {
        (0x90, operands) if operands.len() == 1 => Some(operands[0]),
        _ => None,
    }
}

/// "01 adds its number; 06, 07, 0a, 0b add the address; 08 the first address or `ffff`; 0f a count and the addresses;
/// 10 is address and value; 11 and 12 the address; others the opcode only." W-201: "20 to 22 answer the need's number; 23
/// and 24 the address, or `ffff` for none or discard." W-205: "its list line is `14` and the address".
fn list_line(line: &RawLine<'_>) -> Option<Line> {
    let (opcode, operands) = parts(line, None)?;
    let right = match opcode {
        0x01 | 0x06 | 0x07 | 0x08 | 0x0a | 0x0b | 0x11 | 0x12 => operands.len() == 1,
        0x14 | 0x20..=0x24 => operands.len() == 1,
        0x02..=0x05 | 0x09 | 0x0c | 0x0d | 0x0e | 0x25 => operands.is_empty(),
        0x0f => operands.first().map(|n| usize::from(*n) + 1) == Some(operands.len()),
        0x10 => operands.len() == 2,
        _ => false,
    };
    right.then_some(Line { opcode, operands })
}

/// A list's lines and its size, or the first line with 1 or 2. The title is one of the lines.
pub fn read_list(text: &[u8]) -> Result<(Vec<Line>, usize), Refusal> {
    read_list_with(text, None)
}

pub(crate) fn read_list_with(text: &[u8], plant: Plant) -> Result<(Vec<Line>, usize), Refusal> {
    let raw = split(text);
    let mut lines = Vec::new();
    for (i, line) in raw.iter().enumerate() {
        if let Some(size) = size_line(line) {
            let early = i + 1 < raw.len();
            if early || usize::from(size) > most_size(plant) {
                return refused(1, i);
            }
            return Ok((lines, size.into()));
        }
        if i == most_lines(is_titled(&lines), plant) {
            return refused(2, i);
        }
        if titles(i, line, plant) && plant != Some(Fault::TitleUnread) {
            lines.push(title());
            continue;
        }
        match list_line(line) {
            Some(line) => lines.push(line),
            None => return refused(1, i),
        }
    }
    refused(1, raw.len())
}

/// A refusal at one of the lines.
fn refused_at<T>(number: u8, i: usize, lines: &[Line], plant: Plant) -> Result<T, Refusal> {
    let uncounted = plant == Some(Fault::TitleUnnumbered) && is_titled(lines);
    refused(number, i - usize::from(uncounted))
}

/// 20: "list address (10, 11, 12) not below size"; W-205: "which covers 14 too"
fn check_addresses(
    lines: &[Line],
    size: usize,
    covered: &[u8],
    plant: Plant,
) -> Result<(), Refusal> {
    for (i, line) in lines.iter().enumerate() {
        let touches = covered.contains(&line.opcode);
        if touches && usize::from(line.operands[0]) >= size {
            return refused_at(20, i, lines, plant);
        }
    }
    Ok(())
}

/// 23: "the first 14 line without a sample"
fn check_samples(lines: &[Line], samples: usize, plant: Plant) -> Result<(), Refusal> {
    let sampled = lines.iter().enumerate().filter(|(_, l)| l.opcode == 0x14);
    match sampled.map(|(i, _)| i).nth(samples) {
        Some(i) => refused_at(23, i, lines, plant),
        None => Ok(()),
    }
}

/// All refusals but 29 and 17: 1, 2; 20; 24; 23. The lines, the size, and how many samples the recording has.
fn checked(
    list: &[u8],
    reader: &Reader,
    plant: Plant,
) -> Result<(Vec<Line>, usize, usize), Refusal> {
    let (lines, size) = read_list_with(list, plant)?;
    let late = plant == Some(Fault::SampleHighLate);
    let first = if late { &TOUCHES[..3] } else { &TOUCHES };
    check_addresses(&lines, size, first, plant)?;
    if plant == Some(Fault::TooFewFirst) {
        check_samples(&lines, reader.line, plant)?;
    }
    let samples = reader.ended(plant)?;
    check_samples(&lines, samples, plant)?;
    if late {
        check_addresses(&lines, size, &TOUCHES, plant)?;
    }
    Ok((lines, size, samples))
}

/// The lines whose address is a cell's.
const TOUCHES: [u8; 4] = [0x10, 0x11, 0x12, 0x14];

/// What a run is lent: cells, two bytes each, high first; room for what the loads show; four bytes for the number left over.
pub struct Lent<'a> {
    pub cells: &'a mut [u8],
    pub out: &'a mut [u8],
    pub left: &'a mut [u8],
}

fn count(lines: &[Line], opcodes: &[u8]) -> usize {
    let of = |line: &&Line| opcodes.contains(&line.opcode);
    lines.iter().filter(of).count()
}

/// How many bytes of `out` were written. `state` is the reader's after the whole recording, and `kept` the samples that it kept.
pub fn run_recorded_with(
    list: &[u8],
    state: u64,
    kept: &[u8],
    lent: Lent<'_>,
    plant: Plant,
) -> Result<usize, Refusal> {
    let Some(reader) = Reader::of(state) else {
        return refused(29, 0);
    };
    let (lines, size, samples) = checked(list, &reader, plant)?;
    let taken = count(&lines, &[0x14]);
    let short = lent.cells.len() / 2 < size
        || lent.out.len() < 7 * count(&lines, &[0x11, 0x12])
        || lent.left.len() < 4
        || kept.len() / 2 < taken;
    if short {
        return refused(17, 0);
    }
    let left = match plant {
        Some(Fault::LeftOfKept) => samples.min(kept.len() / 2) - taken,
        _ => samples - taken,
    };
    lent.left[..4].copy_from_slice(&(left as u32).to_be_bytes());
    Ok(obey(&lines, size, kept, lent, plant))
}

/// Which of the samples the 14 takes before which so many were taken.
fn next_sample(taken: usize, plant: Plant) -> usize {
    match plant {
        Some(Fault::SampleTwice) if taken == 1 => 0,
        Some(Fault::SampleSkipped) if taken == 1 => 2,
        _ => taken,
    }
}

fn obey(lines: &[Line], size: usize, kept: &[u8], lent: Lent<'_>, plant: Plant) -> usize {
    let Lent { cells, out, .. } = lent;
    cells[..2 * size].fill(0);
    let (mut written, mut taken) = (0, 0);
    for line in lines.iter().filter(|l| TOUCHES.contains(&l.opcode)) {
        let at = 2 * usize::from(line.operands[0]);
        match line.opcode {
            0x10 => cells[at..at + 2].copy_from_slice(&line.operands[1].to_be_bytes()),
            0x14 => {
                let sample = kept.chunks_exact(2).nth(next_sample(taken, plant));
                cells[at..at + 2].copy_from_slice(sample.unwrap_or(&[0, 0]));
                taken += 1;
            }
            _ => {
                let shown = format!("a0{:02x}{:02x}\n", cells[at], cells[at + 1]);
                out[written..written + 7].copy_from_slice(shown.as_bytes());
                written += 7;
            }
        }
    }
    written
}

/// See [`run_recorded_with`].
pub fn run_recorded(
    list: &[u8],
    state: u64,
    kept: &[u8],
    lent: Lent<'_>,
) -> Result<usize, Refusal> {
    run_recorded_with(list, state, kept, lent, None)
}

/// The same with no samples.
pub fn run(list: &[u8], cells: &mut [u8], out: &mut [u8]) -> Result<usize, Refusal> {
    let left = &mut [0; 4];
    run_recorded(list, 0, &[], Lent { cells, out, left })
}
