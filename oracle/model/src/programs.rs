//! The programs: what each prints for its texts. 01: "Text buffers: .. a program refuses longer input by 17, whatever it holds".

use crate::fault::{Fault, Plant};
use crate::list::write_digits;
use crate::{
    print_refusal, read_recording_with, refused, run_recorded_with, translate_with, verdict_with,
    Lent, Refusal, Verdict, BUFFER, BUFFER_BEFORE, LINES, SLOTS,
};

fn buffer(plant: Plant) -> usize {
    match plant {
        Some(Fault::BufferKept) => BUFFER_BEFORE,
        _ => BUFFER,
    }
}

/// A text as a program takes it, or 17.
pub fn taken(text: &[u8], plant: Plant) -> Result<&[u8], Refusal> {
    let text = match plant {
        Some(Fault::TextCut) => &text[..text.len().min(BUFFER_BEFORE + 1)],
        _ => text,
    };
    match text.len() > buffer(plant) {
        true => refused(17, 0),
        false => Ok(text),
    }
}

/// The translating program: its input and what it prints.
pub fn translator_with(input: &[u8], plant: Plant) -> Vec<u8> {
    let script = taken(input, plant);
    let translated = script.and_then(|script| translate_with(script, buffer(plant), plant));
    translated.unwrap_or_else(print_refusal)
}

/// See [`translator_with`].
pub fn translator(input: &[u8]) -> Vec<u8> {
    translator_with(input, None)
}

/// What a run program prints but for its last line, and that line's number: it lends a cell for each slot and keeps a sample for each line.
fn ran(input: &[u8], recording: &[u8], plant: Plant) -> Result<(Vec<u8>, usize), Refusal> {
    let list = taken(input, plant)?;
    let mut kept = [0; 2 * LINES];
    let state = read_recording_with(0, &mut kept, recording, plant);
    let (cells, left) = (&mut [0; 2 * SLOTS], &mut [0; 4]);
    let mut out = vec![0; buffer(plant)];
    let lent = Lent {
        cells,
        out: &mut out,
        left,
    };
    let written = run_recorded_with(list, state, &kept, lent, plant)?;
    out.truncate(written);
    Ok((out, u32::from_be_bytes(*left) as usize))
}

/// The run program without a recording: its input and what it prints.
pub fn runner_with(input: &[u8], plant: Plant) -> Vec<u8> {
    match ran(input, b"", plant) {
        Ok((loads, _)) => loads,
        Err(refusal) => print_refusal(refusal),
    }
}

/// See [`runner_with`].
pub fn runner(input: &[u8]) -> Vec<u8> {
    runner_with(input, None)
}

/// The run program with one: a last line has "`a1` and eight digits".
pub fn recorded_runner_with(input: &[u8], recording: &[u8], plant: Plant) -> Vec<u8> {
    match ran(input, recording, plant) {
        Ok((mut printed, left)) => {
            printed.extend_from_slice(b"a1");
            write_digits(left, 8, &mut printed);
            printed.push(b'\n');
            printed
        }
        Err(refusal) => print_refusal(refusal),
    }
}

/// See [`recorded_runner_with`].
pub fn recorded_runner(input: &[u8], recording: &[u8]) -> Vec<u8> {
    recorded_runner_with(input, recording, None)
}

/// 17 for either text, before what the other one holds.
fn checked(script: &[u8], list: &[u8], plant: Plant) -> Result<Verdict, Refusal> {
    verdict_with(taken(script, plant)?, taken(list, plant)?, plant)
}

/// The checking program: its two texts and what it prints.
pub fn checker_with(script: &[u8], list: &[u8], plant: Plant) -> Vec<u8> {
    match checked(script, list, plant) {
        Ok(Verdict::Yes) => b"yes\n".to_vec(),
        Ok(Verdict::No(_)) => b"no\n".to_vec(),
        Err(refusal) => print_refusal(refusal),
    }
}

/// See [`checker_with`].
pub fn checker(script: &[u8], list: &[u8]) -> Vec<u8> {
    checker_with(script, list, None)
}
