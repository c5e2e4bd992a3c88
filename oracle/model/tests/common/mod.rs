//! How the tests write scripts and lists: frames with ` / ` between them, as in the readings.
#![allow(dead_code)]

use model::{read_list, read_recording, run, run_recorded, translate};
use model::{Lent, Refusal, LINES, SLOTS};

/// Lines with ` / ` between them, each ended by LF.
pub fn text(lines: &str) -> Vec<u8> {
    let mut out = Vec::new();
    for line in lines.split('/').map(str::trim).filter(|l| !l.is_empty()) {
        out.extend_from_slice(line.as_bytes());
        out.push(b'\n');
    }
    out
}

/// n lines alike.
pub fn times(n: usize, line: &str) -> Vec<u8> {
    text(line).repeat(n)
}

pub fn join(parts: &[&[u8]]) -> Vec<u8> {
    parts.concat()
}

fn shown(bytes: &[u8]) -> String {
    String::from_utf8_lossy(bytes).replace('\n', " / ")
}

#[track_caller]
pub fn accepts_bytes(script: &[u8], list: &[u8]) {
    let got = translate(script, usize::MAX).expect("accepted");
    assert_eq!(shown(&got), shown(list));
}

#[track_caller]
pub fn accepts(script: &str, list: &str) {
    accepts_bytes(&text(script), &text(list));
}

/// The list ends with these lines.
#[track_caller]
pub fn ends(script: &[u8], last: &str) {
    let got = translate(script, usize::MAX).expect("accepted");
    assert!(
        shown(&got).ends_with(&shown(&text(last))),
        "{}",
        shown(&got)
    );
}

#[track_caller]
pub fn refuses_bytes(script: &[u8], number: u8, line: usize) {
    let got = translate(script, usize::MAX);
    assert_eq!(got, Err(Refusal { number, line }));
}

#[track_caller]
pub fn refuses(script: &str, number: u8, line: usize) {
    refuses_bytes(&text(script), number, line);
}

/// What the machine writes, with cells and room in plenty.
pub fn machine(list: &[u8]) -> Result<Vec<u8>, Refusal> {
    let mut cells = [0xee; 2 * SLOTS];
    let mut out = vec![0; 65536];
    let written = run(list, &mut cells, &mut out)?;
    out.truncate(written);
    Ok(out)
}

#[track_caller]
pub fn list_refused(list: &[u8], number: u8, line: usize) {
    assert_eq!(machine(list), Err(Refusal { number, line }));
    if number <= 2 {
        assert_eq!(read_list(list), Err(Refusal { number, line }));
    }
}

/// A recording's state at its end, and the samples that were kept in so many bytes.
pub fn fed(recording: &[u8], bytes: usize) -> (u64, Vec<u8>) {
    let mut samples = vec![0; bytes];
    let state = read_recording(0, &mut samples, recording);
    (state, samples)
}

/// What the machine writes beside a recording, and how many samples are left over; with room in plenty.
pub fn recorded(list: &[u8], recording: &[u8]) -> Result<(Vec<u8>, u32), Refusal> {
    let (state, samples) = fed(recording, 2 * LINES);
    let (mut cells, mut out, mut left) = ([0xee; 2 * SLOTS], vec![0; 65536], [0; 4]);
    let lent = Lent {
        cells: &mut cells,
        out: &mut out,
        left: &mut left,
    };
    let written = run_recorded(list, state, &samples, lent)?;
    out.truncate(written);
    Ok((out, u32::from_be_bytes(left)))
}

#[track_caller]
pub fn recorded_refused(list: &[u8], recording: &[u8], number: u8, line: usize) {
    assert_eq!(recorded(list, recording), Err(Refusal { number, line }));
}

/// Numbers that look like chance, the same each time.
pub struct Chance(pub u64);

impl Chance {
    pub fn draw(&mut self) -> u64 {
        self.0 ^= self.0 << 13;
        self.0 ^= self.0 >> 7;
        self.0 ^= self.0 << 17;
        self.0
    }

    pub fn below(&mut self, n: usize) -> usize {
        (self.draw() >> 16) as usize % n
    }
}
