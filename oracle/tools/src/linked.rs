//! The proved functions themselves, linked: a call a text, with no process between.

use crate::agreement::Checker;
use crate::ours::Ours;
use crate::recorded::Recorder;
use mboxalind::Answer;
use model::{print_refusal, Lent, Refusal, BUFFER, SLOTS};

/// What lent memory holds before a call.
const LENT: u8 = 0x5a;

/// The longest list stays below this, and so do 2,048 loads.
const ROOM: usize = BUFFER;

fn refusal(number: u8, line: u32) -> Vec<u8> {
    let line = line as usize;
    print_refusal(Refusal { number, line })
}

/// As the exported function answers it.
fn answered(refusal: mboxalind::Refusal) -> u64 {
    (u64::from(refusal.number) << 32) + u64::from(refusal.line)
}

/// What a program over the function would print; a word instead where lent memory was touched beyond the answer.
fn printed(answer: Answer, lent: &[u8]) -> Vec<u8> {
    let written = match answer {
        Answer::Written(bytes) => bytes,
        Answer::Refused(_) => 0,
    };
    if lent[written..].iter().any(|b| *b != LENT) {
        return b"lent memory was written past the answer".to_vec();
    }
    match answer {
        Answer::Written(bytes) => lent[..bytes].to_vec(),
        Answer::Refused(r) => refusal(r.number, r.line),
    }
}

/// `translate`.
pub struct Translate {
    list: Vec<u8>,
    asked: u64,
}

impl Default for Translate {
    fn default() -> Self {
        let list = vec![LENT; ROOM];
        Translate { list, asked: 0 }
    }
}

impl Translate {
    /// "lent memory too short for the answer": by one byte, and nothing is written.
    fn ask_short(&mut self, script: &[u8], bytes: usize, shown: Vec<u8>) -> Vec<u8> {
        let answer = mboxalind::translate(script, &mut self.list[..bytes - 1]);
        match printed(answer, &self.list) == refusal(17, 0) {
            true => shown,
            false => b"one byte too few was not refused by 17".to_vec(),
        }
    }
}

impl Ours for Translate {
    fn answer(&mut self, script: &[u8]) -> Vec<u8> {
        if let Err(longer) = model::taken(script, None) {
            return print_refusal(longer);
        }
        let answer = mboxalind::translate(script, &mut self.list);
        let shown = printed(answer, &self.list);
        self.list.fill(LENT);
        self.asked += 1;
        match answer {
            Answer::Written(bytes) if self.asked % 8 == 0 => self.ask_short(script, bytes, shown),
            _ => shown,
        }
    }

    fn name(&self) -> String {
        "translate, linked".into()
    }
}

/// `run`.
pub struct Run;

impl Ours for Run {
    fn answer(&mut self, list: &[u8]) -> Vec<u8> {
        if let Err(longer) = model::taken(list, None) {
            return print_refusal(longer);
        }
        let (mut cells, mut out) = ([LENT; 2 * SLOTS], [LENT; ROOM]);
        let answer = mboxalind::run(list, &mut cells, &mut out);
        let (mut theirs, mut other) = ([LENT; 2 * SLOTS], [LENT; ROOM]);
        let _ = model::run(list, &mut theirs, &mut other);
        match cells == theirs {
            true => printed(answer, &out),
            false => b"the cells are not the model's".to_vec(),
        }
    }

    fn name(&self) -> String {
        "run, linked".into()
    }
}

/// `read_recording` and `run_recorded`.
pub struct Recorded;

impl Recorder for Recorded {
    fn read(&mut self, state: u64, samples: &mut [u8], part: &[u8]) -> u64 {
        mboxalind::read_recording(state, samples, part)
    }

    fn run(&mut self, list: &[u8], state: u64, samples: &[u8], lent: Lent<'_>) -> u64 {
        let Lent { cells, out, left } = lent;
        match mboxalind::run_recorded(list, state, samples, cells, out, left) {
            Answer::Written(bytes) => bytes as u64,
            Answer::Refused(r) => answered(r),
        }
    }

    fn name(&self) -> String {
        "read_recording and run_recorded, linked".into()
    }
}

/// `agrees`, and the functions of recordings to run lists.
pub struct Agrees;

impl Checker for Agrees {
    fn agrees(&mut self, script: &[u8], list: &[u8]) -> u64 {
        match mboxalind::agrees(script, list) {
            Ok(yes) => u64::from(yes),
            Err(unread) => answered(unread.refusal),
        }
    }

    fn prints(&mut self, list: &[u8], recording: &[u8]) -> Vec<u8> {
        let (mut cells, mut out) = ([LENT; 2 * SLOTS], vec![LENT; ROOM]);
        let mut fed = mboxalind::Recording::default();
        fed.feed(recording);
        match fed.run(list, &mut cells, &mut out) {
            Ok(ran) => {
                out.truncate(ran.bytes);
                out.extend_from_slice(format!("a1{:08x}\n", ran.left).as_bytes());
                out
            }
            Err(r) => refusal(r.number, r.line),
        }
    }

    fn name(&self) -> String {
        "agrees, linked".into()
    }
}
