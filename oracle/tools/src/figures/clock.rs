//! Times of several sides that do the same work, taken in turn: the processor's time of this thread, so that others on the machine
//! disturb it less.

use std::hint::black_box;
use std::time::{Duration, Instant};

/// One of those that are measured. What it answers keeps its work from being left out.
pub type Side<'a> = &'a mut dyn FnMut() -> u64;

/// One measurement of a side takes about so long.
const SPAN: Duration = Duration::from_millis(4);

const ROUNDS: usize = 25;

/// Fewer rounds where they take longer than this.
const PATIENCE: Duration = Duration::from_secs(3);
const FEWEST: usize = 5;

#[repr(C)]
struct Timespec {
    seconds: i64,
    nanoseconds: i64,
}

// Of the C library that std links, on 64-bit Linux.
extern "C" {
    fn clock_gettime(clock: i32, now: *mut Timespec) -> i32;
}

const THREAD_CPUTIME: i32 = 3;

/// Processor time that this thread has used.
fn used() -> Duration {
    let mut now = Timespec {
        seconds: 0,
        nanoseconds: 0,
    };
    // SAFETY: `now` is written while it is lent, and has the layout that Linux gives it.
    let status = unsafe { clock_gettime(THREAD_CPUTIME, &mut now) };
    assert_eq!(status, 0, "the thread's clock can be read");
    Duration::new(now.seconds as u64, now.nanoseconds as u32)
}

fn timed(side: Side, times: u32) -> Duration {
    let begun = used();
    for _ in 0..times {
        black_box(side());
    }
    used() - begun
}

/// How often it fits the span; the first calls also warm caches and buffers.
fn calibrated(side: Side) -> u32 {
    let mut times = 1;
    while timed(side, times) < SPAN && times < 1 << 24 {
        times *= 2;
    }
    times
}

/// Nanoseconds of a call of each side: the best of the rounds, in each of which every side has its turn.
pub fn best(sides: &mut [Side]) -> Vec<f64> {
    let times: Vec<u32> = sides.iter_mut().map(|side| calibrated(side)).collect();
    let mut best = vec![f64::INFINITY; sides.len()];
    let begun = Instant::now();
    for round in 0..ROUNDS {
        if round >= FEWEST && begun.elapsed() > PATIENCE {
            break;
        }
        for (i, side) in sides.iter_mut().enumerate() {
            let taken = timed(side, times[i]).as_nanos() as f64 / f64::from(times[i]);
            best[i] = best[i].min(taken);
        }
    }
    best
}
