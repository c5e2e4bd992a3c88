//! What kinds of scripts are made by chance.

use crate::rng::Rng;

/// Weights in the order of the opcodes 01 to 12, 14, then 20 to 25.
pub struct Profile {
    pub name: &'static str,
    pub weights: [u32; 25],
    /// the longest run, but for a few
    pub run: usize,
    pub names: usize,
    /// how often a refused frame is kept as the last one: once in so many
    pub refusal: usize,
    /// how often the head is made to rise above L: once in so many frames
    pub rise: usize,
}

const fn row(
    name: &'static str,
    weights: [u32; 25],
    run: usize,
    names: usize,
    refusal: usize,
    rise: usize,
) -> Profile {
    Profile {
        name,
        weights,
        run,
        names,
        refusal,
        rise,
    }
}

#[rustfmt::skip]
pub static PROFILES: [Profile; 8] = [
    //             01  02  03  04  05  06  07  08  09  0a  0b  0c  0d  0e  0f  10  11  12  14  20  21  22  23  24  25   run names refusal rise
    row("mixed",  [ 8,  6,  4,  5,  1, 14,  7,  8,  8,  4,  3, 12,  4,  2,  2,  8,  4,  3,  0,  0,  0,  0,  0,  0,  0],   6,   6, 60,  400),
    row("deep",   [40, 14,  6, 12,  0,  8,  8,  3,  8,  5,  3,  6,  2,  1,  1,  2,  1,  1,  0,  0,  0,  0,  0,  0,  0],   4,  12, 60, 2000),
    row("wide",   [ 6,  3,  2,  2,  0, 60,  8,  6,  1,  1,  1, 24,  6,  1,  1,  2,  1,  1,  0,  0,  0,  0,  0,  0,  0], 180,   4, 60,  300),
    row("full",   [ 6,  4,  2,  2,  0, 20,  6, 16,  1,  1,  1, 20,  6,  1,  1,  1,  1,  1,  0,  0,  0,  0,  0,  0,  0],1400,   4, 60,   60),
    row("names",  [ 6,  2,  2,  3,  0,  5,  2,  1, 60, 10,  8,  3,  1,  1,  1,  4,  1,  6,  0,  0,  0,  0,  0,  0,  0],   4, 300, 60, 2000),
    row("churn",  [14, 12,  3,  4,  0, 24,  6,  6,  1,  1,  1, 20,  8,  2,  6,  2,  1,  1,  0,  0,  0,  0,  0,  0,  0],  40,   4, 60,  300),
    row("ending", [ 3,  6,  3,  4,  8,  8,  8,  3,  4,  3,  2,  8,  4,  3,  6,  3,  3,  3,  0,  0,  0,  0,  0,  0,  0],   3,   3, 12,  200),
    // scopes over several segments, popped; then runs that shrink L
    row("head",   [12, 12,  1,  2,  0, 14,  3, 16,  1,  1,  1,  8,  4,  1,  2,  1,  1,  1,  0,  0,  0,  0,  0,  0,  0], 800,   3, 60,   12),
];

/// Those with needs: of any kind; many of them, and the 65th; where slots and handles run out; where scopes close.
#[rustfmt::skip]
pub static WITH_NEEDS: [Profile; 4] = [
    //             01  02  03  04  05  06  07  08  09  0a  0b  0c  0d  0e  0f  10  11  12  14  20  21  22  23  24  25   run names refusal rise
    row("needs",  [ 8,  6,  4,  5,  1,  6,  3,  3,  5,  3,  2,  6,  2,  2,  4, 10,  6,  4,  0, 10,  5,  3, 18,  8, 10],   6,   6, 60,  400),
    row("many",   [ 6,  4,  2,  3,  0,  3,  1,  1,  2,  1,  1,  3,  1,  1,  2,  4,  2,  1,  0, 24,  8, 12, 30,  6,  4],   4,   6, 16, 2000),
    row("room",   [ 6,  4,  2,  2,  0, 10,  4, 16,  1,  1,  1, 14,  4,  1,  1,  1,  1,  1,  0,  4,  1,  1, 20,  2,  4],1400,   4, 30,   60),
    row("closes", [20, 18,  4,  5,  2,  3,  3,  2,  2,  1,  1,  4,  2,  1,  6,  4,  3,  2,  0, 14,  3,  2, 18,  5, 12],   3,   3, 20,  200),
];

/// Those with samples: of any kind, also to a need's handle; many of them, with reads between; where slots are given and taken back.
#[rustfmt::skip]
pub static WITH_SAMPLES: [Profile; 3] = [
    //              01  02  03  04  05  06  07  08  09  0a  0b  0c  0d  0e  0f  10  11  12  14  20  21  22  23  24  25   run names refusal rise
    row("samples", [ 6,  4,  3,  4,  1, 10,  5,  5,  6,  2,  2,  8,  3,  2,  2,  5,  8,  5, 18,  3,  1,  1,  5,  1,  2],   6,   6, 60,  400),
    row("counter", [ 2,  1,  1,  1,  0,  6,  1,  1,  2,  1,  1,  1,  1,  1,  1,  4, 30,  6, 40,  0,  0,  0,  0,  0,  0],   4,   4, 60, 2000),
    row("reuse",   [12, 10,  2,  3,  1, 16,  4,  4,  2,  1,  1, 16,  5,  2,  4,  4, 10,  3, 20,  1,  0,  0,  2,  0,  2],  20,   3, 20,  300),
];

/// The opcode that a weight is of.
pub fn opcode(place: usize) -> u8 {
    match place {
        0..18 => place as u8 + 0x01,
        18 => 0x14,
        _ => place as u8 - 19 + 0x20,
    }
}

/// How many frames: mostly few, at times as many as a script may have.
pub fn length(rng: &mut Rng) -> usize {
    let most = match rng.below(100) {
        0..70 => 30,
        70..90 => 150,
        90..98 => 600,
        _ => model::LINES,
    };
    1 + rng.below(most)
}
