//! Our slots by themselves, linked: the archive of the crate `bare`, which is for comparisons and figures only.

use crate::bare::{Call, Row};
use model::Placement;

#[link(name = "bare", kind = "static")]
extern "C" {
    fn bare_calls(calls: *const u16, calls_len: usize, shown: *mut u64, shown_len: usize) -> usize;
    fn bare_pairs_by_value(n: usize, stride: u16) -> u64;
    fn bare_pairs_lent(n: usize, stride: u16) -> u64;
}

/// A call as the crate `bare` numbers it. Past 65,532 there is no slot either.
fn number(call: &Call, placement: Placement) -> u16 {
    match (call, placement) {
        (Call::Insert, Placement::ByHead) => 65535,
        (Call::Insert, Placement::Lowest) => 65533,
        (Call::Insert, Placement::Exactly(_)) => {
            panic!("no call of bare slots is given an address")
        }
        (Call::Push, _) => 65534,
        (Call::Remove(a), _) => (*a).min(65532) as u16,
    }
}

/// A row a call, from fresh slots, with the insert of that edition.
pub fn rows(calls: &[Call], placement: Placement) -> Vec<Row> {
    let numbers: Vec<u16> = calls.iter().map(|c| number(c, placement)).collect();
    let mut shown = vec![0; 3 * calls.len()];
    // SAFETY: two slices that don't overlap; the function is proved to stay within them.
    let made = unsafe {
        bare_calls(
            numbers.as_ptr(),
            numbers.len(),
            shown.as_mut_ptr(),
            shown.len(),
        )
    };
    assert_eq!(made, calls.len());
    let row = |three: &[u64]| Row {
        answer: three[0] as usize,
        length: three[1] as usize,
        head: three[2] as usize,
    };
    shown.chunks(3).map(row).collect()
}

/// The sum of the addresses that n pairs give: over a half-full frame slot a is removed and one inserted, then slot
/// (a + stride) modulo half of the slots, and so on from slot 0. Each operation is a call of the public entry, with the state by value.
pub fn pairs_by_value(n: usize, stride: u16) -> u64 {
    // SAFETY: numbers only.
    unsafe { bare_pairs_by_value(n, stride) }
}

/// The same pairs: the halves are lent, and soundness is not checked at each step.
pub fn pairs_lent(n: usize, stride: u16) -> u64 {
    // SAFETY: numbers only.
    unsafe { bare_pairs_lent(n, stride) }
}
