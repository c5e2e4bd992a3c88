//! The check of a state handed in, and entries that are handed one, linked: the crate `checks`, which is for figures only.

#[link(name = "bare", kind = "static")]
extern "C" {
    fn full_checks(n: usize) -> usize;
    fn entry_pairs(n: usize) -> usize;
}

/// A full state is made (64 scopes, all slots, 256 names) and checked n times; how many checks say yes.
pub fn checks(n: usize) -> usize {
    // SAFETY: numbers only.
    unsafe { full_checks(n) }
}

/// From the fresh state on, a slot is allocated and freed n times, each by an entry of `allocator`; how many pairs of calls are answered.
pub fn pairs_of_entries(n: usize) -> usize {
    // SAFETY: numbers only.
    unsafe { entry_pairs(n) }
}
