//! The slot allocator of rune 0.14.2: `slots.rs`, `scopes.rs`, `linear.rs` and `needs.rs` unchanged, over small stand-ins
//! for what isn't in the text. The stand-ins have only what the four files ask for.

/// Stand-in: a text can always be had.
macro_rules! try_format {
    ($($anything:tt)*) => { format!($($anything)*) };
}

mod alloc;
mod ast;
mod compile;
mod hir;
mod query;
mod runtime;
mod shared;
mod v1;

pub use v1::{drive, probe, Bare, Driven, Held, Lean, Shared, Stop};

/// Stand-in: one source.
#[derive(Clone, Copy, Debug)]
pub(crate) struct SourceId;
