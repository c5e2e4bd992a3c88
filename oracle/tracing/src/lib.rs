//! Stand-in for the crate of this name: nothing is traced.

pub use instrument::instrument;

#[macro_export]
macro_rules! trace {
    ($($anything:tt)*) => {};
}
