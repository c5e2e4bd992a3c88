//! Figures: ours and the original on the same work, in one run.

pub mod clock;
pub mod plain;
pub mod readers;
pub mod setting;
pub mod work;
