//! Differences that are known and written down in docs/: a comparison that meets only these passes.

/// A smallest script, and where it is written down.
pub struct Known {
    pub script: &'static [u8],
    pub why: &'static str,
}

/// There is none: what 01 leaves out of the domain isn't compared.
pub const KNOWN: [Known; 0] = [];

pub fn known(small: &[u8]) -> Option<&'static str> {
    KNOWN.iter().find(|k| k.script == small).map(|k| k.why)
}
