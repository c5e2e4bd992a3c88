//! Stand-in: an address is a number, an output is an address or nothing.

use std::fmt;

#[derive(Clone, Copy, Debug, PartialEq, Eq)]
pub(crate) struct InstAddress(usize);

impl InstAddress {
    pub(crate) const INVALID: InstAddress = InstAddress(usize::MAX);

    pub(crate) const fn new(offset: usize) -> Self {
        InstAddress(offset)
    }

    pub(crate) fn offset(&self) -> usize {
        self.0
    }

    pub(crate) fn output(&self) -> Output {
        Output::keep(self.0)
    }
}

impl std::hash::Hash for InstAddress {
    fn hash<H: std::hash::Hasher>(&self, state: &mut H) {
        state.write_usize(self.0);
    }
}

impl fmt::Display for InstAddress {
    fn fmt(&self, f: &mut fmt::Formatter<'_>) -> fmt::Result {
        write!(f, "{}", self.0)
    }
}

#[derive(Clone, Copy)]
pub(crate) struct Output(Option<usize>);

impl Output {
    pub(crate) fn keep(offset: usize) -> Self {
        Output(Some(offset))
    }

    pub(crate) fn discard() -> Self {
        Output(None)
    }

    pub(crate) fn as_addr(&self) -> Option<InstAddress> {
        self.0.map(InstAddress)
    }
}

impl fmt::Debug for Output {
    fn fmt(&self, f: &mut fmt::Formatter<'_>) -> fmt::Result {
        match self.0 {
            Some(offset) => write!(f, "keep {offset}"),
            None => write!(f, "discard"),
        }
    }
}

/// The two instructions that the four files name.
#[derive(Clone, Copy)]
pub(crate) enum Inst {
    Copy { addr: InstAddress, out: Output },
    Move { addr: InstAddress, out: Output },
}

impl fmt::Debug for Inst {
    fn fmt(&self, f: &mut fmt::Formatter<'_>) -> fmt::Result {
        match self {
            Inst::Copy { addr, out } => write!(f, "copy {addr}, {out:?}"),
            Inst::Move { addr, out } => write!(f, "move {addr}, {out:?}"),
        }
    }
}
