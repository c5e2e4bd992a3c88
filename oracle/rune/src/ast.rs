//! Stand-in: no places in a source are kept.

#[derive(Clone, Copy, Debug)]
pub(crate) struct Span;

pub(crate) trait Spanned {
    fn span(&self) -> Span;
}

impl Spanned for Span {
    fn span(&self) -> Span {
        *self
    }
}
