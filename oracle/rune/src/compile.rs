//! Stand-in: errors keep their text alone; instructions are collected.

use std::fmt;

use crate::alloc;
use crate::ast::Spanned;
use crate::runtime::Inst;

/// The text of a refusal.
#[derive(Debug)]
pub(crate) struct Error(pub(crate) String);

pub(crate) enum ErrorKind {
    VariableMoved {},
}

pub(crate) type Result<T, E = Error> = core::result::Result<T, E>;

impl Error {
    pub(crate) fn msg(_span: &dyn Spanned, text: impl fmt::Display) -> Self {
        Error(text.to_string())
    }

    pub(crate) fn new(_span: &dyn Spanned, kind: ErrorKind) -> Self {
        match kind {
            ErrorKind::VariableMoved {} => Error("Variable moved".into()),
        }
    }
}

impl From<alloc::Error> for Error {
    fn from(error: alloc::Error) -> Self {
        match error {}
    }
}

pub(crate) trait WithSpan<T> {
    fn with_span(self, span: &dyn Spanned) -> Result<T>;
}

impl<T> WithSpan<T> for alloc::Result<T> {
    fn with_span(self, _span: &dyn Spanned) -> Result<T> {
        Ok(self?)
    }
}

/// The instructions that the original would have emitted.
#[derive(Default)]
pub(crate) struct Assembly(pub(crate) Vec<Inst>);

impl Assembly {
    pub(crate) fn push(&mut self, inst: Inst, _span: &dyn Spanned) -> Result<()> {
        self.0.push(inst);
        Ok(())
    }

    pub(crate) fn push_with_comment(
        &mut self,
        inst: Inst,
        span: &dyn Spanned,
        _comment: &dyn fmt::Display,
    ) -> Result<()> {
        self.push(inst, span)
    }
}
