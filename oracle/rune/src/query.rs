//! Stand-in: a visitor that only listens.

use std::marker::PhantomData;

use crate::alloc;
use crate::ast::Spanned;
use crate::SourceId;

#[derive(Default)]
pub(crate) struct Visitor;

impl Visitor {
    pub(crate) fn visit_variable_use(
        &mut self,
        _source: SourceId,
        _variable: &dyn Spanned,
        _span: &dyn Spanned,
    ) -> alloc::Result<()> {
        Ok(())
    }
}

#[derive(Default)]
pub(crate) struct Query<'a, 'arena> {
    pub(crate) visitor: Visitor,
    lives: PhantomData<(&'a (), &'arena ())>,
}
