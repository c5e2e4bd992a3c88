//! Stand-in: of the compiler's context only its instructions.

use std::marker::PhantomData;

use crate::compile::Assembly;

#[derive(Default)]
pub(super) struct Ctxt<'a, 'hir, 'arena> {
    pub(super) asm: Assembly,
    lives: PhantomData<(&'a (), &'hir (), &'arena ())>,
}
