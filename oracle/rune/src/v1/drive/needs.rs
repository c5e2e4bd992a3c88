//! Needs: the original's `Any`, one for each of the frames 20 to 22.

use model::NeedNumber;

use super::{Driver, Place, Shown, Step, Stop, SPAN};
use crate::compile;
use crate::runtime::{InstAddress, Output};
use crate::v1::books::Beside;
use crate::v1::{Address, Any, ScopeId};

const FREED: Stop = Stop::Untold("the need was freed");

pub(super) struct Need<'a> {
    /// none once it was freed: the original takes it by value
    any: Option<Any<'a, 'static>>,
    /// where it was deferred to
    scope: Option<ScopeId>,
    /// the handle that belongs to it
    handle: Option<usize>,
}

impl<'a> Need<'a> {
    pub(super) fn address(&self) -> Option<&Address<'a, 'static>> {
        self.any.as_ref()?.addr().ok()
    }

    fn any(&mut self) -> Result<&mut Any<'a, 'static>, Stop> {
        self.any.as_mut().ok_or(FREED)
    }

    /// The need goes to the original, and is gone.
    fn spend(&mut self) -> Result<Any<'a, 'static>, Stop> {
        self.any.take().ok_or(FREED)
    }

    /// The address, by an allocation.
    pub(super) fn allocate(&mut self) -> Result<Option<usize>, Stop> {
        let address = self.any()?.try_alloc_addr()?;
        Ok(address.map(|a| a.addr().offset()))
    }
}

fn kept(output: compile::Result<Output>) -> Option<Option<usize>> {
    let address = output.ok()?.as_addr();
    Some(address.map(|a| a.offset()))
}

fn shown(slot: Option<usize>) -> Step {
    Ok(Shown::One(slot.unwrap_or(0xffff)))
}

impl<'a, B: Beside> Driver<'a, B> {
    fn add(&mut self, any: Any<'a, 'static>, scope: Option<ScopeId>) -> Step {
        self.needs.push(Need {
            any: Some(any),
            scope,
            handle: None,
        });
        Ok(Shown::One(self.needs.len() - 1))
    }

    pub(super) fn defer(&mut self, number: u16) -> Step {
        let id = self.id(number)?;
        self.add(Any::defer(self.scopes, id, &SPAN), Some(id))
    }

    pub(super) fn assigned(&mut self, handle: u16) -> Step {
        let address = InstAddress::new(self.handle(handle)?.slot);
        self.add(Any::assigned(&SPAN, self.scopes, address), None)
    }

    pub(super) fn ignore(&mut self) -> Step {
        self.add(Any::ignore(&SPAN), None)
    }

    fn place(&self, NeedNumber(n): NeedNumber) -> Result<usize, Stop> {
        let n = usize::from(n);
        match n < self.needs.len() {
            true => Ok(n),
            false => Err(Stop::Untold("no such need was made")),
        }
    }

    /// The address; as output, allocating or not, it is the same.
    pub(super) fn alloc_need(&mut self, number: NeedNumber) -> Step {
        let n = self.place(number)?;
        let need = &mut self.needs[n];
        let slot = need.allocate()?;
        let any = need.any()?;
        self.books.agree(|| kept(any.alloc_output()) == Some(slot));
        self.books.agree(|| kept(any.output()) == Some(slot));
        if let (Some(slot), Some(scope), None) = (slot, need.scope, need.handle) {
            need.handle = Some(self.handles.len());
            self.inserted(slot);
            self.hand_out(scope, slot, Some(scope), Place::Need(n));
        }
        shown(slot)
    }

    /// The output; as an address it is the same.
    pub(super) fn output(&mut self, number: NeedNumber) -> Step {
        let n = self.place(number)?;
        let any = self.needs[n].any()?;
        let slot = any.output()?.as_addr().map(|a| a.offset());
        let address = |any: &Any<'_, '_>| Some(any.addr().ok()?.addr().offset());
        self.books.agree(|| address(any) == slot);
        shown(slot)
    }

    pub(super) fn free_need(&mut self, number: NeedNumber) -> Step {
        let n = self.place(number)?;
        let own = self.needs[n].handle.zip(self.needs[n].scope);
        let any = self.needs[n].spend()?;
        let goes_back = own.is_some_and(|(_, scope)| self.goes_back(Some(scope)));
        any.free()?;
        if let Some((handle, _)) = own {
            self.handles[handle].place = Place::Gone;
            if goes_back {
                self.books.give_back(self.line, handle);
            }
        }
        Ok(Shown::Nothing)
    }
}
