//! W-201 of document 02: needs in scripts, by document 01's "Addresses and needs".

use super::{Session, Step};
use crate::fault::Fault;
use crate::{Id, NEEDS};

/// The number of a need: neither a handle nor a scope passes for it.
#[derive(Clone, Copy, Debug, PartialEq, Eq)]
pub struct NeedNumber(pub u16);

/// "A need is Defer (a scope), Address, Ignore or Freed." An Address is an assigned handle's, or that of the need's own handle.
#[derive(Clone, Copy, PartialEq, Eq)]
pub(super) enum Need {
    Defer(Id),
    Assigned { handle: usize },
    Own { handle: usize, scope: Id },
    Ignore,
    Freed,
}

impl Session {
    /// How many needs were made.
    pub fn needed(&self) -> usize {
        self.needs.len()
    }

    /// Is there such a need that isn't freed?
    pub fn has_need(&self, number: NeedNumber) -> bool {
        self.need(number).is_ok()
    }

    /// 21: "need unknown or freed"
    fn need(&self, number: NeedNumber) -> Result<Need, u8> {
        match self.needs.get(usize::from(number.0)) {
            None | Some(Need::Freed) => Err(21),
            Some(need) => Ok(*need),
        }
    }

    fn set(&mut self, number: NeedNumber, need: Need) {
        self.needs[usize::from(number.0)] = need;
    }

    /// 22: "a 65th need"
    fn room_for_need(&self) -> Result<(), u8> {
        let counted = |need: &&Need| match self.plant {
            Some(Fault::FreedNeedMakesRoom) => **need != Need::Freed,
            _ => true,
        };
        match self.needs.iter().filter(counted).count() < NEEDS {
            true => Ok(()),
            false => Err(22),
        }
    }

    fn add(&mut self, need: Need) -> Step {
        self.room_for_need()?;
        self.needs.push(need);
        Ok(vec![self.needs.len() as u16 - 1])
    }

    /// 22 comes "after 4 or 13"; it is tempting to give it first.
    fn room_first(&self) -> Result<(), u8> {
        match self.plant {
            Some(Fault::NeedRoomFirst) => self.room_for_need(),
            _ => Ok(()),
        }
    }

    /// 4, 22
    pub(super) fn defer(&mut self, number: u16) -> Step {
        self.room_first()?;
        let scope = self.scopes.numbered(number)?;
        self.add(Need::Defer(scope))
    }

    /// "Frame 21 takes any known handle, Freed or not." 13, 22
    pub(super) fn assigned(&mut self, handle: usize) -> Step {
        self.room_first()?;
        self.known(handle)?;
        self.add(Need::Assigned { handle })
    }

    /// 22
    pub(super) fn ignore(&mut self) -> Step {
        self.add(Need::Ignore)
    }

    /// "its scope has closed": 4
    fn still_live(&self, scope: Id) -> Result<Id, u8> {
        let found = self.scopes.id_at(scope.index).ok_or(4)?;
        match self.plant {
            Some(Fault::NeedScopeByIndex) => Ok(found),
            _ if found == scope => Ok(scope),
            _ => Err(4),
        }
    }

    /// "The first 23 on a deferred need takes the next handle, which belongs to the need": 4, 16, 7
    fn take_handle(&mut self, number: NeedNumber, scope: Id) -> Step {
        let scope = self.still_live(scope)?;
        let handle = self.handed();
        let address = self.alloc_for(scope)?;
        self.set(number, Need::Own { handle, scope });
        Ok(vec![address as u16])
    }

    fn address(&self, handle: usize) -> Step {
        Ok(vec![self.handles[handle].address as u16])
    }

    /// 21; "on 23 of a deferred need 4 (its scope has closed), 16, 7"
    pub(super) fn alloc_need(&mut self, number: NeedNumber) -> Step {
        match self.need(number)? {
            Need::Defer(scope) => self.take_handle(number, scope),
            Need::Own { scope, .. } if self.plant == Some(Fault::NeedAllocatesAgain) => {
                self.take_handle(number, scope)
            }
            Need::Own { scope, .. } if self.plant == Some(Fault::NeedKeepsScope) => {
                self.still_live(scope).and_then(|_| self.output(number))
            }
            Need::Assigned { handle } | Need::Own { handle, .. } => self.address(handle),
            Need::Ignore | Need::Freed => Ok(vec![0xffff]),
        }
    }

    /// 21, 18
    pub(super) fn output(&mut self, number: NeedNumber) -> Step {
        match self.need(number)? {
            Need::Ignore if self.plant == Some(Fault::IgnoreHasNoOutput) => Err(18),
            Need::Ignore => Ok(vec![0xffff]),
            Need::Assigned { handle } | Need::Own { handle, .. } => self.address(handle),
            Need::Defer(_) | Need::Freed => Err(18),
        }
    }

    /// 21; "then 14, 12" can't be met in a script: where the need's scope is the top, the slot is held and the top owns it
    pub(super) fn free_need(&mut self, number: NeedNumber) -> Step {
        let dangling = self.plant != Some(Fault::NeedFreesQuietly);
        match self.need(number)? {
            Need::Own { handle, .. } => {
                let kind = self.handles[handle].kind;
                self.free_handle(handle, dangling)?;
                if self.plant == Some(Fault::NeedLeavesHandle) {
                    self.handles[handle].kind = kind;
                }
            }
            Need::Assigned { handle } if self.plant == Some(Fault::AssignedFrees) => {
                self.free_handle(handle, dangling)?;
            }
            _ => {}
        }
        self.set(number, Need::Freed);
        Ok(vec![])
    }

    /// "it may be written and read, but 0c, 0d and 0e on it give 13"
    pub(super) fn unowned(&self, handle: usize) -> Result<(), u8> {
        self.unspent(handle)?;
        let owns = |need: &Need| matches!(need, Need::Own { handle: own, .. } if *own == handle);
        match self.needs.iter().any(owns) && self.plant != Some(Fault::NeedHandleFreed) {
            true => Err(13),
            false => Ok(()),
        }
    }
}
