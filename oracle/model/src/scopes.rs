//! Document 01, "Scopes". A refusal is its number alone; the order of tests is that of "Order".

use crate::address_set::AddressSet;
use crate::edition::Placement;
use crate::fault::{Fault, Plant};
use crate::slots::Slots;

/// "64 live scopes, root included."
const SCOPES: usize = 64;
/// "256 live bindings over all scopes."
const BINDINGS: usize = 256;

/// "An id is an index and a counter number."
#[derive(Clone, Copy, Debug, PartialEq, Eq)]
pub struct Id {
    pub index: usize,
    pub number: u32,
}

/// A name in a scope. "A binding remembers its handle."
#[derive(Clone)]
pub struct Binding {
    pub name: u16,
    pub handle: usize,
    pub address: usize,
    pub moved: bool,
}

/// "Each live scope has a parent, a mark "dangled", bindings, and a list of owned addresses in the order added."
#[derive(Clone)]
struct Scope {
    id: Id,
    parent: Option<usize>,
    dangled: bool,
    bindings: Vec<Binding>,
    owned: AddressSet,
}

impl Scope {
    fn new(id: Id, parent: Option<usize>) -> Self {
        Scope {
            id,
            parent,
            dangled: false,
            bindings: Vec::new(),
            owned: AddressSet::default(),
        }
    }
}

/// `live` has the live scopes by index; the top is an index.
#[derive(Clone)]
pub struct Scopes {
    pub slots: Slots,
    live: Vec<Option<Scope>>,
    top: Option<usize>,
    counter: u32,
    dangling: AddressSet,
    size: usize,
    /// an insert of edition 1 met H > L
    pub head_above_length: bool,
    plant: Plant,
}

impl Scopes {
    /// "Root is (0, 0). The child counter starts at 1"
    pub fn new(placement: Placement, plant: Plant) -> Self {
        let root = Id {
            index: 0,
            number: 0,
        };
        Scopes {
            slots: Slots::new(placement, plant),
            live: vec![Some(Scope::new(root, None))],
            top: Some(0),
            counter: 1,
            dangling: AddressSet::default(),
            size: 0,
            head_above_length: false,
            plant,
        }
    }

    pub fn size(&self) -> usize {
        self.size
    }

    /// The top's id; 3 where there is none.
    pub fn top(&self) -> Result<Id, u8> {
        self.top.map(|i| self.at(i).id).ok_or(3)
    }

    /// "s is the counter number (shared by two live scopes: the lower index)"; 4
    pub fn numbered(&self, number: u16) -> Result<Id, u8> {
        let ids = self.live.iter().flatten().map(|s| s.id);
        ids.into_iter()
            .find(|id| id.number == u32::from(number))
            .ok_or(4)
    }

    /// The id of the live scope at an index.
    pub fn id_at(&self, index: usize) -> Option<Id> {
        self.live.get(index)?.as_ref().map(|scope| scope.id)
    }

    fn at(&self, index: usize) -> &Scope {
        self.live[index].as_ref().expect("a live scope")
    }

    fn at_mut(&mut self, index: usize) -> &mut Scope {
        self.live[index].as_mut().expect("a live scope")
    }

    fn has_child(&self, index: usize) -> bool {
        self.live.iter().flatten().any(|s| s.parent == Some(index))
    }

    /// "child: parent is the top; becomes top." 3, 8
    pub fn child(&mut self) -> Result<Id, u8> {
        self.top()?;
        let index = (1..SCOPES)
            .find(|i| self.live.get(*i).is_none_or(|s| s.is_none()))
            .ok_or(8)?;
        let id = Id {
            index,
            number: self.counter,
        };
        let scope = Some(Scope::new(id, self.top));
        match self.live.get_mut(index) {
            Some(place) => *place = scope,
            None => self.live.push(scope),
        }
        self.counter = self.counter.wrapping_add(1);
        self.top = Some(index);
        Ok(id)
    }

    /// "insert; the owner's list gains the address; it leaves the dangling list; size becomes max(size, address + 1)"; 7
    pub fn alloc(&mut self, owner: Id) -> Result<usize, u8> {
        self.head_above_length |= self.slots.head_is_above();
        let address = self.slots.insert().ok_or(7)?;
        self.gain(owner, address);
        Ok(address)
    }

    /// The same by the head in either edition, which only a planted fault asks for.
    pub fn alloc_by_head(&mut self, owner: Id) -> Result<usize, u8> {
        let address = self.slots.insert_by_head().ok_or(7)?;
        self.gain(owner, address);
        Ok(address)
    }

    /// The n ≥ 2 slots of a run, owner top; 7
    pub fn run(&mut self, owner: Id, n: usize) -> Result<Vec<usize>, u8> {
        match self.slots.placement() {
            Placement::Exactly(first) => self.run_at(owner, first, n),
            _ => self.push(owner, n),
        }
    }

    fn run_at(&mut self, owner: Id, first: usize, n: usize) -> Result<Vec<usize>, u8> {
        self.slots.take_run(first, n).ok_or(7)?;
        let run: Vec<usize> = (first..first + n).collect();
        run.iter().for_each(|address| self.gain(owner, *address));
        Ok(run)
    }

    /// "n ≥ 2 pushes n times, owner top, refused (7) exactly if g + n >" the room, 4,096 since W-206
    fn push(&mut self, owner: Id, n: usize) -> Result<Vec<usize>, u8> {
        if self.slots.past_greatest() + n > self.slots.room() {
            return Err(7);
        }
        let mut run = Vec::new();
        for _ in 0..n {
            let address = self.slots.push().ok_or(7)?;
            self.gain(owner, address);
            run.push(address);
        }
        Ok(run)
    }

    fn gain(&mut self, owner: Id, address: usize) {
        self.at_mut(owner.index).owned.insert(address);
        if self.plant != Some(Fault::DanglingStays) {
            self.dangling.remove(address);
        }
        let grown = match self.plant {
            Some(Fault::SizeOfLast) => address,
            _ => address + 1,
        };
        self.size = self.size.max(grown);
    }

    fn dangles(&mut self, address: usize) {
        match self.plant {
            Some(Fault::DanglingKeepsPlace) => self.dangling.insert_sorted(address),
            _ => self.dangling.insert(address),
        }
    }

    /// "its addresses are removed from the slots in list order, each put at the end of the dangling list unless there;
    /// bindings go; top becomes its parent, even if s wasn't top."
    fn close(&mut self, index: usize) {
        let scope = self.live[index].take().expect("a live scope");
        let mut owned = scope.owned.in_order();
        if self.plant == Some(Fault::ListOrder) {
            owned.sort_unstable();
        }
        for address in owned {
            self.slots.remove(address);
            self.dangles(address);
        }
        let stays = self.plant == Some(Fault::PopKeepsTop) && self.top != Some(index);
        if !stays {
            self.top = scope.parent;
        }
    }

    /// 4, 5, 6
    pub fn pop(&mut self, number: u16) -> Result<Id, u8> {
        let id = self.numbered(number)?;
        if id.index == 0 || self.at(id.index).dangled {
            return Err(5);
        }
        if self.has_child(id.index) {
            return Err(6);
        }
        self.close(id.index);
        Ok(id)
    }

    /// 3, 6
    pub fn pop_last(&mut self) -> Result<Id, u8> {
        self.top()?;
        if self.has_child(0) {
            return Err(6);
        }
        let id = self.at(0).id;
        self.close(0);
        Ok(id)
    }

    /// "marks it, top becomes its parent"; 4, 5
    pub fn dangle(&mut self, number: u16) -> Result<(), u8> {
        let id = self.numbered(number)?;
        if id.index == 0 || self.at(id.index).dangled {
            return Err(5);
        }
        self.at_mut(id.index).dangled = true;
        self.top = self.at(id.index).parent;
        Ok(())
    }

    /// "unmarks it, top becomes s"; 4, 5
    pub fn restore(&mut self, number: u16) -> Result<(), u8> {
        let id = self.numbered(number)?;
        if id.index == 0 || !self.at(id.index).dangled {
            return Err(5);
        }
        self.at_mut(id.index).dangled = false;
        self.top = Some(id.index);
        Ok(())
    }

    /// "binds in the top, replacing an equal name there and its moved mark"; after 3 and 13: 9
    pub fn define(&mut self, name: u16, handle: usize, address: usize) -> Result<(), u8> {
        let top = self.top()?.index;
        let keeps = self.plant == Some(Fault::DefineKeepsMoved);
        let count: usize = self.live.iter().flatten().map(|s| s.bindings.len()).sum();
        let bindings = &mut self.at_mut(top).bindings;
        let mut new = Binding {
            name,
            handle,
            address,
            moved: false,
        };
        match bindings.iter_mut().find(|b| b.name == name) {
            Some(old) => {
                new.moved = keeps && old.moved;
                *old = new;
            }
            None if count == BINDINGS => return Err(9),
            None => bindings.push(new),
        }
        Ok(())
    }

    /// "a name is looked for in the top scope, then in its parent, up to root; the nearest binding decides"; 3, 10, 11
    fn find(&mut self, name: u16) -> Result<&mut Binding, u8> {
        let mut at = self.top()?.index;
        while !self.at(at).bindings.iter().any(|b| b.name == name) {
            let parent = self.at(at).parent;
            if self.plant == Some(Fault::LookupTopOnly) {
                return Err(10);
            }
            at = parent.ok_or(10)?;
        }
        let bindings = &mut self.at_mut(at).bindings;
        let binding = bindings.iter_mut().find(|b| b.name == name).ok_or(10)?;
        match binding.moved {
            true => Err(11),
            false => Ok(binding),
        }
    }

    pub fn get(&mut self, name: u16) -> Result<Binding, u8> {
        self.find(name).cloned()
    }

    /// "take marks it moved."
    pub fn take(&mut self, name: u16) -> Result<Binding, u8> {
        let binding = self.find(name)?;
        binding.moved = true;
        Ok(binding.clone())
    }

    /// "answers the dangling list in order and empties it"
    pub fn drain(&mut self) -> Vec<usize> {
        std::mem::take(&mut self.dangling).in_order()
    }

    /// "Giving back takes the address out of the owner's list and, unless freed without dangling, puts it on the
    /// dangling list": from the top; 12.
    pub fn give_back(&mut self, address: usize, dangling: bool) -> Result<(), u8> {
        let top = self.top().map_err(|_| 12)?.index;
        if !self.at_mut(top).owned.remove(address) {
            return Err(12);
        }
        if dangling || self.plant == Some(Fault::QuietDangles) {
            self.dangles(address);
        }
        self.slots.remove(address);
        Ok(())
    }
}

#[cfg(test)]
mod tests {
    use super::*;

    #[test]
    fn the_counter_goes_back_to_0() {
        let mut scopes = Scopes::new(Placement::ByHead, None);
        scopes.counter = u32::MAX;
        assert_eq!(scopes.child().map(|id| id.number), Ok(u32::MAX));
        let second = scopes.child().unwrap();
        assert_eq!((second.index, second.number), (2, 0));
        assert_eq!(scopes.numbered(0).map(|id| id.index), Ok(0));
    }

    #[test]
    fn the_lowest_free_index() {
        let mut scopes = Scopes::new(Placement::ByHead, None);
        scopes.child().unwrap();
        scopes.dangle(1).unwrap();
        scopes.child().unwrap();
        scopes.restore(1).unwrap();
        scopes.pop(1).unwrap();
        let third = scopes.child().unwrap();
        assert_eq!((third.index, third.number), (1, 3));
    }
}
