//! Books kept beside the original: who owns which slot, and a second `Slots` of the original that is told the same calls.
//! The one inside `Scopes` is private; this one shows L and H before each insert.

use super::{Bare, ScopeId};

/// Two handles that hold one slot.
#[derive(Clone, Debug)]
pub struct Shared {
    pub line: usize,
    pub address: usize,
    pub older: usize,
    pub newer: usize,
}

/// An allocation, and how long it had its slot.
#[derive(Clone, Copy, Debug, PartialEq, Eq)]
pub struct Held {
    pub handle: usize,
    pub slot: usize,
    /// the line that gave it
    pub from: usize,
    /// the line that gave it back, if one did
    pub until: Option<usize>,
}

struct Owned {
    scope: ScopeId,
    address: usize,
    handle: usize,
}

#[derive(Default)]
pub(super) struct Books {
    beside: Bare,
    /// in the order added
    owned: Vec<Owned>,
    /// by address, the newest handle that holds it
    holders: Vec<Option<usize>>,
    /// by handle
    pub(super) held: Vec<Held>,
    /// the first line whose insert met H > L; the second `Slots` isn't told more from there on
    pub(super) head_above_length: Option<usize>,
    pub(super) shared: Option<Shared>,
}

/// Who is told of each call beside the original.
pub(super) trait Beside {
    /// An insert was made: what the second `Slots` gave.
    fn insert(&mut self, line: usize) -> Option<usize>;

    /// n pushes were made.
    fn push(&mut self, first: usize, n: usize);

    fn gain(&mut self, line: usize, scope: ScopeId, address: usize, handle: usize);

    /// The slot of this handle went back.
    fn give_back(&mut self, line: usize, handle: usize);

    /// The scope was popped.
    fn close(&mut self, line: usize, scope: ScopeId);

    /// The number of a scope, of which so many were opened before.
    fn number(&self, id: ScopeId, before: usize) -> usize;

    /// Two ways to ask the original one thing agree.
    fn agree(&self, told: impl FnOnce() -> bool);
}

/// Nobody is told: the original by itself, for measurements.
pub(super) struct Nobody;

impl Beside for Nobody {
    fn insert(&mut self, _: usize) -> Option<usize> {
        None
    }

    fn push(&mut self, _: usize, _: usize) {}

    fn gain(&mut self, _: usize, _: ScopeId, _: usize, _: usize) {}

    fn give_back(&mut self, _: usize, _: usize) {}

    fn close(&mut self, _: usize, _: ScopeId) {}

    fn number(&self, _: ScopeId, before: usize) -> usize {
        before
    }

    fn agree(&self, _: impl FnOnce() -> bool) {}
}

impl Books {
    fn removed(&mut self, line: usize, gone: &[Owned]) {
        for Owned {
            address, handle, ..
        } in gone
        {
            self.holders[*address] = None;
            self.held[*handle].until = Some(line);
            if self.head_above_length.is_none() {
                assert!(self.beside.remove(*address), "the books are wrong");
            }
        }
    }
}

impl Beside for Books {
    fn insert(&mut self, line: usize) -> Option<usize> {
        if self.beside.head() > self.beside.length() {
            self.head_above_length.get_or_insert(line);
        }
        match self.head_above_length {
            Some(_) => None,
            None => Some(self.beside.insert()),
        }
    }

    fn push(&mut self, first: usize, n: usize) {
        for address in first..first + n {
            if self.head_above_length.is_none() {
                assert_eq!(self.beside.push(), address, "the books are wrong");
            }
        }
    }

    fn gain(&mut self, line: usize, scope: ScopeId, address: usize, handle: usize) {
        if self.holders.len() <= address {
            self.holders.resize(address + 1, None);
        }
        if let Some(older) = self.holders[address].replace(handle) {
            self.shared.get_or_insert(Shared {
                line,
                address,
                older,
                newer: handle,
            });
        }
        self.held.push(Held {
            handle,
            slot: address,
            from: line,
            until: None,
        });
        self.owned.push(Owned {
            scope,
            address,
            handle,
        });
    }

    fn give_back(&mut self, line: usize, handle: usize) {
        if let Some(place) = self.owned.iter().position(|o| o.handle == handle) {
            let gone = self.owned.remove(place);
            self.removed(line, &[gone]);
        }
    }

    fn close(&mut self, line: usize, scope: ScopeId) {
        let (gone, kept) = std::mem::take(&mut self.owned)
            .into_iter()
            .partition(|o| o.scope == scope);
        self.owned = kept;
        let gone: Vec<Owned> = gone;
        self.removed(line, &gone);
    }

    /// An id shows itself as `index:number`.
    fn number(&self, id: ScopeId, _: usize) -> usize {
        let shown = id.to_string();
        let number = shown.split(':').nth(1).and_then(|n| n.parse().ok());
        number.expect("the number of an id")
    }

    fn agree(&self, told: impl FnOnce() -> bool) {
        assert!(told(), "the original contradicts itself");
    }
}
