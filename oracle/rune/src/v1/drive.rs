//! Drives the original through the frames of a script, step by step, and writes its list.

mod needs;

use model::{Frame, Source};
use needs::Need;

use super::books::{Beside, Books, Held, Shared};
use super::{Address, Any, DanglingScope, ScopeHandle, ScopeId, Scopes};
use crate::alloc::Vec as List;
use crate::ast::Span;
use crate::compile;
use crate::hir::Variable;
use crate::query::Query;
use crate::runtime::InstAddress;
use crate::SourceId;
use std::mem::replace;

/// Why the original went no further.
#[derive(Clone, Debug, PartialEq, Eq)]
pub enum Stop {
    /// It refused, in its own words.
    Refused(String),
    /// The frame can't be said to it.
    Untold(&'static str),
}

/// What the original did with a script.
#[derive(Clone, Debug)]
pub struct Driven {
    /// The lines of the frames that it accepted, and the size line if those are all.
    pub list: Vec<u8>,
    pub stop: Option<(usize, Stop)>,
    /// the first line whose insert met H > L
    pub head_above_length: Option<usize>,
    /// the first line that freed a root Scope handle after 05
    pub root_freed_late: Option<usize>,
    /// the first two allocations that hold one slot
    pub shared: Option<Shared>,
    /// every allocation, by handle
    pub held: Vec<Held>,
}

/// Where the address of a handle is.
enum Place<'a> {
    Here(Address<'a, 'static>),
    /// in the need of this number, which has it for its own
    Need(usize),
    /// it was freed or forgotten: the original takes it by value
    Gone,
}

struct Handle<'a> {
    slot: usize,
    /// the scope of an address of kind Scope
    scope: Option<ScopeId>,
    place: Place<'a>,
}

pub(super) struct Driver<'a, B> {
    scopes: &'a Scopes<'static>,
    query: Query<'static, 'static>,
    /// by number
    ids: Vec<ScopeId>,
    handles: Vec<Handle<'a>>,
    /// by number
    needs: Vec<Need<'a>>,
    books: B,
    root_closed: bool,
    root_freed_late: Option<usize>,
    pub(super) line: usize,
}

static SPAN: Span = Span;

impl From<compile::Error> for Stop {
    fn from(error: compile::Error) -> Self {
        Stop::Refused(error.0)
    }
}

/// The numbers of a line.
pub(super) enum Shown {
    Nothing,
    One(usize),
    Two(usize, usize),
    Drained(List<InstAddress>),
}

type Step = Result<Shown, Stop>;

impl<'a, B: Beside> Driver<'a, B> {
    pub(super) fn new(scopes: &'a Scopes<'static>, books: B) -> Self {
        Driver {
            scopes,
            query: Query::default(),
            ids: vec![scopes.top_id()],
            handles: Vec::new(),
            needs: Vec::new(),
            books,
            root_closed: false,
            root_freed_late: None,
            line: 0,
        }
    }

    pub(super) fn step(&mut self, frame: Frame) -> Step {
        match frame {
            Frame::Child => self.child(),
            Frame::Pop(s) => self.pop(s),
            Frame::Dangle(s) => self.dangle(s),
            Frame::Restore(s) => self.restore(s),
            Frame::PopLast => self.pop_last(),
            Frame::Alloc => self.alloc(),
            Frame::AllocIn(s) => self.alloc_in(s),
            Frame::Linear(n) => self.linear(n.into()),
            Frame::Define { name, handle } => self.define(name, handle),
            Frame::Get(name) | Frame::ReadName(name) => {
                let var = self.scopes.get(&mut self.query, &SPAN, Variable(name))?;
                Ok(Shown::One(var.addr.offset()))
            }
            Frame::Take(name) => {
                let var = self.scopes.take(&mut self.query, &SPAN, Variable(name))?;
                Ok(Shown::One(var.addr.offset()))
            }
            Frame::Free(h) => self.free(h, true),
            Frame::FreeQuietly(h) => self.free(h, false),
            Frame::Forget(h) => {
                self.spend(h)?.1.forget()?;
                Ok(Shown::Nothing)
            }
            Frame::Drain => self.drain(),
            Frame::Write { handle, source } => self.write(handle, source),
            Frame::Read(h) => Ok(Shown::One(self.handle(h)?.slot)),
            Frame::Defer(s) => self.defer(s),
            Frame::Assigned(h) => self.assigned(h),
            Frame::Ignore => self.ignore(),
            Frame::AllocNeed(n) => self.alloc_need(n),
            Frame::Output(n) => self.output(n),
            Frame::FreeNeed(n) => self.free_need(n),
        }
    }

    fn id(&self, number: u16) -> Result<ScopeId, Stop> {
        let id = self.ids.get(usize::from(number)).copied();
        id.ok_or(Stop::Untold("no scope of this number was opened"))
    }

    fn handle(&mut self, handle: u16) -> Result<&mut Handle<'a>, Stop> {
        let found = self.handles.get_mut(usize::from(handle));
        found.ok_or(Stop::Untold("no such handle was handed out"))
    }

    /// The address goes to the original, and is gone.
    fn spend(&mut self, handle: u16) -> Result<(Option<ScopeId>, Address<'a, 'static>), Stop> {
        let found = self.handle(handle)?;
        match replace(&mut found.place, Place::Gone) {
            Place::Here(address) => Ok((found.scope, address)),
            Place::Need(_) => Err(Stop::Untold("the address is inside a need")),
            Place::Gone => Err(Stop::Untold("the address was freed or forgotten")),
        }
    }

    fn child(&mut self) -> Step {
        let ScopeHandle { id } = self.scopes.child(&SPAN)?;
        let number = self.books.number(id, self.ids.len());
        self.ids.push(id);
        Ok(Shown::One(number))
    }

    fn pop(&mut self, number: u16) -> Step {
        let id = self.id(number)?;
        self.scopes.pop(&SPAN, ScopeHandle { id })?;
        self.books.close(self.line, id);
        Ok(Shown::Nothing)
    }

    fn pop_last(&mut self) -> Step {
        self.scopes.pop_last(&SPAN)?;
        self.books.close(self.line, self.ids[0]);
        self.root_closed = true;
        Ok(Shown::Nothing)
    }

    fn dangle(&mut self, number: u16) -> Step {
        let id = self.id(number)?;
        let _handle = self.scopes.dangle(&SPAN, ScopeHandle { id })?;
        Ok(Shown::Nothing)
    }

    fn restore(&mut self, number: u16) -> Step {
        let id = self.id(number)?;
        let _handle = self.scopes.restore(DanglingScope { id });
        Ok(Shown::Nothing)
    }

    fn hand_out(&mut self, owner: ScopeId, slot: usize, scope: Option<ScopeId>, place: Place<'a>) {
        let handle = self.handles.len();
        self.books.gain(self.line, owner, slot, handle);
        self.handles.push(Handle { slot, scope, place });
    }

    /// The second `Slots` gave the same.
    fn inserted(&mut self, slot: usize) {
        if let Some(beside) = self.books.insert(self.line) {
            assert_eq!(beside, slot, "the books are wrong");
        }
    }

    fn alloc(&mut self) -> Step {
        let owner = self.scopes.top_id();
        let address = self.scopes.alloc(&SPAN)?;
        let slot = address.addr().offset();
        self.inserted(slot);
        self.hand_out(owner, slot, None, Place::Here(address));
        Ok(Shown::One(slot))
    }

    /// The original reaches `alloc_in` through a deferred need.
    fn alloc_in(&mut self, number: u16) -> Step {
        let id = self.id(number)?;
        let mut need = Any::defer(self.scopes, id, &SPAN);
        need.try_alloc_addr()?;
        let address = need.into_addr()?;
        let slot = address.addr().offset();
        self.inserted(slot);
        self.hand_out(id, slot, Some(id), Place::Here(address));
        Ok(Shown::One(slot))
    }

    fn linear(&mut self, n: usize) -> Step {
        let owner = self.scopes.top_id();
        let run = self.scopes.linear(&SPAN, n)?;
        let first = run.addr().offset();
        match n {
            0 => return Ok(Shown::One(0xffff)),
            1 => self.inserted(first),
            _ => self.books.push(first, n),
        }
        for address in run {
            let slot = address.addr().offset();
            self.hand_out(owner, slot, None, Place::Here(address));
        }
        Ok(Shown::One(first))
    }

    /// Where there is no address to hand over, another one asks whether there is a top at all.
    fn define(&mut self, name: u16, handle: u16) -> Step {
        if let Some(address) = self.address(handle) {
            self.scopes.define(&SPAN, Variable(name), address)?;
            return Ok(Shown::Nothing);
        }
        let other = Address::assigned(&SPAN, self.scopes, InstAddress::new(0));
        self.scopes.define(&SPAN, Variable(name), &other)?;
        Err(Stop::Untold("the address is unknown, freed or forgotten"))
    }

    fn address(&self, handle: u16) -> Option<&Address<'a, 'static>> {
        match &self.handles.get(usize::from(handle))?.place {
            Place::Here(address) => Some(address),
            Place::Need(n) => self.needs[*n].address(),
            Place::Gone => None,
        }
    }

    fn free(&mut self, handle: u16, dangling: bool) -> Step {
        let (scope, address) = self.spend(handle)?;
        let goes_back = self.goes_back(scope);
        match dangling {
            true => address.free()?,
            false => address.free_non_dangling()?,
        }
        if goes_back {
            self.books.give_back(self.line, handle.into());
        }
        Ok(Shown::Nothing)
    }

    /// Does the original give the slot of such an address back?
    fn goes_back(&mut self, scope: Option<ScopeId>) -> bool {
        if self.root_closed && scope == Some(self.ids[0]) {
            self.root_freed_late.get_or_insert(self.line);
        }
        scope.is_none_or(|scope| scope == self.scopes.top_id())
    }

    fn drain(&mut self) -> Step {
        let mut drained = List::new();
        self.scopes
            .drain_dangling_into(&mut drained)
            .map_err(compile::Error::from)?;
        Ok(Shown::Drained(drained))
    }

    /// A write makes a Dangling address Local, as allocating it does. The original has no values, and no samples either: what 10 and 14
    /// write is shown in 10's line alone.
    fn write(&mut self, handle: u16, source: Source) -> Step {
        let slot = self.handle(handle)?.slot;
        match &mut self.handles[usize::from(handle)].place {
            Place::Here(address) => {
                address.alloc_addr()?;
            }
            Place::Need(n) => {
                self.needs[*n].allocate()?;
            }
            Place::Gone => {}
        }
        Ok(match source {
            Source::Constant(value) => Shown::Two(slot, value.into()),
            Source::NextSample => Shown::One(slot),
        })
    }
}

const DIGITS: &[u8; 16] = b"0123456789abcdef";

fn write_number(number: usize, list: &mut Vec<u8>) {
    let digit = |place: usize| DIGITS[number >> place & 15];
    list.extend_from_slice(&[digit(12), digit(8), digit(4), digit(0)]);
}

pub(super) fn write_line(opcode: u8, shown: &Shown, list: &mut Vec<u8>) {
    let digit = |n: u8| DIGITS[usize::from(n)];
    list.extend_from_slice(&[digit(opcode >> 4), digit(opcode & 15)]);
    match shown {
        Shown::Nothing => {}
        Shown::One(a) => write_number(*a, list),
        Shown::Two(a, b) => {
            write_number(*a, list);
            write_number(*b, list);
        }
        Shown::Drained(addresses) => {
            write_number(addresses.len(), list);
            addresses
                .iter()
                .for_each(|a| write_number(a.offset(), list));
        }
    }
    list.push(b'\n');
}

/// Drives the original through all frames, or up to the first that it doesn't take.
pub fn drive(frames: &[Frame]) -> Driven {
    let scopes = Scopes::new(SourceId).expect("growth never fails here");
    let mut driver = Driver::new(&scopes, Books::default());
    let mut list = Vec::new();
    let mut stop = None;
    for (line, frame) in frames.iter().enumerate() {
        driver.line = line;
        match driver.step(*frame) {
            Ok(shown) => write_line(frame.opcode(), &shown, &mut list),
            Err(why) => {
                stop = Some((line, why));
                break;
            }
        }
    }
    if stop.is_none() {
        write_line(0x90, &Shown::One(scopes.size()), &mut list);
    }
    Driven {
        list,
        stop,
        head_above_length: driver.books.head_above_length,
        root_freed_late: driver.root_freed_late,
        shared: driver.books.shared,
        held: driver.books.held,
    }
}
