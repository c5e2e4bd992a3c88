//! Document 01, "Script frames": handles, one step of a script, and translate.

mod needs;

pub use needs::NeedNumber;

use needs::Need;

use crate::edition::title;
use crate::fault::{Fault, Plant};
use crate::scopes::Binding;
use crate::{
    read_script, refused, write_list, Frame, Id, Line, Placement, Refusal, Scopes, Script, Source,
    HANDLES,
};

/// The kinds that a script can reach.
#[derive(Clone, Copy, PartialEq, Eq)]
enum Kind {
    Local,
    Dangling,
    Scope(Id),
    Freed,
}

/// An allocation, as its handle knows it.
#[derive(Clone)]
struct Handle {
    address: usize,
    owner: Id,
    kind: Kind,
    held: bool,
    written: bool,
}

/// Where a script stands.
#[derive(Clone)]
pub struct Session {
    pub scopes: Scopes,
    handles: Vec<Handle>,
    /// by number
    needs: Vec<Need>,
    /// a root Scope handle was freed after 05
    pub root_freed_late: bool,
    plant: Plant,
}

type Step = Result<Vec<u16>, u8>;

impl Session {
    pub fn new(placement: Placement, plant: Plant) -> Self {
        Session {
            scopes: Scopes::new(placement, plant),
            handles: Vec::new(),
            needs: Vec::new(),
            root_freed_late: false,
            plant,
        }
    }

    /// How many handles were handed out.
    pub fn handed(&self) -> usize {
        self.handles.len()
    }

    /// The handle that holds a slot.
    pub fn holder(&self, address: usize) -> Option<usize> {
        let holds = |h: &Handle| h.held && h.address == address;
        self.handles.iter().position(holds)
    }

    /// Is the handle's slot held?
    pub fn holds(&self, handle: usize) -> bool {
        self.handles.get(handle).is_some_and(|h| h.held)
    }

    /// Is the handle held and not Freed?
    pub fn usable(&self, handle: usize) -> bool {
        let found = self.handles.get(handle);
        found.is_some_and(|h| h.held && h.kind != Kind::Freed)
    }

    /// One frame; a refusal changes nothing.
    pub fn step(&mut self, frame: Frame) -> Result<Line, u8> {
        let opcode = frame.opcode();
        let operands = match frame {
            Frame::Child => Ok(vec![self.scopes.child()?.number as u16]),
            Frame::Pop(s) => self.scopes.pop(s).map(|id| self.let_go(id)),
            Frame::Dangle(s) => self.scopes.dangle(s).map(|()| vec![]),
            Frame::Restore(s) => self.scopes.restore(s).map(|()| vec![]),
            Frame::PopLast => self.scopes.pop_last().map(|id| self.let_go(id)),
            Frame::Alloc => self.alloc(),
            Frame::AllocIn(s) => self.alloc_in(s),
            Frame::Linear(n) => self.linear(n.into()),
            Frame::Define { name, handle } => self.define(name, handle.into()),
            Frame::Get(name) => Ok(vec![self.scopes.get(name)?.address as u16]),
            Frame::Take(name) => Ok(vec![self.scopes.take(name)?.address as u16]),
            Frame::Free(h) => self.free(h.into(), true),
            Frame::FreeQuietly(h) => self.free(h.into(), false),
            Frame::Forget(h) => self.forget(h.into()),
            Frame::Drain => Ok(self.drain()),
            Frame::Write { handle, source } => self.write(handle.into(), source),
            Frame::Read(h) => self.read(h.into()),
            Frame::ReadName(name) => self.read_name(name),
            Frame::Defer(s) => self.defer(s),
            Frame::Assigned(h) => self.assigned(h.into()),
            Frame::Ignore => self.ignore(),
            Frame::AllocNeed(n) => self.alloc_need(n),
            Frame::Output(n) => self.output(n),
            Frame::FreeNeed(n) => self.free_need(n),
        };
        operands.map(|operands| Line { opcode, operands })
    }

    /// "An allocation is held until its slot is given back or its owner popped."
    fn let_go(&mut self, closed: Id) -> Vec<u16> {
        for handle in &mut self.handles {
            if handle.owner == closed {
                handle.held = false;
            }
        }
        vec![]
    }

    fn hand_out(&mut self, address: usize, owner: Id, kind: Kind) {
        self.handles.push(Handle {
            address,
            owner,
            kind,
            held: true,
            written: false,
        });
    }

    /// 16: "handles would pass" 8,192
    fn room_for(&self, n: usize) -> Result<(), u8> {
        let most = match self.plant {
            Some(Fault::HandleShort) => HANDLES - 1,
            _ => HANDLES,
        };
        match self.handles.len() + n > most {
            true => Err(16),
            false => Ok(()),
        }
    }

    /// 3, 16, 7
    fn alloc(&mut self) -> Step {
        let top = self.scopes.top()?;
        self.room_for(1)?;
        let address = self.scopes.alloc(top)?;
        self.hand_out(address, top, Kind::Local);
        Ok(vec![address as u16])
    }

    /// 4, 16, 7
    fn alloc_in(&mut self, number: u16) -> Step {
        let owner = self.scopes.numbered(number)?;
        Ok(vec![self.alloc_for(owner)? as u16])
    }

    /// A slot for a live scope, and its handle: 16, 7
    fn alloc_for(&mut self, owner: Id) -> Result<usize, u8> {
        self.room_for(1)?;
        let address = match self.plant {
            Some(Fault::TightAllocOnly) => self.scopes.alloc_by_head(owner)?,
            _ => self.scopes.alloc(owner)?,
        };
        self.hand_out(address, owner, Kind::Scope(owner));
        Ok(address)
    }

    /// 3, 16, 7
    fn linear(&mut self, n: usize) -> Step {
        let top = self.scopes.top()?;
        if n == 0 {
            return Ok(vec![0xffff]);
        }
        if n == 1 {
            return self.alloc();
        }
        self.room_for(n)?;
        let run = self.scopes.run(top, n)?;
        for address in &run {
            self.hand_out(*address, top, Kind::Dangling);
        }
        Ok(vec![run[0] as u16])
    }

    /// 13: "handle unknown"
    fn known(&self, handle: usize) -> Result<Handle, u8> {
        self.handles.get(handle).cloned().ok_or(13)
    }

    /// 13: "for 09, 0c, 0d, 0e also Freed"
    fn unspent(&self, handle: usize) -> Result<Handle, u8> {
        let found = self.known(handle)?;
        match found.kind {
            Kind::Freed => Err(13),
            _ => Ok(found),
        }
    }

    /// 14: "slot not held"
    fn held(&self, handle: usize) -> Result<usize, u8> {
        match &self.handles[handle] {
            h if h.held => Ok(h.address),
            _ => Err(14),
        }
    }

    /// 15: "allocation never written"
    fn written(&self, handle: usize) -> Result<(), u8> {
        match self.handles[handle].written {
            true => Ok(()),
            false => Err(15),
        }
    }

    /// 3, 13, 9
    fn define(&mut self, name: u16, handle: usize) -> Step {
        self.scopes.top()?;
        let address = self.unspent(handle)?.address;
        self.scopes.define(name, handle, address)?;
        Ok(vec![])
    }

    /// "Local and Dangling give the slot back if top owns it; Scope only if its scope is top, else nothing more"
    fn goes_back(&mut self, kind: Kind) -> bool {
        let top = self.scopes.top().ok();
        match kind {
            Kind::Local | Kind::Dangling => true,
            Kind::Scope(id) if self.plant == Some(Fault::ScopeByIndex) => {
                top.map(|t| t.index) == Some(id.index)
            }
            Kind::Scope(id) => top == Some(id),
            Kind::Freed => false,
        }
    }

    /// "free 13, then where a slot goes back 14, 12"
    fn free(&mut self, handle: usize, dangling: bool) -> Step {
        self.unowned(handle)?;
        self.free_handle(handle, dangling)?;
        Ok(vec![])
    }

    /// Where a slot goes back 14, 12
    fn free_handle(&mut self, handle: usize, dangling: bool) -> Result<(), u8> {
        let Handle { address, kind, .. } = self.known(handle)?;
        if self.goes_back(kind) {
            if self.plant != Some(Fault::FreeByAddress) {
                self.held(handle)?;
            }
            self.scopes.give_back(address, dangling)?;
            self.handles[handle].held = false;
        }
        let of_root = matches!(kind, Kind::Scope(id) if id.index == 0);
        self.root_freed_late |= of_root && self.scopes.top().is_err();
        self.handles[handle].kind = Kind::Freed;
        Ok(())
    }

    /// "forget makes the kind Freed and keeps the slot"; 13
    fn forget(&mut self, handle: usize) -> Step {
        self.unowned(handle)?;
        self.handles[handle].kind = Kind::Freed;
        Ok(vec![])
    }

    fn drain(&mut self) -> Vec<u16> {
        let dangling = self.scopes.drain();
        let mut shown = vec![dangling.len() as u16];
        shown.extend(dangling.iter().map(|a| *a as u16));
        shown
    }

    /// 13, 14; "A write makes a Dangling handle Local." W-205: 14 "is refused as 10 is; its list line is `14` and the address"
    fn write(&mut self, handle: usize, source: Source) -> Step {
        self.known(handle)?;
        let address = self.held(handle)? as u16;
        let sampled = source == Source::NextSample;
        let found = &mut self.handles[handle];
        found.written |= !(sampled && self.plant == Some(Fault::SampleUnwritten));
        if found.kind == Kind::Dangling {
            found.kind = Kind::Local;
        }
        match source {
            Source::Constant(value) => Ok(vec![address, value]),
            Source::NextSample => Ok(vec![address]),
        }
    }

    /// 13, 14, 15
    fn read(&mut self, handle: usize) -> Step {
        self.known(handle)?;
        let address = self.held(handle)?;
        self.written(handle)?;
        Ok(vec![address as u16])
    }

    /// 3, 10, 11, 14, 15
    fn read_name(&mut self, name: u16) -> Step {
        let Binding { handle, .. } = self.scopes.get(name)?;
        let address = self.held(handle)?;
        self.written(handle)?;
        Ok(vec![address as u16])
    }
}

/// The lines of all frames, and where they stand after them or after the first refused one, at its place among them.
pub fn play(
    placement: Placement,
    frames: &[Frame],
    plant: Plant,
) -> (Session, Result<Vec<Line>, Refusal>) {
    let mut session = Session::new(placement, plant);
    let mut lines = Vec::new();
    for (line, frame) in frames.iter().enumerate() {
        match session.step(*frame) {
            Ok(shown) => lines.push(shown),
            Err(number) => return (session, refused(number, line)),
        }
    }
    (session, Ok(lines))
}

/// The same of a script, with its title among the lines: W-211, "That line counts as a frame and its list line repeats it."
pub fn play_script(script: &Script, plant: Plant) -> (Session, Result<Vec<Line>, Refusal>) {
    let (session, played) = play(script.placement, &script.frames, plant);
    let first = match plant {
        Some(Fault::TitleUnnumbered) => 0,
        _ => script.first_line(),
    };
    let repeated = script.is_titled() && plant != Some(Fault::TitleLeftOut);
    let lines = match played {
        Ok(lines) if repeated => Ok([vec![title()], lines].concat()),
        Ok(lines) => Ok(lines),
        Err(Refusal { number, line }) => refused(number, line + first),
    };
    (session, lines)
}

/// "Text: the first line with 1 or 2, before any step"; by a planted fault behind the steps of the lines before it.
fn read_first(text: &[u8], plant: Plant) -> Result<Script, Refusal> {
    let read = read_script(text, plant);
    if let (Err(refusal), Some(Fault::StepFirst)) = (&read, plant) {
        let lines = text.split_inclusive(|b| *b == b'\n');
        let before: Vec<&[u8]> = lines.take(refusal.line).collect();
        let (_, steps) = play_script(&read_script(&before.concat(), plant)?, plant);
        steps?;
    }
    read
}

/// The list of a script. `room` is the length of the lent memory: "17 comes last".
pub fn translate_with(script: &[u8], room: usize, plant: Plant) -> Result<Vec<u8>, Refusal> {
    let (session, lines) = play_script(&read_first(script, plant)?, plant);
    let list = write_list(&lines?, session.scopes.size());
    match list.len() > room {
        true => refused(17, 0),
        false => Ok(list),
    }
}

/// See [`translate_with`].
pub fn translate(script: &[u8], room: usize) -> Result<Vec<u8>, Refusal> {
    translate_with(script, room, None)
}
