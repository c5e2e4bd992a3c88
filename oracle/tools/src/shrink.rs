//! Makes a script that shows a difference small.

use model::{Frame, NeedNumber, Placement, Script, Source};

type Shows<'a> = &'a mut dyn FnMut(&[u8]) -> bool;
/// The same of the frames alone.
type Shown<'a> = &'a mut dyn FnMut(&[Frame]) -> bool;

/// The smallest that these steps find: no title, fewer frames, then smaller numbers. A damaged text loses lines only.
pub fn shrink(script: &[u8], shows: Shows<'_>) -> Vec<u8> {
    match model::read_script(script, None) {
        Ok(script) => shrink_script(script, shows).text(),
        Err(_) => shrink_lines(script, shows),
    }
}

fn shrink_script(mut script: Script, shows: Shows<'_>) -> Script {
    if shows(&Frame::script(&script.frames)) {
        script.placement = Placement::ByHead;
    }
    let placement = script.placement;
    let frames = shrink_frames(script.frames, &mut |frames| {
        let frames = frames.to_vec();
        shows(&Script { placement, frames }.text())
    });
    Script { placement, frames }
}

pub fn shrink_lines(script: &[u8], shows: Shows<'_>) -> Vec<u8> {
    let mut lines: Vec<&[u8]> = script.split_inclusive(|b| *b == b'\n').collect();
    let mut size = lines.len() / 2;
    while size > 0 {
        let mut at = 0;
        while at < lines.len() {
            let mut fewer = lines.clone();
            fewer.drain(at..(at + size).min(lines.len()));
            match shows(&fewer.concat()) {
                true => lines = fewer,
                false => at += size,
            }
        }
        size /= 2;
    }
    lines.concat()
}

fn shrink_frames(mut frames: Vec<Frame>, shows: Shown<'_>) -> Vec<Frame> {
    loop {
        let before = frames.clone();
        frames = fewer_frames(frames, shows);
        frames = smaller_numbers(frames, shows);
        if frames == before {
            return frames;
        }
    }
}

fn fewer_frames(mut frames: Vec<Frame>, shows: Shown<'_>) -> Vec<Frame> {
    let mut size = frames.len().div_ceil(2);
    while size > 0 {
        let mut at = 0;
        while at < frames.len() {
            match without(&frames, at, size, shows) {
                Some(fewer) => frames = fewer,
                None => at += size,
            }
        }
        size /= 2;
    }
    frames
}

/// Without some frames: later handles, scopes and needs are renumbered, or left as they are.
fn without(frames: &[Frame], at: usize, size: usize, shows: Shown<'_>) -> Option<Vec<Frame>> {
    let end = (at + size).min(frames.len());
    let gone = Handed::by(&frames[..at]).gone(&Handed::by(&frames[..end]));
    let renumbered = frames[end..].iter().map(|f| renumber(*f, &gone));
    let renumbered: Vec<Frame> = frames[..at].iter().copied().chain(renumbered).collect();
    let plain: Vec<Frame> = [&frames[..at], &frames[end..]].concat();
    [renumbered, plain].into_iter().find(|fewer| shows(fewer))
}

/// How many handles, scopes and needs some frames hand out; of each need, whether it is deferred still.
#[derive(Default)]
struct Handed {
    handles: u16,
    scopes: u16,
    deferred: Vec<bool>,
}

impl Handed {
    fn by(frames: &[Frame]) -> Handed {
        let mut handed = Handed::default();
        for frame in frames {
            handed.after(*frame);
        }
        handed
    }

    fn after(&mut self, frame: Frame) {
        match frame {
            Frame::Alloc | Frame::AllocIn(_) => self.handles = self.handles.saturating_add(1),
            Frame::Linear(n) => self.handles = self.handles.saturating_add(n),
            Frame::Child => self.scopes += 1,
            Frame::Defer(_) => self.deferred.push(true),
            Frame::Assigned(_) | Frame::Ignore => self.deferred.push(false),
            Frame::AllocNeed(NeedNumber(n)) => {
                let first = self.deferred.get_mut(usize::from(n)).map(std::mem::take);
                let more = u16::from(first == Some(true));
                self.handles = self.handles.saturating_add(more);
            }
            _ => {}
        }
    }

    /// What is handed out from here until there.
    fn gone(&self, until: &Handed) -> Gone {
        let needs = |handed: &Handed| handed.deferred.len() as u16;
        Gone {
            handles: (self.handles, until.handles - self.handles),
            scopes: (self.scopes + 1, until.scopes - self.scopes),
            needs: (needs(self), needs(until) - needs(self)),
        }
    }
}

/// Of each kind the first number that is gone, and how many are.
#[derive(Default)]
struct Gone {
    handles: (u16, u16),
    scopes: (u16, u16),
    needs: (u16, u16),
}

/// A number from `first + gone` on becomes less by `gone`.
fn renumber(frame: Frame, gone: &Gone) -> Frame {
    let less = |n: u16, (first, gone): (u16, u16)| match n.checked_sub(gone) {
        Some(m) if m >= first => m,
        _ => n,
    };
    let scope = |s| less(s, gone.scopes);
    let known = |h| less(h, gone.handles);
    let need = |NeedNumber(n)| NeedNumber(less(n, gone.needs));
    match frame {
        Frame::Pop(s) => Frame::Pop(scope(s)),
        Frame::Dangle(s) => Frame::Dangle(scope(s)),
        Frame::Restore(s) => Frame::Restore(scope(s)),
        Frame::AllocIn(s) => Frame::AllocIn(scope(s)),
        Frame::Define { name, handle } => Frame::Define {
            name,
            handle: known(handle),
        },
        Frame::Free(h) => Frame::Free(known(h)),
        Frame::FreeQuietly(h) => Frame::FreeQuietly(known(h)),
        Frame::Forget(h) => Frame::Forget(known(h)),
        Frame::Write { handle, source } => Frame::Write {
            handle: known(handle),
            source,
        },
        Frame::Read(h) => Frame::Read(known(h)),
        Frame::Defer(s) => Frame::Defer(scope(s)),
        Frame::Assigned(h) => Frame::Assigned(known(h)),
        Frame::AllocNeed(n) => Frame::AllocNeed(need(n)),
        Frame::Output(n) => Frame::Output(need(n)),
        Frame::FreeNeed(n) => Frame::FreeNeed(need(n)),
        other => other,
    }
}

/// Smaller numbers, smallest first.
fn below(n: u16) -> Vec<u16> {
    let mut fewer = vec![0, 1, 2, 3, n / 2, n.saturating_sub(1)];
    fewer.retain(|m| *m < n);
    fewer
}

const ZERO: Source = Source::Constant(0);

/// The same frame with smaller numbers, or a plainer one.
fn simpler(frame: Frame) -> Vec<Frame> {
    let each = |n: u16, of: fn(u16) -> Frame| below(n).into_iter().map(of).collect();
    match frame {
        Frame::Linear(n) => each(n, Frame::Linear),
        Frame::Free(h) => each(h, Frame::Free),
        Frame::Read(h) => each(h, Frame::Read),
        Frame::Forget(h) => each(h, Frame::Forget),
        Frame::FreeQuietly(h) => vec![Frame::Free(h)],
        Frame::AllocIn(_) => vec![Frame::Alloc],
        Frame::Define { name, handle } => below(handle)
            .into_iter()
            .map(|handle| Frame::Define { name, handle })
            .collect(),
        Frame::Write { handle, source } if source != ZERO => {
            let source = ZERO;
            vec![Frame::Write { handle, source }]
        }
        Frame::Assigned(h) => each(h, Frame::Assigned),
        Frame::Defer(s) if s > 0 => vec![Frame::Defer(0), Frame::Ignore],
        Frame::Defer(_) => vec![Frame::Ignore],
        _ => vec![],
    }
}

fn smaller_numbers(mut frames: Vec<Frame>, shows: Shown<'_>) -> Vec<Frame> {
    for at in 0..frames.len() {
        for frame in simpler(frames[at]) {
            let mut smaller = frames.clone();
            if let (Frame::Linear(n), Frame::Linear(m)) = (frames[at], frame) {
                let gone = Gone {
                    handles: (Handed::by(&frames[..at]).handles + m, n - m),
                    ..Gone::default()
                };
                for later in smaller.iter_mut().skip(at + 1) {
                    *later = renumber(*later, &gone);
                }
            }
            smaller[at] = frame;
            if shows(&smaller) {
                frames = smaller;
                break;
            }
        }
    }
    frames
}
