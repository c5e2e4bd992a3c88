//! Scripts made by chance. A session of the model goes along, so that most frames are accepted and scripts get long.

use crate::profile::{length, opcode, Profile, PROFILES, WITH_NEEDS, WITH_SAMPLES};
use crate::rng::Rng;
use model::{Frame, NeedNumber, Placement, Script, Session, LINES, SLOTS};

pub struct Made {
    pub profile: &'static str,
    pub placement: Placement,
    pub frames: Vec<Frame>,
    /// the last frame is refused
    pub refused: bool,
}

impl Made {
    /// With the title, where it is of edition 2.
    pub fn text(&self) -> Vec<u8> {
        let script = Script {
            placement: self.placement,
            frames: self.frames.clone(),
        };
        script.text()
    }
}

struct Maker<'a> {
    rng: &'a mut Rng,
    profile: &'static Profile,
    placement: Placement,
    session: Session,
    scopes: usize,
    /// frames that come next, last first
    planned: Vec<Frame>,
    /// no insert may meet H > L, and no root Scope handle is freed late
    inside: bool,
}

/// How a script by chance is made.
pub type Source = fn(&mut Rng) -> Made;

/// One script of 01's frames; nine of ten stay where the Rust is the oracle.
pub fn script(rng: &mut Rng) -> Made {
    by_profile(rng, &PROFILES, Placement::ByHead)
}

/// The same with needs.
pub fn with_needs(rng: &mut Rng) -> Made {
    by_profile(rng, &WITH_NEEDS, Placement::ByHead)
}

/// The same with samples, and some needs.
pub fn with_samples(rng: &mut Rng) -> Made {
    by_profile(rng, &WITH_SAMPLES, Placement::ByHead)
}

fn profiles(rng: &mut Rng) -> &'static [Profile] {
    match rng.below(4) {
        0 => &WITH_NEEDS,
        1 => &WITH_SAMPLES,
        _ => &PROFILES,
    }
}

/// One of them.
pub fn any(rng: &mut Rng) -> Made {
    let profiles = profiles(rng);
    by_profile(rng, profiles, Placement::ByHead)
}

/// One of any kind in edition 2.
pub fn tight(rng: &mut Rng) -> Made {
    let profiles = profiles(rng);
    by_profile(rng, profiles, Placement::Lowest)
}

fn by_profile(rng: &mut Rng, profiles: &'static [Profile], placement: Placement) -> Made {
    let profile = &profiles[rng.below(profiles.len())];
    // the title takes a frame's place
    let frames = match placement {
        Placement::Lowest => length(rng).min(LINES - 1),
        _ => length(rng),
    };
    let inside = !rng.once_in(10);
    let mut maker = Maker {
        rng,
        profile,
        placement,
        session: Session::new(placement, None),
        scopes: 1,
        planned: Vec::new(),
        inside,
    };
    maker.frames(frames)
}

impl Maker<'_> {
    fn frames(&mut self, wanted: usize) -> Made {
        let mut frames = Vec::new();
        let mut refused = false;
        let mut misses = 0;
        // long scripts shall get long
        let refusal = self.profile.refusal + 4 * wanted;
        while frames.len() < wanted && misses < 400 && !refused {
            let frame = self.next();
            let early = frame == Frame::PopLast && frames.len() + 20 < wanted;
            if early || self.leaves(frame) {
                misses += 1;
                continue;
            }
            match self.session.step(frame) {
                Ok(_) => {
                    self.scopes += usize::from(frame == Frame::Child);
                    frames.push(frame);
                    misses = 0;
                }
                Err(_) if self.rng.once_in(refusal) => {
                    frames.push(frame);
                    refused = true;
                }
                Err(_) => misses += 1,
            }
        }
        Made {
            profile: self.profile.name,
            placement: self.placement,
            frames,
            refused,
        }
    }

    /// Would this frame leave the domain?
    fn leaves(&self, frame: Frame) -> bool {
        let inserts = matches!(
            frame,
            Frame::Alloc | Frame::AllocIn(_) | Frame::Linear(1) | Frame::AllocNeed(_)
        );
        self.inside && inserts && self.session.scopes.slots.head_is_above()
    }

    fn next(&mut self) -> Frame {
        if self.planned.is_empty() && self.rng.once_in(self.profile.rise) {
            self.plan_rise();
        }
        match self.planned.pop() {
            Some(frame) => frame,
            None => self.frame(),
        }
    }

    /// A scope over several segments is popped, which leaves the head high; a run from below then shrinks L.
    fn plan_rise(&mut self) {
        let long = 129 + self.rng.below(SLOTS / 4) as u16;
        let short = 2 + self.rng.below(130) as u16;
        self.planned = vec![
            Frame::Alloc,
            Frame::Linear(short),
            Frame::Pop(self.scopes as u16),
            Frame::Linear(long),
            Frame::Child,
        ];
    }

    fn frame(&mut self) -> Frame {
        match opcode(self.rng.weighted(&self.profile.weights)) {
            0x01 => Frame::Child,
            0x02 => Frame::Pop(self.scope()),
            0x03 => Frame::Dangle(self.scope()),
            0x04 => Frame::Restore(self.scope()),
            0x05 => Frame::PopLast,
            0x06 => Frame::Alloc,
            0x07 => Frame::AllocIn(self.scope()),
            0x08 => Frame::Linear(self.run()),
            0x09 => Frame::Define {
                name: self.name(),
                handle: self.handle(),
            },
            0x0a => Frame::Get(self.name()),
            0x0b => Frame::Take(self.name()),
            0x0c => Frame::Free(self.handle()),
            0x0d => Frame::FreeQuietly(self.handle()),
            0x0e => Frame::Forget(self.handle()),
            0x0f => Frame::Drain,
            0x10 => Frame::Write {
                handle: self.handle(),
                source: model::Source::Constant(self.rng.draw() as u16),
            },
            0x11 => Frame::Read(self.handle()),
            0x12 => Frame::ReadName(self.name()),
            0x14 => Frame::Write {
                handle: self.handle(),
                source: model::Source::NextSample,
            },
            0x20 => Frame::Defer(self.scope()),
            0x21 => Frame::Assigned(self.handle()),
            0x22 => Frame::Ignore,
            0x23 => Frame::AllocNeed(self.need()),
            0x24 => Frame::Output(self.need()),
            _ => Frame::FreeNeed(self.need()),
        }
    }

    /// Mostly one of the newest, else any, at times one that isn't there.
    fn of(&mut self, count: usize) -> u16 {
        let n = match self.rng.below(64) {
            0 => count + self.rng.below(2),
            1..24 => count.saturating_sub(1 + self.rng.below(6)),
            _ => self.rng.below(count),
        };
        n as u16
    }

    /// Mostly a good one.
    fn mostly(&mut self, count: usize, good: fn(&Session, u16) -> bool) -> u16 {
        let mut n = self.of(count);
        for _ in 0..self.rng.below(12) {
            if !good(&self.session, n) {
                n = self.of(count);
            }
        }
        n
    }

    /// Mostly a live one.
    fn scope(&mut self) -> u16 {
        self.mostly(self.scopes, |session, s| session.scopes.numbered(s).is_ok())
    }

    /// Mostly one that is held.
    fn handle(&mut self) -> u16 {
        let handed = self.session.handed();
        self.mostly(handed, |session, h| session.usable(h.into()))
    }

    /// Mostly one that isn't freed.
    fn need(&mut self) -> NeedNumber {
        let needed = self.session.needed();
        NeedNumber(self.mostly(needed, |session, n| session.has_need(NeedNumber(n))))
    }

    fn name(&mut self) -> u16 {
        self.rng.below(self.profile.names) as u16
    }

    fn run(&mut self) -> u16 {
        let n = match self.rng.below(40) {
            0 => self.rng.below(SLOTS + 80),
            1 => self.rng.below(66000),
            2..20 => self.rng.below(4),
            _ => self.rng.below(self.profile.run + 1),
        };
        n as u16
    }
}
