//! Every script of up to so many frames over a small alphabet. A script that goes on after a refused frame says nothing
//! new (its answer is fixed by then, and after a refusal nothing is compared), so it isn't made.

use model::{Frame, NeedNumber, Placement, Session, Source, SEGMENT, SLOTS};

/// All eighteen frames of 01, 37 of them: two scopes besides root, two names, three handles, runs of 0 to 2.
pub fn alphabet() -> Vec<Frame> {
    let mut all = vec![Frame::Child, Frame::PopLast, Frame::Alloc, Frame::Drain];
    for s in 0..3 {
        all.extend([Frame::Pop(s), Frame::Dangle(s), Frame::AllocIn(s)]);
    }
    all.extend([Frame::Restore(1), Frame::Restore(2)]);
    all.extend([Frame::Linear(0), Frame::Linear(1), Frame::Linear(2)]);
    for handle in 0..2 {
        all.push(Frame::Define { name: 7, handle });
        all.push(write(handle));
        all.extend([Frame::Free(handle), Frame::Read(handle)]);
        all.extend([Frame::FreeQuietly(handle), Frame::Forget(handle)]);
    }
    all.extend([Frame::Free(2), Frame::Define { name: 8, handle: 0 }]);
    for name in 7..9 {
        all.extend([Frame::Get(name), Frame::Take(name)]);
    }
    all.push(Frame::ReadName(7));
    all
}

/// All segments but the last.
const ALL_BUT_LAST: u16 = (SLOTS - SEGMENT) as u16;

/// Runs about the limits of segments and of the room, and what moves the head.
pub fn wide_alphabet() -> Vec<Frame> {
    let mut all = vec![Frame::Child, Frame::Alloc, Frame::AllocIn(0)];
    all.extend([2, 127, 128, 129, 257, ALL_BUT_LAST].map(Frame::Linear));
    all.extend([Frame::Pop(1), Frame::Pop(2), Frame::Dangle(1)]);
    all.extend([0, 1, 126, 127, 128, 256].map(Frame::Free));
    all.extend([Frame::Drain, Frame::PopLast]);
    all
}

/// The frames of needs, and those of 01 that meet a need's handle, its scope or its slot: 31.
pub fn needs_alphabet() -> Vec<Frame> {
    let mut all = vec![Frame::Child, Frame::PopLast, Frame::Alloc, Frame::Drain];
    all.extend([Frame::Pop(1), Frame::Pop(2), Frame::AllocIn(1)]);
    all.extend([Frame::Dangle(1), Frame::Restore(1), Frame::Ignore]);
    for n in 0..2 {
        all.extend([Frame::Defer(n), Frame::Assigned(n)]);
        let need = NeedNumber(n);
        all.extend([Frame::AllocNeed(need), Frame::Output(need)]);
        all.push(Frame::FreeNeed(need));
        all.extend([Frame::Free(n), Frame::Read(n)]);
        all.push(write(n));
    }
    all.extend([Frame::FreeQuietly(0), Frame::Forget(0)]);
    all.push(Frame::Define { name: 7, handle: 0 });
    all.extend([Frame::Get(7), Frame::ReadName(7)]);
    all
}

/// Samples and what writes, reads, binds and ends the allocations they go to: 25.
pub fn samples_alphabet() -> Vec<Frame> {
    let mut all = vec![Frame::Child, Frame::PopLast, Frame::Alloc, Frame::Drain];
    all.extend([Frame::Pop(1), Frame::AllocIn(0), Frame::Linear(2)]);
    all.extend([Frame::Defer(0), Frame::AllocNeed(NeedNumber(0))]);
    all.push(Frame::FreeNeed(NeedNumber(0)));
    for handle in 0..3 {
        let source = Source::NextSample;
        all.push(Frame::Write { handle, source });
    }
    for handle in 0..2 {
        all.push(write(handle));
        all.extend([Frame::Free(handle), Frame::Read(handle)]);
        all.push(Frame::Define { name: 7, handle });
    }
    all.extend([Frame::FreeQuietly(0), Frame::Forget(0)]);
    all.extend([Frame::Take(7), Frame::ReadName(7)]);
    all
}

fn write(handle: u16) -> Frame {
    let source = Source::Constant(255);
    Frame::Write { handle, source }
}

/// False once the taker wants no more. The placement says which frames are refused.
pub fn every(
    placement: Placement,
    alphabet: &[Frame],
    longest: usize,
    take: &mut dyn FnMut(&[Frame]) -> bool,
) -> bool {
    let fresh = Session::new(placement, None);
    take(&[]) && extend(&mut Vec::new(), &fresh, alphabet, longest, take)
}

fn extend(
    frames: &mut Vec<Frame>,
    session: &Session,
    alphabet: &[Frame],
    longest: usize,
    take: &mut dyn FnMut(&[Frame]) -> bool,
) -> bool {
    for frame in alphabet {
        let mut next = session.clone();
        let taken = next.step(*frame).is_ok();
        frames.push(*frame);
        let mut more = take(frames);
        if more && taken && frames.len() < longest {
            more = extend(frames, &next, alphabet, longest, take);
        }
        frames.pop();
        if !more {
            return false;
        }
    }
    true
}
