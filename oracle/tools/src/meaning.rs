//! Demand 3: what a script means, if each allocation had a box of its own.

use model::{Frame, Script, Session, Source};

/// What the script prints by its boxes, and how many samples it takes; none where it is refused.
pub fn meaning(script: &Script, samples: &[u16]) -> Option<(String, usize)> {
    let mut session = Session::new(script.placement, None);
    let (mut boxes, mut taken) = (vec![0; model::HANDLES], 0);
    let mut printed = String::new();
    for frame in &script.frames {
        let read = match frame {
            Frame::Read(handle) => Some(usize::from(*handle)),
            Frame::ReadName(name) => session.scopes.get(*name).ok().map(|b| b.handle),
            _ => None,
        };
        session.step(*frame).ok()?;
        if let Frame::Write { handle, source } = frame {
            boxes[usize::from(*handle)] = match source {
                Source::Constant(value) => *value,
                Source::NextSample => samples[taken],
            };
            taken += usize::from(*source == Source::NextSample);
        }
        if let Some(handle) = read {
            printed += &format!("a0{:04x}\n", boxes[handle]);
        }
    }
    Some((printed, taken))
}
