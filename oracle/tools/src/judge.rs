//! Is an answer right? By 01's rules on where the Rust is the oracle, and by the model.

use crate::tight;
use model::{Frame, Placement, Script};
use rune::{drive, Driven, Stop};

/// Whom an answer is held against, and faults planted on that side.
#[derive(Clone, Copy)]
pub struct Against {
    pub original: bool,
    pub model: bool,
    pub plant: Option<OriginalFault>,
}

/// Faults that can be planted in what the original answered.
#[derive(Clone, Copy, Debug, PartialEq, Eq)]
pub enum OriginalFault {
    Size,
    Drain,
    Accepts,
}

/// By the name that `--plant` takes.
pub const ORIGINAL_FAULTS: [(&str, OriginalFault); 3] = [
    ("original-size", OriginalFault::Size),
    ("original-drain", OriginalFault::Drain),
    ("original-accepts", OriginalFault::Accepts),
];

/// "no insert meets H > L and no root Scope handle is freed after 05"; a need's own handle is a Scope handle, which 25 frees
#[derive(Clone, Copy, Debug, PartialEq, Eq)]
pub enum Outside {
    HeadAboveLength,
    RootFreedLate,
}

#[derive(Clone, Debug, PartialEq, Eq)]
pub enum Verdict {
    /// accepted on both sides, all answers equal
    Equal,
    /// refused on both sides at one line, by this number here
    BothRefuse(u8),
    /// refused here by a rule that is ours; the original takes the lines before it
    Ours(u8),
    /// refused as a text, which the original doesn't read
    Text(u8),
    Outside(Outside),
    /// held against the model alone, as all of edition 2, which the original doesn't know: taken, or refused by this number
    Modelled(Option<u8>),
    Differs(String),
}

/// What our side printed.
pub enum Answer<'a> {
    List(&'a [u8]),
    Refused(u8, usize),
}

/// None where it is neither.
pub fn answer(printed: &[u8]) -> Option<Answer<'_>> {
    if !printed.starts_with(b"ee") {
        return Some(Answer::List(printed));
    }
    let text = std::str::from_utf8(printed).ok()?;
    if text.len() != 9 || !text.ends_with('\n') {
        return None;
    }
    let number = u8::from_str_radix(&text[2..4], 16).ok()?;
    let line = usize::from_str_radix(&text[4..8], 16).ok()?;
    Some(Answer::Refused(number, line))
}

pub fn judge(script: &[u8], printed: &[u8], against: Against) -> Verdict {
    if against.model {
        let expected = model::translator(script);
        if expected != printed {
            return Verdict::Differs(first_difference("the model", &expected, printed));
        }
    }
    let Ok(script) = model::read_script(script, None) else {
        return text_verdict(printed);
    };
    if script.placement == Placement::Lowest {
        return second_edition(&script, printed);
    }
    let frames = script.frames;
    let verdict = match answer(printed) {
        None => Verdict::Differs(format!("no answer: {}", shown(printed))),
        Some(Answer::Refused(n, _)) if matches!(n, 1 | 2 | 17) => Verdict::Text(n),
        Some(Answer::List(_)) if !against.original => Verdict::Modelled(None),
        Some(Answer::Refused(n, _)) if !against.original => Verdict::Modelled(Some(n)),
        Some(Answer::List(list)) => accepted(&frames, list, against.plant),
        Some(Answer::Refused(number, line)) => refused(&frames, number, line, against.plant),
    };
    match against.model && against.original {
        true => domains_agree(&frames, verdict),
        false => verdict,
    }
}

/// "the Rust is the oracle for edition 1 only": here the sets of slots stand beside the model.
fn second_edition(script: &Script, printed: &[u8]) -> Verdict {
    match (answer(printed), tight::wrong(script, printed)) {
        (None, _) => Verdict::Differs(format!("no answer: {}", shown(printed))),
        (Some(Answer::Refused(n @ (1 | 2 | 17), _)), _) => Verdict::Text(n),
        (_, Some(why)) => Verdict::Differs(why),
        (Some(Answer::List(_)), None) => Verdict::Modelled(None),
        (Some(Answer::Refused(n, _)), None) => Verdict::Modelled(Some(n)),
    }
}

fn text_verdict(printed: &[u8]) -> Verdict {
    match answer(printed) {
        Some(Answer::Refused(n, _)) => Verdict::Text(n),
        _ => Verdict::Differs(format!("a damaged text gives {}", shown(printed))),
    }
}

fn shown(bytes: &[u8]) -> String {
    String::from_utf8_lossy(bytes)
        .trim_end()
        .replace('\n', " / ")
}

fn first_difference(who: &str, theirs: &[u8], ours: &[u8]) -> String {
    let (a, b) = (shown(theirs), shown(ours));
    let (a, b): (Vec<&str>, Vec<&str>) = (a.split(" / ").collect(), b.split(" / ").collect());
    let place = (0..).find(|i| a.get(*i) != b.get(*i) || *i > a.len());
    let place = place.unwrap_or(0);
    let of = |lines: &[&str]| lines.get(place).map_or("nothing".into(), |l| l.to_string());
    format!("line {place}: {who} {}, ours {}", of(&a), of(&b))
}

fn planted(mut driven: Driven, plant: Option<OriginalFault>) -> Driven {
    match plant {
        Some(OriginalFault::Size) if driven.list.ends_with(b"900002\n") => {
            let end = driven.list.len();
            driven.list[end - 2] = b'1';
        }
        Some(OriginalFault::Drain) => {
            let text = String::from_utf8_lossy(&driven.list).into_owned();
            driven.list = text.replace("0f000100", "0f000101").into_bytes();
        }
        Some(OriginalFault::Accepts) => driven.stop = None,
        _ => {}
    }
    driven
}

/// Before this line, was the domain left? Where, and how.
fn outside(driven: &Driven, line: usize) -> Option<(usize, Outside)> {
    let met = [
        (driven.head_above_length, Outside::HeadAboveLength),
        (driven.root_freed_late, Outside::RootFreedLate),
    ];
    met.into_iter()
        .filter_map(|(at, why)| at.map(|at| (at, why)))
        .find(|(at, _)| *at < line)
}

/// The first n lines.
fn lines(list: &[u8], n: usize) -> &[u8] {
    let ends = list.iter().enumerate().filter(|(_, b)| **b == b'\n');
    match n.checked_sub(1).and_then(|last| ends.clone().nth(last)) {
        Some((end, _)) => &list[..=end],
        None => &list[..0],
    }
}

/// "Scripts accepted here ..: all answers equal." Where the domain is left, those before are.
fn accepted(frames: &[Frame], list: &[u8], plant: Option<OriginalFault>) -> Verdict {
    let driven = planted(drive(frames), plant);
    if let Some((at, why)) = outside(&driven, frames.len()) {
        let (theirs, ours) = (lines(&driven.list, at), lines(list, at));
        return match theirs == ours {
            true => Verdict::Outside(why),
            false => Verdict::Differs(first_difference("the original", theirs, ours)),
        };
    }
    if let Some((line, why)) = &driven.stop {
        return Verdict::Differs(format!("line {line}: taken here, the original: {why:?}"));
    }
    match driven.list == list {
        true => Verdict::Equal,
        false => Verdict::Differs(first_difference("the original", &driven.list, list)),
    }
}

/// "A step refused by 10, 11 or 12, by 3 (but not child) or by 4 for a closed scope on pop, dangle or alloc in is refused
/// there too." So is 23 by 4, which is an alloc in, and 24 by 18.
fn refused_there_too(number: u8, frame: Frame) -> bool {
    match number {
        10..=12 | 18 => true,
        3 => frame != Frame::Child,
        4 => matches!(
            frame,
            Frame::Pop(_) | Frame::Dangle(_) | Frame::AllocIn(_) | Frame::AllocNeed(_)
        ),
        _ => false,
    }
}

fn refused(frames: &[Frame], number: u8, line: usize, plant: Option<OriginalFault>) -> Verdict {
    if line >= frames.len() {
        return Verdict::Differs(format!("refused at line {line}, which isn't there"));
    }
    let driven = planted(drive(&frames[..=line]), plant);
    if let Some((_, why)) = outside(&driven, line) {
        return Verdict::Outside(why);
    }
    match driven.stop {
        Some((earlier, why)) if earlier < line => {
            Verdict::Differs(format!("line {earlier}: taken here, the original: {why:?}"))
        }
        // a need that isn't there can't be said to the original
        None if number == 21 => Verdict::Differs(format!(
            "line {line}: refused here by 21, taken by the original"
        )),
        _ if !refused_there_too(number, frames[line]) => Verdict::Ours(number),
        Some((_, Stop::Refused(_))) => Verdict::BothRefuse(number),
        // a scope that was never opened; that of a need was
        Some((_, Stop::Untold(_)))
            if number == 4 && !matches!(frames[line], Frame::AllocNeed(_)) =>
        {
            Verdict::Ours(number)
        }
        other => Verdict::Differs(format!(
            "line {line}: refused here by {number}, the original: {other:?}"
        )),
    }
}

/// The original's own L and H, and the model's, say alike whether the script left the domain.
fn domains_agree(frames: &[Frame], verdict: Verdict) -> Verdict {
    if !matches!(verdict, Verdict::Outside(_) | Verdict::Equal) {
        return verdict;
    }
    let (session, lines) = model::play(Placement::ByHead, frames, None);
    let model = match (session.scopes.head_above_length, session.root_freed_late) {
        (true, _) => Some(Outside::HeadAboveLength),
        (_, true) => Some(Outside::RootFreedLate),
        _ => None,
    };
    match &verdict {
        Verdict::Outside(why) if model != Some(*why) => {
            Verdict::Differs(format!("the original says {why:?}, the model {model:?}"))
        }
        Verdict::Equal if lines.is_ok() && model.is_some() => {
            Verdict::Differs(format!("the model says {model:?}, the original doesn't"))
        }
        _ => verdict,
    }
}
