//! Writes stored answers (see `records`) to standard output: 01's sessions and limits first, then scripts by chance; then the same with needs, with samples, and
//! in edition 2; and the sessions of W-206's sizes.
//! With --again FILE, the scripts of that file are answered again, and the sessions of sizes that it lacks are put behind them.
//! With --wrong, the short sessions with their answer as it is and spoilt in each of four ways; with --broken, one record and another that is
//! cut off.

use model::Frame;
use oracle::args::Args;
use oracle::judge::{judge, Against, Verdict};
use oracle::random::{self, Source};
use oracle::records::{self, Mark};
use oracle::rng::Rng;
use oracle::sessions::{edition_2, needs, samples, sessions, sizes, sizes_of_edition_2};
use std::io::Write;

const AGAINST: Against = Against {
    original: true,
    model: true,
    plant: None,
};

/// Whose answer it is; a difference is no answer.
fn mark(script: &[u8], printed: &[u8]) -> Mark {
    match judge(script, printed, AGAINST) {
        Verdict::Equal => Mark::Original,
        Verdict::BothRefuse(_) => Mark::Refused,
        Verdict::Ours(_) | Verdict::Text(_) | Verdict::Outside(_) | Verdict::Modelled(_) => {
            Mark::Ours
        }
        Verdict::Differs(why) => panic!("a difference can't be stored: {why}"),
    }
}

fn store(script: &[u8], out: &mut Vec<u8>) -> Mark {
    let printed = model::translator(script);
    let mark = mark(script, &printed);
    records::write(mark, script, &printed, out);
    mark
}

/// How many bytes a script by chance may have: most are short, every twentieth is longer, every sixtieth long.
fn most(i: u64) -> usize {
    match i {
        i if i.is_multiple_of(60) => 12_000,
        i if i.is_multiple_of(20) => 2_500,
        _ => 450,
    }
}

fn least(i: u64) -> usize {
    match i {
        i if i.is_multiple_of(60) => 6_000,
        i if i.is_multiple_of(20) => 1_000,
        _ => 60,
    }
}

fn by_chance(source: Source, rng: &mut Rng, i: u64) -> Vec<u8> {
    loop {
        let script = source(rng).text();
        if (least(i)..most(i)).contains(&script.len()) {
            return script;
        }
    }
}

/// A short script of edition 2 that is taken, and whose slots aren't those of edition 1.
fn tight_by_chance(rng: &mut Rng) -> Vec<u8> {
    loop {
        let made = random::tight(rng);
        let (script, first) = (made.text(), Frame::script(&made.frames));
        let printed = model::translator(&script);
        let taken = script.len() >= 60 && printed.starts_with(b"f0");
        let other = !printed.ends_with(&model::translator(&first));
        if taken && other && script.len() + printed.len() < 400 {
            return script;
        }
    }
}

/// A byte changed in the middle (a refusal's number) and before the end (its line, or a list's size), a byte missing, a byte too many.
fn spoilt(printed: &[u8]) -> [Vec<u8>; 4] {
    let changed = |at: usize| {
        let mut bytes = printed.to_vec();
        bytes[at] ^= 1;
        bytes
    };
    let last = printed.len() - 1;
    [
        changed(last / 2 - 1),
        changed(last - 1),
        printed[..last].to_vec(),
        [printed, b"\n"].concat(),
    ]
}

fn wrong() -> Vec<u8> {
    let mut out = Vec::new();
    for script in sessions().iter().filter(|script| script.len() < 100) {
        let printed = model::translator(script);
        let mark = store(script, &mut out);
        for spoilt in spoilt(&printed) {
            records::write(mark, script, &spoilt, &mut out);
        }
    }
    out
}

fn broken() -> Vec<u8> {
    let mut out = Vec::new();
    let script = &sessions()[0];
    store(script, &mut out);
    store(script, &mut out);
    out.pop();
    out
}

/// `replay` has room for so many bytes.
const ROOM: usize = 262_143;

/// A record, and what was stored for its script before, where that was something else.
struct Again {
    number: usize,
    record: Vec<u8>,
    before: Option<Vec<u8>>,
}

fn shown(text: &[u8]) -> String {
    let lines = text.iter().filter(|b| **b == b'\n').count();
    let text = String::from_utf8_lossy(text);
    match lines > 12 {
        true => format!("{} .. ({lines} lines)", text.lines().next().unwrap_or("")),
        false => text.trim_end().replace('\n', " / "),
    }
}

/// Another answer than before has a script only that was refused by 7 or 16: W-206, "a script once refused by 7 or 16 may now be accepted".
fn answered_again(number: usize, script: &[u8], before: Option<&[u8]>) -> Again {
    let mut record = Vec::new();
    store(script, &mut record);
    let printed = model::translator(script);
    let before = before.filter(|before| *before != printed);
    if let Some(before) = before {
        let told = format!("{number}: {}: {}", shown(script), shown(before));
        let once = before.starts_with(b"ee07") || before.starts_with(b"ee10");
        assert!(once, "{told}, which has to stay");
        eprintln!("{told}, now {}", shown(&printed));
    }
    Again {
        number,
        record,
        before: before.map(<[u8]>::to_vec),
    }
}

/// Where the file gets too long, the longest of the records that aren't what they were are left out.
fn fitted(mut all: Vec<Again>) -> Vec<Again> {
    while all.iter().map(|a| a.record.len()).sum::<usize>() > ROOM {
        let changed = (0..all.len()).filter(|i| all[*i].before.is_some());
        let longest = changed.max_by_key(|i| all[*i].record.len());
        let gone = all.remove(longest.expect("a record that may be left out"));
        eprintln!("left out: {}, of {} bytes", gone.number, gone.record.len());
    }
    all
}

fn again(path: &str) -> Vec<u8> {
    let bytes = std::fs::read(path).expect("the stored answers");
    let old = records::read(&bytes).expect("records");
    let new = sizes().into_iter().chain(sizes_of_edition_2());
    let lacking: Vec<Vec<u8>> = new
        .filter(|script| old.iter().all(|(_, stored, _)| stored != script))
        .collect();
    let stored = old
        .iter()
        .map(|(_, script, printed)| (*script, Some(*printed)));
    let more = lacking.iter().map(|script| (script.as_slice(), None));
    let all = (1..).zip(stored.chain(more));
    let all = all.map(|(number, (script, before))| answered_again(number, script, before));
    let all = fitted(all.collect());
    eprintln!("{} records, {} of them new", all.len(), lacking.len());
    all.into_iter().flat_map(|a| a.record).collect()
}

fn answers(args: &Args) -> Vec<u8> {
    let count = args.number("--count", 240);
    let few = args.number("--needs", 24);
    let fewer = args.number("--samples", 12);
    let fewest = args.number("--editions", 8);
    let seed = args.number("--seed", 1);
    let mut scripts = sessions();
    let mut rng = Rng::new(seed);
    scripts.extend((0..count).map(|i| by_chance(random::script, &mut rng, i)));
    scripts.extend(needs());
    let mut rng = Rng::new(seed);
    // from 1 on, so that none is long: the file has to stay below 262,144 bytes
    scripts.extend((1..=few).map(|i| by_chance(random::with_needs, &mut rng, i)));
    scripts.extend(samples());
    let mut rng = Rng::new(seed);
    scripts.extend((1..=fewer).map(|i| by_chance(random::with_samples, &mut rng, i)));
    scripts.extend(edition_2());
    let mut rng = Rng::new(seed);
    scripts.extend((0..fewest).map(|_| tight_by_chance(&mut rng)));
    scripts.extend(sizes());
    scripts.extend(sizes_of_edition_2());
    let mut out = Vec::new();
    let marks: Vec<Mark> = scripts.iter().map(|s| store(s, &mut out)).collect();
    let of = |mark: Mark| marks.iter().filter(|m| **m == mark).count();
    eprintln!(
        "{} records: {} lists of the original, {} refused by it too, {} by 01 alone",
        marks.len(),
        of(Mark::Original),
        of(Mark::Refused),
        of(Mark::Ours)
    );
    out
}

fn main() {
    let args = Args::new();
    let out = match (args.flag("--wrong"), args.flag("--broken")) {
        (true, _) => wrong(),
        (_, true) => broken(),
        _ => match args.value("--again") {
            Some(path) => again(path),
            None => answers(&args),
        },
    };
    std::io::stdout().write_all(&out).expect("the records");
}
