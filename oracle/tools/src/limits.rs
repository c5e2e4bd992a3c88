//! Texts about the limit of what a program reads, and about the one before W-206: rubbish, texts that are taken, and whole ones that go on. So a
//! program that reads less than it has to, and takes that for the text, is found.

mod texts;

use crate::agreement::Checker;
use crate::campaign::Counts;
use crate::rng::Rng;
use model::{print_refusal, Plant, Refusal, BUFFER};
use texts::{texts, Named, LISTS, SCRIPTS};

pub use texts::{lengths, long_scripts, whole};

/// The programs, each by the texts that it takes.
#[derive(Clone, Copy, Debug, PartialEq, Eq)]
pub enum Which {
    /// a script
    Translator,
    /// a list
    Runner,
    /// a list and a recording
    Beside,
    /// a script and a list
    Checker,
}

pub const PROGRAMS: [Which; 4] = [
    Which::Translator,
    Which::Runner,
    Which::Beside,
    Which::Checker,
];

/// What a program is given; the second text is empty where it takes one.
#[derive(Clone, Debug)]
pub struct Case {
    pub what: String,
    pub first: Vec<u8>,
    pub second: Vec<u8>,
}

/// What the model prints as that program, perhaps with a planted fault.
pub fn by_model(which: Which, case: &Case, plant: Plant) -> Vec<u8> {
    let (first, second) = (&case.first, &case.second);
    match which {
        Which::Translator => model::translator_with(first, plant),
        Which::Runner => model::runner_with(first, plant),
        Which::Beside => model::recorded_runner_with(first, second, plant),
        Which::Checker => model::checker_with(first, second, plant),
    }
}

/// What programs over the functions would print that take two texts; the bound is the programs', so it stands before them.
pub fn by_functions(ours: &mut dyn Checker, which: Which, case: &Case) -> Vec<u8> {
    functions_print(ours, which, case).unwrap_or_else(print_refusal)
}

fn functions_print(ours: &mut dyn Checker, which: Which, case: &Case) -> Result<Vec<u8>, Refusal> {
    let first = model::taken(&case.first, None)?;
    if which == Which::Beside {
        return Ok(ours.prints(first, &case.second));
    }
    let second = model::taken(&case.second, None)?;
    match ours.agrees(first, second) {
        0 => Ok(b"no\n".to_vec()),
        1 => Ok(b"yes\n".to_vec()),
        answer => Err(Refusal::of(answer)),
    }
}

/// Good for one sample and more; malformed; with none.
const RECORDINGS: [(&str, &[u8]); 3] = [
    ("two samples", b"30abcd\n30ef01\n"),
    ("a malformed line", b"30abcd\nx\n"),
    ("no sample", b""),
];

/// Each text with the same one behind it.
fn before(texts: Vec<Named>, second: &[u8]) -> impl Iterator<Item = Case> + '_ {
    texts.into_iter().map(move |(what, first)| Case {
        what,
        first,
        second: second.to_vec(),
    })
}

/// .. with the same one before it.
fn behind(first: &[u8], texts: Vec<Named>) -> impl Iterator<Item = Case> + '_ {
    texts.into_iter().map(move |(what, second)| Case {
        what,
        first: first.to_vec(),
        second,
    })
}

fn named(what: &str, text: Vec<u8>) -> Named {
    (format!("{what}, {} bytes", text.len()), text)
}

fn scripts(rng: &mut Rng) -> Vec<Named> {
    let long = long_scripts().into_iter().map(|s| named("a script", s));
    texts(rng, &SCRIPTS).into_iter().chain(long).collect()
}

fn lists(rng: &mut Rng) -> Vec<Named> {
    let of_script = |script: Vec<u8>| named("a script's list", model::translator(&script));
    let long = long_scripts().into_iter().map(of_script);
    texts(rng, &LISTS).into_iter().chain(long).collect()
}

fn beside_recordings(rng: &mut Rng) -> Vec<Case> {
    let mut all = Vec::new();
    for (name, recording) in RECORDINGS {
        let beside = |(what, list)| (format!("{what}, beside {name}"), list);
        let lists = lists(rng).into_iter().map(beside).collect();
        all.extend(before(lists, recording));
    }
    all
}

/// Either text at the limits, beside one that is read and one that isn't, and each long script with its own list.
fn to_check(rng: &mut Rng) -> Vec<Case> {
    let mut all: Vec<Case> = before(scripts(rng), b"900000\n").collect();
    all.extend(before(scripts(rng), &[b'0'; BUFFER + 1]));
    all.extend(behind(b"0f\n", lists(rng)));
    all.extend(behind(b"zz\n", lists(rng)));
    for script in long_scripts() {
        let list = named("a script and its list", model::translator(&script));
        all.extend(behind(&script, vec![list]));
    }
    all
}

/// What a program is asked; values and addresses are by chance.
pub fn cases(which: Which, rng: &mut Rng) -> Vec<Case> {
    match which {
        Which::Translator => before(scripts(rng), b"").collect(),
        Which::Runner => before(lists(rng), b"").collect(),
        Which::Beside => beside_recordings(rng),
        Which::Checker => to_check(rng),
    }
}

/// A program, asked: what it prints for its texts.
pub type Asked<'a> = &'a mut dyn FnMut(&Case) -> Vec<u8>;

/// How the cases of so many rounds came out, each with other values, and the first that is taken otherwise than by the model, with what was printed.
pub fn first_other(
    which: Which,
    rounds: u64,
    seed: u64,
    ask: Asked,
) -> (Counts, Option<(Case, Vec<u8>)>) {
    let mut rng = Rng::new(seed);
    let mut counts = Counts::default();
    let mut cases = (0..rounds).flat_map(|_| cases(which, &mut rng));
    let other = cases.find_map(|case| {
        let printed = ask(&case);
        (!counts.held(&printed, &by_model(which, &case, None))).then_some((case, printed))
    });
    (counts, other)
}
