//! What is asked, and how much of it: the words of the command line.

use model::{Fault, Plant};
use oracle::args::Args;
use oracle::judge::{Against, OriginalFault, ORIGINAL_FAULTS};

pub struct Plan {
    pub plant: Plant,
    pub against: Against,
    pub program: Option<String>,
    pub runner: Option<String>,
    pub checker: Option<String>,
    pub linked: bool,
    pub every: usize,
    pub wide: usize,
    pub needs: usize,
    pub samples: usize,
    pub editions: usize,
    pub random: u64,
    pub random_needs: u64,
    pub random_samples: u64,
    pub random_editions: u64,
    pub texts: usize,
    pub damaged: u64,
    pub bare: u64,
    pub bare_every: usize,
    pub lists: u64,
    pub recordings: u64,
    pub suppliers: u64,
    pub suppliers_every: usize,
    pub limits: u64,
    pub seed: u64,
}

/// A fault of the model, or of what the original answered.
fn planted(args: &Args) -> (Plant, Option<OriginalFault>) {
    let name = args.value("--plant");
    let plant = name.and_then(Fault::named);
    let original = ORIGINAL_FAULTS.iter().find(|(n, _)| Some(*n) == name);
    if let (Some(name), None, None) = (name, plant, original) {
        panic!("no fault is called {name}");
    }
    (plant, original.map(|(_, fault)| *fault))
}

impl Plan {
    pub fn new(args: &Args) -> Plan {
        let (plant, original) = planted(args);
        let program = args.value("--program").map(String::from);
        // A process a script takes its time: fewer of them.
        let (every, random, few) = match program {
            Some(_) => (3, 5_000, 3_000),
            None => (5, 300_000, 200_000),
        };
        let whom = args.value("--against").unwrap_or("both");
        Plan {
            plant,
            against: Against {
                original: whom != "model",
                model: whom != "original",
                plant: original,
            },
            program,
            runner: args.value("--runner").map(String::from),
            checker: args.value("--checker").map(String::from),
            linked: args.flag("--linked"),
            every: args.number("--every", every) as usize,
            wide: args.number("--wide", every - 1) as usize,
            needs: args.number("--needs", every) as usize,
            samples: args.number("--samples", every) as usize,
            editions: args.number("--editions", every - 1) as usize,
            random: args.number("--random", random),
            random_needs: args.number("--random-needs", random / 3),
            random_samples: args.number("--random-samples", random / 3),
            random_editions: args.number("--random-editions", random / 3),
            texts: args.number("--texts", every - 1) as usize,
            damaged: args.number("--damaged", few),
            bare: args.number("--bare", 20_000),
            bare_every: args.number("--bare-every", 2) as usize,
            lists: args.number("--lists", few),
            recordings: args.number("--recordings", few),
            suppliers: args.number("--suppliers", few),
            suppliers_every: args.number("--suppliers-every", every - 2) as usize,
            limits: args.number("--limits", 1),
            seed: args.number("--seed", 1),
        }
    }

    /// Is ours the model by itself? Then what is held against the model alone would be held against itself.
    pub fn model_alone(&self) -> bool {
        !self.linked && self.program.is_none() && self.plant.is_none()
    }
}
