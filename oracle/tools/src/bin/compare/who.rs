//! Who is asked: the linked functions, a program, or the model.

use crate::plan::Plan;
use oracle::agreement::{self, Checker};
use oracle::limits::{self, Case, Which};
use oracle::ours::{Model, Ours, PairProgram, Program};
use oracle::recorded::{self, Recorder};

/// The linked functions.
#[cfg(feature = "linked")]
mod functions {
    use super::{Checker, Ours, Recorder};
    use oracle::linked::{Agrees, Recorded, Run, Translate};

    pub fn translate() -> Box<dyn Ours> {
        Box::new(Translate::default())
    }

    pub fn run() -> Box<dyn Ours> {
        Box::new(Run)
    }

    pub fn recorder() -> Box<dyn Recorder> {
        Box::new(Recorded)
    }

    pub fn checker() -> Box<dyn Checker> {
        Box::new(Agrees)
    }
}

#[cfg(not(feature = "linked"))]
mod functions {
    use super::{Checker, Ours, Recorder};

    fn missing() -> ! {
        panic!("--linked needs the archive: cargo run --release --features linked")
    }

    pub fn translate() -> Box<dyn Ours> {
        missing()
    }

    pub fn run() -> Box<dyn Ours> {
        missing()
    }

    pub fn recorder() -> Box<dyn Recorder> {
        missing()
    }

    pub fn checker() -> Box<dyn Checker> {
        missing()
    }
}

pub fn translator(plan: &Plan) -> Box<dyn Ours> {
    match &plan.program {
        _ if plan.linked => functions::translate(),
        Some(command) => Box::new(Program::new(command)),
        None => Box::new(Model(plan.plant)),
    }
}

pub fn runner(plan: &Plan) -> Option<Box<dyn Ours>> {
    match &plan.runner {
        _ if plan.linked => Some(functions::run()),
        Some(command) => Some(Box::new(Program::new(command))),
        None => None,
    }
}

/// The linked functions, or the model with a fault.
pub fn recorder(plan: &Plan) -> Option<Box<dyn Recorder>> {
    match plan.linked {
        true => Some(functions::recorder()),
        false if plan.plant.is_some() => Some(Box::new(recorded::Modelled(plan.plant))),
        false => None,
    }
}

/// The linked function, or the model, by itself or with a fault; none where a program is asked.
pub fn checker(plan: &Plan) -> Option<Box<dyn Checker>> {
    match &plan.checker {
        _ if plan.linked => Some(functions::checker()),
        Some(_) => None,
        None => Some(Box::new(agreement::Modelled(plan.plant))),
    }
}

/// What a program prints for a case.
pub type Asked = Box<dyn FnMut(&Case) -> Vec<u8>>;

/// Who is asked as that program at the limits of a text, and what it is called; none where it would be the model itself.
pub fn at_the_limits(plan: &Plan, which: Which) -> Option<(String, Asked)> {
    let plant = plan.plant;
    let one = |mut ours: Box<dyn Ours>| -> (String, Asked) {
        (ours.name(), Box::new(move |case| ours.answer(&case.first)))
    };
    let two = |command: &String| -> (String, Asked) {
        let program = PairProgram::new(command);
        let ask = move |case: &Case| program.answer(&case.first, &case.second);
        (command.clone(), Box::new(ask))
    };
    match which {
        _ if plant.is_some() => {
            let ask = move |case: &Case| limits::by_model(which, case, plant);
            Some(("the model".into(), Box::new(ask)))
        }
        Which::Translator if plan.linked || plan.program.is_some() => Some(one(translator(plan))),
        Which::Translator => None,
        Which::Runner => runner(plan).map(one),
        _ if plan.linked => {
            let mut ours = functions::checker();
            let name = match which {
                Which::Beside => functions::recorder().name(),
                _ => ours.name(),
            };
            let ask = move |case: &Case| limits::by_functions(ours.as_mut(), which, case);
            Some((name, Box::new(ask)))
        }
        Which::Beside => plan.runner.as_ref().map(two),
        Which::Checker => plan.checker.as_ref().map(two),
    }
}
