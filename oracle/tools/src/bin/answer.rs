//! The model as our programs: `answer translate` and `answer run`, each from its input to its output; `answer run LIST RECORDING` and
//! `answer check SCRIPT LIST`.

use oracle::args::Args;
use std::io::{Read, Write};

fn main() {
    let file = |place: usize| std::env::args().nth(place).map(std::fs::read);
    let printed = match (Args::new().first(), file(2), file(3)) {
        (Some("run"), Some(list), Some(recording)) => {
            model::recorded_runner(&list.expect("a list"), &recording.expect("a recording"))
        }
        (Some("check"), Some(script), Some(list)) => {
            model::checker(&script.expect("a script"), &list.expect("a list"))
        }
        (Some("run"), ..) => model::runner(&input()),
        _ => model::translator(&input()),
    };
    std::io::stdout().write_all(&printed).expect("the answer");
}

fn input() -> Vec<u8> {
    let mut input = Vec::new();
    let read = std::io::stdin().lock().read_to_end(&mut input);
    read.expect("a text");
    input
}
