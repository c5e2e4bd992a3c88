//! The stored answers are what the model prints, and those marked `o` what the original lists; of the wrong ones every fifth is, beginning with
//! the first.

use oracle::records;
use oracle::sessions::{sizes, sizes_of_edition_2};
use std::fs;
use std::path::Path;

fn data(name: &str) -> Vec<u8> {
    let folder = Path::new(env!("CARGO_MANIFEST_DIR")).join("../../crates/replay/data");
    fs::read(folder.join(name)).expect("the stored answers")
}

#[test]
fn wrong_answers() {
    let bytes = data("wrong.txt");
    let records = records::read(&bytes).expect("records");
    for (i, (_, script, printed)) in records.into_iter().enumerate() {
        assert_eq!(model::translator(script) == printed, i % 5 == 0);
    }
    assert_eq!(records::read(&data("broken.txt")), None);
}

#[test]
fn stored_answers() {
    let bytes = data("answers.txt");
    let records = records::read(&bytes).expect("records");
    assert!(records.len() >= 300);
    let new = sizes().into_iter().chain(sizes_of_edition_2());
    for script in new {
        assert!(records.iter().any(|(_, stored, _)| *stored == script));
    }
    let (mut sampled, mut titled) = (0, 0);
    for (mark, script, printed) in records {
        assert_eq!(model::translator(script), printed);
        sampled += usize::from(printed.windows(3).any(|w| w == b"\n14"));
        if script.starts_with(b"f00002\n") {
            assert_eq!(mark, b'm');
            titled += usize::from(printed.starts_with(b"f00002\n"));
        }
        if mark == b'o' {
            let script = model::read_script(script, None).expect("a script");
            assert_eq!(script.placement, model::Placement::ByHead);
            assert_eq!(rune::drive(&script.frames).list, printed);
        }
    }
    assert!(sampled >= 20 && titled >= 15, "{sampled}, {titled}");
}
