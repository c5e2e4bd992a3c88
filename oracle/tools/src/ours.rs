//! Who is compared: anything that answers scripts as our translating program does, with a list or an `ee` line.

use model::Plant;
use std::io::Write;
use std::path::PathBuf;
use std::process::{Child, Command, Stdio};

/// The model, a program, or the linked functions (`linked`).
pub trait Ours {
    /// What is printed for a script.
    fn answer(&mut self, script: &[u8]) -> Vec<u8>;

    /// What is printed for each script, in order.
    fn answers(&mut self, scripts: &[Vec<u8>]) -> Vec<Vec<u8>> {
        scripts.iter().map(|script| self.answer(script)).collect()
    }

    fn name(&self) -> String;

    /// How many scripts to hand over at once.
    fn batch(&self) -> usize {
        1000
    }
}

/// The model, perhaps with a planted fault.
pub struct Model(pub Plant);

impl Ours for Model {
    fn answer(&mut self, script: &[u8]) -> Vec<u8> {
        model::translator_with(script, self.0)
    }

    fn name(&self) -> String {
        match self.0 {
            None => "the model".into(),
            Some(fault) => format!("the model with {fault:?}"),
        }
    }
}

/// A program that reads one text from its input and prints its answer; a few run at once.
pub struct Program {
    words: Vec<String>,
}

const AT_ONCE: usize = 4;

impl Program {
    /// The path, and words that go before the input, with blanks between them.
    pub fn new(command: &str) -> Self {
        Program {
            words: command.split_whitespace().map(String::from).collect(),
        }
    }

    fn start(&self, input: &[u8]) -> Child {
        let mut child = Command::new(&self.words[0])
            .args(&self.words[1..])
            .stdin(Stdio::piped())
            .stdout(Stdio::piped())
            .spawn()
            .expect("the program starts");
        // A text fits the pipe. A program that refuses early may leave some of it unread.
        let _ = child.stdin.take().expect("its input").write_all(input);
        child
    }
}

/// A program that takes two files, in a folder for this process alone: `PROGRAM LIST RECORDING`, `PROGRAM SCRIPT LIST`.
pub struct PairProgram {
    words: Vec<String>,
    folder: PathBuf,
}

impl PairProgram {
    pub fn new(command: &str) -> Self {
        let folder = std::env::temp_dir().join(format!("texts-{}", std::process::id()));
        std::fs::create_dir_all(&folder).expect("a folder for two texts");
        PairProgram {
            words: Program::new(command).words,
            folder,
        }
    }

    /// What is printed for two texts.
    pub fn answer(&self, first: &[u8], second: &[u8]) -> Vec<u8> {
        let file = |name: &str, bytes: &[u8]| {
            let path = self.folder.join(name);
            std::fs::write(&path, bytes).expect("a file is written");
            path
        };
        let output = Command::new(&self.words[0])
            .args(&self.words[1..])
            .args([file("first", first), file("second", second)])
            .stdin(Stdio::null())
            .output();
        output.expect("the program ends").stdout
    }
}

impl Drop for PairProgram {
    fn drop(&mut self) {
        let _ = std::fs::remove_dir_all(&self.folder);
    }
}

fn printed(child: Child) -> Vec<u8> {
    child.wait_with_output().expect("the program ends").stdout
}

impl Ours for Program {
    fn answer(&mut self, script: &[u8]) -> Vec<u8> {
        printed(self.start(script))
    }

    fn answers(&mut self, scripts: &[Vec<u8>]) -> Vec<Vec<u8>> {
        let mut answers = Vec::new();
        for few in scripts.chunks(AT_ONCE) {
            let children: Vec<Child> = few.iter().map(|script| self.start(script)).collect();
            answers.extend(children.into_iter().map(printed));
        }
        answers
    }

    fn name(&self) -> String {
        self.words.join(" ")
    }

    fn batch(&self) -> usize {
        64
    }
}
