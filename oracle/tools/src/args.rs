//! Words of the command line: `--name value`.

use std::env;

pub struct Args(Vec<String>);

impl Args {
    pub fn new() -> Self {
        Args(env::args().skip(1).collect())
    }

    pub fn flag(&self, name: &str) -> bool {
        self.0.iter().any(|word| word == name)
    }

    pub fn value(&self, name: &str) -> Option<&str> {
        let at = self.0.iter().position(|word| word == name)?;
        self.0.get(at + 1).map(String::as_str)
    }

    pub fn number(&self, name: &str, otherwise: u64) -> u64 {
        match self.value(name) {
            Some(word) => word.parse().expect("a number"),
            None => otherwise,
        }
    }

    /// The first word that is no option, for programs whose options take no value.
    pub fn first(&self) -> Option<&str> {
        let plain = self.0.iter().find(|word| !word.starts_with("--"));
        plain.map(String::as_str)
    }
}

impl Default for Args {
    fn default() -> Self {
        Args::new()
    }
}
