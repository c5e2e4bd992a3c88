//! Document 01, "Numbers given back", and W-201 and W-205 of document 02, in their words: words.txt, which `bin/mboxalind` reads too.

const WORDS: &str = include_str!("../words.txt");

/// What a refusal's number says.
pub fn words(number: u8) -> &'static str {
    let wanted = number.to_string();
    let rows = WORDS.lines().filter_map(|line| line.split_once(' '));
    let found = rows.into_iter().find(|(n, _)| *n == wanted);
    found.map_or("a number that has no words here", |(_, words)| words)
}
