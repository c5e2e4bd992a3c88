//! The table of docs/DIFFERENCES.md: a row for each campaign, how much was asked and how it came out.

use std::fmt;

/// How what was asked came out; each is counted once.
#[derive(Clone, Copy, Debug, Default, PartialEq, Eq)]
pub struct Counts {
    /// taken, with all answers equal to the original's
    pub equal: u64,
    pub both_refuse: u64,
    /// refused by a rule that is ours
    pub ours: u64,
    /// of 01's domain
    pub outside: u64,
    /// held against the model alone: taken, or a yes
    pub taken: u64,
    /// .. refused, or a no
    pub refused: u64,
    pub different: u64,
}

impl Counts {
    /// What was printed, held against what the model prints and nothing else. False where they differ.
    pub fn held(&mut self, printed: &[u8], expected: &[u8]) -> bool {
        let refused = expected.starts_with(b"ee") || expected == b"no\n";
        let column = match printed == expected {
            false => &mut self.different,
            true if refused => &mut self.refused,
            true => &mut self.taken,
        };
        *column += 1;
        printed == expected
    }

    /// In the order of the table's columns.
    fn cells(&self) -> [u64; 7] {
        [
            self.equal,
            self.both_refuse,
            self.ours,
            self.outside,
            self.taken,
            self.refused,
            self.different,
        ]
    }

    pub fn asked(&self) -> u64 {
        self.cells().iter().sum()
    }
}

/// A campaign: who was asked what, what that has in all (frames, lines, calls), and how it came out.
#[derive(Clone, Debug, PartialEq, Eq)]
pub struct Row {
    pub what: String,
    pub all: (u64, &'static str),
    pub counts: Counts,
}

impl Row {
    /// All of them, which count the same.
    pub fn sum(what: &str, rows: &[Row]) -> Row {
        let of = |column: fn(&Counts) -> u64| rows.iter().map(|row| column(&row.counts)).sum();
        Row {
            what: what.into(),
            all: (
                rows.iter().map(|row| row.all.0).sum(),
                rows.first().map_or("", |row| row.all.1),
            ),
            counts: Counts {
                equal: of(|c| c.equal),
                both_refuse: of(|c| c.both_refuse),
                ours: of(|c| c.ours),
                outside: of(|c| c.outside),
                taken: of(|c| c.taken),
                refused: of(|c| c.refused),
                different: of(|c| c.different),
            },
        }
    }
}

/// Above the rows of any number of campaigns.
pub const HEAD: &str = "\
| asked | how many | in all | equal to the original | refused by both | by our rules alone | outside 01's domain | by the model: taken | refused | differences |
|---|---|---|---|---|---|---|---|---|---|";

/// With a comma before every third digit from the end.
pub fn grouped(number: u64) -> String {
    let digits = number.to_string();
    let mut shown = String::new();
    for (i, digit) in digits.chars().enumerate() {
        if i > 0 && (digits.len() - i) % 3 == 0 {
            shown.push(',');
        }
        shown.push(digit);
    }
    shown
}

impl fmt::Display for Row {
    fn fmt(&self, f: &mut fmt::Formatter<'_>) -> fmt::Result {
        let asked = grouped(self.counts.asked());
        let all = match self.all {
            (0, _) => "–".into(),
            (number, unit) => format!("{} {unit}", grouped(number)),
        };
        write!(f, "| {} | {asked} | {all} |", self.what)?;
        let [cells @ .., different] = self.counts.cells();
        for cell in cells {
            match cell {
                0 => write!(f, " – |")?,
                cell => write!(f, " {} |", grouped(cell))?,
            }
        }
        write!(f, " {} |", grouped(different))
    }
}

/// Who is asked, as people call it: the function, or the program without its path.
pub fn called(name: &str) -> String {
    let name = name.split(',').next().unwrap_or(name);
    let name = name.rsplit('/').next().unwrap_or(name);
    let words: Vec<String> = name
        .split(" and ")
        .map(|word| format!("`{word}`"))
        .collect();
    match name.starts_with("the model") {
        true => name.into(),
        false => words.join(", "),
    }
}
