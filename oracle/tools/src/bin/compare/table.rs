//! What was asked so far, as rows of the table, and how many differences aren't known.

use oracle::campaign::{Counts, Row, HEAD};
use std::fs;

#[derive(Default)]
pub struct Table {
    rows: Vec<Row>,
    /// of what is summed, the sums alone
    brief: bool,
    pub unknown: usize,
}

impl Table {
    pub fn new(brief: bool) -> Table {
        Table {
            brief,
            ..Table::default()
        }
    }

    /// What was asked, what that has in all, and how it came out.
    pub fn row(&mut self, what: String, all: (u64, &'static str), counts: Counts) {
        self.rows.push(Row { what, all, counts });
    }

    /// Where the first difference ends the asking: what came out before it, and whether there was one.
    pub fn row_until(
        &mut self,
        what: String,
        all: (u64, &'static str),
        counts: Counts,
        differs: bool,
    ) {
        let different = u64::from(differs);
        self.unknown += usize::from(differs);
        self.row(
            what,
            all,
            Counts {
                different,
                ..counts
            },
        );
    }

    pub fn rows(&self) -> usize {
        self.rows.len()
    }

    /// A row for all from that one on.
    pub fn sum(&mut self, what: &str, first: usize) {
        let sum = Row::sum(what, &self.rows[first..]);
        if self.brief {
            self.rows.truncate(first);
        }
        self.rows.push(sum);
    }

    pub fn write(&self, file: &str) {
        let rows: String = self.rows.iter().map(|row| format!("{row}\n")).collect();
        fs::write(file, format!("{HEAD}\n{rows}")).expect("the table is written");
    }
}
