//! The coverage table, and the rows that every run must fill.

use std::collections::BTreeMap;

use rust_book::call::name;
use rust_book::model::Book;
use rust_book::play::Step;
use rust_book::script::Script;

use crate::checks::broken_claim;
use crate::labels::labels;

/// The rows that should occur, as `opcode<TAB>row` lines.
const ROWS: &str = include_str!("../rows.txt");

#[derive(Default)]
pub struct Table {
    counts: BTreeMap<(u8, String), u64>,
    pub calls: u64,
    pub scripts: u64,
}

impl Table {
    /// Adds a played script, holding paper 01's claims against every call.
    pub fn add(&mut self, script: &Script, steps: &[Step]) {
        self.scripts += 1;
        let mut before = Book::open(script.next_token, script.next_id);
        for (call, step) in script.calls.iter().zip(steps) {
            self.calls += 1;
            let claim = broken_claim(call, &before, &step.outcome, &step.after);
            if let Some(claim) = claim {
                panic!("a claim of paper 01 does not hold: {claim}; call {call:?} on {before:?}");
            }
            for row in labels(call, &before, &step.outcome, &step.after) {
                *self.counts.entry((call.opcode(), row)).or_default() += 1;
            }
            before = step.after.clone();
        }
        let end = match script.tail.first() {
            None => "script: whole",
            Some(_) => "script: ended by ff",
        };
        *self.counts.entry((0, end.to_string())).or_default() += 1;
    }

    /// The rows filled by one script, for choosing scripts.
    pub fn rows(&self) -> impl Iterator<Item = &(u8, String)> {
        self.counts.keys()
    }

    pub fn print(&self) {
        for ((opcode, row), count) in &self.counts {
            println!("{opcode:02x} {:30} {row:55} {count:9}", name(*opcode));
        }
        println!("{} scripts, {} calls, {} rows", self.scripts, self.calls, self.counts.len());
    }

    /// The expected rows that are empty.
    pub fn missing(&self) -> Vec<(u8, String)> {
        let filled = |row: &(u8, String)| self.counts.contains_key(row);
        expected_rows().into_iter().filter(|row| !filled(row)).collect()
    }

    /// Rows that occurred and are not in the list of expected ones.
    pub fn unlisted(&self) -> Vec<(u8, String)> {
        let expected = expected_rows();
        self.counts.keys().filter(|row| !expected.contains(row)).cloned().collect()
    }
}

pub fn expected_rows() -> Vec<(u8, String)> {
    let lines = ROWS.lines().filter(|line| !line.is_empty() && !line.starts_with('#'));
    lines
        .map(|line| {
            let (opcode, row) = line.split_once('\t').expect("opcode and row");
            (u8::from_str_radix(opcode, 16).expect("an opcode"), row.to_string())
        })
        .collect()
}

/// Prints what is missing and gives whether nothing is.
pub fn complete(table: &Table) -> bool {
    for (opcode, row) in table.unlisted() {
        println!("not in rows.txt: {opcode:02x} {} {row}", name(opcode));
    }
    let missing = table.missing();
    for (opcode, row) in &missing {
        println!("EMPTY ROW: {opcode:02x} {} {row}", name(*opcode));
    }
    missing.is_empty()
}
