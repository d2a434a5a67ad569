//! Records scripts with the Rust's answers, chosen so that together they fill many rows.
//!
//! Most are scripts of the generator as they are. Rows that these leave empty are filled by
//! scripts made of single calls, each on a book that is read in for it.

use std::collections::{BTreeMap, BTreeSet};
use std::fs;
use std::path::Path;

use rust_book::archive;
use rust_book::call::Call;
use rust_book::model::Book;
use rust_book::play::{play, steps};
use rust_book::script::{output, write_call, Script};

use crate::cover::{expected_rows, Table};
use crate::generate;
use crate::labels::labels;

/// The most calls of a recorded script.
const MOST_CALLS: usize = 30;

type Row = (u8, String);

/// What may be recorded.
pub struct Bounds {
    /// Scripts of the generator, and the bytes that they may take with their answers.
    pub scripts: usize,
    pub script_bytes: usize,
    /// The longest single call with its book and its output.
    pub call_bytes: usize,
    /// How many scripts of the seed are looked at.
    pub pool: u64,
}

struct Candidate {
    name: String,
    script: Script,
    rows: BTreeSet<Row>,
    size: usize,
}

/// One call on a book of its own.
#[derive(Clone)]
struct Single {
    calls: Vec<Call>,
    rows: BTreeSet<Row>,
    size: usize,
}

fn size(script: &Script) -> usize {
    let bytes = script.bytes();
    bytes.len() + play(&bytes).len()
}

fn candidate(seed: u64, number: u64) -> Candidate {
    let script = generate::script(seed, number);
    let mut table = Table::default();
    table.add(&script, &steps(&script));
    Candidate {
        name: format!("list-{number:05}"),
        rows: table.rows().cloned().collect(),
        size: size(&script),
        script,
    }
}

/// The calls of a script, each on its own.
fn singles(script: &Script) -> Vec<Single> {
    let mut before = Book::open(script.next_token, script.next_id);
    let mut found = Vec::new();
    for (call, step) in script.calls.iter().zip(steps(script)) {
        let mut calls = vec![call.clone()];
        if !matches!(call, Call::ReadArchive { .. }) {
            calls.insert(0, Call::ReadArchive { bytes: archive::write(&before) });
        }
        let mut bytes = Vec::new();
        calls.iter().for_each(|call| write_call(&mut bytes, call));
        let rows = labels(call, &before, &step.outcome, &step.after);
        found.push(Single {
            calls,
            rows: rows.into_iter().map(|row| (call.opcode(), row)).collect(),
            size: bytes.len() + output(call, &step.outcome, &step.after).len(),
        });
        before = step.after;
    }
    found
}

/// Most new rows for their bytes first.
fn choose(mut left: Vec<Candidate>, bounds: &Bounds) -> Vec<Candidate> {
    let mut filled = BTreeSet::new();
    let (mut chosen, mut bytes) = (Vec::new(), 0);
    left.retain(|candidate| candidate.script.calls.len() <= MOST_CALLS);
    while chosen.len() < bounds.scripts {
        let worth = |candidate: &Candidate| {
            let new = candidate.rows.difference(&filled).count();
            (new + 1) * 1_000_000 / (candidate.size + 4_000)
        };
        let fits = |candidate: &Candidate| bytes + candidate.size <= bounds.script_bytes;
        let best = (0..left.len()).filter(|at| fits(&left[*at])).max_by_key(|at| worth(&left[*at]));
        let Some(best) = best else { break };
        let best = left.swap_remove(best);
        filled.extend(best.rows.iter().cloned());
        bytes += best.size;
        chosen.push(best);
    }
    chosen.sort_by(|one, other| one.name.cmp(&other.name));
    chosen
}

/// Scripts of single calls for the rows that are still empty, the shortest call for each.
fn fill(smallest: &BTreeMap<Row, Single>, filled: &mut BTreeSet<Row>) -> Vec<Candidate> {
    let mut calls: Vec<Vec<Call>> = Vec::new();
    for row in expected_rows() {
        let Some(single) = smallest.get(&row).filter(|_| !filled.contains(&row)) else {
            continue;
        };
        filled.extend(single.rows.iter().cloned());
        match calls.last_mut().filter(|calls| calls.len() + 2 <= MOST_CALLS) {
            Some(calls) => calls.extend(single.calls.iter().cloned()),
            None => calls.push(single.calls.clone()),
        }
    }
    let script = |(number, calls): (usize, Vec<Call>)| {
        let script = Script { next_token: 5, next_id: 1, calls, tail: Vec::new() };
        let name = format!("rows-{number:02}");
        Candidate { name, rows: BTreeSet::new(), size: size(&script), script }
    };
    calls.into_iter().enumerate().map(script).collect()
}

fn write(folder: &Path, name: &str, script: &Script) -> usize {
    let script = script.bytes();
    let answers = play(&script);
    fs::write(folder.join(format!("{name}.in")), &script).expect("a script");
    fs::write(folder.join(format!("{name}.out")), &answers).expect("its answers");
    script.len() + answers.len()
}

/// Writes `NAME.in` and `NAME.out` for each chosen script, and `all.in` and `all.out` for all of
/// them in one run.
pub fn record(seed: u64, bounds: &Bounds, folder: &Path) {
    fs::create_dir_all(folder).expect("the folder");
    let mut smallest: BTreeMap<Row, Single> = BTreeMap::new();
    let mut candidates = Vec::new();
    for number in 0..bounds.pool {
        let candidate = candidate(seed, number);
        for single in singles(&candidate.script) {
            for row in single.rows.iter().filter(|_| single.size <= bounds.call_bytes) {
                let held = smallest.get(row).map_or(usize::MAX, |held| held.size);
                if single.size < held {
                    smallest.insert(row.clone(), single.clone());
                }
            }
        }
        candidates.push(candidate);
    }
    let mut chosen = choose(candidates, bounds);
    let mut filled = chosen.iter().flat_map(|candidate| candidate.rows.clone()).collect();
    chosen.extend(fill(&smallest, &mut filled));

    let mut table = Table::default();
    let mut bytes = 0;
    for candidate in &chosen {
        table.add(&candidate.script, &steps(&candidate.script));
        bytes += write(folder, &candidate.name, &candidate.script);
    }
    let scripts: Vec<Script> = chosen.into_iter().map(|candidate| candidate.script).collect();
    let mut all = Script::joined(&scripts);
    all.tail = vec![0x20];
    bytes += write(folder, "all", &all);
    for (opcode, row) in table.missing() {
        println!("not recorded: {opcode:02x} {row}");
    }
    let (expected, missing) = (expected_rows().len(), table.missing().len());
    println!(
        "{} scripts, {} calls, {bytes} bytes with all.in and all.out, {} of {expected} rows",
        scripts.len(),
        table.calls,
        expected - missing,
    );
}
