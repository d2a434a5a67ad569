//! Plays scripts on both sides and compares byte for byte; a difference is made small and shown.

use std::path::Path;

use rust_book::call::Call;
use rust_book::play::{play, steps};
use rust_book::script::Script;

use crate::cover::{complete, Table};
use crate::driver::{Driver, Run};
use crate::generate;
use crate::show;
use crate::shrink::shrink;

/// Scripts that the generator does not make: openings cut short, the empty list, and the longest
/// lists of ids that can be handed in.
pub fn fixed_scripts() -> Vec<Vec<u8>> {
    let mut scripts: Vec<Vec<u8>> = (0..=16).map(|length| vec![7; length]).collect();
    let ids: Vec<u64> = (0..=u64::from(u16::MAX - 1)).collect();
    let many = Script {
        next_token: 5,
        next_id: 1,
        calls: vec![
            Call::RetainSubmitted { ids: ids.clone() },
            Call::QueueRebroadcastEpoch { ids, trigger: 4 },
            Call::ActiveIds,
        ],
        tail: Vec::new(),
    };
    scripts.push(many.bytes());
    scripts
}

/// Whether the two sides differ on the script.
pub fn differs(driver: &Driver, bytes: &[u8]) -> bool {
    let run = driver.run(bytes);
    run.failed.is_some() || run.output != play(bytes)
}

/// Scripts played in one run of the driver.
const BATCH: u64 = 10;

/// The script of a batch that shows a difference, if there is one.
fn differing(driver: &Driver, batch: &[Script]) -> Option<Script> {
    let joined = Script::joined(batch);
    let apart: Vec<&Script> = batch.iter().filter(|script| !script.tail.is_empty()).collect();
    if let Some(script) = apart.into_iter().find(|script| differs(driver, &script.bytes())) {
        return Some(script.clone());
    }
    if !differs(driver, &joined.bytes()) {
        return None;
    }
    let alone = batch.iter().find(|script| differs(driver, &script.bytes()));
    Some(alone.unwrap_or(&joined).clone())
}

/// So many scripts must fill every row of the coverage table; fewer need not.
const WHOLE: u64 = 6000;

/// Compares `scripts` scripts of `seed`; true if nothing differs and, from `WHOLE` scripts on, every
/// row is filled. The small script of a difference is written to the file `save`.
pub fn compare(driver: &Driver, seed: u64, scripts: u64, save: Option<&Path>) -> bool {
    for bytes in fixed_scripts() {
        if differs(driver, &bytes) {
            println!("difference on the script {}", show::hex(&bytes));
            return false;
        }
    }
    let mut table = Table::default();
    for first in (0..scripts).step_by(BATCH as usize) {
        let numbers = first..scripts.min(first + BATCH);
        let batch: Vec<Script> = numbers.map(|number| generate::script(seed, number)).collect();
        for script in &batch {
            table.add(script, &steps(script));
        }
        if let Some(script) = differing(driver, &batch) {
            println!("difference in the ten scripts from {first} of seed {seed}");
            let small = shrink(&script, |bytes| differs(driver, bytes));
            report(driver, &small);
            if let Some(file) = save {
                std::fs::write(file, small.bytes()).expect("the saved script");
            }
            return false;
        }
    }
    table.print();
    if scripts < WHOLE {
        println!(
            "{} of the table's rows are empty: {WHOLE} scripts fill all",
            table.missing().len()
        );
    }
    println!("no difference");
    scripts < WHOLE || complete(&table)
}

/// Compares recorded scripts: the files named `*.in` of a folder.
pub fn compare_files(driver: &Driver, folder: &Path) -> bool {
    let mut files: Vec<_> = std::fs::read_dir(folder)
        .expect("the folder of recorded scripts")
        .map(|entry| entry.expect("a file").path())
        .filter(|path| path.extension().is_some_and(|extension| extension == "in"))
        .collect();
    files.sort();
    assert!(!files.is_empty(), "no recorded scripts");
    let mut same = true;
    for file in &files {
        let bytes = std::fs::read(file).expect("a recorded script");
        let answers = std::fs::read(file.with_extension("out")).expect("its answers");
        let run = driver.run(&bytes);
        if run.failed.is_some() || run.output != answers {
            println!("difference in {}", file.display());
            same = false;
        }
    }
    println!("{} recorded scripts{}", files.len(), if same { ", no difference" } else { "" });
    same
}

/// Shows a script with what both sides wrote, up to the first call that differs.
pub fn report(driver: &Driver, script: &Script) {
    let bytes = script.bytes();
    let run: Run = driver.run(&bytes);
    println!("script ({} bytes): {}", bytes.len(), show::hex(&bytes));
    println!("opened at token {}, id {}", script.next_token, script.next_id);
    if let Some(failed) = &run.failed {
        println!("the driver ended with: {failed}");
    }
    let mut rest = run.output.as_slice();
    for (call, step) in script.calls.iter().zip(steps(script)) {
        println!("call {}", show::call(call));
        let (expected, _) = show::output(call, &step.output);
        if rest.starts_with(&step.output) {
            println!("  both   {expected}");
            rest = &rest[step.output.len()..];
            continue;
        }
        let (got, _) = show::output(call, rest);
        println!("  Rust   {expected}");
        println!("  driver {got}");
        println!(
            "  the Rust's book behind it:\n    {}",
            show::book(&step.after).replace('\n', "\n    ")
        );
        return;
    }
    println!("  the calls agree; behind them the driver wrote: {}", show::hex(rest));
}
