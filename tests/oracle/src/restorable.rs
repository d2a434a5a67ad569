//! Books reached by calls alone that the Rust's `TryFrom` would not restore: what that wrapper,
//! which is not ported, refuses more.

use std::collections::BTreeMap;

use rust_book::call::Call;
use rust_book::judge::restore_error;
use rust_book::play::steps;
use rust_book::script::Script;

use crate::generate;
use crate::show;
use crate::shrink::shrink;

/// The reason without its numbers.
fn reason(error: &str) -> String {
    let words: Vec<&str> = error.split(' ').collect();
    let plain = words.into_iter().filter(|word| !word.contains(|c: char| c.is_ascii_digit()));
    plain.collect::<Vec<_>>().join(" ")
}

/// The reason against the book that a script without archives leaves.
fn reason_at_end(script: &Script) -> Option<String> {
    if script.calls.iter().any(|call| matches!(call, Call::ReadArchive { .. })) {
        return None;
    }
    restore_error(&steps(script).pop()?.after).map(|error| reason(&error))
}

/// Prints each reason that occurs, with a small script that leads to it.
pub fn run(seed: u64, scripts: u64) {
    let mut found: BTreeMap<String, (u64, Script)> = BTreeMap::new();
    for number in 0..scripts {
        let script = generate::script(seed, number);
        for length in 1..=script.calls.len() {
            let mut shorter = script.clone();
            shorter.calls.truncate(length);
            shorter.tail.clear();
            let Some(reason) = reason_at_end(&shorter) else { continue };
            found.entry(reason).or_insert((0, shorter)).0 += 1;
            break;
        }
    }
    for (why, (count, script)) in found {
        let same = |bytes: &[u8]| {
            Script::parse(bytes).and_then(|script| reason_at_end(&script)) == Some(why.clone())
        };
        let small = shrink(&script, same);
        println!("{count} scripts: {why}");
        println!("  opened at token {}, id {}", small.next_token, small.next_id);
        for call in &small.calls {
            println!("  {}", show::call(call));
        }
        println!("  {}", show::hex(&small.bytes()));
    }
}
