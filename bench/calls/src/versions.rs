//! Another build of the library against this one, in one run: every call on the typical and the full book, but the looks of `looks.rs`.

use crate::case::Case;
use crate::clock::median;
use crate::inputs::{cases, FULL, TYPICAL};
use crate::looks;
use crate::other;
use crate::port::{self, archive, lent};
use crate::table::{figure, row_name};
use crate::times::{boundary_seconds, clock_seconds, BOOKS};

const ROUNDS: usize = 201;

/// Both must leave the same book.
fn check(case: &Case) {
    let (mut theirs, mut ours) = (lent(&case.book), lent(&case.book));
    let told = [other::port::call(case)(&mut theirs), port::call(case)(&mut ours)];
    assert_eq!(told, [0, 0], "{} is refused", case.call);
    assert!(archive(&theirs) == archive(&ours), "{}: the other build leaves another book", case.call);
}

/// Microseconds of one call of the other build and of this one. They take turns, and each is first in every second round.
fn times(case: &Case) -> [f64; 2] {
    check(case);
    let clock = clock_seconds();
    let mut calls = [other::port::call(case), port::call(case)];
    let filled = lent(&case.book);
    let mut books = vec![filled.clone(); BOOKS];
    let mut seconds = [Vec::new(), Vec::new()];
    for round in 0..2 * ROUNDS {
        let side = (round + round / 2) % 2;
        seconds[side].push(boundary_seconds(&mut calls[side], &filled, &mut books) - clock);
    }
    seconds.map(|all| median(all) / BOOKS as f64 * 1e6)
}

/// The table, in Markdown.
pub fn table() -> String {
    let mut out = format!(
        "## Another build of the library against this one, in µs\n\n\
         Processor time, medians of {ROUNDS} rounds of {BOOKS} calls in which the two take turns. The ratio is this one's time divided by the other's.\n\n\
         | call | typical: other | this | ratio | full: other | this | ratio |\n|---|---|---|---|---|---|---|\n"
    );
    let columns = [cases(TYPICAL), cases(FULL)];
    for row in 1..columns[0].len() {
        if looks::call(&columns[0][row]).is_some() {
            continue;
        }
        let name = row_name(&columns[1], row);
        eprintln!("timing {name}");
        out += &format!("| {name} |");
        for column in &columns {
            let [theirs, ours] = times(&column[row]);
            out += &format!(" {} | {} | {:.2} |", figure(theirs), figure(ours), ours / theirs);
        }
        out += "\n";
    }
    out + "\n"
}
