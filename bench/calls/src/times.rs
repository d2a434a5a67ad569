//! Microseconds of one call, as medians of rounds in which the sides take turns.

use std::hint::black_box;

use crate::case::Case;
use crate::clock::{median, now};
use crate::looks;
use crate::plain;
use crate::port::{self, archive, lent};

pub const ROUNDS: usize = 21;
/// Books that a call meets in one round; together they fit a processor's cache.
pub const BOOKS: usize = 32;

/// Microseconds; `rust` is none without the upstream text. `own` is the call less one that reads the same book and
/// writes it back unchanged; none for calls that do not do both.
#[derive(Clone, Copy)]
pub struct Times {
    pub rust: Option<f64>,
    pub boundary: f64,
    pub own: Option<f64>,
}

/// What reading the clock twice takes of the time between.
pub fn clock_seconds() -> f64 {
    median((0..1001).map(|_| -(now() - now())).collect())
}

/// Once on each of the books, which are filled anew before the clock starts.
pub fn boundary_seconds(call: &mut port::Call, filled: &[u8], books: &mut [Vec<u8>]) -> f64 {
    for book in &mut *books {
        book.copy_from_slice(filled);
    }
    let start = now();
    for book in &mut *books {
        black_box(call(black_box(book)));
    }
    now() - start
}

/// Plain readers and writers of the archive form; upstream's serde form is another one.
fn plain_seconds(case: &Case, copies: usize) -> f64 {
    if case.call == "read" {
        let mut books = Vec::with_capacity(copies);
        let start = now();
        (0..copies).for_each(|_| books.push(plain::read(black_box(&case.book))));
        let seconds = now() - start;
        assert!(books.iter().all(Result::is_ok));
        return seconds;
    }
    let book = plain::read(&case.book).unwrap_or_else(|place| panic!("refused at {place}"));
    assert!(plain::write(&book, case.book.len()) == case.book);
    let start = now();
    (0..copies).for_each(|_| drop(black_box(plain::write(black_box(&book), case.book.len()))));
    now() - start
}

#[cfg(feature = "rust")]
fn upstream_seconds(case: &Case, copies: usize) -> Option<f64> {
    Some(rust_book::timing::seconds(case, copies, now))
}

#[cfg(not(feature = "rust"))]
fn upstream_seconds(_case: &Case, _copies: usize) -> Option<f64> {
    None
}

fn rust_seconds(case: &Case, copies: usize) -> Option<f64> {
    match case.call {
        "read" | "write" => Some(plain_seconds(case, copies)),
        "look" | "summary" => None,
        _ => upstream_seconds(case, copies),
    }
}

/// The call through the C boundary.
pub fn boundary_call(case: &Case) -> port::Call {
    looks::call(case).unwrap_or_else(|| port::call(case))
}

/// The port must leave the book that the Rust leaves.
fn check(case: &Case) {
    let mut book = lent(&case.book);
    assert_eq!(boundary_call(case)(&mut book), 0, "{} is refused", case.call);
    #[cfg(feature = "rust")]
    if !matches!(case.call, "read" | "write" | "look" | "summary") {
        let left = rust_book::timing::left(case);
        assert!(archive(&book) == left, "{}: the Rust leaves another book", case.call);
    }
}

/// The Rust's books are many where they are small, so that the clock is coarse against no call.
fn copies(case: &Case) -> usize {
    (BOOKS * port::BOOK_BYTES / (case.book.len() + 1000)).clamp(BOOKS, 256)
}

/// Calls that make a book, or only look at it.
const WITHOUT_OWN: [&str; 13] = [
    "open",
    "read",
    "write",
    "fee_intent_for_attempt",
    "relinquish_completed_attempt",
    "attempt",
    "reconciliation_input_coins",
    "causally_rolled_back_ids",
    "absent_outputs_for_ids",
    "active_ids",
    "replay_rollback_height",
    "look",
    "summary",
];

fn has_own(call: &str) -> bool {
    !WITHOUT_OWN.contains(&call)
}

pub fn times(case: &Case) -> Times {
    check(case);
    let clock = clock_seconds();
    let copies = copies(case);
    let mut call = boundary_call(case);
    let mut idle = port::idle();
    let filled = lent(&case.book);
    let mut books = vec![filled.clone(); BOOKS];
    let (mut rust, mut boundary, mut own) = (Vec::new(), Vec::new(), Vec::new());
    for _ in 0..ROUNDS {
        rust.extend(rust_seconds(case, copies).map(|seconds| (seconds - clock) / copies as f64));
        let seconds = boundary_seconds(&mut call, &filled, &mut books);
        boundary.push((seconds - clock) / BOOKS as f64);
        if has_own(case.call) {
            own.push((seconds - boundary_seconds(&mut idle, &filled, &mut books)) / BOOKS as f64);
        }
    }
    let micros = |seconds: Vec<f64>| (!seconds.is_empty()).then(|| median(seconds).max(0.0) * 1e6);
    Times { rust: micros(rust), boundary: micros(boundary).expect("rounds"), own: micros(own) }
}
