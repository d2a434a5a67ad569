//! Call lists with the Rust's answers as theorems about the rules: antt files that claim, by
//! computation, that the rules answer the same and leave the same archive.
//!
//! The prover takes about a second for a block of SHA-256, so bundles and coins are short, and
//! lists that need few digests go first.

mod text;

use std::collections::BTreeSet;
use std::fs;
use std::path::Path;

use rust_book::archive;
use rust_book::call::{Answer, Call};
use rust_book::judge::{expected_outputs, intent_fingerprint};
use rust_book::model::*;
use rust_book::play::steps;
use rust_book::rules;
use rust_book::script::Script;
use rust_book::sha256::sha256;

use crate::cover::{expected_rows, Table};
use crate::generate::books::{self, Fill};
use crate::generate::calls::{self, read_book, Weights};
use crate::generate::damage;
use crate::generate::pool::{digest, Pool};
use crate::rng::Rng;
use text::{lines, Names};

/// Of the lists that are written.
pub struct Bounds {
    pub lists: usize,
    /// The most SHA-256 blocks of a list, by the estimate below.
    pub blocks: usize,
    /// How many lists of the seed are looked at.
    pub pool: u64,
}

/// The longest coin list or id list of a call, so that the files stay short.
const LONGEST_ARGUMENT: usize = 250;
const MOST_IDS_WRITTEN: usize = 12;

//                         1  2  3  4  5  6  7  8  9  a  b  c  d  e  f 10 11 12 13 14 15 16 17 18 19 1a 1b 1c 1d 1e 1f
#[rustfmt::skip]
const PLAIN: Weights    = [7, 4, 3, 4, 4, 5, 3, 4, 3, 3, 3, 3, 3, 2, 3, 2, 3, 3, 2, 4, 3, 3, 4, 1, 1, 2, 1, 0, 0, 3, 2];
#[rustfmt::skip]
const DELIVERY: Weights = [9, 3, 2, 3, 7, 7, 2, 6, 3, 2, 3, 1, 1, 1, 1, 1, 1, 1, 1, 1, 0, 0, 2, 1, 1, 2, 1, 0, 0, 2, 1];
#[rustfmt::skip]
const CHAIN: Weights    = [1, 1, 1, 1, 0, 1, 1, 1, 1, 1, 1, 1, 1, 1, 5, 1, 2, 2, 1, 7, 6, 5, 4, 1, 1, 1, 1, 0, 0, 2, 1];
#[rustfmt::skip]
const DOORS: Weights    = [6, 2, 1, 1, 1, 4, 1, 1, 1, 1, 1, 2, 1, 1, 4, 1, 1, 1, 1, 6, 5, 5, 2, 0, 1, 1, 2, 0, 0, 1, 1];
#[rustfmt::skip]
const LIMITS: Weights   = [3, 4, 3, 4, 2, 1, 1, 1, 1, 3, 1, 3, 3, 1, 1, 1, 1, 1, 1, 5, 1, 1, 4, 2, 1, 1, 1, 0, 0, 1, 1];

/// Empty bundles, and spends of short coins with at most one output but for the last.
fn pool() -> Pool {
    let output = |byte, amount| Output { puzzle_hash: digest(byte), amount };
    let spend = |coin: &[u8], mark, outputs: &[Output]| Spend {
        coin: coin.to_vec(),
        digest: digest(mark),
        run: Some(outputs.to_vec()),
    };
    let unreadable = Spend { coin: vec![7], digest: digest(1), run: None };
    let making = vec![spend(&[7], 1, &[output(1, 128)])];
    let made = expected_outputs(&making).remove(0);
    let bundles = vec![
        Vec::new(),
        Vec::new(),
        vec![spend(&[7], 0, &[])],
        making.clone(),
        vec![spend(&[], 0, &[])],
        vec![unreadable.clone()],
        vec![making[0].clone(), spend(&made, 0, &[])],
        vec![spend(&[8], 0, &[]), spend(&[7], 0, &[])],
        vec![spend(&[8], 0, &[output(1, 0), output(1, 0)])],
    ];
    let joined = vec![bundles[2].clone(), Vec::new(), vec![unreadable], bundles[4].clone()];
    Pool { bundles, joined, foreign_coins: vec![vec![9], Vec::new()] }
}

/// Whether the coin lists of a call are short. Of many ids the first stands for all.
fn short(call: &mut Call) -> bool {
    let fits = |bytes: &Vec<u8>| bytes.len() <= LONGEST_ARGUMENT;
    if let Call::QueueRebroadcastEpoch { ids, .. }
    | Call::RetainSubmitted { ids }
    | Call::CollectRollbackReplayIds { ids }
    | Call::ReconcileChainTerminality { ids, .. }
    | Call::AbsentOutputsForIds { ids, .. } = call
    {
        if ids.len() > MOST_IDS_WRITTEN {
            *ids = vec![ids[0]; ids.len()];
        }
    }
    match call {
        Call::ReconciliationInputCoins { landed, .. } => fits(landed),
        Call::ReconcileChainTerminality { observed, spent, .. } => fits(observed) && fits(spent),
        Call::CausallyRolledBackIds { absent, live_inputs } => fits(absent) && fits(live_inputs),
        Call::AbsentOutputsForIds { absent, .. } => fits(absent),
        _ => true,
    }
}

/// A book that a list starts from, with the calls that suit it.
fn beginning(rng: &mut Rng, pool: &Pool, number: u64) -> (Option<Book>, &'static Weights) {
    let mut fill =
        Fill { retained: 1 + rng.below(3), queue: rng.below(3), retirements: rng.below(3) };
    match number % 8 {
        0 => (None, &DELIVERY),
        1 => (None, &PLAIN),
        2 => (Some(books::book(rng, pool, fill)), &CHAIN),
        3 => (Some(books::book(rng, pool, fill)), &DOORS),
        4 => {
            match rng.below(3) {
                0 => fill.retirements = MOST_RETIREMENTS - rng.below(2),
                1 => fill.queue = MOST_QUEUED - rng.below(2),
                _ => (fill.queue, fill.retirements) = (MOST_QUEUED, MOST_RETIREMENTS),
            }
            (Some(books::book(rng, pool, fill)), &LIMITS)
        }
        5 if rng.chance(30) => (Some(calls::id_emitted_once(rng, pool)), &PLAIN),
        5 if rng.chance(60) => (Some(books::crowded(rng, pool)), &LIMITS),
        6 => (Some(books::book(rng, pool, fill)), &PLAIN),
        _ => {
            fill = Fill { retained: 1 + rng.below(2), queue: 1 + rng.below(2), retirements: 0 };
            (Some(books::book(rng, pool, fill)), &DELIVERY)
        }
    }
}

/// One list of the seed; a start other than a book just opened is read in by its first call.
fn list(seed: u64, number: u64) -> Script {
    let mut rng = Rng::new(seed.wrapping_mul(0x2000_0003).wrapping_add(number));
    let pool = pool();
    let (next_token, next_id) = match rng.below(6) {
        0 => (u64::MAX - rng.below(4) as u64, 1),
        1 => (5, u64::MAX - rng.below(3) as u64),
        _ => (5, 1),
    };
    let mut script = Script { next_token, next_id, calls: Vec::new(), tail: Vec::new() };
    let (begun, weights) = beginning(&mut rng, &pool, number);
    let mut book = begun.unwrap_or_else(|| Book::open(next_token, next_id));
    if book != Book::open(next_token, next_id) {
        script.calls.push(read_book(&book));
    }
    let damaged = match number % 8 {
        3 => 60,
        6 => 5,
        _ => 0,
    };
    let end = script.calls.len() + 10 + rng.below(12);
    if number % 8 == 5 {
        let _ = rules::make(&mut book, &Call::Drain);
        script.calls.push(Call::Drain);
    }
    while script.calls.len() < end {
        let mut call = calls::call(&mut rng, &pool, &book, weights);
        if rng.chance(damaged) {
            damage::damage(&mut rng, &mut call);
        }
        if short(&mut call) && Names::default().call(&call).is_some() {
            let _ = rules::make(&mut book, &call);
            script.calls.push(call);
        }
    }
    script
}

fn blocks(length: usize) -> usize {
    (length + 8) / 64 + 1
}

fn variant_blocks(bundle: &Bundle) -> usize {
    let mut bytes = Vec::new();
    archive::write_bundle(&mut bytes, bundle);
    blocks(bytes.len())
}

/// About how many SHA-256 blocks the rules need for a call.
fn cost(call: &Call, before: &Book) -> usize {
    let current =
        |entry: &Retained| variant_blocks(entry.fee.as_ref().map_or(&entry.base, |fee| &fee.0));
    let acknowledged = |entry: &Retained| entry.acknowledged.map_or(0, |_| current(entry));
    let coins = || before.retained.iter().map(|entry| entry.base.len()).sum::<usize>();
    match call {
        Call::Drain => {
            let candidate = |entry: &Queued| 2 * variant_blocks(&entry.bundle) + 1;
            let meant = |entry: &Retained, queued: &Queued| match queued.id {
                Some(id) => id == entry.id,
                None => intent_fingerprint(queued) == entry.intent,
            };
            let met = before
                .retained
                .iter()
                .filter(|entry| before.queue.iter().any(|queued| meant(entry, queued)));
            before.queue.iter().map(candidate).sum::<usize>()
                + met.map(|entry| 2 * acknowledged(entry)).sum::<usize>()
        }
        Call::FinalizeAttempt { token, .. } => {
            before.with_live(*token).map_or(0, |entry| 3 * current(entry))
        }
        Call::AcknowledgeAttempt { token } => {
            before.with_live(*token).map_or(0, |entry| 2 * current(entry))
        }
        Call::Look { id } => {
            before.retained.iter().find(|entry| entry.id == *id).map_or(0, acknowledged)
        }
        Call::QueueRebroadcastEpoch { .. }
        | Call::QueueFeeReadiness
        | Call::CollectRollbackReplayIds { .. } => before.retained.iter().map(acknowledged).sum(),
        Call::ReconcileChainTerminality { observed, spent, .. } => {
            coins() * (usize::from(observed.len() > 2) + usize::from(!spent.is_empty()))
        }
        Call::CausallyRolledBackIds { .. } => 2 * coins(),
        Call::ReconciliationInputCoins { .. } | Call::AbsentOutputsForIds { .. } => coins(),
        _ => 0,
    }
}

struct Candidate {
    number: u64,
    script: Script,
    rows: BTreeSet<(u8, String)>,
    cost: usize,
    size: usize,
}

/// The book that the list starts from, and its calls.
fn start(script: &Script) -> (Book, &[Call]) {
    match script.calls.split_first() {
        Some((Call::ReadArchive { bytes }, calls)) => {
            (archive::read(bytes).expect("a sound book"), calls)
        }
        _ => (Book::open(script.next_token, script.next_id), &script.calls),
    }
}

fn candidate(seed: u64, number: u64) -> Candidate {
    let script = list(seed, number);
    let mut table = Table::default();
    let steps = steps(&script);
    table.add(&script, &steps);
    let mut before = Book::open(script.next_token, script.next_id);
    let mut cost_of_all = 0;
    for (call, step) in script.calls.iter().zip(&steps) {
        cost_of_all += cost(call, &before);
        before = step.after.clone();
    }
    let rows = table.rows().filter(|row| counted(row)).cloned().collect();
    let size = theorem(&mut Names::default(), "", &script).len();
    Candidate { number, script, rows, cost: cost_of_all, size }
}

/// Refusals of arguments that the types of the rules do not hold.
const UNTYPED: [&str; 11] = [
    "3: absent number not zero",
    "3: fee kind",
    "3: goal",
    "3: optional mark",
    "3: run mark",
    "3: trigger",
    "3: source",
    "3: flag",
    "2: ids before a 3",
    "2: coin list before a 3",
    "2: coin ids before a 3",
];

/// Reading an archive and the test of soundness are no calls of a list.
fn counted((opcode, row): &(u8, String)) -> bool {
    let untyped =
        UNTYPED.contains(&row.as_str()) || (matches!(opcode, 2 | 4 | 0x14) && row == "refused 3");
    !matches!(opcode, 0 | 0x1c | 0x1d) && !untyped
}

/// Most new rows for their blocks and their text first.
fn choose(mut left: Vec<Candidate>, bounds: &Bounds) -> Vec<Candidate> {
    let mut filled = BTreeSet::new();
    let mut chosen: Vec<Candidate> = Vec::new();
    left.retain(|candidate| candidate.cost <= bounds.blocks);
    while chosen.len() < bounds.lists {
        let worth = |candidate: &Candidate| {
            let new = candidate.rows.difference(&filled).count();
            (new * 100 + candidate.rows.len()) * 10_000
                / (candidate.cost + 20 + candidate.size / 500)
        };
        let best = (0..left.len()).max_by_key(|at| worth(&left[*at]));
        let Some(best) = best else { break };
        let best = left.swap_remove(best);
        filled.extend(best.rows.iter().cloned());
        chosen.push(best);
    }
    chosen.sort_by_key(|candidate| candidate.number);
    chosen
}

fn learn(names: &mut Names, script: &Script) {
    for bundle in pool().bundles {
        bundle.iter().for_each(|spend| names.learn(&sha256(&spend.coin)));
    }
    for step in steps(script) {
        names.learn_book(&step.after);
        match step.outcome {
            Ok(Answer::Drained(drained)) => {
                drained.failures.iter().for_each(|failure| names.learn(&failure.intent));
            }
            Ok(Answer::Finalised(Some(finalised))) => names.learn(&finalised.fingerprint),
            _ => {}
        }
    }
}

/// Modules, and what a list may take from them: names, or the whole `as` a short name.
const USES: [(&str, &str); 23] = [
    ("mathlib.Core.Bool", "true false"),
    ("mathlib.Core.List", "List [] _∷_ _++_"),
    ("mathlib.Core.Option", "none some"),
    ("mathlib.Core.Path", "_≡_ refl"),
    ("Prim.Native.Nat", "ℕ"),
    ("lib.ListN", "replicate"),
    ("Rattle·book.specs.Model", "Book"),
    ("Rattle·book.specs.Zero", "zeros zeroOutput zeroSpend zeroBundle zeroHash zeroAttempt noAttempt baseVariant"),
    ("Rattle·book.specs.declared.OptionalHeight.the-variants", "NoHeight"),
    ("Rattle·book.specs.declared.OptionalId.the-variants", "NoId"),
    ("Rattle·book.specs.declared.FeeIntentKind.the-variants", "AlreadyPaid NoFeeConfigured"),
    ("Rattle·book.specs.declared.FeeResolution.the-variants", "Unresolved NotRequested Attached"),
    ("Rattle·book.specs.declared.SubmissionChainTerminality.the-variants", "Active InputSpent Landed"),
    ("Rattle·book.specs.declared.SubmissionDeliveryGoal.the-variants", "EnsureBroadcast FeeUpgrade"),
    ("Rattle·book.specs.declared.DeliveryTrigger.the-variants", "Protocol FreshChain Rollback ProviderReadiness"),
    (
        "Rattle·book_answers.specs.declared.DrainFailureCause.the-variants",
        "NoRetainedState FeeIntentDiffers InvalidRetainedState IntentDiffers IdCollides OutputsUnreadable IdsExhausted",
    ),
    ("Rattle·book_answers.specs.declared.FeeSourceDisposition.the-variants", "as disposition"),
    ("Rattle·book_answers.specs.declared.SubmissionAttemptRelationship.the-variants", "Initial Exact NewerFeeBearing Other"),
    ("Rattle·book_answers.specs.declared.SubmissionAttemptStatus.the-variants", "Applied Stale"),
    ("Rattle·book_answers.specs.declared.SubmissionFeeSource.the-variants", "as source"),
    (
        "Rattle·rules.specs.Call",
        "Call Value noValue failures finalized feeIntentIs statusIs idsAre flag heightIs attemptIs lookIs summaryIs written",
    ),
    ("Rattle·rules.specs.Examples.Pieces", "tokenBy"),
    ("Rattle·rules.specs.Rule", "Answer answer refused"),
];

/// The forms of `Pieces.antt`.
const PIECES: &str = "num countFrom height at byId output spendCells spend unreadable bundleCells bundleOf feeCells alreadyPaid \
    noFee attach delivery hash attempt held feeBearing submission bookOf drained failed finalizedAs";

/// The lines that bring in what a text uses.
fn uses(text: &str, shared: &str) -> String {
    let words: BTreeSet<&str> = text.split(|c: char| !c.is_alphanumeric() && c != '.').collect();
    let used = |name: &&str| !name.chars().all(char::is_alphanumeric) || words.contains(*name);
    let line = |(module, names): (&str, &str)| {
        if let Some(short) = names.strip_prefix("as ") {
            let taken = words
                .iter()
                .any(|word| word.split_once('.').is_some_and(|(front, _)| front == short));
            return if taken { format!("use {module} as {short}\n") } else { String::new() };
        }
        let names: Vec<&str> = names.split_whitespace().filter(used).collect();
        match names.is_empty() {
            true => String::new(),
            false => format!("use {module}.{{{}}}\n", names.join(", ")),
        }
    };
    let pieces = line(("Rattle·rules_recorded_lists·specs.specs.Pieces", PIECES));
    let shared = line(("Rattle·rules_recorded_lists·specs.specs.Shared", shared));
    let general: String = USES.into_iter().map(line).collect();
    let play =
        "use Rattle·rules.specs.Opened.{opened}\nuse Rattle·rules_recorded_lists·specs.specs.Play.{play}\n";
    format!("use Rattle·base_sha256.specs.Fips\n{general}{play}{pieces}{shared}")
}

const UNFOLDING: &str =
    "play opened zeroOutput zeroSpend zeroBundle zeroHash zeroAttempt noAttempt baseVariant \
    Fips.K Fips.H0 Fips.pad Fips.schedule Fips.round Fips.rounds Fips.plus Fips.hashed";

/// The file of one list.
fn theorem(names: &mut Names, head: &str, script: &Script) -> String {
    learn(names, script);
    let (book, calls) = start(script);
    let steps = steps(script);
    let steps = &steps[steps.len() - calls.len()..];
    let start = names.book(&book);
    let calls: Vec<String> = calls.iter().map(|call| names.call(call).expect("typed")).collect();
    let answers: Vec<String> = steps.iter().map(|step| names.outcome(&step.outcome)).collect();
    let (calls, answers) = (lines(&calls), lines(&answers));
    let archive = names.bytes(&archive::write(&steps.last().expect("a call").after));
    let text = format!(
        "
abbrev pub start : Book
start = {start}

abbrev pub calls : List Call
calls ={calls}

abbrev pub answers : List (Answer Value)
answers ={answers}

abbrev pub archive : List ℕ
archive = {archive}

pub recorded : play calls start ≡ record {{ answers = answers; archive = archive }}
unfolding {UNFOLDING}
recorded = refl
"
    );
    format!("{head}{}{text}", uses(&text, &names.all()))
}

const SHARED_USES: &str = "\
use mathlib.Core.List.{List, [], _∷_, _++_}
use Prim.Native.Nat.{ℕ}
use lib.ListN.{replicate}
use mathlib.Core.Bool.{true, false}
use Rattle·book.specs.Zero.{zeros, zeroOutput, zeroSpend}
use Rattle·book.specs.declared.SpendBundle.{SpendBundle}
use Rattle·rules_recorded_lists·specs.specs.Pieces.{num, output, spend, unreadable, spendCells, bundleOf, bundleCells}
";

fn put(path: &Path, text: &str) {
    fs::create_dir_all(path.parent().expect("a folder")).expect("the folder");
    fs::write(path, text).expect("a file");
}

/// Writes the chosen lists into the crate `rules_recorded_lists`, with the names that they share, and
/// prints what is covered.
pub fn write(seed: u64, bounds: &Bounds, crates: &Path, command: &str) {
    let chosen = choose((0..bounds.pool).map(|number| candidate(seed, number)).collect(), bounds);
    let folder = crates.join("rules_recorded_lists/specs");
    let made = format!("-- Made by `{command}`.\n");
    let mut names = Names::default();
    let mut table = Table::default();
    let mut calls = 0;
    let mut index = format!("{made}pub mod Pieces\npub mod Shared\npub mod Play\n");
    for (at, candidate) in chosen.iter().enumerate() {
        let number = at + 1;
        let head = format!(
            "{made}-- List {} of the seed, with what the Rust answered.\n",
            candidate.number
        );
        let text = theorem(&mut names, &head, &candidate.script);
        put(&folder.join(format!("List{number:02}.antt")), &text);
        index += &format!("pub mod List{number:02}\n");
        calls += start(&candidate.script).1.len();
        table.add(&candidate.script, &steps(&candidate.script));
        println!(
            "list {number:02}: {} calls, about {} blocks, {} bytes",
            start(&candidate.script).1.len(),
            candidate.cost,
            text.len()
        );
    }
    put(&folder.join("Lib.antt"), &index);
    let head = format!(
        "{made}-- Fingerprints, coin ids and bundles of the recorded lists.\n{SHARED_USES}"
    );
    put(&folder.join("Shared.antt"), &(head + &names.definitions()));
    table.print();
    let expected: Vec<_> = expected_rows().into_iter().filter(counted).collect();
    let missing: Vec<_> = table.missing().into_iter().filter(counted).collect();
    for (opcode, row) in &missing {
        println!("not in a theorem: {opcode:02x} {row}");
    }
    let blocks: usize = chosen.iter().map(|candidate| candidate.cost).sum();
    println!(
        "{} lists, {calls} calls, about {blocks} blocks, {} of {} rows",
        chosen.len(),
        expected.len() - missing.len(),
        expected.len(),
    );
}
