//! One call, its arguments chosen with the book in view.

use rust_book::archive;
use rust_book::call::{Call, BUNDLE_CELLS};
use rust_book::door::write_coin_list;
use rust_book::judge::{expected_outputs, intent_fingerprint, Judge};
use rust_book::model::*;
use rust_book::script::LONGEST_BYTES;
use rust_book::sha256::sha256;

use super::books;
use super::damage::{self, bundle_cells, queue_call};
use super::pool::{digest, intent_of, matching_intent, Pool, EXPIRIES, HEIGHTS};
use crate::rng::Rng;

/// The number of opcodes; opcode `n` has weight `weights[n - 1]`.
pub const OPCODES: usize = 31;
pub type Weights = [usize; OPCODES];

pub fn call(rng: &mut Rng, pool: &Pool, book: &Book, weights: &Weights) -> Call {
    let mut opcode = 1 + rng.weighted(weights) as u8;
    for _ in 0..3 {
        if worth_while(opcode, book) || rng.chance(20) {
            break;
        }
        opcode = 1 + rng.weighted(weights) as u8;
    }
    match opcode {
        0x01 => queue(rng, pool, book),
        0x02 => Call::QueueRebroadcastEpoch { ids: id_list(rng, book), trigger: trigger(rng) },
        0x03 => Call::QueueFeeReadiness,
        0x04 => Call::QueueRetainedDelivery {
            id: id(rng, book),
            trigger: trigger(rng),
            goal: u8::from(rng.chance(40)),
        },
        0x05 => Call::Drain,
        0x06 => finalise(rng, pool, book),
        0x07 => Call::FeeIntentForAttempt { token: token(rng, book) },
        0x08 => Call::AcknowledgeAttempt { token: acknowledged_token(rng, book) },
        0x09 => Call::StopAttempt { token: token(rng, book) },
        0x0a => Call::AbandonAttempt { token: token(rng, book) },
        0x0b => Call::RelinquishCompletedAttempt { token: set_aside_token(rng, book) },
        0x0c => Call::RetainSubmitted { ids: id_list(rng, book) },
        0x0d => Call::EmitRetirement { id: id(rng, book) },
        0x0e => Call::DrainRetirements,
        0x0f => reconciliation(rng, pool, book),
        0x10 => Call::ActiveIds,
        0x11 => Call::BeginReplay { height: height(rng, book) },
        0x12 => Call::FinishReplayIfAdvanced { height: height(rng, book) },
        0x13 => Call::ReplayRollbackHeight,
        0x14 => Call::ReconcileChainTerminality {
            observed: output_list(rng, pool, book),
            spent: input_ids(rng, book, 25),
            reorg: u8::from(rng.chance(50)),
            ids: id_list(rng, book),
        },
        0x15 => Call::CausallyRolledBackIds {
            absent: output_list(rng, pool, book),
            live_inputs: input_ids(rng, book, 75),
        },
        0x16 => absent_outputs(rng, pool, book),
        0x17 => Call::CollectRollbackReplayIds { ids: id_list(rng, book) },
        0x18 => Call::ClearLocalArtifacts,
        0x19 => Call::RestoreRuntime,
        0x1a => Call::Attempt { token: token(rng, book) },
        0x1b if rng.chance(1) => Call::WriteArchive { buffer: LONGEST_BYTES },
        0x1b => Call::WriteArchive { buffer: room(rng, archive::write(book).len()) },
        0x1c => read_archive(rng, pool, book),
        0x1e => Call::Look { id: id(rng, book) },
        0x1f => Call::Summary,
        _ => Call::Sound,
    }
}

/// Whether the call has something to work on.
fn worth_while(opcode: u8, book: &Book) -> bool {
    match opcode {
        0x05 => !book.queue.is_empty(),
        0x06..=0x0b | 0x19 | 0x1a => book.slots().next().is_some(),
        0x02..=0x04 | 0x0c | 0x0f | 0x10 | 0x14..=0x18 | 0x1e => !book.retained.is_empty(),
        0x0e => !book.retirements.is_empty(),
        _ => true,
    }
}

fn trigger(rng: &mut Rng) -> u8 {
    rng.below(4) as u8
}

fn queue(rng: &mut Rng, pool: &Pool, book: &Book) -> Call {
    let goal = u8::from(rng.chance(30));
    let mut entry = pool.intent(rng);
    if !book.retained.is_empty() && rng.chance(45) {
        let of = rng.pick(&book.retained);
        entry = matching_intent(of, trigger(rng), goal);
        if rng.chance(60) {
            entry.id = Some(of.id);
        }
        if rng.chance(10) {
            entry.expiry = *rng.pick(&EXPIRIES);
        }
    } else if !book.queue.is_empty() && rng.chance(25) {
        entry = rng.pick(&book.queue).clone();
        entry.goal = goal;
    }
    if rng.chance(12) {
        entry.id = Some(id(rng, book));
    }
    queue_call(&entry)
}

/// A queue call with an intent that no other has.
pub fn fresh_queue(rng: &mut Rng, pool: &Pool, number: u64) -> Call {
    let mut entry = pool.intent(rng);
    entry.bundle = pool.bundles[0].clone();
    entry.expiry = Some(5000 + number);
    queue_call(&entry)
}

fn finalise(rng: &mut Rng, pool: &Pool, book: &Book) -> Call {
    let fresh: Vec<&Attempt> = book
        .retained
        .iter()
        .filter_map(|entry| entry.live.as_ref())
        .filter(|attempt| attempt.finalised.is_none())
        .collect();
    let token = match fresh.is_empty() || rng.chance(15) {
        true => token(rng, book),
        false => rng.pick(&fresh).token,
    };
    let unresolved = book.with_live(token).is_some_and(|entry| entry.mark == UNRESOLVED);
    let source = match unresolved {
        true => *rng.pick(&[0, 1, 1, 1, 2, 3]),
        false => *rng.pick(&[0, 0, 0, 0, 1, 2, 3]),
    };
    let bundle = match (source, book.with_live(token)) {
        (1, Some(entry)) if rng.chance(25) => bundle_cells(&entry.base),
        (1, _) if rng.chance(70) => bundle_cells(rng.pick(&pool.joined)),
        (1, _) => bundle_cells(&pool.bundle(rng)),
        _ => vec![0; BUNDLE_CELLS],
    };
    Call::FinalizeAttempt { token, source, bundle }
}

fn odd_token(rng: &mut Rng, book: &Book) -> u64 {
    match rng.below(6) {
        0 => book.next_token,
        1 => book.next_token.saturating_add(1),
        2 => u64::MAX,
        3 => 0,
        _ => book.next_token.saturating_sub(1 + rng.below(6) as u64),
    }
}

/// Mostly a live token.
fn token(rng: &mut Rng, book: &Book) -> u64 {
    let live: Vec<u64> = book
        .retained
        .iter()
        .filter_map(|entry| entry.live.as_ref().map(|attempt| attempt.token))
        .collect();
    let slots: Vec<u64> = book.slots().map(|attempt| attempt.token).collect();
    match rng.below(10) {
        0..6 if !live.is_empty() => *rng.pick(&live),
        6..8 if !slots.is_empty() => *rng.pick(&slots),
        _ => odd_token(rng, book),
    }
}

/// Mostly a live token that was finalised.
fn acknowledged_token(rng: &mut Rng, book: &Book) -> u64 {
    let finalised: Vec<u64> = book
        .retained
        .iter()
        .filter_map(|entry| entry.live.as_ref())
        .filter(|attempt| attempt.finalised.is_some())
        .map(|attempt| attempt.token)
        .collect();
    if finalised.is_empty() || rng.chance(30) {
        return token(rng, book);
    }
    *rng.pick(&finalised)
}

fn set_aside_token(rng: &mut Rng, book: &Book) -> u64 {
    let aside: Vec<u64> = book
        .retained
        .iter()
        .filter_map(|entry| entry.set_aside.as_ref().map(|attempt| attempt.token))
        .collect();
    if aside.is_empty() || rng.chance(50) {
        return token(rng, book);
    }
    *rng.pick(&aside)
}

/// Mostly a retained id.
fn id(rng: &mut Rng, book: &Book) -> u64 {
    match rng.below(12) {
        0..8 if !book.retained.is_empty() => rng.pick(&book.retained).id,
        8 if !book.retirements.is_empty() => *rng.pick(&book.retirements),
        9 => book.next_id,
        10 => u64::MAX,
        _ => rng.below(30) as u64,
    }
}

fn id_list(rng: &mut Rng, book: &Book) -> Vec<u64> {
    match rng.below(8) {
        0 => Vec::new(),
        1 => {
            let mut ids: Vec<u64> = book.retained.iter().map(|entry| entry.id).collect();
            ids.reverse();
            ids
        }
        2 if rng.chance(30) => (0..MOST_IDS).map(|_| id(rng, book)).collect(),
        _ => (0..1 + rng.below(4)).map(|_| id(rng, book)).collect(),
    }
}

fn height(rng: &mut Rng, book: &Book) -> u64 {
    match (book.rollback, rng.below(4)) {
        (Some(height), 0) => height,
        (Some(height), 1) => height.saturating_add(1),
        (Some(height), 2) => height.saturating_sub(1),
        _ => *rng.pick(&HEIGHTS),
    }
}

/// A coin list of outputs of retained submissions, of inputs and of foreign coins.
fn output_list(rng: &mut Rng, pool: &Pool, book: &Book) -> Vec<u8> {
    let share = *rng.pick(&[0, 10, 30, 100]);
    let mut coins = Vec::new();
    for entry in &book.retained {
        for output in expected_outputs(&entry.base) {
            if rng.chance(share) {
                coins.push(output);
            }
        }
        for spend in &entry.base {
            if rng.chance(5) {
                coins.push(spend.coin.clone());
            }
        }
    }
    while rng.chance(25) {
        coins.push(rng.pick(&pool.foreign_coins).clone());
    }
    if rng.chance(1) {
        coins.resize(MOST_COINS, Vec::new());
    }
    coins.truncate(MOST_COINS);
    if rng.chance(20) {
        coins.reverse();
    }
    write_coin_list(&coins)
}

fn input_ids(rng: &mut Rng, book: &Book, most: usize) -> Vec<u8> {
    let share = *rng.pick(&[0, most, 100]);
    let mut bytes = Vec::new();
    for entry in &book.retained {
        for spend in &entry.base {
            if rng.chance(share) {
                bytes.extend_from_slice(&sha256(&spend.coin));
            }
        }
    }
    if rng.chance(20) {
        bytes.extend_from_slice(&digest(9));
    }
    if rng.chance(1) {
        bytes.resize(MOST_COINS * 32, 1);
    }
    bytes
}

/// A buffer length for an answer of `needed` bytes.
fn room(rng: &mut Rng, needed: usize) -> u32 {
    let room = match rng.below(10) {
        0..4 => needed,
        4..7 => needed + 1 + rng.below(9),
        7 => needed.saturating_sub(1),
        8 => 0,
        _ => rng.below(needed.max(1)),
    };
    room as u32
}

fn reconciliation(rng: &mut Rng, pool: &Pool, book: &Book) -> Call {
    let landed = output_list(rng, pool, book);
    let coins = rust_book::door::coin_list(&landed).expect("a coin list");
    let needed = write_coin_list(&Judge::of(book).reconciliation_input_coins(&coins)).len();
    Call::ReconciliationInputCoins { landed, buffer: room(rng, needed) }
}

fn absent_outputs(rng: &mut Rng, pool: &Pool, book: &Book) -> Call {
    let (ids, absent) = (id_list(rng, book), output_list(rng, pool, book));
    let coins = rust_book::door::coin_list(&absent).expect("a coin list");
    let needed = write_coin_list(&Judge::of(book).absent_outputs_for_ids(&ids, &coins)).len();
    Call::AbsentOutputsForIds { ids, absent, buffer: room(rng, needed) }
}

fn read_archive(rng: &mut Rng, pool: &Pool, book: &Book) -> Call {
    let fill = books::small_fill(rng);
    let mut bytes = match rng.below(3) {
        0 => archive::write(book),
        _ => archive::write(&books::book(rng, pool, fill)),
    };
    match rng.below(12) {
        0 => bytes = (0..rng.below(40)).map(|_| rng.below(4) as u8).collect(),
        1..9 => damage::damage_archive(rng, &mut bytes),
        9 if rng.chance(5) => bytes.resize(LONGEST_BYTES as usize, 0),
        _ => {}
    }
    Call::ReadArchive { bytes }
}

/// A book read in from its archive.
pub fn read_book(book: &Book) -> Call {
    Call::ReadArchive { bytes: archive::write(book) }
}

/// The candidates of DESIGN's reading 4: an intent is emitted, its submission removed by an entry
/// that names it, and a new intent retained under the same id.
pub fn id_emitted_once(rng: &mut Rng, pool: &Pool) -> Book {
    let mut book = Book::open(9, 1);
    let first = Queued {
        id: None,
        bundle: pool.bundles[0].clone(),
        expiry: None,
        fee_intent: FeeIntent::AlreadyPaid,
        trigger: PROTOCOL,
        goal: ENSURE_BROADCAST,
    };
    book.retained.push(Retained {
        id: 1,
        live: None,
        set_aside: None,
        intent: intent_fingerprint(&first),
        base: first.bundle.clone(),
        fee: None,
        mark: NOT_REQUESTED,
        fee_intent: first.fee_intent.clone(),
        acknowledged: None,
        chain: ACTIVE,
        expiry: None,
    });
    let own = intent_of(&book.retained[0], PROTOCOL, ENSURE_BROADCAST);
    let mut foreign = own.clone();
    foreign.id = Some(1);
    foreign.expiry = Some(1);
    let mut new = own.clone();
    new.expiry = Some(2 + rng.below(3) as u64);
    book.queue = vec![own, foreign, new];
    if rng.chance(30) {
        book.next_token = u64::MAX - 1;
    }
    book
}
