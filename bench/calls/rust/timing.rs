//! The upstream methods, timed on books and arguments that are made before the clock starts.

use std::collections::HashSet;
use std::hint::black_box;

use crate::case::Case;
use crate::common::types::{CoinID, CoinString, Hash};
use crate::{archive, door, model};

use super::replay::access as replay_access;
use super::submission::access::{assemble, Parts};
use super::submission::SubmissionBook;
use super::{plain, SubmissionFeeSource};

type Clock = fn() -> f64;

/// Seconds for the call, once on each book. Answers are dropped behind the clock.
fn each<T>(books: &mut [SubmissionBook], now: Clock, mut call: impl FnMut(&mut SubmissionBook) -> T) -> f64 {
    let mut answers = Vec::with_capacity(books.len());
    let start = now();
    for book in books {
        answers.push(call(black_box(book)));
    }
    let seconds = now() - start;
    black_box(&answers);
    seconds
}

/// The same, with an argument that each call takes over.
fn each_with<A: Clone, T>(
    books: &mut [SubmissionBook],
    now: Clock,
    argument: A,
    mut call: impl FnMut(&mut SubmissionBook, A) -> T,
) -> f64 {
    let mut arguments = vec![argument; books.len()].into_iter();
    each(books, now, |book| call(book, arguments.next().expect("one for each book")))
}

fn coins(list: &[u8]) -> HashSet<CoinString> {
    let coins = door::coin_list(list).expect("a coin list");
    coins.iter().map(|coin| CoinString::from_bytes(coin)).collect()
}

fn coin_ids(ids: &[u8]) -> HashSet<CoinID> {
    let id = |id: &[u8]| CoinID::new(Hash::from_slice(id).expect("32 bytes"));
    ids.chunks_exact(32).map(id).collect()
}

fn opened() -> SubmissionBook {
    assemble(Parts {
        pending: Vec::new(),
        next_token: 5,
        replay: replay_access::assemble(None, &[]),
        submitted: Vec::new(),
        retired: Vec::new(),
        next_id: 1,
    })
}

fn queued(delivery: &[u8]) -> model::Queued {
    let mut holder = archive::write(&model::Book::open(0, 0));
    // The empty book's archive with this one queue entry.
    holder.splice(18..19, [1].into_iter().chain(delivery.iter().copied()));
    archive::read(&holder).expect("a delivery").queue.remove(0)
}

fn by_token(case: &Case, books: &mut [SubmissionBook], now: Clock) -> Option<f64> {
    let token = case.number;
    Some(match case.call {
        "finalize_attempt" => {
            let joined = archive::Reader::new(&case.bytes).bundle().expect("a bundle");
            let additional = Hash::default();
            each_with(books, now, plain::to_bundle(&joined), |book, joined| {
                book.finalize_attempt(token, SubmissionFeeSource::Available(joined), &additional, 0)
            })
        }
        "fee_intent_for_attempt" => each(books, now, |book| book.fee_intent_for_attempt(token)),
        "acknowledge_attempt" => each(books, now, |book| book.acknowledge_attempt(token)),
        "stop_attempt" => each(books, now, |book| book.stop_attempt(token)),
        "abandon_attempt" => each(books, now, |book| book.abandon_attempt(token)),
        "relinquish_completed_attempt" => each(books, now, |book| book.relinquish_completed_attempt(token)),
        "attempt" => each(books, now, |book| book.attempt(token).cloned()),
        _ => return None,
    })
}

fn of_queue(case: &Case, books: &mut [SubmissionBook], now: Clock) -> Option<f64> {
    let [trigger, goal] = case.kinds;
    Some(match case.call {
        "queue" => {
            let entry = queued(&case.bytes);
            let (trigger, goal) = (plain::to_trigger(entry.trigger), plain::to_goal(entry.goal));
            each_with(books, now, plain::to_intent(&entry), |book, intent| book.queue(intent, trigger, goal))
        }
        "queue_rebroadcast_epoch" => {
            let trigger = plain::to_trigger(trigger);
            each(books, now, |book| book.queue_rebroadcast_epoch(&case.ids, trigger))
        }
        "queue_fee_readiness" => each(books, now, |book| book.queue_fee_readiness()),
        "queue_retained_delivery" => {
            let (trigger, goal) = (plain::to_trigger(trigger), plain::to_goal(goal));
            each(books, now, |book| book.queue_retained_delivery(case.number, trigger, goal))
        }
        "drain" => each(books, now, |book| book.drain()),
        _ => return None,
    })
}

fn of_chain(case: &Case, books: &mut [SubmissionBook], now: Clock) -> Option<f64> {
    let ids: HashSet<u64> = case.ids.iter().copied().collect();
    Some(match case.call {
        "reconciliation_input_coins" => {
            let outputs = coins(&case.bytes);
            each(books, now, |book| book.reconciliation_input_coins(|coin| outputs.contains(coin)))
        }
        "reconcile_chain_terminality" => {
            let (observed, spent) = (coins(&case.bytes), coin_ids(&case.more));
            let reorg = case.kinds[0] == 1;
            each(books, now, |book| book.reconcile_chain_terminality(&observed, &spent, reorg, &ids))
        }
        "causally_rolled_back_ids" => {
            let (absent, inputs) = (coins(&case.bytes), coin_ids(&case.more));
            each(books, now, |book| book.causally_rolled_back_ids(&absent, &inputs))
        }
        "absent_outputs_for_ids" => {
            let absent = coins(&case.bytes);
            each(books, now, |book| book.absent_outputs_for_ids(&ids, &absent))
        }
        "collect_rollback_replay_ids" => each(books, now, |book| book.collect_rollback_replay_ids(&ids)),
        _ => return None,
    })
}

fn others(case: &Case, books: &mut [SubmissionBook], now: Clock) -> f64 {
    match case.call {
        "open" => each(books, now, |book| *book = opened()),
        "retain_submitted" => each(books, now, |book| book.retain_submitted(|tx| !case.ids.contains(&tx.id))),
        "emit_retirement" => each(books, now, |book| book.emit_retirement(case.number)),
        "drain_retirements" => each(books, now, |book| book.drain_retirements()),
        "active_ids" => each(books, now, |book| book.active_ids()),
        "begin_replay" => each(books, now, |book| book.begin_replay(case.number)),
        "finish_replay_if_advanced" => each(books, now, |book| book.finish_replay_if_advanced(case.number)),
        "replay_rollback_height" => each(books, now, |book| book.replay_rollback_height()),
        "clear_local_artifacts" => each(books, now, |book| book.clear_local_artifacts()),
        "restore_runtime" => each(books, now, |book| book.restore_runtime()),
        other => panic!("no call {other}"),
    }
}

fn run(case: &Case, books: &mut [SubmissionBook], now: Clock) -> f64 {
    by_token(case, books, now)
        .or_else(|| of_queue(case, books, now))
        .or_else(|| of_chain(case, books, now))
        .unwrap_or_else(|| others(case, books, now))
}

fn books(case: &Case, copies: usize) -> Vec<SubmissionBook> {
    let book = archive::read(&case.book).expect("an archive");
    (0..copies).map(|_| plain::to_book(&book)).collect()
}

/// Seconds for the call, once on each of so many books.
pub fn seconds(case: &Case, copies: usize, now: Clock) -> f64 {
    run(case, &mut books(case, copies), now)
}

/// The archive of the book that the call leaves.
pub fn left(case: &Case) -> Vec<u8> {
    let mut books = books(case, 1);
    run(case, &mut books, || 0.0);
    archive::write(&plain::book(books.remove(0)))
}
