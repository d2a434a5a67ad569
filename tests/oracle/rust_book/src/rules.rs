//! One call on a book: the door, the upstream method, the limits.
//!
//! Refusal 10 by the step rule of paper 01: a call is refused exactly if after some step of the
//! unlimited rules retained, queue or retirements exceed their limit. The upstream methods are
//! the unlimited rules. In every call but drain a list that grows never shrinks again in that
//! call, so the lists are longest at its end, and the end is looked at. A drain both removes and
//! retains; it is run once for each prefix of the queue, which gives the book after each
//! candidate: what a candidate does depends on no candidate behind it.

use crate::archive;
use crate::call::{Answer, Call, Outcome, Refusal};
use crate::door::{self, Entered};
use crate::model::{Book, Drained};
use crate::sound;
use crate::transaction_manager::judge::Judge;

/// Makes the call. The book changes where paper 01 says so: on acceptance and on refusal 11.
pub fn make(book: &mut Book, call: &Call) -> Outcome {
    match answer(book, call) {
        Err(refusal) if refusal.number == 11 => {
            *book = drained_until_spent(book);
            Err(refusal)
        }
        Err(refusal) => Err(refusal),
        Ok((after, answer)) => {
            let fits = match (&answer, call.buffer()) {
                (Answer::Written(bytes), Some(room)) => bytes.len() <= room,
                _ => true,
            };
            if !fits {
                return Err(12.into());
            }
            *book = after;
            Ok(answer)
        }
    }
}

/// Runs the upstream method on a copy; 10 if the copy then exceeds a limit.
fn changed<T>(book: &Book, run: impl FnOnce(&mut Judge) -> Result<T, u8>) -> Result<(Book, T), u8> {
    let mut judge = Judge::of(book);
    let result = run(&mut judge)?;
    let after = judge.into_book();
    if after.over_full() {
        return Err(10);
    }
    Ok((after, result))
}

/// A query: nothing changes.
fn asked(
    book: &Book,
    answer: impl FnOnce(&Judge) -> Result<Answer, u8>,
) -> Result<(Book, Answer), u8> {
    let answer = answer(&Judge::of(book))?;
    Ok((book.clone(), answer))
}

fn drain(book: &Book) -> Result<(Book, Drained), u8> {
    for candidates in 0..book.queue.len() {
        let mut prefix = book.clone();
        prefix.queue.truncate(candidates);
        let mut judge = Judge::of(&prefix);
        let result = judge.drain();
        if judge.into_book().over_full() {
            return Err(10);
        }
        result?;
    }
    let mut judge = Judge::of(book);
    let result = judge.drain();
    let after = judge.into_book();
    if after.over_full() {
        return Err(10);
    }
    Ok((after, result?))
}

/// The book that a drain refused 11 leaves.
fn drained_until_spent(book: &Book) -> Book {
    let mut judge = Judge::of(book);
    assert_eq!(judge.drain(), Err(11));
    judge.into_book()
}

fn answer(book: &Book, call: &Call) -> Result<(Book, Answer), Refusal> {
    if let Call::ReadArchive { bytes } = call {
        let read = archive::read(bytes)
            .map_err(|broken| Refusal { number: 13, place: Some(broken.place as u64) })?;
        return Ok((read, Answer::Nothing));
    }
    let entered = door::enter(call).map_err(|turned| Refusal::from(turned.number))?;
    let result = match entered {
        Entered::NothingToCheck => plain_call(book, call),
        entered => checked_call(book, call, entered),
    };
    result.map_err(Refusal::from)
}

fn with<T>(answer: impl FnOnce(T) -> Answer) -> impl FnOnce((Book, T)) -> (Book, Answer) {
    |(after, result)| (after, answer(result))
}

fn nothing((after, ()): (Book, ())) -> (Book, Answer) {
    (after, Answer::Nothing)
}

/// The calls whose arguments passed a check at the door.
fn checked_call(book: &Book, call: &Call, entered: Entered) -> Result<(Book, Answer), u8> {
    match (call, entered) {
        (Call::Queue { .. }, Entered::Queue(entry)) => {
            changed(book, |judge| Ok(judge.queue(&entry))).map(nothing)
        }
        (_, Entered::Rebroadcast { ids, trigger }) => {
            changed(book, |judge| judge.queue_rebroadcast_epoch(&ids, trigger)).map(nothing)
        }
        (Call::QueueRetainedDelivery { id, .. }, Entered::Delivery { trigger, goal }) => {
            changed(book, |judge| Ok(judge.queue_retained_delivery(*id, trigger, goal)))
                .map(nothing)
        }
        (Call::FinalizeAttempt { token, .. }, Entered::Finalise(source)) => {
            changed(book, |judge| judge.finalize_attempt(*token, &source))
                .map(with(Answer::Finalised))
        }
        (Call::RetainSubmitted { .. }, Entered::Ids(ids)) => {
            changed(book, |judge| Ok(judge.retain_submitted(&ids))).map(with(Answer::Ids))
        }
        (Call::CollectRollbackReplayIds { .. }, Entered::Ids(ids)) => {
            changed(book, |judge| Ok(judge.collect_rollback_replay_ids(&ids))).map(nothing)
        }
        (_, Entered::Report { observed, spent, reorg, ids }) => changed(book, |judge| {
            Ok(judge.reconcile_chain_terminality(&observed, &spent, reorg, &ids))
        })
        .map(nothing),
        (_, Entered::CoinsAndInputs { coins, inputs }) => {
            asked(book, |judge| Ok(Answer::Ids(judge.causally_rolled_back_ids(&coins, &inputs))))
        }
        (_, Entered::CoinsAndIds { coins, ids }) => {
            asked(book, |judge| Ok(written(&judge.absent_outputs_for_ids(&ids, &coins))))
        }
        (_, Entered::Coins(coins)) => {
            asked(book, |judge| Ok(written(&judge.reconciliation_input_coins(&coins))))
        }
        _ => unreachable!("the door gives each call its own arguments"),
    }
}

fn written(coins: &[Vec<u8>]) -> Answer {
    Answer::Written(door::write_coin_list(coins))
}

/// The calls whose arguments can be anything.
fn plain_call(book: &Book, call: &Call) -> Result<(Book, Answer), u8> {
    match call {
        Call::QueueFeeReadiness => changed(book, Judge::queue_fee_readiness).map(nothing),
        Call::Drain => drain(book).map(with(Answer::Drained)),
        Call::FeeIntentForAttempt { token } => {
            asked(book, |judge| judge.fee_intent_for_attempt(*token).map(Answer::FeeIntent))
        }
        Call::AcknowledgeAttempt { token } => {
            changed(book, |judge| judge.acknowledge_attempt(*token)).map(with(Answer::Applied))
        }
        Call::StopAttempt { token } => {
            changed(book, |judge| judge.stop_attempt(*token)).map(with(Answer::Applied))
        }
        Call::AbandonAttempt { token } => {
            changed(book, |judge| judge.abandon_attempt(*token)).map(with(Answer::Applied))
        }
        Call::RelinquishCompletedAttempt { token } => {
            changed(book, |judge| judge.relinquish_completed_attempt(*token))
                .map(with(Answer::Applied))
        }
        Call::Attempt { token } => asked(book, |judge| Ok(Answer::Attempt(judge.attempt(*token)))),
        Call::Look { id } => asked(book, |judge| Ok(Answer::Look(judge.look(*id)))),
        Call::Summary => asked(book, |judge| Ok(Answer::Summary(judge.summary()))),
        Call::EmitRetirement { id } => {
            changed(book, |judge| Ok(judge.emit_retirement(*id))).map(nothing)
        }
        Call::DrainRetirements => {
            changed(book, |judge| Ok(judge.drain_retirements())).map(with(Answer::Ids))
        }
        Call::ActiveIds => asked(book, |judge| Ok(Answer::Ids(judge.active_ids()))),
        Call::BeginReplay { height } => {
            changed(book, |judge| Ok(judge.begin_replay(*height))).map(with(Answer::Flag))
        }
        Call::FinishReplayIfAdvanced { height } => {
            changed(book, |judge| Ok(judge.finish_replay_if_advanced(*height))).map(nothing)
        }
        Call::ReplayRollbackHeight => {
            asked(book, |judge| Ok(Answer::Height(judge.replay_rollback_height())))
        }
        Call::ClearLocalArtifacts => {
            changed(book, |judge| Ok(judge.clear_local_artifacts())).map(nothing)
        }
        Call::RestoreRuntime => changed(book, |judge| Ok(judge.restore_runtime())).map(nothing),
        Call::WriteArchive { .. } => Ok((book.clone(), Answer::Written(archive::write(book)))),
        Call::Sound => {
            let sound = sound::broken_rule(book).is_none();
            Ok((book.clone(), Answer::Flag(sound)))
        }
        _ => unreachable!("every other call has a check at the door"),
    }
}
