//! Claims of paper 01 held against what the Rust did, call by call, apart from the comparison.

use rust_book::archive;
use rust_book::call::{Answer, Call, Outcome};
use rust_book::door;
use rust_book::judge::{variant_fingerprint, Judge};
use rust_book::model::*;
use rust_book::rules;
use rust_book::sound;

/// The first claim that does not hold.
pub fn broken_claim(
    call: &Call,
    before: &Book,
    outcome: &Outcome,
    after: &Book,
) -> Option<&'static str> {
    if sound::broken_rule(after).is_some() {
        return Some("every call leaves a sound book");
    }
    let bytes = archive::write(after);
    if bytes.len() > 57_694 || archive::read(&bytes).as_ref() != Ok(after) {
        return Some("an archive has at most 57,694 bytes and reads back");
    }
    if outcome.as_ref().is_err_and(|refusal| refusal.number != 11) && before != after {
        return Some("a refused call leaves the book");
    }
    if outcome.as_ref().err().map_or(0, |refusal| refusal.number) != expected_refusal(before, call)
    {
        return Some("refusals 4 to 9 come in the table's order");
    }
    match (call, outcome) {
        (Call::Drain, Ok(Answer::Drained(drained))) => drain_claim(before, drained, after),
        (Call::Drain, Err(refusal)) if refusal.number == 11 => {
            let empty = after.queue.is_empty() && after.next_token == u64::MAX;
            (!empty).then_some("a drain refused 11 empties the queue")
        }
        (Call::StopAttempt { .. }, Ok(Answer::Applied(true))) => stop_claim(before, after),
        (Call::Look { id }, outcome) => look_claim(before, *id, outcome, after),
        (Call::Summary, outcome) => summary_claim(before, outcome, after),
        (Call::QueueRebroadcastEpoch { ids, trigger }, _) if door::enter(call).is_ok() => {
            by_single_ids(before, ids, *trigger, outcome, after)
        }
        _ => None,
    }
}

/// Refusals 4 to 9 read off the table; what is decided elsewhere is taken from the call itself.
fn expected_refusal(before: &Book, call: &Call) -> u8 {
    let other = || {
        let mut copy = before.clone();
        rules::make(&mut copy, call).err().map_or(0, |refusal| refusal.number)
    };
    if door::enter(call).is_err() {
        return other();
    }
    let live = |token: u64| before.with_live(token);
    match call {
        Call::FinalizeAttempt { token, source, .. } => match live(*token) {
            None if *token >= before.next_token => 4,
            None => 0,
            Some(entry) => finalise_refusal(entry, *source),
        },
        Call::AcknowledgeAttempt { token } => match live(*token) {
            None if *token >= before.next_token => 4,
            None => 0,
            Some(entry) => match entry.live.as_ref().and_then(|live| live.finalised) {
                None => 6,
                Some(resolved) if resolved != current(entry) => 8,
                Some(_) => 0,
            },
        },
        Call::FeeIntentForAttempt { token } | Call::StopAttempt { token } => {
            if live(*token).is_none() && *token >= before.next_token {
                4
            } else {
                0
            }
        }
        Call::AbandonAttempt { token } if live(*token).is_none() => {
            if *token >= before.next_token {
                4
            } else {
                0
            }
        }
        Call::RelinquishCompletedAttempt { token } => {
            let set_aside = before.retained.iter().any(|entry| {
                entry.set_aside.as_ref().is_some_and(|attempt| attempt.token == *token)
            });
            if !set_aside && *token >= before.next_token {
                4
            } else {
                0
            }
        }
        _ => other(),
    }
}

fn current(entry: &Retained) -> Digest {
    variant_fingerprint(entry.fee.as_ref().map_or(&entry.base, |(bundle, _)| bundle))
}

fn finalise_refusal(entry: &Retained, source: u8) -> u8 {
    let live = entry.live.as_ref().expect("live");
    let together = match (entry.mark, &entry.fee) {
        (UNRESOLVED, None) => matches!(entry.fee_intent, FeeIntent::Attach { .. }),
        (NOT_REQUESTED, None) | (ATTACHED, Some(_)) => true,
        _ => false,
    };
    let known = entry.acknowledged.is_none_or(|acknowledged| {
        acknowledged == variant_fingerprint(&entry.base) || acknowledged == current(entry)
    });
    if live.finalised.is_some() {
        5
    } else if !together || !known {
        7
    } else if live.drained != current(entry) {
        8
    } else if entry.mark != UNRESOLVED && source != 0 {
        9
    } else {
        0
    }
}

/// Tokens run upward by one; what was emitted and not removed later holds its token as live.
fn drain_claim(before: &Book, drained: &Drained, after: &Book) -> Option<&'static str> {
    for (index, emitted) in drained.submissions.iter().enumerate() {
        let token = before.next_token + index as u64;
        if emitted.token != token {
            return Some("tokens run upward by one from the old next token");
        }
        let held = after.retained.iter().find(|entry| entry.id == emitted.id);
        let removed = drained.failures.iter().any(|failure| failure.retained == Some(emitted.id));
        let live = held.and_then(|entry| entry.live.as_ref());
        if !removed && live.map(|attempt| attempt.token) != Some(token) {
            return Some("an emitted submission holds its token as live");
        }
    }
    let issued = after.next_token - before.next_token;
    if issued != drained.submissions.len() as u64 || !after.queue.is_empty() {
        return Some("next token counts the issues, and the queue is empty");
    }
    None
}

/// Stopping changes the two slots of one submission and nothing else.
fn stop_claim(before: &Book, after: &Book) -> Option<&'static str> {
    let mut restored = after.clone();
    let mut changed = 0;
    for (old, new) in before.retained.iter().zip(&mut restored.retained) {
        if old.live != new.live || old.set_aside != new.set_aside {
            changed += 1;
            new.live = old.live.clone();
            new.set_aside = old.set_aside.clone();
        }
    }
    (restored != *before || changed != 1).then_some("stopping changes the two slots alone")
}

/// A look tells what the archive has of the id, and changes nothing.
fn look_claim(before: &Book, id: u64, outcome: &Outcome, after: &Book) -> Option<&'static str> {
    let entry = before.retained.iter().find(|entry| entry.id == id);
    let look = entry.map(|entry| Look {
        chain: entry.chain,
        acknowledged: entry.acknowledged == Some(current(entry)),
        mark: entry.mark,
        applied_fee: entry.fee.as_ref().map_or(0, |(_, applied)| *applied),
        expiry: entry.expiry,
        live: entry.live.as_ref().map(|attempt| attempt.token),
        set_aside: entry.set_aside.as_ref().map(|attempt| attempt.token),
    });
    let told = *outcome == Ok(Answer::Look(look)) && before == after;
    (!told).then_some("a look tells what the book holds")
}

/// A summary counts what the archive has, and changes nothing.
fn summary_claim(before: &Book, outcome: &Outcome, after: &Book) -> Option<&'static str> {
    let summary = Summary {
        next_token: before.next_token,
        next_id: before.next_id,
        retained: before.retained.len() as u64,
        queued: before.queue.len() as u64,
        retirements: before.retirements.len() as u64,
        replayed: before.replayed.len() as u64,
        rollback: before.rollback,
    };
    let told = *outcome == Ok(Answer::Summary(summary)) && before == after;
    (!told).then_some("a summary counts what the book holds")
}

/// A rebroadcast is its ids one by one.
fn by_single_ids(
    before: &Book,
    ids: &[u64],
    trigger: u8,
    outcome: &Outcome,
    after: &Book,
) -> Option<&'static str> {
    let mut book = before.clone();
    let mut full = false;
    for id in ids {
        let mut judge = Judge::of(&book);
        judge.queue_rebroadcast_epoch(&[*id], trigger).expect("never fails");
        book = judge.into_book();
        full |= book.over_full();
    }
    let agrees = match outcome {
        Ok(_) => !full && book == *after,
        Err(refusal) => full && refusal.number == 10,
    };
    (!agrees).then_some("a rebroadcast goes id by id")
}
