//! What happened in a call, in words: the rows of the coverage table.

use rust_book::archive;
use rust_book::call::{Answer, Call, Outcome};
use rust_book::door;
use rust_book::judge::{expected_outputs, Judge};
use rust_book::model::*;
use rust_book::sha256::sha256;

/// The rows that one call belongs to.
pub fn labels(call: &Call, before: &Book, outcome: &Outcome, after: &Book) -> Vec<String> {
    let mut rows = Rows(Vec::new());
    match outcome {
        Err(refusal) => refused(&mut rows, call, before, refusal.number, after),
        Ok(answer) => {
            rows.add("accepted");
            accepted(&mut rows, call, before, answer, after);
        }
    }
    rows.0
}

struct Rows(Vec<String>);

impl Rows {
    fn add(&mut self, row: impl Into<String>) {
        self.0.push(row.into());
    }

    fn add_if(&mut self, condition: bool, row: &str) {
        if condition {
            self.add(row);
        }
    }

    /// One of two rows.
    fn either(&mut self, condition: bool, yes: &str, no: &str) {
        self.add(if condition { yes } else { no });
    }
}

fn refused(rows: &mut Rows, call: &Call, before: &Book, number: u8, after: &Book) {
    rows.add(format!("refused {number}"));
    match (number, call) {
        (13, Call::ReadArchive { bytes }) => {
            let broken = archive::read(bytes).expect_err("refused 13");
            let how = if broken.cut_short { "cut short" } else { "breaks a rule" };
            rows.add(format!("13: {} {how}", broken.item));
            rows.add_if(bytes.len() == 65_536, "13: the longest bytes");
        }
        (2 | 3, _) => {
            let Err(turned) = door::enter(call) else {
                panic!("refused {number} behind the door");
            };
            rows.add(format!("{number}: {}", turned.why));
            precedence_rows(rows, call, before, number);
        }
        (7, Call::FinalizeAttempt { token, .. }) => {
            let entry = before.with_live(*token).expect("a live token");
            rows.either(consistent(entry), "7: unknown acknowledged", "7: mark and bundle at odds");
        }
        (10, Call::Drain) => drain_refused_10(rows, before),
        (11, Call::Drain) => {
            rows.add_if(after.next_token > before.next_token, "11: behind an issued token");
            rows.add_if(
                after.retained.len() > before.retained.len(),
                "11: a new one stays retained",
            );
            rows.add_if(after.retirements != before.retirements, "11: a removal stays");
            rows.add_if(changed_expiry(before, after), "11: an expiry stays");
        }
        _ => {}
    }
}

/// A refusal at the door where a later one would be due as well.
fn precedence_rows(rows: &mut Rows, call: &Call, before: &Book, number: u8) {
    rows.add_if(number == 2 && call.buffer() == Some(0), "2: before a 12");
    match call {
        Call::QueueRebroadcastEpoch { ids, trigger } if number == 2 && *trigger > 3 => {
            rows.add_if(ids.len() > MOST_IDS, "2: ids before a 3");
        }
        Call::ReconcileChainTerminality { observed, spent, reorg, ids }
            if number == 2 && *reorg > 1 =>
        {
            rows.add_if(door::coin_list(observed).is_err(), "2: coin list before a 3");
            rows.add_if(door::coin_ids(spent).is_err(), "2: coin ids before a 3");
            rows.add_if(ids.len() > MOST_IDS, "2: ids before a 3");
        }
        Call::FinalizeAttempt { token, .. } => {
            let unknown = before.with_live(*token).is_none() && *token >= before.next_token;
            rows.add_if(unknown, "3: before a 4");
        }
        Call::Queue { .. } => rows.add_if(before.queue.len() == MOST_QUEUED, "3: before a 10"),
        _ => {}
    }
}

/// Mark and fee bundle belong together, as `validate` has it.
fn consistent(entry: &Retained) -> bool {
    match (entry.mark, &entry.fee) {
        (UNRESOLVED, None) => matches!(entry.fee_intent, FeeIntent::Attach { .. }),
        (NOT_REQUESTED, None) | (ATTACHED, Some(_)) => true,
        _ => false,
    }
}

fn changed_expiry(before: &Book, after: &Book) -> bool {
    after.retained.iter().any(|entry| {
        let old = before.retained.iter().find(|old| old.id == entry.id);
        old.is_some_and(|old| old.expiry != entry.expiry && old.intent == entry.intent)
    })
}

/// The first prefix of the queue behind which a list is over-full.
fn drain_refused_10(rows: &mut Rows, before: &Book) {
    for candidates in 1..=before.queue.len() {
        let mut prefix = before.clone();
        prefix.queue.truncate(candidates);
        let mut judge = Judge::of(&prefix);
        let result = judge.drain();
        let after = judge.into_book();
        if !after.over_full() {
            continue;
        }
        rows.either(after.retained.len() > MOST_RETAINED, "10: retained", "10: retirements");
        rows.add_if(result == Err(11), "10: no token either");
        let mut whole = Judge::of(before);
        let ended = whole.drain();
        let end = whole.into_book();
        rows.add_if(!end.over_full(), "10: though the end would fit");
        rows.add_if(ended == Err(11) && result.is_ok(), "10: before an 11");
        return;
    }
}

fn accepted(rows: &mut Rows, call: &Call, before: &Book, answer: &Answer, after: &Book) {
    match answer {
        Answer::Drained(drained) => drained_rows(rows, before, drained, after),
        Answer::Finalised(finalised) => finalised_rows(rows, call, before, finalised.as_ref()),
        Answer::FeeIntent(intent) => rows.add(match intent {
            None => "none",
            Some(FeeIntent::AlreadyPaid) => "AlreadyPaid",
            Some(FeeIntent::NoFeeConfigured) => "NoFeeConfigured",
            Some(FeeIntent::Attach { .. }) => "Attach",
        }),
        Answer::Applied(applied) => status_rows(rows, call, before, *applied, after),
        Answer::Ids(ids) => {
            rows.either(ids.is_empty(), "no ids", "ids");
            rows.add_if(ids.len() > 1, "several ids");
        }
        Answer::Flag(flag) => rows.either(*flag, "true", "false"),
        Answer::Height(height) => rows.either(height.is_some(), "a height", "none"),
        Answer::Attempt(attempt) => rows.add(match attempt {
            None => "none",
            Some(attempt) if attempt.finalised.is_some() => "finalised",
            Some(_) => "not finalised",
        }),
        Answer::Look(look) => look_rows(rows, look.as_ref()),
        Answer::Summary(summary) => {
            rows.either(summary.retained > 0, "some retained", "none retained");
            rows.either(summary.queued > 0, "some queued", "none queued");
            rows.either(summary.retirements > 0, "some retired", "none retired");
            rows.either(summary.replayed > 0, "some replayed", "none replayed");
            rows.either(summary.rollback.is_some(), "a height", "no height");
        }
        Answer::Written(bytes) => {
            let room = call.buffer().expect("a lent buffer");
            rows.either(room == bytes.len(), "exact room", "room to spare");
            rows.add_if(bytes.len() == 57_694, "the longest archive");
            rows.add_if(room == 65_536, "the longest buffer");
        }
        Answer::Nothing => {}
    }
    call_rows(rows, call, before, after);
}

fn look_rows(rows: &mut Rows, look: Option<&Look>) {
    let Some(look) = look else {
        return rows.add("not retained");
    };
    rows.add(match look.chain {
        ACTIVE => "Active",
        INPUT_SPENT => "InputSpent",
        _ => "Landed",
    });
    rows.either(look.acknowledged, "acknowledged", "not acknowledged");
    rows.add(match look.mark {
        UNRESOLVED => "fee unresolved",
        NOT_REQUESTED => "no fee requested",
        _ => "fee attached",
    });
    rows.either(look.applied_fee > 0, "a fee applied", "no fee applied");
    rows.either(look.expiry.is_some(), "an expiry", "no expiry");
    rows.add(match (look.live, look.set_aside) {
        (None, None) => "no attempt",
        (Some(_), None) => "live",
        (None, Some(_)) => "set aside",
        (Some(_), Some(_)) => "both slots filled",
    });
}

/// Words of the Rust's failure messages, and the misses of paper 01's plan that they stand for.
const CAUSES: [(&str, &str); 7] = [
    ("no longer has retained", "id not retained"),
    ("fee intent that does not match", "fee intents differ"),
    ("invalid retained", "validate fails"),
    ("does not match its retained", "fingerprints differ"),
    ("collides with", "next id already retained"),
    ("expected outputs", "unreadable bundle"),
    ("is exhausted", "next id 2^64 - 1"),
];

fn drained_rows(rows: &mut Rows, before: &Book, drained: &Drained, after: &Book) {
    rows.add_if(before.queue.is_empty(), "empty queue");
    rows.add_if(!before.queue.is_empty() && drained.submissions.is_empty(), "nothing emitted");
    for emitted in &drained.submissions {
        rows.add(match emitted.relationship {
            0 => "Initial",
            1 => "Exact",
            2 => "NewerFeeBearing",
            _ => "Other",
        });
        let old = before.retained.iter().find(|entry| entry.id == emitted.id);
        rows.add(match emitted.fee_intent {
            FeeIntent::Attach { .. } => "emitted with a fee to attach",
            _ => "emitted without a fee to attach",
        });
        if let Some(old) = old {
            rows.add_if(old.live.is_some(), "a live attempt displaced");
            rows.add_if(old.live.is_none() && old.set_aside.is_some(), "a set-aside one displaced");
            rows.add_if(old.live.is_some() && old.set_aside.is_some(), "both slots filled");
            rows.add_if(old.fee.is_some(), "fee-bearing variant emitted");
        }
        let still = after.with_live(emitted.token).is_some();
        rows.add_if(!still, "emitted, then removed");
        rows.add_if(emitted.token == u64::MAX - 1, "the last token issued");
    }
    rows.add_if(drained.submissions.len() > 1, "several emitted");
    for failure in &drained.failures {
        rows.add(match failure.stage {
            0 => "Fingerprint",
            1 => "RetainedState",
            2 => "ExpectedOutputs",
            _ => "SubmissionId",
        });
        let cause = CAUSES.iter().find(|(words, _)| failure.message.contains(words));
        rows.add(format!("failure: {}", cause.expect("a known cause").1));
    }
    let removed = drained.failures.iter().filter(|failure| failure.retained.is_some());
    for failure in removed {
        let behind = &before.queue[failure.index as usize + 1..];
        rows.add_if(
            behind.iter().any(|entry| entry.id == failure.retained),
            "a removal drops a later candidate",
        );
        let replayed = before.replayed.iter().any(|id| Some(*id) == failure.retained);
        rows.add_if(replayed, "a removal drops a replayed id");
    }
    rows.add_if(drained.failures.len() > 1, "several failures");
    rows.add_if(after.retained.len() == MOST_RETAINED, "16 retained");
    rows.add_if(changed_expiry(before, after), "expiry made smaller");
    let issued = after.next_token - before.next_token;
    let new = before.next_id..after.next_id;
    let silent = |entry: &Retained| new.contains(&entry.id) && entry.live.is_none();
    rows.add_if(after.retained.iter().any(silent), "a new one not emitted: its id was");
    rows.add_if(after.next_id == u64::MAX && !new.is_empty(), "the last id issued");
    let tried = before.queue.len() - drained.failures.len();
    rows.add_if((issued as usize) < tried, "a candidate not emitted");
    for (index, entry) in before.queue.iter().enumerate() {
        not_emitted_rows(rows, before, drained, index, entry);
    }
}

/// Why a candidate with an id, the first of its id, was not emitted.
fn not_emitted_rows(
    rows: &mut Rows,
    before: &Book,
    drained: &Drained,
    index: usize,
    entry: &Queued,
) {
    let failed = drained.failures.iter().any(|failure| failure.index == index as u64);
    let Some(held) = before.retained.iter().find(|held| Some(held.id) == entry.id) else {
        return;
    };
    let first = before.queue[..index].iter().all(|other| other.id != entry.id);
    let emitted = drained.submissions.iter().any(|emitted| emitted.id == held.id);
    if failed || emitted || !first {
        rows.add_if(!failed && emitted && !first, "an id queued twice, emitted once");
        return;
    }
    rows.add(match (held.chain, entry.goal) {
        (ACTIVE, ENSURE_BROADCAST) => "not emitted: acknowledged",
        (ACTIVE, _) => "not emitted: fee resolved",
        (INPUT_SPENT, _) => "not emitted: InputSpent",
        _ => "not emitted: Landed",
    });
}

fn finalised_rows(rows: &mut Rows, call: &Call, before: &Book, finalised: Option<&Finalised>) {
    let Call::FinalizeAttempt { token, source, .. } = call else {
        unreachable!("finalise alone answers this");
    };
    let Some(finalised) = finalised else {
        return rows.add("none");
    };
    let entry = before.with_live(*token).expect("a live token");
    let goal = entry.live.as_ref().expect("live").goal;
    rows.add(match (finalised.disposition, *source) {
        (0, _) => "Attached",
        (1, 0) => "Unused: not provided",
        (1, 2) => "Unused: the join failed",
        (1, _) => "Unused: the wallet failed",
        _ => "NotRequested",
    });
    rows.either(finalised.warning, "warning", "no warning");
    rows.add(match (finalised.should_broadcast, goal) {
        (true, ENSURE_BROADCAST) => "to broadcast",
        (true, _) => "to broadcast, as the fee was attached",
        (false, ENSURE_BROADCAST) => "not to broadcast: acknowledged",
        (false, _) => "not to broadcast, goal FeeUpgrade",
    });
    let attached = finalised.disposition == 0;
    rows.add_if(attached && !readable(&finalised.bundle), "joined bundle unreadable");
    rows.add_if(attached && finalised.bundle == entry.base, "joined bundle is the base");
    rows.add_if(attached && finalised.applied_fee == 0, "attached fee 0");
    rows.add_if(entry.fee.is_some(), "fee-bearing already");
}

fn status_rows(rows: &mut Rows, call: &Call, before: &Book, applied: bool, after: &Book) {
    rows.either(applied, "Applied", "Stale");
    let (Call::AcknowledgeAttempt { token }
    | Call::StopAttempt { token }
    | Call::AbandonAttempt { token }
    | Call::RelinquishCompletedAttempt { token }) = call
    else {
        unreachable!("these four alone answer this");
    };
    let set_aside = before.slots().any(|attempt| attempt.token == *token);
    match before.with_live(*token) {
        Some(entry) => {
            rows.add_if(!applied, "Stale: live");
            rows.add_if(applied && entry.set_aside.is_some(), "both slots were filled");
            rows.add_if(after.retirements == before.retirements && applied, "no new retirement");
        }
        None if !applied => {
            rows.either(set_aside, "Stale: set aside", "Stale: gone");
        }
        None => {}
    }
}

/// Rows that show in the book.
fn call_rows(rows: &mut Rows, call: &Call, before: &Book, after: &Book) {
    let fewer_queued = after.queue.len() < before.queue.len();
    let more_queued = after.queue.len() > before.queue.len();
    match call {
        Call::Queue { id, .. } => rows.either(id.mark == 1, "with an id", "without an id"),
        Call::QueueRebroadcastEpoch { ids, .. } => {
            rows.either(more_queued, "queued", "nothing queued");
            let order: Vec<u64> =
                after.queue[before.queue.len()..].iter().filter_map(|entry| entry.id).collect();
            let retained: Vec<u64> = after.retained.iter().map(|entry| entry.id).collect();
            let place = |id: &u64| retained.iter().position(|held| held == id);
            rows.add_if(
                order.windows(2).any(|pair| place(&pair[0]) > place(&pair[1])),
                "in the list's order",
            );
            rows.add_if((1..ids.len()).any(|at| ids[..at].contains(&ids[at])), "repeated id");
            goal_rows(rows, before, after);
        }
        Call::QueueFeeReadiness => {
            rows.either(more_queued, "queued", "nothing queued");
            goal_rows(rows, before, after);
        }
        Call::QueueRetainedDelivery { id, trigger, goal } => {
            rows.add(delivery_row(before, *id, *trigger, *goal, more_queued));
        }
        Call::AcknowledgeAttempt { .. } => rows.add_if(fewer_queued, "queue entries dropped"),
        Call::AbandonAttempt { .. } | Call::RetainSubmitted { .. } => {
            rows.add_if(fewer_queued, "queue entries dropped");
            rows.add_if(after.replayed != before.replayed, "replayed ids dropped");
            let fewer = before.retained.len() - after.retained.len();
            let retired = after.retirements.len() - before.retirements.len();
            rows.add_if(retired < fewer, "an id retired already");
        }
        Call::EmitRetirement { .. } => {
            rows.either(after == before, "retired already", "retired");
        }
        Call::FinishReplayIfAdvanced { height } => rows.add(match before.rollback {
            None => "no height",
            Some(_) if after.rollback.is_none() => "cleared",
            Some(held) if held == *height => "kept at the height",
            Some(_) => "kept below the height",
        }),
        Call::BeginReplay { .. } => {
            rows.add_if(before.replayed != after.replayed, "replayed ids emptied");
        }
        Call::ReconcileChainTerminality { observed, spent, .. } => {
            report_rows(rows, before, after);
            landed_rows(rows, before, observed, spent, after);
        }
        Call::CollectRollbackReplayIds { ids } => {
            rows.add_if(after.replayed != before.replayed, "newly marked");
            let known = |entry: &Queued| entry.id.is_some_and(|id| before.replayed.contains(&id));
            let offered = &after.queue[before.queue.len()..];
            rows.add_if(offered.iter().any(known), "marked before, offered again");
            rows.either(more_queued, "queued", "nothing queued");
            let again = before.retained.iter().any(|entry| {
                entry.chain != ACTIVE
                    && ids.contains(&entry.id)
                    && !before.replayed.contains(&entry.id)
            });
            rows.add_if(again, "Active again");
            rows.add_if(
                before.rollback.is_none() && !after.replayed.is_empty(),
                "without a height",
            );
        }
        Call::ClearLocalArtifacts => {
            rows.either(before.retained.is_empty(), "nothing retained", "removed");
        }
        Call::RestoreRuntime => rows.either(after == before, "nothing live", "set aside"),
        Call::ReconciliationInputCoins { landed, .. } => {
            input_rows(rows, before, landed);
        }
        Call::AbsentOutputsForIds { ids, absent, .. } => {
            let coins = door::coin_list(absent).expect("accepted");
            let outputs = Judge::of(before).absent_outputs_for_ids(ids, &coins);
            rows.either(outputs.is_empty(), "no coins", "coins");
            let repeats = (1..outputs.len()).any(|at| outputs[..at].contains(&outputs[at]));
            rows.add_if(repeats, "a coin twice");
        }
        Call::Look { id } => {
            let entry = before.retained.iter().find(|entry| entry.id == *id);
            let stale = entry.is_some_and(|entry| {
                let look = Judge::of(before).look(*id).expect("retained");
                entry.acknowledged.is_some() && !look.acknowledged
            });
            rows.add_if(stale, "another variant acknowledged");
        }
        Call::CausallyRolledBackIds { absent, .. } => {
            let coins = door::coin_list(absent).expect("accepted");
            rolled_back_rows(rows, call, before, &coins);
        }
        _ => {}
    }
}

fn goal_rows(rows: &mut Rows, before: &Book, after: &Book) {
    for entry in &after.queue[before.queue.len()..] {
        rows.either(entry.goal == FEE_UPGRADE, "goal FeeUpgrade", "goal EnsureBroadcast");
    }
}

/// Why a retained delivery was queued or not, in the order of the Rust.
fn delivery_row(before: &Book, id: u64, trigger: u8, goal: u8, queued: bool) -> &'static str {
    let Some(entry) = before.retained.iter().find(|entry| entry.id == id) else {
        return "not retained";
    };
    if queued {
        return match (&entry.live, goal) {
            (Some(_), _) => "queued, with a live attempt",
            (None, ENSURE_BROADCAST) => "queued",
            (None, _) => "queued for FeeUpgrade",
        };
    }
    if before.queue.iter().any(|other| other.id == Some(id)) {
        return "queued already";
    }
    if entry.chain != ACTIVE {
        return "not Active";
    }
    let fresh = matches!(trigger, FRESH_CHAIN | PROVIDER_READINESS);
    let in_flight = entry.live.as_ref().is_some_and(|live| live.finalised.is_none());
    if fresh && entry.mark == UNRESOLVED && in_flight {
        return "approval in flight";
    }
    if trigger == PROTOCOL && entry.live.is_some() {
        return "Protocol with a live attempt";
    }
    "FeeUpgrade without an unresolved fee"
}

fn report_rows(rows: &mut Rows, before: &Book, after: &Book) {
    rows.add_if(before == after, "nothing changed");
    for (old, new) in before.retained.iter().zip(&after.retained) {
        rows.add(match (old.chain, new.chain) {
            (ACTIVE, ACTIVE) => "Active stays",
            (ACTIVE, INPUT_SPENT) => "Active to InputSpent",
            (ACTIVE, _) => "Active to Landed",
            (INPUT_SPENT, ACTIVE) => "InputSpent to Active",
            (INPUT_SPENT, INPUT_SPENT) => "InputSpent stays",
            (INPUT_SPENT, _) => "InputSpent to Landed",
            (_, ACTIVE) => "Landed to Active",
            (_, INPUT_SPENT) => "Landed to InputSpent",
            _ => "Landed stays",
        });
        rows.add_if(old.live.is_some() && new.live.is_none(), "live set aside");
        rows.add_if(
            old.live.is_some() && old.set_aside.is_some() && new.live.is_none(),
            "both slots were filled",
        );
    }
    rows.add_if(after.queue.len() < before.queue.len(), "queue entries dropped");
    rows.add_if(after.replayed != before.replayed, "replayed ids dropped");
    let new = after.retirements.len() - before.retirements.len();
    rows.add_if(new > 1, "several retired");
    let rising =
        after.retirements[before.retirements.len()..].windows(2).all(|pair| pair[0] < pair[1]);
    rows.add_if(!rising, "retired in retained order, not rising");
}

/// Landed, no output observed, an input spent: what a reorg decides.
fn landed_rows(rows: &mut Rows, before: &Book, observed: &[u8], spent: &[u8], after: &Book) {
    let observed = door::coin_list(observed).expect("accepted");
    let spent = door::coin_ids(spent).expect("accepted");
    for (old, new) in before.retained.iter().zip(&after.retained) {
        let outputs = expected_outputs(&old.base);
        let seen = outputs.iter().any(|coin| observed.contains(coin));
        let gone = old.base.iter().any(|spend| spent.contains(&sha256(&spend.coin)));
        if old.chain == LANDED && !seen && gone {
            rows.either(new.chain == LANDED, "input spent, no reorg", "input spent, reorg");
        }
        rows.add_if(seen && gone, "output observed and input spent");
    }
}

fn input_rows(rows: &mut Rows, before: &Book, landed: &[u8]) {
    let kept = door::coin_list(landed).expect("accepted");
    let inputs = Judge::of(before).reconciliation_input_coins(&kept);
    rows.either(inputs.is_empty(), "no coins", "coins");
    let spends: usize = before.retained.iter().map(|entry| entry.base.len()).sum();
    rows.add_if(inputs.len() > 1 && inputs.len() < spends, "fewer coins than spends");
    for entry in before.retained.iter().filter(|entry| entry.chain == LANDED) {
        let outputs = expected_outputs(&entry.base);
        let held = outputs.iter().any(|coin| kept.contains(coin));
        rows.either(held, "a landed one kept", "a landed one left out");
    }
}

fn rolled_back_rows(rows: &mut Rows, call: &Call, before: &Book, absent: &[Vec<u8>]) {
    let Call::CausallyRolledBackIds { live_inputs, .. } = call else {
        return;
    };
    let inputs = door::coin_ids(live_inputs).expect("accepted");
    let answered = Judge::of(before).causally_rolled_back_ids(absent, &inputs);
    for entry in &before.retained {
        let outputs = expected_outputs(&entry.base);
        let gone = outputs.iter().any(|coin| absent.contains(coin));
        let inside = entry.base.iter().any(|spend| outputs.contains(&spend.coin));
        let yes = answered.contains(&entry.id);
        rows.add(match (entry.chain, yes) {
            (ACTIVE, _) => "Active left out",
            (INPUT_SPENT, true) => "InputSpent rolled back",
            (INPUT_SPENT, false) => "InputSpent with an input not live",
            (_, true) => "Landed rolled back",
            (_, false) if gone => "Landed with an input not live",
            _ => "Landed with no output absent",
        });
        rows.add_if(yes && inside, "rolled back with a coin spent inside");
    }
}
