//! Between plain data and the upstream types.

use crate::common::types::{
    Aggsig, Amount, CoinID, CoinSpend, CoinString, Hash, Program, ProgramRef, Puzzle, PuzzleHash,
    Spend, SpendBundle,
};
use crate::model;
use crate::session_phases::effects::{
    AttachmentFailurePolicy, SubmissionFeeIntent, TransactionSubmission,
};

use super::replay::access as replay_access;
use super::submission::access::{assemble, take_apart, Parts};
use super::submission::{
    DeliveryAttempt, DeliveryTrigger, PendingDelivery, PendingSubmissionIntent, SubmissionBook,
};
use super::{
    DurableFeeIntent, FeeResolution, SubmissionBroadcastVariant, SubmissionChainTerminality,
    SubmissionDeliveryGoal, SubmittedTx,
};

fn digest(bytes: &[u8]) -> model::Digest {
    bytes.try_into().expect("32 bytes")
}

fn to_spend(spend: &model::Spend) -> CoinSpend {
    let output = |output: &model::Output| {
        (PuzzleHash::from_bytes(output.puzzle_hash), Amount::new(output.amount))
    };
    CoinSpend {
        coin: CoinString::from_bytes(&spend.coin),
        bundle: Spend {
            puzzle: Puzzle(Program {
                digest: spend.digest,
                run: spend.run.as_ref().map(|run| run.iter().map(output).collect()),
            }),
            solution: ProgramRef,
            signature: Aggsig,
        },
    }
}

pub fn to_bundle(bundle: &model::Bundle) -> SpendBundle {
    SpendBundle { name: None, spends: bundle.iter().map(to_spend).collect() }
}

pub fn spends(spends: &[CoinSpend]) -> model::Bundle {
    let output = |(puzzle_hash, amount): &(PuzzleHash, Amount)| model::Output {
        puzzle_hash: digest(puzzle_hash.bytes()),
        amount: amount.to_u64(),
    };
    let spend = |spend: &CoinSpend| {
        let program = spend.bundle.puzzle.to_program();
        model::Spend {
            coin: spend.coin.to_bytes().to_vec(),
            digest: program.digest,
            run: program.run.map(|run| run.iter().map(output).collect()),
        }
    };
    spends.iter().map(spend).collect()
}

pub fn bundle(bundle: &SpendBundle) -> model::Bundle {
    spends(&bundle.spends)
}

fn to_fee_intent(intent: &model::FeeIntent) -> SubmissionFeeIntent {
    match intent {
        model::FeeIntent::AlreadyPaid => SubmissionFeeIntent::AlreadyPaid,
        model::FeeIntent::NoFeeConfigured => SubmissionFeeIntent::NoFeeConfigured,
        model::FeeIntent::Attach { target, amount } => SubmissionFeeIntent::Attach {
            target: CoinID::new(Hash::from_bytes(*target)),
            amount: Amount::new(*amount),
            attachment_failure_policy: AttachmentFailurePolicy::SubmitWithoutFee,
        },
    }
}

pub fn fee_intent(intent: &SubmissionFeeIntent) -> model::FeeIntent {
    match intent {
        SubmissionFeeIntent::AlreadyPaid => model::FeeIntent::AlreadyPaid,
        SubmissionFeeIntent::NoFeeConfigured => model::FeeIntent::NoFeeConfigured,
        SubmissionFeeIntent::Attach { target, amount, .. } => {
            model::FeeIntent::Attach { target: digest(target.bytes()), amount: amount.to_u64() }
        }
    }
}

pub(super) fn to_goal(goal: u8) -> SubmissionDeliveryGoal {
    match goal {
        model::ENSURE_BROADCAST => SubmissionDeliveryGoal::EnsureBroadcast,
        model::FEE_UPGRADE => SubmissionDeliveryGoal::FeeUpgrade,
        _ => panic!("no goal {goal}"),
    }
}

fn goal(goal: SubmissionDeliveryGoal) -> u8 {
    match goal {
        SubmissionDeliveryGoal::EnsureBroadcast => model::ENSURE_BROADCAST,
        SubmissionDeliveryGoal::FeeUpgrade => model::FEE_UPGRADE,
    }
}

pub(super) fn to_trigger(trigger: u8) -> DeliveryTrigger {
    match trigger {
        model::PROTOCOL => DeliveryTrigger::Protocol,
        model::FRESH_CHAIN => DeliveryTrigger::FreshChain,
        model::ROLLBACK => DeliveryTrigger::Rollback,
        model::PROVIDER_READINESS => DeliveryTrigger::ProviderReadiness,
        _ => panic!("no trigger {trigger}"),
    }
}

fn trigger(trigger: DeliveryTrigger) -> u8 {
    match trigger {
        DeliveryTrigger::Protocol => model::PROTOCOL,
        DeliveryTrigger::FreshChain => model::FRESH_CHAIN,
        DeliveryTrigger::Rollback => model::ROLLBACK,
        DeliveryTrigger::ProviderReadiness => model::PROVIDER_READINESS,
    }
}

fn to_attempt(attempt: &model::Attempt) -> DeliveryAttempt {
    DeliveryAttempt {
        token: attempt.token,
        goal: to_goal(attempt.goal),
        drained_variant_fingerprint: Hash::from_bytes(attempt.drained),
        finalized_variant_fingerprint: attempt.finalised.map(Hash::from_bytes),
    }
}

pub(super) fn attempt(attempt: &DeliveryAttempt) -> model::Attempt {
    model::Attempt {
        token: attempt.token,
        goal: goal(attempt.goal),
        drained: attempt.drained_variant_fingerprint.0,
        finalised: attempt.finalized_variant_fingerprint.as_ref().map(|hash| hash.0),
    }
}

fn to_durable(mark: u8, intent: SubmissionFeeIntent) -> DurableFeeIntent {
    let resolution = match mark {
        model::UNRESOLVED => return DurableFeeIntent::Unresolved(intent),
        model::NOT_REQUESTED => FeeResolution::NotRequested,
        model::ATTACHED => FeeResolution::Attached,
        _ => panic!("no durable mark {mark}"),
    };
    DurableFeeIntent::Resolved { intent, resolution }
}

pub(super) fn durable(intent: &DurableFeeIntent) -> (u8, model::FeeIntent) {
    match intent {
        DurableFeeIntent::Unresolved(intent) => (model::UNRESOLVED, fee_intent(intent)),
        DurableFeeIntent::Resolved { intent, resolution } => match resolution {
            FeeResolution::NotRequested => (model::NOT_REQUESTED, fee_intent(intent)),
            FeeResolution::Attached => (model::ATTACHED, fee_intent(intent)),
        },
    }
}

fn to_chain(chain: u8) -> SubmissionChainTerminality {
    match chain {
        model::ACTIVE => SubmissionChainTerminality::Active,
        model::INPUT_SPENT => SubmissionChainTerminality::InputSpent,
        model::LANDED => SubmissionChainTerminality::Landed,
        _ => panic!("no chain state {chain}"),
    }
}

pub(super) fn chain(chain: SubmissionChainTerminality) -> u8 {
    match chain {
        SubmissionChainTerminality::Active => model::ACTIVE,
        SubmissionChainTerminality::InputSpent => model::INPUT_SPENT,
        SubmissionChainTerminality::Landed => model::LANDED,
    }
}

fn to_retained(entry: &model::Retained) -> SubmittedTx {
    SubmittedTx {
        id: entry.id,
        active_attempt: entry.live.as_ref().map(to_attempt),
        completed_attempt: entry.set_aside.as_ref().map(to_attempt),
        intent_fingerprint: Hash::from_bytes(entry.intent),
        base_bundle: to_bundle(&entry.base),
        current_variant: match &entry.fee {
            None => SubmissionBroadcastVariant::Base,
            Some((bundle, applied_fee)) => SubmissionBroadcastVariant::FeeBearing {
                bundle: to_bundle(bundle),
                applied_fee: *applied_fee,
            },
        },
        fee_intent: to_durable(entry.mark, to_fee_intent(&entry.fee_intent)),
        wallet_acknowledged_variant: entry.acknowledged.map(Hash::from_bytes),
        chain_terminality: to_chain(entry.chain),
        expiry: entry.expiry,
    }
}

fn retained(entry: &SubmittedTx) -> model::Retained {
    let (mark, fee_intent) = durable(&entry.fee_intent);
    model::Retained {
        id: entry.id,
        live: entry.active_attempt.as_ref().map(attempt),
        set_aside: entry.completed_attempt.as_ref().map(attempt),
        intent: entry.intent_fingerprint.0,
        base: bundle(&entry.base_bundle),
        fee: match &entry.current_variant {
            SubmissionBroadcastVariant::Base => None,
            SubmissionBroadcastVariant::FeeBearing { bundle: fee_bundle, applied_fee } => {
                Some((bundle(fee_bundle), *applied_fee))
            }
        },
        mark,
        fee_intent,
        acknowledged: entry.wallet_acknowledged_variant.as_ref().map(|hash| hash.0),
        chain: chain(entry.chain_terminality),
        expiry: entry.expiry,
    }
}

pub(super) fn to_intent(entry: &model::Queued) -> PendingSubmissionIntent {
    PendingSubmissionIntent {
        id: entry.id,
        submission: TransactionSubmission::already_paid(to_bundle(&entry.bundle), entry.expiry),
        fee_intent: to_fee_intent(&entry.fee_intent),
    }
}

fn to_queued(entry: &model::Queued) -> PendingDelivery {
    PendingDelivery {
        intent: to_intent(entry),
        trigger: to_trigger(entry.trigger),
        goal: to_goal(entry.goal),
    }
}

fn queued(entry: &PendingDelivery) -> model::Queued {
    model::Queued {
        id: entry.intent.id,
        bundle: bundle(&entry.intent.submission.bundle),
        expiry: entry.intent.submission.expiry,
        fee_intent: fee_intent(&entry.intent.fee_intent),
        trigger: trigger(entry.trigger),
        goal: goal(entry.goal),
    }
}

pub(super) fn to_book(book: &model::Book) -> SubmissionBook {
    assemble(Parts {
        pending: book.queue.iter().map(to_queued).collect(),
        next_token: book.next_token,
        replay: replay_access::assemble(book.rollback, &book.replayed),
        submitted: book.retained.iter().map(to_retained).collect(),
        retired: book.retirements.clone(),
        next_id: book.next_id,
    })
}

pub(super) fn book(book: SubmissionBook) -> model::Book {
    let parts = take_apart(book);
    model::Book {
        next_token: parts.next_token,
        next_id: parts.next_id,
        retained: parts.submitted.iter().map(retained).collect(),
        queue: parts.pending.iter().map(queued).collect(),
        retirements: parts.retired,
        rollback: parts.replay.rollback_height(),
        replayed: replay_access::rising_ids(&parts.replay),
    }
}
