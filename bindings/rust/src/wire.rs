//! Arguments as the library reads them. Numbers are big-endian, and a count, kind or mark is one
//! byte; the forms are those of the archive.
//!
//! A count that its byte cannot hold is written as 255 (a list's as 65,535), which is over every
//! limit, so the library refuses the value as it refuses every other one over its limit. Nothing is
//! cut off to make a value fit.

use crate::coin::{CoinID, CoinString, Hash32};
use crate::submission::*;

pub fn trigger_number(trigger: DeliveryTrigger) -> u8 {
    match trigger {
        DeliveryTrigger::Protocol => 0,
        DeliveryTrigger::FreshChain => 1,
        DeliveryTrigger::Rollback => 2,
        DeliveryTrigger::ProviderReadiness => 3,
    }
}

pub fn goal_number(goal: SubmissionDeliveryGoal) -> u8 {
    match goal {
        SubmissionDeliveryGoal::EnsureBroadcast => 0,
        SubmissionDeliveryGoal::FeeUpgrade => 1,
    }
}

/// The source's number, and the joined bundle, which only one of them has.
pub fn source(source: &SubmissionFeeSource) -> (u8, Vec<u8>) {
    let mut joined = Vec::new();
    let number = match source {
        SubmissionFeeSource::NotRequested => 0,
        SubmissionFeeSource::Joined(bundle) => {
            put_bundle(&mut joined, bundle);
            1
        }
        SubmissionFeeSource::JoinFailed => 2,
        SubmissionFeeSource::Failed => 3,
    };
    (number, joined)
}

pub fn count(length: usize) -> u8 {
    u8::try_from(length).unwrap_or(u8::MAX)
}

pub fn put_number(out: &mut Vec<u8>, number: u64) {
    out.extend(number.to_be_bytes());
}

pub fn put_optional(out: &mut Vec<u8>, number: Option<u64>) {
    out.push(u8::from(number.is_some()));
    number.into_iter().for_each(|n| put_number(out, n));
}

pub fn put_optional_hash(out: &mut Vec<u8>, hash: Option<Hash32>) {
    out.push(u8::from(hash.is_some()));
    hash.into_iter().for_each(|hash| out.extend(hash.0));
}

fn put_coin(out: &mut Vec<u8>, coin: &CoinString) {
    out.push(count(coin.to_bytes().len()));
    out.extend(coin.to_bytes());
}

fn put_run(out: &mut Vec<u8>, run: &Run) {
    let Run::Outputs(outputs) = run else {
        return out.push(0);
    };
    out.push(1);
    out.push(count(outputs.len()));
    for output in outputs {
        out.extend(output.puzzle_hash.0);
        put_number(out, output.amount);
    }
}

pub fn put_bundle(out: &mut Vec<u8>, bundle: &SpendBundle) {
    out.push(count(bundle.spends.len()));
    for spend in &bundle.spends {
        put_coin(out, &spend.coin);
        out.extend(spend.digest.0);
        put_run(out, &spend.run);
    }
}

pub fn put_fee_intent(out: &mut Vec<u8>, fee_intent: &SubmissionFeeIntent) {
    match fee_intent {
        SubmissionFeeIntent::AlreadyPaid => out.push(0),
        SubmissionFeeIntent::NoFeeConfigured => out.push(1),
        SubmissionFeeIntent::Attach { target, amount } => {
            out.push(2);
            out.extend(target.0);
            put_number(out, *amount);
        }
    }
}

pub fn put_delivery(out: &mut Vec<u8>, delivery: &PendingDelivery) {
    let intent = &delivery.intent;
    put_optional(out, intent.id.map(|id| id.0));
    put_bundle(out, &intent.bundle);
    put_optional(out, intent.expiry.map(|height| height.0));
    put_fee_intent(out, &intent.fee_intent);
    out.push(trigger_number(delivery.trigger));
    out.push(goal_number(delivery.goal));
}

pub fn delivery(delivery: &PendingDelivery) -> Vec<u8> {
    let mut out = Vec::new();
    put_delivery(&mut out, delivery);
    out
}

pub fn ids(ids: &[SubmissionId]) -> Vec<u64> {
    ids.iter().map(|id| id.0).collect()
}

pub fn coin_list(coins: &[CoinString]) -> Vec<u8> {
    let mut out = u16::try_from(coins.len()).unwrap_or(u16::MAX).to_be_bytes().to_vec();
    coins.iter().for_each(|coin| put_coin(&mut out, coin));
    out
}

pub fn coin_ids(ids: &[CoinID]) -> Vec<u8> {
    ids.iter().flat_map(|id| id.0).collect()
}
