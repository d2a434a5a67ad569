//! The calls, made on an upstream `SubmissionBook` that is built from plain data and read back.
//!
//! The upstream methods know no limits; those are added in `rules.rs`.

use std::collections::HashSet;

use crate::common::types::{CoinID, CoinString, Error, Hash, SpendBundle, JOIN_FAILED};
use crate::model::{self, Book};

use super::submission::{access, SubmissionBook};
use super::{plain, DrainedSubmission, FeeSourceDisposition, SubmissionDrainFailure};
use super::{SubmissionAttemptRelationship, SubmissionAttemptStatus};
use super::{SubmissionDrainFailureStage, SubmissionFeeSource};

pub struct Judge(SubmissionBook);

/// The numbers of paper 01's table for the words of the upstream errors.
const REFUSALS: [(&str, u8); 9] = [
    ("unknown delivery attempt token", 4),
    ("was already finalized", 5),
    ("was not finalized", 6),
    ("canonical base bundle is not parseable", 7),
    ("has inconsistent fee intent and broadcast variant", 7),
    ("acknowledges an unknown variant", 7),
    ("refers to a stale broadcast variant", 8),
    ("received a fee source without requesting one", 9),
    ("delivery attempt token source is exhausted", 11),
];

fn refusal(error: Error) -> u8 {
    let Error::StrErr(text) = error;
    let known = REFUSALS.iter().find(|(words, _)| text.contains(words));
    known.unwrap_or_else(|| panic!("no refusal stands for: {text}")).1
}

fn coins(coins: &[Vec<u8>]) -> HashSet<CoinString> {
    coins.iter().map(|coin| CoinString::from_bytes(coin)).collect()
}

fn coin_ids(ids: &[model::Digest]) -> HashSet<CoinID> {
    ids.iter().map(|id| CoinID::new(Hash::from_bytes(*id))).collect()
}

fn id_set(ids: &[u64]) -> HashSet<u64> {
    ids.iter().copied().collect()
}

/// Applied is true, Stale false.
fn status(result: Result<SubmissionAttemptStatus, Error>) -> Result<bool, u8> {
    result.map(|status| status == SubmissionAttemptStatus::Applied).map_err(refusal)
}

fn emitted(drained: &DrainedSubmission) -> model::Emitted {
    model::Emitted {
        id: drained.id,
        token: drained.attempt_token,
        predecessor: drained.predecessor_attempt_token,
        relationship: match drained.relationship {
            SubmissionAttemptRelationship::Initial => 0,
            SubmissionAttemptRelationship::Exact => 1,
            SubmissionAttemptRelationship::NewerFeeBearing => 2,
            SubmissionAttemptRelationship::Other => 3,
        },
        bundle: plain::bundle(&drained.bundle),
        expiry: drained.expiry,
        fee_intent: plain::fee_intent(&drained.fee_intent),
    }
}

fn failure(failure: &SubmissionDrainFailure) -> model::Failure {
    model::Failure {
        index: failure.candidate_index,
        retained: failure.retained_submission_id,
        candidate: failure.candidate_submission_id,
        // Encoding never fails with the stand-in, so there is always a fingerprint.
        intent: failure.intent_fingerprint.as_ref().expect("a fingerprint").0,
        stage: match failure.stage {
            SubmissionDrainFailureStage::Fingerprint => 0,
            SubmissionDrainFailureStage::RetainedState => 1,
            SubmissionDrainFailureStage::ExpectedOutputs => 2,
            SubmissionDrainFailureStage::SubmissionId => 3,
        },
        message: failure.message.clone(),
    }
}

impl Judge {
    pub fn of(book: &Book) -> Judge {
        Judge(plain::to_book(book))
    }

    pub fn into_book(self) -> Book {
        plain::book(self.0)
    }

    pub fn queue(&mut self, entry: &model::Queued) {
        let trigger = plain::to_trigger(entry.trigger);
        self.0.queue(plain::to_intent(entry), trigger, plain::to_goal(entry.goal));
    }

    pub fn queue_rebroadcast_epoch(&mut self, ids: &[u64], trigger: u8) -> Result<(), u8> {
        let trigger = plain::to_trigger(trigger);
        self.0.queue_rebroadcast_epoch(ids, trigger).map_err(refusal)
    }

    pub fn queue_fee_readiness(&mut self) -> Result<(), u8> {
        self.0.queue_fee_readiness().map_err(refusal)
    }

    pub fn queue_retained_delivery(&mut self, id: u64, trigger: u8, goal: u8) {
        let trigger = plain::to_trigger(trigger);
        self.0.queue_retained_delivery(id, trigger, plain::to_goal(goal));
    }

    pub fn drain(&mut self) -> Result<model::Drained, u8> {
        let result = self.0.drain().map_err(refusal)?;
        Ok(model::Drained {
            submissions: result.submissions.iter().map(emitted).collect(),
            failures: result.failures.iter().map(failure).collect(),
        })
    }

    pub fn finalize_attempt(
        &mut self,
        token: u64,
        source: &model::FeeSource,
    ) -> Result<Option<model::Finalised>, u8> {
        let source = match source {
            model::FeeSource::NotRequested => SubmissionFeeSource::NotRequested,
            model::FeeSource::Joined(bundle) => {
                SubmissionFeeSource::Available(plain::to_bundle(bundle))
            }
            model::FeeSource::JoinFailed => SubmissionFeeSource::Available(SpendBundle {
                name: Some(JOIN_FAILED.to_string()),
                spends: Vec::new(),
            }),
            model::FeeSource::Failed => SubmissionFeeSource::Failed("no wallet".to_string()),
        };
        let finalised = self.0.finalize_attempt(token, source, &Hash::default(), 0);
        let Some(finalised) = finalised.map_err(refusal)? else {
            return Ok(None);
        };
        Ok(Some(model::Finalised {
            bundle: plain::bundle(&finalised.bundle),
            applied_fee: finalised.applied_fee,
            warning: finalised.warning.is_some(),
            disposition: match finalised.fee_source_disposition {
                FeeSourceDisposition::Attached => 0,
                FeeSourceDisposition::Unused => 1,
                FeeSourceDisposition::NotRequested => 2,
            },
            fingerprint: finalised.variant_fingerprint.0,
            should_broadcast: finalised.should_broadcast,
        }))
    }

    pub fn fee_intent_for_attempt(&self, token: u64) -> Result<Option<model::FeeIntent>, u8> {
        let intent = self.0.fee_intent_for_attempt(token).map_err(refusal)?;
        Ok(intent.as_ref().map(plain::fee_intent))
    }

    pub fn acknowledge_attempt(&mut self, token: u64) -> Result<bool, u8> {
        status(self.0.acknowledge_attempt(token))
    }

    pub fn stop_attempt(&mut self, token: u64) -> Result<bool, u8> {
        status(self.0.stop_attempt(token))
    }

    pub fn abandon_attempt(&mut self, token: u64) -> Result<bool, u8> {
        status(self.0.abandon_attempt(token))
    }

    pub fn relinquish_completed_attempt(&mut self, token: u64) -> Result<bool, u8> {
        status(self.0.relinquish_completed_attempt(token))
    }

    pub fn retain_submitted(&mut self, removed: &[u64]) -> Vec<u64> {
        self.0.retain_submitted(|tx| !removed.contains(&tx.id))
    }

    pub fn emit_retirement(&mut self, id: u64) {
        self.0.emit_retirement(id);
    }

    pub fn drain_retirements(&mut self) -> Vec<u64> {
        self.0.drain_retirements()
    }

    pub fn reconciliation_input_coins(&self, landed_outputs: &[Vec<u8>]) -> Vec<Vec<u8>> {
        let landed_outputs = coins(landed_outputs);
        let inputs = self.0.reconciliation_input_coins(|coin| landed_outputs.contains(coin));
        inputs.iter().map(|coin| coin.to_bytes().to_vec()).collect()
    }

    pub fn active_ids(&self) -> Vec<u64> {
        self.0.active_ids()
    }

    pub fn begin_replay(&mut self, height: u64) -> bool {
        self.0.begin_replay(height)
    }

    pub fn finish_replay_if_advanced(&mut self, height: u64) {
        self.0.finish_replay_if_advanced(height);
    }

    pub fn replay_rollback_height(&self) -> Option<u64> {
        self.0.replay_rollback_height()
    }

    pub fn reconcile_chain_terminality(
        &mut self,
        observed: &[Vec<u8>],
        spent: &[model::Digest],
        reorg: bool,
        rolled_back: &[u64],
    ) {
        let (observed, spent) = (coins(observed), coin_ids(spent));
        self.0.reconcile_chain_terminality(&observed, &spent, reorg, &id_set(rolled_back));
    }

    /// The upstream answer is a set; it is given rising.
    pub fn causally_rolled_back_ids(
        &self,
        absent: &[Vec<u8>],
        live_inputs: &[model::Digest],
    ) -> Vec<u64> {
        let ids = self.0.causally_rolled_back_ids(&coins(absent), &coin_ids(live_inputs));
        let mut rising: Vec<u64> = ids.into_iter().collect();
        rising.sort_unstable();
        rising
    }

    pub fn absent_outputs_for_ids(&self, ids: &[u64], absent: &[Vec<u8>]) -> Vec<Vec<u8>> {
        let outputs = self.0.absent_outputs_for_ids(&id_set(ids), &coins(absent));
        outputs.iter().map(|coin| coin.to_bytes().to_vec()).collect()
    }

    pub fn collect_rollback_replay_ids(&mut self, ids: &[u64]) {
        self.0.collect_rollback_replay_ids(&id_set(ids));
    }

    pub fn clear_local_artifacts(&mut self) {
        self.0.clear_local_artifacts();
    }

    pub fn restore_runtime(&mut self) {
        self.0.restore_runtime();
    }

    pub fn attempt(&self, token: u64) -> Option<model::Attempt> {
        self.0.attempt(token).map(plain::attempt)
    }

    /// The Rust has no such query: it is read off the submission, with the Rust's own methods.
    pub fn look(&self, id: u64) -> Option<model::Look> {
        let tx = access::submitted(&self.0).iter().find(|tx| tx.id == id)?;
        Some(model::Look {
            chain: plain::chain(tx.chain_terminality),
            acknowledged: tx.current_variant_acknowledged().expect("encoding never fails"),
            mark: plain::durable(&tx.fee_intent).0,
            applied_fee: tx.current_applied_fee(),
            expiry: tx.expiry,
            live: tx.active_attempt.as_ref().map(|attempt| attempt.token),
            set_aside: tx.completed_attempt.as_ref().map(|attempt| attempt.token),
        })
    }

    pub fn summary(&self) -> model::Summary {
        access::summary(&self.0)
    }
}

/// Why the Rust would not restore the book, or none. No call depends on it.
pub fn restore_error(book: &Book) -> Option<String> {
    access::restore_error(&plain::to_book(book))
}

/// The fingerprint of a bundle as a broadcast variant.
pub fn variant_fingerprint(bundle: &model::Bundle) -> model::Digest {
    let hash = super::submission_variant_fingerprint(&plain::to_bundle(bundle));
    hash.expect("encoding never fails").0
}

/// The fingerprint of a queue entry's intent.
pub fn intent_fingerprint(entry: &model::Queued) -> model::Digest {
    let intent = plain::to_intent(entry);
    let hash = super::submission_intent_fingerprint(&intent.submission, &intent.fee_intent);
    hash.expect("encoding never fails").0
}

/// The coins that a readable bundle creates.
pub fn expected_outputs(bundle: &model::Bundle) -> Vec<Vec<u8>> {
    let outputs = super::expected_output_coins(&plain::to_bundle(bundle));
    let outputs = outputs.expect("a readable bundle");
    outputs.iter().map(|coin| coin.to_bytes().to_vec()).collect()
}
