//! What is handed to a book and what it answers. Names are those of the Rust `SubmissionBook`.

use std::fmt;

use crate::coin::{CoinID, CoinString, Hash32, PuzzleHash};

macro_rules! number_type {
    ($(#[$doc:meta])* $name:ident) => {
        $(#[$doc])*
        #[derive(Debug, Clone, Copy, PartialEq, Eq, PartialOrd, Ord, Hash)]
        pub struct $name(pub u64);

        impl fmt::Display for $name {
            fn fmt(&self, f: &mut fmt::Formatter<'_>) -> fmt::Result {
                self.0.fmt(f)
            }
        }

        impl From<u64> for $name {
            fn from(number: u64) -> $name {
                $name(number)
            }
        }

        impl From<$name> for u64 {
            fn from(number: $name) -> u64 {
                number.0
            }
        }
    };
}

number_type! {
    /// The token of a delivery attempt. A book issues them upward by one and none twice.
    Token
}

number_type! {
    /// The id of a retained submission.
    SubmissionId
}

number_type! {
    /// A height of the chain.
    Height
}

/// A coin that a spend makes.
#[derive(Debug, Clone, Copy, PartialEq, Eq, Hash)]
pub struct Output {
    /// Whose coin it is.
    pub puzzle_hash: PuzzleHash,
    /// How much it holds.
    pub amount: u64,
}

/// What running a spend's puzzle gives.
#[derive(Debug, Clone, PartialEq, Eq, Hash)]
pub enum Run {
    /// The puzzle or its solution cannot be read. A new submission with such a spend fails in the
    /// drain at [`ExpectedOutputs`](SubmissionDrainFailureStage::ExpectedOutputs).
    Unreadable,
    /// The coins that the spend makes, at most 4.
    Outputs(Vec<Output>),
}

/// The spend of a coin.
#[derive(Debug, Clone, PartialEq, Eq, Hash)]
pub struct CoinSpend {
    /// The coin that is spent, at most 73 bytes.
    pub coin: CoinString,
    /// Stands for puzzle, solution and signature.
    pub digest: Hash32,
    /// What the spend makes.
    pub run: Run,
}

/// Spends that go to the chain together, at most 4.
#[derive(Debug, Clone, Default, PartialEq, Eq, Hash)]
pub struct SpendBundle {
    /// The spends, in order.
    pub spends: Vec<CoinSpend>,
}

/// What fee a submission is to have.
#[derive(Debug, Clone, Copy, PartialEq, Eq, Hash)]
pub enum SubmissionFeeIntent {
    /// The bundle pays its fee itself.
    AlreadyPaid,
    /// No fee is asked for.
    NoFeeConfigured,
    /// The wallet is to attach a fee. Where it cannot, the bundle goes without one.
    Attach {
        /// The coin that the fee's spend names.
        target: CoinID,
        /// The fee.
        amount: u64,
    },
}

/// What made a delivery due.
#[derive(Debug, Clone, Copy, PartialEq, Eq, Hash)]
pub enum DeliveryTrigger {
    /// The protocol itself: a new submission.
    Protocol,
    /// A new look at the chain.
    FreshChain,
    /// The chain rolled back.
    Rollback,
    /// The wallet can attach fees now.
    ProviderReadiness,
}

/// What a delivery is for.
#[derive(Debug, Clone, Copy, PartialEq, Eq, Hash)]
pub enum SubmissionDeliveryGoal {
    /// To be broadcast, unless its bundle was acknowledged already.
    EnsureBroadcast,
    /// To get its fee, where that is unresolved.
    FeeUpgrade,
}

/// What is to be submitted.
#[derive(Debug, Clone, PartialEq, Eq, Hash)]
pub struct PendingSubmissionIntent {
    /// The retained submission that this is; `None` for a new one. A drain finds a new one that
    /// equals a retained one in bundle, expiry and fee intent.
    pub id: Option<SubmissionId>,
    /// The spends.
    pub bundle: SpendBundle,
    /// The height at which the bundle can no longer be included.
    pub expiry: Option<Height>,
    /// The fee that it is to have.
    pub fee_intent: SubmissionFeeIntent,
}

/// An entry of the queue.
#[derive(Debug, Clone, PartialEq, Eq, Hash)]
pub struct PendingDelivery {
    /// What is to be submitted.
    pub intent: PendingSubmissionIntent,
    /// Why now.
    pub trigger: DeliveryTrigger,
    /// What for.
    pub goal: SubmissionDeliveryGoal,
}

impl PendingDelivery {
    /// A new submission of the protocol, to be broadcast.
    pub fn protocol(
        bundle: SpendBundle,
        expiry: Option<Height>,
        fee_intent: SubmissionFeeIntent,
    ) -> PendingDelivery {
        PendingDelivery {
            intent: PendingSubmissionIntent { id: None, bundle, expiry, fee_intent },
            trigger: DeliveryTrigger::Protocol,
            goal: SubmissionDeliveryGoal::EnsureBroadcast,
        }
    }
}

/// A live attempt.
#[derive(Debug, Clone, Copy, PartialEq, Eq, Hash)]
pub struct DeliveryAttempt {
    /// Its token.
    pub token: Token,
    /// What it is for.
    pub goal: SubmissionDeliveryGoal,
    /// The fingerprint of the bundle as it was drained.
    pub drained_variant_fingerprint: Hash32,
    /// The fingerprint of the bundle that was finalised, once it was.
    pub finalized_variant_fingerprint: Option<Hash32>,
}

/// How an attempt follows the submission's attempt before.
#[derive(Debug, Clone, Copy, PartialEq, Eq, Hash)]
pub enum SubmissionAttemptRelationship {
    /// There was none.
    Initial,
    /// The same bundle again.
    Exact,
    /// The attempt is to get the fee that the one before went without.
    NewerFeeBearing,
    /// Another bundle.
    Other,
}

/// A submission that a drain hands out.
#[derive(Debug, Clone, PartialEq, Eq, Hash)]
pub struct DrainedSubmission {
    /// The submission.
    pub id: SubmissionId,
    /// The token of this attempt.
    pub attempt_token: Token,
    /// The token of the attempt that this one displaces.
    pub predecessor_attempt_token: Option<Token>,
    /// How this attempt follows that one.
    pub relationship: SubmissionAttemptRelationship,
    /// The current bundle.
    pub bundle: SpendBundle,
    /// The height at which it can no longer be included.
    pub expiry: Option<Height>,
    /// The fee that is still to be attached, or `AlreadyPaid`.
    pub fee_intent: SubmissionFeeIntent,
}

/// Where a candidate of a drain failed.
#[derive(Debug, Clone, Copy, PartialEq, Eq, Hash)]
pub enum SubmissionDrainFailureStage {
    /// The intent could not be fingerprinted. Does not occur: every intent has its archive form.
    Fingerprint,
    /// The named submission is not retained, or does not agree with the candidate.
    RetainedState,
    /// A run of the bundle cannot be read.
    ExpectedOutputs,
    /// No id is left, or the next one is retained already.
    SubmissionId,
}

/// A candidate of a drain that failed.
#[derive(Debug, Clone, Copy, PartialEq, Eq, Hash)]
pub struct SubmissionDrainFailure {
    /// Its place in the queue as it was before the drain, from 0.
    pub candidate_index: u64,
    /// The submission that was removed because of this.
    pub retained_submission_id: Option<SubmissionId>,
    /// The submission that the candidate is about, or would have been.
    pub candidate_submission_id: Option<SubmissionId>,
    /// The fingerprint of bundle, expiry and fee intent.
    pub intent_fingerprint: Hash32,
    /// Where it failed.
    pub stage: SubmissionDrainFailureStage,
}

/// What a drain answers.
#[derive(Debug, Clone, Default, PartialEq, Eq, Hash)]
pub struct SubmissionDrainResult {
    /// What is to be delivered, in order; tokens run upward by one.
    pub submissions: Vec<DrainedSubmission>,
    /// The candidates that failed, in order.
    pub failures: Vec<SubmissionDrainFailure>,
}

/// Where the fee of an attempt comes from.
#[derive(Debug, Clone, PartialEq, Eq, Hash)]
pub enum SubmissionFeeSource {
    /// The wallet was not asked.
    NotRequested,
    /// The wallet gave a fee bundle, and this is it joined with the submission's bundle.
    Joined(SpendBundle),
    /// The wallet gave a fee bundle that could not be joined.
    JoinFailed,
    /// The wallet gave none.
    Failed,
}

/// What became of a fee source.
#[derive(Debug, Clone, Copy, PartialEq, Eq, Hash)]
pub enum FeeSourceDisposition {
    /// The fee is in the bundle.
    Attached,
    /// A fee was wanted and is not in the bundle; the bundle goes without.
    Unused,
    /// No fee was wanted.
    NotRequested,
}

/// A finalised attempt: the very bundle to be broadcast.
#[derive(Debug, Clone, PartialEq, Eq, Hash)]
pub struct FinalizedSubmission {
    /// The bundle.
    pub bundle: SpendBundle,
    /// The fee in it.
    pub applied_fee: u64,
    /// The fee that was asked for was not applied.
    pub warning: bool,
    /// What became of the fee source.
    pub fee_source_disposition: FeeSourceDisposition,
    /// The fingerprint of the bundle.
    pub variant_fingerprint: Hash32,
    /// Whether the bundle is to go to the chain; false where it was acknowledged already, or the
    /// attempt was for a fee that did not come.
    pub should_broadcast: bool,
}

/// What a call by an attempt's token did.
#[derive(Debug, Clone, Copy, PartialEq, Eq, Hash)]
pub enum SubmissionAttemptStatus {
    /// It was done.
    Applied,
    /// The attempt is no longer live; nothing was done.
    Stale,
}

/// What became of the fee that a submission asks for.
#[derive(Debug, Clone, Copy, PartialEq, Eq, Hash)]
pub enum FeeResolution {
    /// A fee is asked for and not attached yet.
    Unresolved,
    /// No fee is asked for.
    NotRequested,
    /// The fee is in the current bundle.
    Attached,
}

/// What the chain has shown of a submission.
#[derive(Debug, Clone, Copy, PartialEq, Eq, Hash)]
pub enum SubmissionChainTerminality {
    /// It is not settled.
    Active,
    /// A coin that it spends was seen spent, and none that it makes was seen.
    InputSpent,
    /// A coin that its base bundle makes was seen.
    Landed,
}

/// What a retained submission holds beside its bundles.
#[derive(Debug, Clone, Copy, PartialEq, Eq, Hash)]
pub struct SubmissionLook {
    /// What the chain has shown.
    pub chain_terminality: SubmissionChainTerminality,
    /// Whether the current bundle is acknowledged.
    pub acknowledged: bool,
    /// What became of the fee.
    pub fee_resolution: FeeResolution,
    /// The fee in the current bundle; 0 where that is the base bundle.
    pub applied_fee: u64,
    /// The height at which it can no longer be included.
    pub expiry: Option<Height>,
    /// The token of the live attempt.
    pub active_attempt_token: Option<Token>,
    /// The token of the attempt that is set aside.
    pub completed_attempt_token: Option<Token>,
}

/// A book in numbers.
#[derive(Debug, Clone, Copy, PartialEq, Eq, Hash)]
pub struct BookSummary {
    /// The token that is issued next.
    pub next_delivery_attempt_token: Token,
    /// The id of the next new submission.
    pub next_submission_id: SubmissionId,
    /// How many submissions are retained, at most 16.
    pub submitted_count: usize,
    /// How many deliveries are queued, at most 16.
    pub pending_count: usize,
    /// How many retirements wait to be collected, at most 64.
    pub retired_count: usize,
    /// How many submissions the running replay has offered again, at most 16.
    pub replayed_count: usize,
    /// The height of the running replay.
    pub rollback_height: Option<Height>,
}
