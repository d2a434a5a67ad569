//! The calls of a script with their arguments as they stand there, damaged ones included.

use crate::model::*;

/// A mark and a number beside it.
#[derive(Clone, Copy, Debug, PartialEq, Eq)]
pub struct OptionalCell {
    pub mark: u8,
    pub value: u64,
}

pub const BUNDLE_CELLS: usize = 1073;
pub const SPEND_CELLS: usize = 268;
pub const FEE_CELLS: usize = 41;

#[derive(Clone, Debug, PartialEq, Eq)]
pub enum Call {
    Queue {
        id: OptionalCell,
        bundle: Vec<u8>,
        expiry: OptionalCell,
        fee_intent: Vec<u8>,
        trigger: u8,
        goal: u8,
    },
    QueueRebroadcastEpoch {
        ids: Vec<u64>,
        trigger: u8,
    },
    QueueFeeReadiness,
    QueueRetainedDelivery {
        id: u64,
        trigger: u8,
        goal: u8,
    },
    Drain,
    FinalizeAttempt {
        token: u64,
        source: u8,
        bundle: Vec<u8>,
    },
    FeeIntentForAttempt {
        token: u64,
    },
    AcknowledgeAttempt {
        token: u64,
    },
    StopAttempt {
        token: u64,
    },
    AbandonAttempt {
        token: u64,
    },
    RelinquishCompletedAttempt {
        token: u64,
    },
    RetainSubmitted {
        ids: Vec<u64>,
    },
    EmitRetirement {
        id: u64,
    },
    DrainRetirements,
    ReconciliationInputCoins {
        landed: Vec<u8>,
        buffer: u32,
    },
    ActiveIds,
    BeginReplay {
        height: u64,
    },
    FinishReplayIfAdvanced {
        height: u64,
    },
    ReplayRollbackHeight,
    ReconcileChainTerminality {
        observed: Vec<u8>,
        spent: Vec<u8>,
        reorg: u8,
        ids: Vec<u64>,
    },
    CausallyRolledBackIds {
        absent: Vec<u8>,
        live_inputs: Vec<u8>,
    },
    AbsentOutputsForIds {
        ids: Vec<u64>,
        absent: Vec<u8>,
        buffer: u32,
    },
    CollectRollbackReplayIds {
        ids: Vec<u64>,
    },
    ClearLocalArtifacts,
    RestoreRuntime,
    Attempt {
        token: u64,
    },
    WriteArchive {
        buffer: u32,
    },
    ReadArchive {
        bytes: Vec<u8>,
    },
    Sound,
    Look {
        id: u64,
    },
    Summary,
}

impl Call {
    pub fn opcode(&self) -> u8 {
        match self {
            Call::Queue { .. } => 0x01,
            Call::QueueRebroadcastEpoch { .. } => 0x02,
            Call::QueueFeeReadiness => 0x03,
            Call::QueueRetainedDelivery { .. } => 0x04,
            Call::Drain => 0x05,
            Call::FinalizeAttempt { .. } => 0x06,
            Call::FeeIntentForAttempt { .. } => 0x07,
            Call::AcknowledgeAttempt { .. } => 0x08,
            Call::StopAttempt { .. } => 0x09,
            Call::AbandonAttempt { .. } => 0x0a,
            Call::RelinquishCompletedAttempt { .. } => 0x0b,
            Call::RetainSubmitted { .. } => 0x0c,
            Call::EmitRetirement { .. } => 0x0d,
            Call::DrainRetirements => 0x0e,
            Call::ReconciliationInputCoins { .. } => 0x0f,
            Call::ActiveIds => 0x10,
            Call::BeginReplay { .. } => 0x11,
            Call::FinishReplayIfAdvanced { .. } => 0x12,
            Call::ReplayRollbackHeight => 0x13,
            Call::ReconcileChainTerminality { .. } => 0x14,
            Call::CausallyRolledBackIds { .. } => 0x15,
            Call::AbsentOutputsForIds { .. } => 0x16,
            Call::CollectRollbackReplayIds { .. } => 0x17,
            Call::ClearLocalArtifacts => 0x18,
            Call::RestoreRuntime => 0x19,
            Call::Attempt { .. } => 0x1a,
            Call::WriteArchive { .. } => 0x1b,
            Call::ReadArchive { .. } => 0x1c,
            Call::Sound => 0x1d,
            Call::Look { .. } => 0x1e,
            Call::Summary => 0x1f,
        }
    }

    /// The length of the buffer that the call is lent.
    pub fn buffer(&self) -> Option<usize> {
        match self {
            Call::ReconciliationInputCoins { buffer, .. }
            | Call::AbsentOutputsForIds { buffer, .. }
            | Call::WriteArchive { buffer } => Some(*buffer as usize),
            _ => None,
        }
    }
}

/// The names of the calls by opcode.
pub const NAMES: [(u8, &str); 31] = [
    (0x01, "queue"),
    (0x02, "queue_rebroadcast_epoch"),
    (0x03, "queue_fee_readiness"),
    (0x04, "queue_retained_delivery"),
    (0x05, "drain"),
    (0x06, "finalize_attempt"),
    (0x07, "fee_intent_for_attempt"),
    (0x08, "acknowledge_attempt"),
    (0x09, "stop_attempt"),
    (0x0a, "abandon_attempt"),
    (0x0b, "relinquish_completed_attempt"),
    (0x0c, "retain_submitted"),
    (0x0d, "emit_retirement"),
    (0x0e, "drain_retirements"),
    (0x0f, "reconciliation_input_coins"),
    (0x10, "active_ids"),
    (0x11, "begin_replay"),
    (0x12, "finish_replay_if_advanced"),
    (0x13, "replay_rollback_height"),
    (0x14, "reconcile_chain_terminality"),
    (0x15, "causally_rolled_back_ids"),
    (0x16, "absent_outputs_for_ids"),
    (0x17, "collect_rollback_replay_ids"),
    (0x18, "clear_local_artifacts"),
    (0x19, "restore_runtime"),
    (0x1a, "attempt"),
    (0x1b, "write archive"),
    (0x1c, "read archive"),
    (0x1d, "sound?"),
    (0x1e, "look"),
    (0x1f, "summary"),
];

pub fn name(opcode: u8) -> &'static str {
    let known = NAMES.iter().find(|(code, _)| *code == opcode);
    known.map_or("unknown", |(_, name)| name)
}

/// What an accepted call answers.
#[derive(Clone, Debug, PartialEq, Eq)]
pub enum Answer {
    Nothing,
    Drained(Drained),
    Finalised(Option<Finalised>),
    FeeIntent(Option<FeeIntent>),
    /// Applied is true, Stale false.
    Applied(bool),
    Ids(Vec<u64>),
    Flag(bool),
    Height(Option<u64>),
    Attempt(Option<Attempt>),
    Look(Option<Look>),
    Summary(Summary),
    /// The bytes to be written into the lent buffer.
    Written(Vec<u8>),
}

/// A refusal's number; 13 with its place.
#[derive(Clone, Copy, Debug, PartialEq, Eq)]
pub struct Refusal {
    pub number: u8,
    pub place: Option<u64>,
}

impl From<u8> for Refusal {
    fn from(number: u8) -> Refusal {
        Refusal { number, place: None }
    }
}

pub type Outcome = Result<Answer, Refusal>;
