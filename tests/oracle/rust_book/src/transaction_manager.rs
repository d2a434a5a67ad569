//! The upstream text of the book: `submission.rs` and `replay.rs` whole, and one unbroken piece
//! of `transaction_manager.rs`, from `SubmittedTx` to `plan_pending_submission`.
//!
//! The fields of the book are private to its module. So a module of ours stands inside each
//! upstream module (`access`), and [`judge`] beside them makes the calls.

mod replay {
    include!(concat!(env!("OUT_DIR"), "/replay.rs"));

    pub(super) mod access;
}

mod submission {
    include!(concat!(env!("OUT_DIR"), "/submission.rs"));

    pub(super) mod access;
}

pub mod judge;
pub mod plain;

use std::collections::HashSet;

use serde::{Deserialize, Serialize};

use crate::bencodex;
use crate::common::types::{
    AllocEncoder, CoinCondition, CoinID, CoinString, Error, Hash, Sha256Input, SpendBundle,
};
use crate::session_phases::effects::{SubmissionFeeIntent, TransactionSubmission};
use submission::PendingSubmissionIntent as PendingSubmission;
pub use submission::{
    SubmissionAttemptRelationship, SubmissionAttemptStatus, SubmissionDeliveryGoal,
};

include!(concat!(env!("OUT_DIR"), "/transaction_manager.rs"));
