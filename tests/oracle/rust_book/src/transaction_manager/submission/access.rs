//! Building and taking apart a `SubmissionBook`, whose fields are private to the module above.

use crate::model::Summary;
use crate::transaction_manager::replay::access::rising_ids;

use super::{PendingDelivery, ReplayEpoch, SubmissionBook, SubmittedTx};

/// Everything that a book holds.
pub(in crate::transaction_manager) struct Parts {
    pub pending: Vec<PendingDelivery>,
    pub next_token: u64,
    pub replay: ReplayEpoch,
    pub submitted: Vec<SubmittedTx>,
    pub retired: Vec<u64>,
    pub next_id: u64,
}

pub(in crate::transaction_manager) fn assemble(parts: Parts) -> SubmissionBook {
    SubmissionBook {
        pending_deliveries: parts.pending,
        next_delivery_attempt_token: parts.next_token,
        replay_epoch: parts.replay,
        submitted: parts.submitted,
        retired_submission_ids: parts.retired,
        next_submission_id: parts.next_id,
    }
}

pub(in crate::transaction_manager) fn take_apart(book: SubmissionBook) -> Parts {
    Parts {
        pending: book.pending_deliveries,
        next_token: book.next_delivery_attempt_token,
        replay: book.replay_epoch,
        submitted: book.submitted,
        retired: book.retired_submission_ids,
        next_id: book.next_submission_id,
    }
}

/// The submissions that a book retains.
pub(in crate::transaction_manager) fn submitted(book: &SubmissionBook) -> &[SubmittedTx] {
    &book.submitted
}

/// A book in numbers: the Rust has no such query, so that they are read off its fields.
pub(in crate::transaction_manager) fn summary(book: &SubmissionBook) -> Summary {
    Summary {
        next_token: book.next_delivery_attempt_token,
        next_id: book.next_submission_id,
        retained: book.submitted.len() as u64,
        queued: book.pending_deliveries.len() as u64,
        retirements: book.retired_submission_ids.len() as u64,
        replayed: rising_ids(&book.replay_epoch).len() as u64,
        rollback: book.replay_rollback_height(),
    }
}

/// What the upstream restore has against the book; that wrapper is not ported.
pub(in crate::transaction_manager) fn restore_error(book: &SubmissionBook) -> Option<String> {
    book.validate_restored_state().err()
}
