//! Building and reading a `ReplayEpoch`, whose fields are private to the module above.

use std::collections::HashSet;

use super::ReplayEpoch;

pub(in crate::transaction_manager) fn assemble(
    rollback_height: Option<u64>,
    ids: &[u64],
) -> ReplayEpoch {
    ReplayEpoch {
        rollback_height,
        replayed_submission_ids: ids.iter().copied().collect::<HashSet<_>>(),
    }
}

/// The replayed ids, rising.
pub(in crate::transaction_manager) fn rising_ids(epoch: &ReplayEpoch) -> Vec<u64> {
    let mut ids: Vec<u64> = epoch.replayed_submission_ids.iter().copied().collect();
    ids.sort_unstable();
    ids
}
