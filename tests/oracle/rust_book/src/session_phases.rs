//! Where the upstream text looks for its fee types.

pub mod effects;
