//! Where the upstream text looks for its types.

pub mod types;
