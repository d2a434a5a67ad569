//! The Rust `SubmissionBook`, built from the upstream text, with the refusals, limits, archive and
//! call scripts that paper 01 and DRIVER.md add.

pub mod archive;
mod bencodex;
pub mod call;
#[allow(dead_code)]
mod common;
pub mod door;
pub mod model;
pub mod mutant_list;
pub mod play;
pub mod rules;
pub mod script;
#[allow(dead_code)]
mod session_phases;
pub mod sha256;
pub mod sound;
#[allow(dead_code)]
mod transaction_manager;

pub use transaction_manager::judge;

/// The text that was built, and where it came from.
pub mod upstream {
    pub const ROOT: &str = env!("ORACLE_UPSTREAM_ROOT");
    /// The number of the mutant that is built in; 0 for none.
    pub const MUTANT: &str = env!("ORACLE_BUILT_MUTANT");
    pub const SUBMISSION: &str = include_str!(concat!(env!("OUT_DIR"), "/submission.rs"));
    pub const REPLAY: &str = include_str!(concat!(env!("OUT_DIR"), "/replay.rs"));
    pub const MANAGER: &str = include_str!(concat!(env!("OUT_DIR"), "/transaction_manager.rs"));
}
