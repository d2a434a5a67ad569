//! Upstream types, cut unchanged, over stand-ins: `clvm`, `hash`, `puzzles` and `num_bigint`.

pub mod clvm;
pub mod hash;
pub mod puzzles;

use num_bigint::{BigInt, Sign, ToPrimitive};
use serde::{Deserialize, Serialize};

pub use clvm::{AllocEncoder, ClvmEncoder, NodePtr, ToClvm, ToClvmError};
pub use hash::{Hash, Sha256Input};
pub use puzzles::{
    aggregate_wallet_fee_bundle, Aggsig, CoinCondition, Program, ProgramRef, Puzzle, JOIN_FAILED,
};

use Hash as Hash32;

/// The upstream error type has more cases; the book makes only this one.
#[derive(Debug, Clone, PartialEq, Eq)]
pub enum Error {
    StrErr(String),
}

include!(concat!(env!("OUT_DIR"), "/amount.rs"));
include!(concat!(env!("OUT_DIR"), "/coin_id.rs"));
include!(concat!(env!("OUT_DIR"), "/puzzle_hash.rs"));
include!(concat!(env!("OUT_DIR"), "/coin_string.rs"));
include!(concat!(env!("OUT_DIR"), "/spend.rs"));

/// Stand-in for the one use of `num_bigint`: big-endian bytes as a `u64`, if they fit.
mod num_bigint {
    pub struct BigInt(Option<u64>);

    pub enum Sign {
        Plus,
    }

    pub trait ToPrimitive {
        fn to_u64(&self) -> Option<u64>;
    }

    impl BigInt {
        pub fn from_bytes_be(_sign: Sign, bytes: &[u8]) -> BigInt {
            BigInt(bytes.iter().try_fold(0u64, |value, byte| {
                value.checked_mul(256).map(|value| value + u64::from(*byte))
            }))
        }
    }

    impl ToPrimitive for BigInt {
        fn to_u64(&self) -> Option<u64> {
            self.0
        }
    }
}
