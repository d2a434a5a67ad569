//! The fee types of `effects.rs`, cut unchanged.

use crate::common::types::{Amount, CoinID, CoinString, SpendBundle};

include!(concat!(env!("OUT_DIR"), "/effects.rs"));
