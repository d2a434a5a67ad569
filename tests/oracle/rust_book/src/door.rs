//! What is turned away before the book is looked at: refusals 2 and 3 of paper 01.

use crate::call::{Call, OptionalCell, BUNDLE_CELLS, FEE_CELLS, SPEND_CELLS};
use crate::model::*;

/// The refusal's number, and what was wrong, for the coverage table.
#[derive(Clone, Copy, Debug, PartialEq, Eq)]
pub struct Turned {
    pub number: u8,
    pub why: &'static str,
}

impl From<Turned> for u8 {
    fn from(turned: Turned) -> u8 {
        turned.number
    }
}

fn kept(rule: bool, number: u8, why: &'static str) -> Result<(), Turned> {
    if rule {
        Ok(())
    } else {
        Err(Turned { number, why })
    }
}

fn all_zero(bytes: &[u8]) -> bool {
    bytes.iter().all(|byte| *byte == 0)
}

/// A kind, mark or flag from 0 to `most`.
pub fn kind(value: u8, most: u8, why: &'static str) -> Result<u8, Turned> {
    kept(value <= most, 3, why)?;
    Ok(value)
}

pub fn optional(cell: OptionalCell) -> Result<Option<u64>, Turned> {
    kept(cell.mark <= 1, 3, "optional mark")?;
    kept(cell.mark == 1 || cell.value == 0, 3, "absent number not zero")?;
    Ok((cell.mark == 1).then_some(cell.value))
}

fn number(bytes: &[u8]) -> u64 {
    u64::from_be_bytes(bytes.try_into().expect("8 bytes"))
}

pub fn fee_intent(cells: &[u8]) -> Result<FeeIntent, Turned> {
    assert_eq!(cells.len(), FEE_CELLS);
    kept(cells[0] <= 2, 3, "fee kind")?;
    if cells[0] == 2 {
        return Ok(FeeIntent::Attach {
            target: cells[1..33].try_into().expect("32 bytes"),
            amount: number(&cells[33..]),
        });
    }
    kept(all_zero(&cells[1..33]), 3, "unused fee target")?;
    kept(all_zero(&cells[33..]), 3, "unused fee amount")?;
    Ok(match cells[0] {
        0 => FeeIntent::AlreadyPaid,
        _ => FeeIntent::NoFeeConfigured,
    })
}

pub fn bundle(cells: &[u8]) -> Result<Bundle, Turned> {
    assert_eq!(cells.len(), BUNDLE_CELLS);
    let count = usize::from(cells[0]);
    kept(count <= MOST_SPENDS, 3, "spend count")?;
    let (used, unused) = cells[1..].split_at(count * SPEND_CELLS);
    kept(all_zero(unused), 3, "unused spend")?;
    used.chunks_exact(SPEND_CELLS).map(spend).collect()
}

fn spend(cells: &[u8]) -> Result<Spend, Turned> {
    let length = usize::from(cells[0]);
    kept(length <= LONGEST_COIN, 3, "coin length")?;
    let (coin, rest) = cells[1..].split_at(LONGEST_COIN);
    kept(all_zero(&coin[length..]), 3, "unused coin byte")?;
    let (digest, rest) = rest.split_at(32);
    let (mark, outputs_count, outputs) = (rest[0], usize::from(rest[1]), &rest[2..]);
    kept(mark <= 1, 3, "run mark")?;
    kept(mark == 1 || outputs_count == 0, 3, "output count of an unreadable run")?;
    kept(outputs_count <= MOST_OUTPUTS, 3, "output count")?;
    let (used, unused) = outputs.split_at(outputs_count * 40);
    kept(all_zero(unused), 3, "unused output")?;
    Ok(Spend {
        coin: coin[..length].to_vec(),
        digest: digest.try_into().expect("32 bytes"),
        run: (mark == 1).then(|| used.chunks_exact(40).map(output).collect()),
    })
}

fn output(cells: &[u8]) -> Output {
    Output { puzzle_hash: cells[..32].try_into().expect("32 bytes"), amount: number(&cells[32..]) }
}

/// The fee source of finalise. The joined bundle is zero unless the source is 1.
pub fn fee_source(source: u8, cells: &[u8]) -> Result<FeeSource, Turned> {
    kept(source <= 3, 3, "source")?;
    if source == 1 {
        return bundle(cells).map(FeeSource::Joined);
    }
    kept(all_zero(cells), 3, "joined bundle not zero")?;
    Ok(match source {
        0 => FeeSource::NotRequested,
        2 => FeeSource::JoinFailed,
        _ => FeeSource::Failed,
    })
}

/// A 2-byte count of at most 800, then coins of up to 73 bytes, each behind its length byte; the
/// bytes are used up.
pub fn coin_list(bytes: &[u8]) -> Result<Vec<Vec<u8>>, Turned> {
    let turned = |why| Turned { number: 2, why };
    let first = bytes.split_first_chunk::<2>();
    let (count, mut rest) = first.ok_or(turned("coin count cut short"))?;
    let count = usize::from(u16::from_be_bytes(*count));
    kept(count <= MOST_COINS, 2, "coin count")?;
    let mut coins = Vec::with_capacity(count);
    for _ in 0..count {
        let (length, behind) = rest.split_first().ok_or(turned("coin missing"))?;
        let length = usize::from(*length);
        kept(length <= LONGEST_COIN, 2, "coin length")?;
        kept(length <= behind.len(), 2, "coin cut short")?;
        let (coin, behind) = behind.split_at(length);
        coins.push(coin.to_vec());
        rest = behind;
    }
    kept(rest.is_empty(), 2, "bytes behind the coins")?;
    Ok(coins)
}

/// 0 to 800 coin ids of 32 bytes.
pub fn coin_ids(bytes: &[u8]) -> Result<Vec<Digest>, Turned> {
    kept(bytes.len() % 32 == 0, 2, "coin id cut short")?;
    kept(bytes.len() / 32 <= MOST_COINS, 2, "over 800 coin ids")?;
    let ids = bytes.chunks_exact(32);
    Ok(ids.map(|id| id.try_into().expect("32 bytes")).collect())
}

pub fn ids(ids: &[u64]) -> Result<&[u64], Turned> {
    kept(ids.len() <= MOST_IDS, 2, "over 64 ids")?;
    Ok(ids)
}

/// The form of a coin list, for answers.
pub fn write_coin_list(coins: &[Vec<u8>]) -> Vec<u8> {
    let count = u16::try_from(coins.len()).expect("a 2-byte count");
    let mut out = count.to_be_bytes().to_vec();
    for coin in coins {
        out.push(u8::try_from(coin.len()).expect("a length byte"));
        out.extend_from_slice(coin);
    }
    out
}

/// The arguments of a call behind the door.
pub enum Entered {
    Queue(Queued),
    Rebroadcast { ids: Vec<u64>, trigger: u8 },
    Delivery { trigger: u8, goal: u8 },
    Finalise(FeeSource),
    Ids(Vec<u64>),
    Coins(Vec<Vec<u8>>),
    CoinsAndIds { coins: Vec<Vec<u8>>, ids: Vec<u64> },
    Report { observed: Vec<Vec<u8>>, spent: Vec<Digest>, reorg: bool, ids: Vec<u64> },
    CoinsAndInputs { coins: Vec<Vec<u8>>, inputs: Vec<Digest> },
    NothingToCheck,
}

/// The door of each call. A 2 for a list comes before the 3 of a trigger or flag beside it.
pub fn enter(call: &Call) -> Result<Entered, Turned> {
    Ok(match call {
        Call::Queue { id, bundle: cells, expiry, fee_intent: fee_cells, trigger, goal } => {
            Entered::Queue(Queued {
                id: optional(*id)?,
                bundle: bundle(cells)?,
                expiry: optional(*expiry)?,
                fee_intent: fee_intent(fee_cells)?,
                trigger: kind(*trigger, 3, "trigger")?,
                goal: kind(*goal, 1, "goal")?,
            })
        }
        Call::QueueRebroadcastEpoch { ids: list, trigger } => {
            let ids = ids(list)?.to_vec();
            let trigger = kind(*trigger, 3, "trigger")?;
            Entered::Rebroadcast { ids, trigger }
        }
        Call::QueueRetainedDelivery { trigger, goal, .. } => Entered::Delivery {
            trigger: kind(*trigger, 3, "trigger")?,
            goal: kind(*goal, 1, "goal")?,
        },
        Call::FinalizeAttempt { source, bundle, .. } => {
            Entered::Finalise(fee_source(*source, bundle)?)
        }
        Call::RetainSubmitted { ids: list } | Call::CollectRollbackReplayIds { ids: list } => {
            Entered::Ids(ids(list)?.to_vec())
        }
        Call::ReconciliationInputCoins { landed, .. } => Entered::Coins(coin_list(landed)?),
        Call::ReconcileChainTerminality { observed, spent, reorg, ids: list } => {
            let observed = coin_list(observed)?;
            let spent = coin_ids(spent)?;
            let ids = ids(list)?.to_vec();
            let reorg = kind(*reorg, 1, "flag")? == 1;
            Entered::Report { observed, spent, reorg, ids }
        }
        Call::CausallyRolledBackIds { absent, live_inputs } => {
            Entered::CoinsAndInputs { coins: coin_list(absent)?, inputs: coin_ids(live_inputs)? }
        }
        Call::AbsentOutputsForIds { ids: list, absent, .. } => {
            Entered::CoinsAndIds { ids: ids(list)?.to_vec(), coins: coin_list(absent)? }
        }
        _ => Entered::NothingToCheck,
    })
}
