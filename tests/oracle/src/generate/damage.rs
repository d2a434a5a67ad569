//! Damaged arguments: cells, coin lists and archives with one thing wrong.

use rust_book::archive;
use rust_book::call::{Call, OptionalCell, BUNDLE_CELLS, FEE_CELLS, SPEND_CELLS};
use rust_book::door::write_coin_list;
use rust_book::model::*;

use crate::rng::Rng;

pub fn bundle_cells(bundle: &Bundle) -> Vec<u8> {
    let mut cells = vec![0; BUNDLE_CELLS];
    cells[0] = bundle.len() as u8;
    for (index, spend) in bundle.iter().enumerate() {
        let at = 1 + index * SPEND_CELLS;
        cells[at] = spend.coin.len() as u8;
        cells[at + 1..at + 1 + spend.coin.len()].copy_from_slice(&spend.coin);
        cells[at + 74..at + 106].copy_from_slice(&spend.digest);
        let Some(run) = &spend.run else { continue };
        cells[at + 106] = 1;
        cells[at + 107] = run.len() as u8;
        for (place, output) in run.iter().enumerate() {
            let at = at + 108 + place * 40;
            cells[at..at + 32].copy_from_slice(&output.puzzle_hash);
            cells[at + 32..at + 40].copy_from_slice(&output.amount.to_be_bytes());
        }
    }
    cells
}

pub fn fee_cells(intent: &FeeIntent) -> Vec<u8> {
    let mut cells = vec![0; FEE_CELLS];
    match intent {
        FeeIntent::AlreadyPaid => {}
        FeeIntent::NoFeeConfigured => cells[0] = 1,
        FeeIntent::Attach { target, amount } => {
            cells[0] = 2;
            cells[1..33].copy_from_slice(target);
            cells[33..].copy_from_slice(&amount.to_be_bytes());
        }
    }
    cells
}

pub fn optional_cell(value: Option<u64>) -> OptionalCell {
    OptionalCell { mark: u8::from(value.is_some()), value: value.unwrap_or(0) }
}

pub fn queue_call(entry: &Queued) -> Call {
    Call::Queue {
        id: optional_cell(entry.id),
        bundle: bundle_cells(&entry.bundle),
        expiry: optional_cell(entry.expiry),
        fee_intent: fee_cells(&entry.fee_intent),
        trigger: entry.trigger,
        goal: entry.goal,
    }
}

/// A byte just out of a range, or far out of it.
fn out_of_range(rng: &mut Rng, most: u8) -> u8 {
    if rng.chance(70) {
        most + 1
    } else {
        255
    }
}

fn damage_optional(rng: &mut Rng, cell: &mut OptionalCell) {
    if rng.chance(50) {
        cell.mark = out_of_range(rng, 1);
    } else {
        *cell = OptionalCell { mark: 0, value: *rng.pick(&[1, 1 << 63, 5]) };
    }
}

/// One cell of the bundle out of its range, or not zero where it is unused. The damage may fall
/// on a used byte and then leave a bundle of another kind.
fn damage_bundle(rng: &mut Rng, cells: &mut [u8]) {
    let used = usize::from(cells[0]).min(MOST_SPENDS);
    let spend = 1 + rng.below(MOST_SPENDS) * SPEND_CELLS;
    let last_used = 1 + used.saturating_sub(1) * SPEND_CELLS;
    match rng.below(10) {
        0 => cells[0] = out_of_range(rng, MOST_SPENDS as u8),
        1 => cells[spend + rng.below(SPEND_CELLS)] = 1,
        2 => cells[last_used] = out_of_range(rng, LONGEST_COIN as u8),
        3 => cells[last_used + LONGEST_COIN] = 1,
        4 => cells[last_used + 106] = out_of_range(rng, 1),
        5 => cells[last_used + 106] = 0,
        6 => cells[last_used + 107] = out_of_range(rng, MOST_OUTPUTS as u8),
        7 => cells[last_used + SPEND_CELLS - 1] = 1,
        8 => {
            cells[0] = cells[0].saturating_sub(1);
        }
        _ => cells[BUNDLE_CELLS - 1] ^= 1,
    }
}

fn damage_fee(rng: &mut Rng, cells: &mut [u8]) {
    match rng.below(3) {
        0 => cells[0] = out_of_range(rng, 2),
        1 => {
            cells[0] = rng.below(2) as u8;
            cells[1 + rng.below(32)] = 1;
        }
        _ => {
            cells[0] = rng.below(2) as u8;
            cells[33 + rng.below(8)] = 1;
        }
    }
}

/// Coins as a list, with something wrong.
pub fn damaged_coin_list(rng: &mut Rng, coins: &[Vec<u8>]) -> Vec<u8> {
    let one = [vec![1; 40]];
    let mut bytes = write_coin_list(if coins.is_empty() { &one } else { coins });
    match rng.below(8) {
        0 => bytes.truncate(rng.below(2)),
        1 => bytes[..2].copy_from_slice(&801u16.to_be_bytes()),
        2 => {
            let count = u16::from_be_bytes([bytes[0], bytes[1]]) + 1;
            bytes[..2].copy_from_slice(&count.to_be_bytes());
        }
        3 => {
            bytes = write_coin_list(&[vec![1; 73]]);
            bytes[2] = 74;
            bytes.push(1);
        }
        4 => {
            bytes.pop();
        }
        5 => bytes.push(0),
        6 => {
            // 801 coins of no bytes, all there.
            bytes = vec![0; 2 + 801];
            bytes[..2].copy_from_slice(&801u16.to_be_bytes());
        }
        _ => {
            let at = rng.below(bytes.len());
            bytes[at] ^= 1 << rng.below(8);
        }
    }
    bytes
}

pub fn damaged_coin_ids(rng: &mut Rng, bytes: &mut Vec<u8>) {
    match rng.below(3) {
        0 => bytes.push(0),
        1 => {
            bytes.pop();
        }
        _ => bytes.resize(801 * 32, 7),
    }
}

pub fn too_many_ids(rng: &mut Rng) -> Vec<u64> {
    let count = if rng.chance(80) { 65 } else { 66 + rng.below(40) };
    (0..count as u64).collect()
}

/// One argument of the call damaged; calls whose arguments cannot be wrong stay.
pub fn damage(rng: &mut Rng, call: &mut Call) {
    match call {
        Call::Queue { id, bundle, expiry, fee_intent, trigger, goal } => match rng.below(9) {
            0 => damage_optional(rng, id),
            1 => damage_optional(rng, expiry),
            2 | 3 => damage_fee(rng, fee_intent),
            4 => *trigger = out_of_range(rng, 3),
            5 => *goal = out_of_range(rng, 1),
            _ => damage_bundle(rng, bundle),
        },
        Call::QueueRebroadcastEpoch { ids, trigger } => {
            let which = 1 + rng.below(3);
            if which & 1 == 1 {
                *trigger = out_of_range(rng, 3);
            }
            if which & 2 == 2 {
                *ids = too_many_ids(rng);
            }
        }
        Call::QueueRetainedDelivery { trigger, goal, .. } => {
            if rng.chance(50) {
                *trigger = out_of_range(rng, 3);
            } else {
                *goal = out_of_range(rng, 1);
            }
        }
        Call::FinalizeAttempt { source, bundle, .. } => match rng.below(4) {
            0 => *source = out_of_range(rng, 3),
            1 => {
                *source = *rng.pick(&[0, 2, 3]);
                bundle[rng.below(BUNDLE_CELLS)] = 1;
            }
            _ => {
                *source = 1;
                if bundle[0] == 0 {
                    bundle[..4].copy_from_slice(&[1, 2, 1, 1]);
                    bundle[1 + 106] = 1;
                }
                damage_bundle(rng, bundle);
            }
        },
        Call::RetainSubmitted { ids } | Call::CollectRollbackReplayIds { ids } => {
            *ids = too_many_ids(rng);
        }
        Call::ReconciliationInputCoins { landed, .. } => *landed = damaged_list(rng, landed),
        Call::ReconcileChainTerminality { observed, spent, reorg, ids } => match rng.below(5) {
            0 => *observed = damaged_list(rng, observed),
            1 => damaged_coin_ids(rng, spent),
            2 => *reorg = out_of_range(rng, 1),
            3 => *ids = too_many_ids(rng),
            _ => {
                *reorg = out_of_range(rng, 1);
                match rng.below(3) {
                    0 => *observed = damaged_list(rng, observed),
                    1 => damaged_coin_ids(rng, spent),
                    _ => *ids = too_many_ids(rng),
                }
            }
        },
        Call::CausallyRolledBackIds { absent, live_inputs } => {
            if rng.chance(50) {
                *absent = damaged_list(rng, absent);
            } else {
                damaged_coin_ids(rng, live_inputs);
            }
        }
        Call::AbsentOutputsForIds { ids, absent, .. } => {
            if rng.chance(50) {
                *absent = damaged_list(rng, absent);
            } else {
                *ids = too_many_ids(rng);
            }
        }
        _ => {}
    }
}

fn damaged_list(rng: &mut Rng, bytes: &[u8]) -> Vec<u8> {
    let coins = rust_book::door::coin_list(bytes).unwrap_or_default();
    damaged_coin_list(rng, &coins)
}

/// An archive with one item cut short or broken, or a byte changed, added or left out anywhere.
pub fn damage_archive(rng: &mut Rng, bytes: &mut Vec<u8>) {
    let anywhere = rng.below(bytes.len());
    match rng.below(10) {
        0 => bytes.push(rng.below(256) as u8),
        1 => bytes[anywhere] ^= 1 << rng.below(8),
        2 => {
            bytes.remove(anywhere);
        }
        3 => bytes.insert(anywhere, bytes[anywhere]),
        _ => damage_item(rng, bytes),
    }
}

/// Items with a rule that looks at other items.
const RULED: [&str; 5] = ["retained id", "attempt token", "retirement", "replayed id", "run kind"];

fn damage_item(rng: &mut Rng, bytes: &mut Vec<u8>) {
    let items = archive::items(bytes);
    let mut names: Vec<&str> = items.iter().map(|(_, name)| *name).collect();
    names.sort_unstable();
    names.dedup();
    let ruled: Vec<&str> = names.iter().copied().filter(|name| RULED.contains(name)).collect();
    let any = ruled.is_empty() || rng.chance(70);
    let name = *rng.pick(if any { &names } else { &ruled });
    let same: Vec<usize> = (0..items.len()).filter(|index| items[*index].1 == name).collect();
    // The first of several can't repeat another.
    let which = if same.len() > 1 { 1 + rng.below(same.len() - 1) } else { 0 };
    let index = same[which];
    let start = items[index].0;
    let end = items.get(index + 1).map_or(bytes.len(), |(place, _)| *place);
    if rng.chance(40) {
        bytes.truncate(start + rng.below((end - start).max(1)));
    } else if end - start == 8 {
        let number = match rng.below(5) {
            0 => bytes[1..9].to_vec(),
            1 => vec![255; 8],
            _ => {
                let earlier = items[same[which.saturating_sub(1)]].0;
                bytes[earlier..earlier + 8].to_vec()
            }
        };
        bytes[start..end].copy_from_slice(&number);
    } else if start < bytes.len() {
        bytes[start] = match rng.below(3) {
            0 => *rng.pick(&[0, 0, 0, 255]),
            1 => *rng.pick(&[0, 1, 2, 3, 4, 5, 17, 65, 74]),
            _ => bytes[start].wrapping_add(1),
        };
    }
}
