//! Few coins, bundles, expiries and fee intents, so that generated calls meet one another.

use rust_book::judge::{expected_outputs, intent_fingerprint};
use rust_book::model::*;

use crate::rng::Rng;

pub struct Pool {
    pub bundles: Vec<Bundle>,
    pub joined: Vec<Bundle>,
    pub foreign_coins: Vec<Vec<u8>>,
}

pub const EXPIRIES: [Option<u64>; 6] = [None, None, Some(0), Some(50), Some(100), Some(u64::MAX)];
pub const HEIGHTS: [u64; 6] = [0, 99, 100, 101, u64::MAX - 1, u64::MAX];

pub fn digest(byte: u8) -> Digest {
    [byte; 32]
}

pub fn fee_intents() -> [FeeIntent; 6] {
    [
        FeeIntent::AlreadyPaid,
        FeeIntent::NoFeeConfigured,
        FeeIntent::Attach { target: digest(3), amount: 7 },
        FeeIntent::Attach { target: digest(3), amount: 8 },
        FeeIntent::Attach { target: digest(4), amount: 0 },
        FeeIntent::Attach { target: digest(0xff), amount: u64::MAX },
    ]
}

fn output(byte: u8, amount: u64) -> Output {
    Output { puzzle_hash: digest(byte), amount }
}

fn spend(coin: &[u8], mark: u8, outputs: &[Output]) -> Spend {
    Spend { coin: coin.to_vec(), digest: digest(mark), run: Some(outputs.to_vec()) }
}

fn unreadable(coin: &[u8], mark: u8) -> Spend {
    Spend { coin: coin.to_vec(), digest: digest(mark), run: None }
}

/// 32, 32 and then some bytes: a coin string of any length from 64 on.
fn coin(parent: u8, puzzle: u8, atom: &[u8]) -> Vec<u8> {
    let mut coin = vec![parent; 32];
    coin.extend_from_slice(&[puzzle; 32]);
    coin.extend_from_slice(atom);
    coin
}

impl Pool {
    pub fn new(rng: &mut Rng) -> Pool {
        let longest = coin(9, 9, &[0, 255, 255, 255, 255, 255, 255, 255, 255]);
        let coins = [
            coin(1, 2, &[]),
            coin(1, 2, &[0x7f]),
            coin(1, 3, &[0, 0x80]),
            longest.clone(),
            Vec::new(),
            vec![0],
            vec![0xff; 40],
        ];
        let simple = vec![spend(&coins[0], 1, &[output(1, 1)])];
        let made = expected_outputs(&simple);
        let amounts = [output(1, 0), output(1, 127), output(1, 128), output(1, u64::MAX)];
        let mut bundles = vec![
            simple.clone(),
            Vec::new(),
            vec![spend(&coins[1], 1, &[output(1, 1), output(2, 128)])],
            // A coin created and spent inside the bundle.
            vec![simple[0].clone(), spend(&made[0], 2, &[output(2, 5)])],
            vec![spend(&coins[0], 1, &[])],
            vec![unreadable(&coins[2], 1)],
            // The same input and output as the first bundle, another digest.
            vec![spend(&coins[0], 7, &[output(1, 1)])],
            // One coin twice, and its output twice.
            vec![simple[0].clone(), simple[0].clone(), spend(&coins[2], 1, &amounts)],
            vec![spend(&made[0], 1, &[output(3, 256)])],
            vec![spend(&coins[4], 0, &[output(0, 0)]), spend(&coins[5], 0, &[output(0, 0)])],
            vec![spend(&coins[1], 1, &[output(1, 1)]), unreadable(&coins[0], 2)],
            vec![spend(&longest, 0xff, &amounts); 4],
            vec![spend(&coins[6], 2, &amounts[1..3])],
        ];
        bundles.push(random_bundle(rng, &coins));
        let joined = vec![
            vec![simple[0].clone(), spend(&coins[2], 6, &[])],
            simple.clone(),
            Vec::new(),
            vec![simple[0].clone(), unreadable(&coins[6], 6)],
            vec![spend(&longest, 0xfe, &amounts); 4],
        ];
        let foreign_coins = vec![coin(8, 8, &[1]), Vec::new(), vec![7; 73], vec![0]];
        Pool { bundles, joined, foreign_coins }
    }

    pub fn bundle(&self, rng: &mut Rng) -> Bundle {
        // The first ones come up more often, so that intents are met again.
        let end = if rng.chance(50) { 4 } else { self.bundles.len() };
        self.bundles[rng.below(end)].clone()
    }

    pub fn readable_bundle(&self, rng: &mut Rng) -> Bundle {
        loop {
            let bundle = self.bundle(rng);
            if readable(&bundle) {
                return bundle;
            }
        }
    }

    /// An intent without an id.
    pub fn intent(&self, rng: &mut Rng) -> Queued {
        Queued {
            id: None,
            bundle: self.bundle(rng),
            expiry: *rng.pick(&EXPIRIES),
            fee_intent: rng.pick(&fee_intents()).clone(),
            trigger: rng.below(4) as u8,
            goal: u8::from(rng.chance(30)),
        }
    }
}

fn random_bundle(rng: &mut Rng, coins: &[Vec<u8>]) -> Bundle {
    let spends = rng.below(MOST_SPENDS + 1);
    (0..spends)
        .map(|_| {
            let outputs = rng.below(MOST_OUTPUTS + 1);
            let amount = |rng: &mut Rng| rng.next() >> rng.below(64);
            let run = (0..outputs).map(|_| {
                let amount = amount(rng);
                output(rng.below(3) as u8, amount)
            });
            let run: Vec<Output> = run.collect();
            Spend {
                coin: rng.pick(coins).clone(),
                digest: digest(rng.below(3) as u8),
                run: (!rng.chance(10)).then_some(run),
            }
        })
        .collect()
}

/// The intent that a retained submission stands for, with its expiry of now.
pub fn intent_of(entry: &Retained, trigger: u8, goal: u8) -> Queued {
    Queued {
        id: None,
        bundle: entry.base.clone(),
        expiry: entry.expiry,
        fee_intent: entry.fee_intent.clone(),
        trigger,
        goal,
    }
}

/// The expiry under which the retained fingerprint is the true one, if one of the pool's is.
pub fn matching_intent(entry: &Retained, trigger: u8, goal: u8) -> Queued {
    let mut intent = intent_of(entry, trigger, goal);
    for expiry in EXPIRIES {
        let held = intent.expiry;
        intent.expiry = expiry;
        if intent_fingerprint(&intent) == entry.intent {
            return intent;
        }
        intent.expiry = held;
    }
    intent
}
