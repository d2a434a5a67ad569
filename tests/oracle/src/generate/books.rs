//! Hand-made sound books: states that no list of calls need reach.

use rust_book::judge::{intent_fingerprint, variant_fingerprint};
use rust_book::model::*;
use rust_book::sound;

use super::pool::{digest, fee_intents, intent_of, matching_intent, Pool, EXPIRIES, HEIGHTS};
use crate::rng::Rng;

/// How full the lists of a hand-made book are.
#[derive(Clone, Copy)]
pub struct Fill {
    pub retained: usize,
    pub queue: usize,
    pub retirements: usize,
}

pub fn small_fill(rng: &mut Rng) -> Fill {
    Fill { retained: rng.below(5), queue: rng.below(5), retirements: rng.below(4) }
}

/// At least one list at or just below its limit.
pub fn near_limits(rng: &mut Rng) -> Fill {
    let mut fill = small_fill(rng);
    let which = 1 + rng.below(7);
    if which & 1 == 1 {
        fill.retained = MOST_RETAINED - rng.below(3);
    }
    if which & 2 == 2 {
        fill.queue = MOST_QUEUED - rng.below(3);
    }
    if which & 4 == 4 {
        fill.retirements = MOST_RETIREMENTS - rng.below(4);
    }
    fill
}

pub fn book(rng: &mut Rng, pool: &Pool, fill: Fill) -> Book {
    let next_token = match rng.below(4) {
        0 => u64::MAX - rng.below(3) as u64,
        _ => 40 + rng.below(5) as u64,
    };
    let mut book = Book::open(next_token, 0);
    let mut tokens = next_token;
    let first_id = if rng.chance(10) { u64::MAX - 100 } else { rng.below(4) as u64 };
    for index in 0..fill.retained {
        let id = first_id + index as u64;
        let entry = retained(rng, pool, id, &mut tokens);
        book.retained.push(entry);
    }
    if rng.chance(30) {
        let entries = book.retained.len();
        book.retained.rotate_left(rng.below(entries.max(1)).min(entries));
        book.retained.reverse();
    }
    if rng.chance(20) && book.retained.len() > 1 {
        // Two submissions of one intent.
        let twin = book.retained[0].clone();
        let last = book.retained.last_mut().expect("two submissions");
        last.intent = twin.intent;
        last.base = twin.base;
        last.fee_intent = twin.fee_intent;
        last.expiry = twin.expiry;
    }
    book.next_id = match rng.below(10) {
        0 => u64::MAX,
        1 => u64::MAX - 1,
        2 | 3 if !book.retained.is_empty() => rng.pick(&book.retained).id,
        _ => first_id + fill.retained as u64,
    };
    // A full queue that names no id leaves room for ids to be offered and refused.
    let nameless = rng.chance(40);
    for _ in 0..fill.queue {
        let mut entry = queued(rng, pool, &book);
        if nameless {
            entry.id = None;
        }
        book.queue.push(entry);
    }
    let first_retired = if rng.chance(50) { first_id } else { 1000 };
    book.retirements = (0..fill.retirements as u64).map(|index| first_retired + index).collect();
    if rng.chance(50) {
        book.rollback = Some(*rng.pick(&HEIGHTS));
    }
    if rng.chance(50) {
        let mut ids: Vec<u64> = book.retained.iter().map(|entry| entry.id).collect();
        ids.retain(|_| rng.chance(50));
        ids.sort_unstable();
        book.replayed = ids;
    }
    assert_eq!(sound::broken_rule(&book), None);
    book
}

/// The book with the longest archive.
pub fn largest_book() -> Book {
    let output = Output { puzzle_hash: [1; 32], amount: 1 };
    let spend = Spend { coin: vec![1; 73], digest: [1; 32], run: Some(vec![output; 4]) };
    let bundle = vec![spend; 4];
    let attempt = |token| Attempt { token, goal: 1, drained: [1; 32], finalised: Some([1; 32]) };
    let fee_intent = FeeIntent::Attach { target: [1; 32], amount: 1 };
    let retained = (0..16).map(|id| Retained {
        id,
        live: Some(attempt(2 * id)),
        set_aside: Some(attempt(2 * id + 1)),
        intent: [1; 32],
        base: bundle.clone(),
        fee: Some((bundle.clone(), 1)),
        mark: ATTACHED,
        fee_intent: fee_intent.clone(),
        acknowledged: Some([1; 32]),
        chain: LANDED,
        expiry: Some(1),
    });
    let queued = Queued {
        id: Some(1),
        bundle: bundle.clone(),
        expiry: Some(1),
        fee_intent: fee_intent.clone(),
        trigger: 3,
        goal: 1,
    };
    Book {
        next_token: 32,
        next_id: 16,
        retained: retained.collect(),
        queue: vec![queued; 16],
        retirements: (0..64).collect(),
        rollback: Some(1),
        replayed: (0..16).collect(),
    }
}

/// Sixteen retained or 64 retirements, and a queue that both removes and retains.
pub fn crowded(rng: &mut Rng, pool: &Pool) -> Book {
    let fill = Fill {
        retained: MOST_RETAINED - rng.below(2),
        queue: 0,
        retirements: if rng.chance(40) { MOST_RETIREMENTS - rng.below(3) } else { 0 },
    };
    let mut book = book(rng, pool, fill);
    book.next_id = 500;
    if rng.chance(40) {
        book.next_token = book.next_token.max(u64::MAX - rng.below(2) as u64);
    }
    // New intents, and entries that do not fit the submission that they name.
    let names: &[bool] = match rng.below(4) {
        0 => &[false],
        1 => &[false, true],
        2 => &[true, false, false],
        _ => &[true, false, true, false, false, true],
    };
    for (number, named) in names.iter().enumerate() {
        let mut entry = pool.intent(rng);
        entry.bundle = pool.readable_bundle(rng);
        entry.expiry = Some(3000 + number as u64);
        entry.id = named.then(|| rng.pick(&book.retained).id);
        book.queue.push(entry);
    }
    assert_eq!(sound::broken_rule(&book), None);
    book
}

fn retained(rng: &mut Rng, pool: &Pool, id: u64, tokens: &mut u64) -> Retained {
    let base = pool.readable_bundle(rng);
    let fee_intent = rng.pick(&fee_intents()).clone();
    let attach = matches!(fee_intent, FeeIntent::Attach { .. });
    let mut mark = match (attach, rng.below(3)) {
        (false, _) => NOT_REQUESTED,
        (true, 0) => ATTACHED,
        (true, _) => UNRESOLVED,
    };
    let mut fee = (mark == ATTACHED).then(|| (rng.pick(&pool.joined).clone(), 7));
    if rng.chance(15) {
        // Mark and bundle at odds.
        mark = rng.below(3) as u8;
        fee = rng.chance(50).then(|| (rng.pick(&pool.joined).clone(), u64::MAX));
    }
    let fee_intent = match rng.below(20) {
        0 => {
            // Unresolved with nothing to attach.
            (mark, fee) = (UNRESOLVED, None);
            FeeIntent::NoFeeConfigured
        }
        _ => fee_intent,
    };
    let base_variant = variant_fingerprint(&base);
    let current = fee.as_ref().map_or(base_variant, |(bundle, _)| variant_fingerprint(bundle));
    let fingerprints = [current, current, base_variant, digest(5)];
    let mut attempt = |rng: &mut Rng| {
        *tokens -= 1 + u64::from(rng.chance(10));
        let stale = rng.chance(25);
        Attempt {
            token: *tokens,
            goal: u8::from(rng.chance(30)),
            drained: if stale { *rng.pick(&fingerprints[2..]) } else { current },
            finalised: rng.chance(50).then(|| *rng.pick(&fingerprints)),
        }
    };
    let slots = rng.below(8);
    let set_aside = matches!(slots, 0 | 1 | 2).then(|| attempt(rng));
    let live = matches!(slots, 0 | 3 | 4 | 5).then(|| attempt(rng));
    let mut entry = Retained {
        id,
        live,
        set_aside,
        intent: digest(5),
        base,
        fee,
        mark,
        fee_intent,
        acknowledged: match rng.below(10) {
            0..4 => None,
            4..9 => Some(*rng.pick(&[base_variant, current])),
            _ => Some(digest(5)),
        },
        chain: *rng.pick(&[ACTIVE, ACTIVE, ACTIVE, INPUT_SPENT, LANDED]),
        expiry: *rng.pick(&EXPIRIES),
    };
    if !rng.chance(10) {
        let mut intent = intent_of(&entry, PROTOCOL, ENSURE_BROADCAST);
        intent.expiry = if rng.chance(60) { entry.expiry } else { *rng.pick(&EXPIRIES) };
        entry.intent = intent_fingerprint(&intent);
    }
    entry
}

fn queued(rng: &mut Rng, pool: &Pool, book: &Book) -> Queued {
    let goal = u8::from(rng.chance(35));
    let trigger = rng.below(4) as u8;
    if book.retained.is_empty() || rng.chance(35) {
        let mut entry = pool.intent(rng);
        if rng.chance(25) {
            entry.expiry = Some(2000 + rng.below(20) as u64);
        }
        if rng.chance(15) {
            entry.id = Some(rng.below(25) as u64);
        }
        return entry;
    }
    let of = rng.pick(&book.retained);
    let mut entry = matching_intent(of, trigger, goal);
    if rng.chance(80) {
        entry.id = Some(of.id);
    }
    if rng.chance(15) {
        entry.fee_intent = rng.pick(&fee_intents()).clone();
    }
    if rng.chance(10) {
        entry.expiry = *rng.pick(&EXPIRIES);
    }
    entry
}
