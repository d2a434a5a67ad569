//! Seeded random call scripts. The generator plays each call on the Rust book as it goes, so that
//! tokens, ids and coins mostly mean something.

pub mod books;
pub mod calls;
pub mod damage;
pub mod pool;

use rust_book::archive;
use rust_book::call::Call;
use rust_book::model::*;
use rust_book::rules;
use rust_book::script::{Script, LONGEST_BYTES};

use crate::rng::Rng;
use calls::Weights;
use pool::Pool;

//                          1  2  3  4  5  6  7  8  9  a  b  c  d  e  f 10 11 12 13 14 15 16 17 18 19 1a 1b 1c 1d 1e 1f
#[rustfmt::skip]
const EVERYTHING: Weights = [9, 3, 2, 3, 8, 7, 3, 5, 3, 2, 3, 2, 2, 1, 3, 1, 2, 2, 1, 5, 3, 3, 3, 1, 1, 2, 2, 2, 1, 3, 2];
#[rustfmt::skip]
const DELIVERY: Weights = [12, 3, 2, 4, 12, 9, 2, 8, 4, 1, 2, 1, 0, 1, 0, 0, 0, 0, 0, 1, 0, 0, 0, 0, 1, 1, 0, 0, 0, 2, 1];
#[rustfmt::skip]
const CHAIN: Weights = [5, 3, 0, 1, 5, 2, 0, 2, 1, 0, 1, 1, 1, 2, 4, 1, 3, 3, 1, 9, 6, 5, 6, 0, 0, 0, 0, 0, 0, 2, 1];
#[rustfmt::skip]
const FEES: Weights = [8, 3, 6, 5, 11, 14, 6, 9, 4, 1, 2, 0, 0, 0, 0, 0, 0, 0, 0, 1, 0, 0, 1, 0, 1, 1, 0, 0, 0, 3, 0];
#[rustfmt::skip]
const LIMITS: Weights = [9, 4, 4, 8, 6, 2, 0, 2, 1, 4, 0, 4, 3, 1, 0, 0, 0, 0, 0, 6, 0, 0, 5, 2, 1, 0, 1, 0, 0, 1, 1];
#[rustfmt::skip]
const DOORS: Weights = [7, 3, 0, 2, 1, 7, 0, 0, 0, 0, 0, 2, 0, 0, 5, 0, 0, 0, 0, 8, 6, 6, 3, 0, 0, 0, 1, 0, 0, 0, 0];
#[rustfmt::skip]
const ARCHIVES: Weights = [3, 0, 0, 0, 2, 1, 0, 0, 0, 0, 0, 0, 1, 0, 0, 0, 1, 0, 0, 0, 0, 0, 1, 0, 0, 0, 5, 16, 1, 2, 1];

pub const SCENARIOS: u64 = 13;

/// One script of `seed`. The first scripts of a run go round the scenarios.
pub fn script(seed: u64, number: u64) -> Script {
    let mut rng = Rng::new(seed.wrapping_mul(0x1000_0001).wrapping_add(number));
    let pool = Pool::new(&mut rng);
    let scenario = number % SCENARIOS;
    let (next_token, next_id) = opening(&mut rng, scenario);
    let mut maker = Maker {
        script: Script { next_token, next_id, calls: Vec::new(), tail: Vec::new() },
        book: Book::open(next_token, next_id),
    };
    let length = 10 + rng.below(20);
    begin(&mut maker, &mut rng, &pool, scenario);
    let (weights, damaged) = match scenario {
        0 | 1 => (&DELIVERY, 3),
        2 => (&FEES, 3),
        3 => (&CHAIN, 3),
        4 | 5 => (&EVERYTHING, 3),
        6 | 7 => (&LIMITS, 4),
        8 => (&DELIVERY, 0),
        9 => (&ARCHIVES, 0),
        10 => (&EVERYTHING, 60),
        12 => (&DOORS, 60),
        _ => (&CHAIN, 0),
    };
    while maker.script.calls.len() < length {
        let mut call = calls::call(&mut rng, &pool, &maker.book, weights);
        if rng.chance(damaged) {
            damage::damage(&mut rng, &mut call);
        }
        maker.add(call);
    }
    if rng.chance(6) {
        maker.script.tail = tail(&mut rng, &maker.script);
    }
    maker.script
}

struct Maker {
    script: Script,
    book: Book,
}

impl Maker {
    fn add(&mut self, call: Call) {
        let _ = rules::make(&mut self.book, &call);
        self.script.calls.push(call);
    }
}

fn opening(rng: &mut Rng, scenario: u64) -> (u64, u64) {
    let near_end = |rng: &mut Rng| u64::MAX - rng.below(4) as u64;
    match scenario {
        8 => match rng.below(3) {
            0 => (near_end(rng), 1),
            1 => (5, near_end(rng)),
            _ => (near_end(rng), near_end(rng)),
        },
        _ => *rng.pick(&[(5, 1), (0, 0), (5, 1), (1 << 40, 1 << 50)]),
    }
}

/// The calls that bring the book where the scenario wants it.
fn begin(maker: &mut Maker, rng: &mut Rng, pool: &Pool, scenario: u64) {
    let fill = match scenario {
        4 | 5 | 11 => books::small_fill(rng),
        6 | 12 => books::near_limits(rng),
        7 => return begin_full(maker, rng, pool),
        2 if rng.chance(50) => books::small_fill(rng),
        _ => return,
    };
    let book = match scenario {
        4 if rng.chance(6) => books::largest_book(),
        5 if rng.chance(10) => calls::id_emitted_once(rng, pool),
        6 if rng.chance(30) => books::crowded(rng, pool),
        _ => books::book(rng, pool, fill),
    };
    maker.add(calls::read_book(&book));
    if scenario == 6 && rng.chance(50) {
        maker.add(Call::Drain);
    }
    let full = book.queue.len() == MOST_QUEUED && book.retained.len() == MOST_RETAINED;
    if full && rng.chance(50) {
        let buffer = *rng.pick(&[LONGEST_BYTES, archive::write(&book).len() as u32]);
        maker.add(Call::WriteArchive { buffer });
    }
}

/// Queues and drains up to 16 new intents, or retires up to 64 ids, by calls alone.
fn begin_full(maker: &mut Maker, rng: &mut Rng, pool: &Pool) {
    if rng.chance(25) {
        let first = rng.below(4) as u64;
        for id in first..first + MOST_RETIREMENTS as u64 - rng.below(2) as u64 {
            maker.add(Call::EmitRetirement { id });
        }
        return;
    }
    let new = MOST_QUEUED - rng.below(2);
    for number in 0..new {
        let call = calls::fresh_queue(rng, pool, number as u64);
        maker.add(call);
    }
    maker.add(Call::Drain);
    for number in new..new + 1 + rng.below(3) {
        let call = calls::fresh_queue(rng, pool, number as u64);
        maker.add(call);
    }
    maker.add(Call::Drain);
}

/// What ends a run early: a call cut short, an unknown opcode, a length that is too great.
fn tail(rng: &mut Rng, script: &Script) -> Vec<u8> {
    match rng.below(4) {
        0 => vec![*rng.pick(&[0x00, 0x20, 0x80, 0xff])],
        1 => vec![0x1b, 0, 1, 0, 1],
        2 => vec![0x1c, 0, 1, 0, 1, 2, 3],
        _ => {
            let mut bytes = Vec::new();
            rust_book::script::write_call(&mut bytes, rng.pick(&script.calls));
            bytes.truncate(rng.below(bytes.len()).max(1));
            if bytes.len() == 1 {
                bytes[0] = 0x08;
            }
            bytes
        }
    }
}
