//! Every truncation of an archive, and changes of every single byte, read on both sides.

use rust_book::archive;
use rust_book::call::Call;
use rust_book::script::Script;

use crate::compare::{differs, report};
use crate::driver::Driver;
use crate::generate::books;
use crate::generate::pool::Pool;
use crate::rng::Rng;
use crate::shrink::shrink;

/// Longer archives are left out: their truncations alone are bytes in the square of their length.
const LONGEST: usize = 2500;

/// Archives read in one run of the driver.
const BATCH: usize = 200;

/// Values at the edges of the archive's ranges.
const EDGES: [u8; 14] = [0, 1, 2, 3, 4, 5, 16, 17, 64, 65, 73, 74, 254, 255];

/// The archive shortened to every length, with a byte behind it, and with every byte changed.
fn damaged(bytes: &[u8]) -> Vec<Vec<u8>> {
    let mut all: Vec<Vec<u8>> = (0..=bytes.len()).map(|end| bytes[..end].to_vec()).collect();
    all.push([bytes, &[0]].concat());
    for at in 0..bytes.len() {
        let flips = (0..8).map(|bit| bytes[at] ^ (1 << bit));
        let near = [bytes[at].wrapping_add(1), bytes[at].wrapping_sub(1)];
        let mut values: Vec<u8> = flips.chain(near).chain(EDGES).collect();
        values.sort_unstable();
        values.dedup();
        for value in values.into_iter().filter(|value| *value != bytes[at]) {
            let mut changed = bytes.to_vec();
            changed[at] = value;
            all.push(changed);
        }
    }
    all
}

/// Reads the damaged forms of `count` archives on both sides; true if nothing differs.
pub fn run(driver: &Driver, seed: u64, count: usize) -> bool {
    let mut rng = Rng::new(seed);
    let pool = Pool::new(&mut rng);
    let (mut archives, mut reads, mut refused) = (0, 0, 0);
    while archives < count {
        let fill = books::small_fill(&mut rng);
        let bytes = archive::write(&books::book(&mut rng, &pool, fill));
        if bytes.len() > LONGEST {
            continue;
        }
        archives += 1;
        for batch in damaged(&bytes).chunks(BATCH) {
            reads += batch.len();
            refused += batch.iter().filter(|bytes| archive::read(bytes).is_err()).count();
            let calls = batch.iter().map(|bytes| Call::ReadArchive { bytes: bytes.clone() });
            let script =
                Script { next_token: 5, next_id: 1, calls: calls.collect(), tail: Vec::new() };
            if differs(driver, &script.bytes()) {
                println!("difference in reading an archive");
                report(driver, &shrink(&script, |bytes| differs(driver, bytes)));
                return false;
            }
        }
    }
    println!("{archives} archives, {reads} reads, {refused} refused, no difference");
    true
}
