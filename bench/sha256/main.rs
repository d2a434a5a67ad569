//! Times the proved SHA-256 and the plain one on the same messages, turn about, and prints a table.
#[path = "../clock.rs"]
mod clock;
mod plain;

use clock::{median, now};
use std::hint::black_box;

const ROUNDS: usize = 15;

extern "C" {
    fn submission_book_sha256(message: *const u8, message_len: usize, digest: *mut u8, digest_len: usize) -> u8;
}

fn proved(message: &[u8]) -> [u8; 32] {
    let mut digest = [0u8; 32];
    // SAFETY: the function reads so many bytes of the message and writes the digest's 32.
    let said = unsafe { submission_book_sha256(message.as_ptr(), message.len(), digest.as_mut_ptr(), digest.len()) };
    assert_eq!(said, 0);
    digest
}

/// Seconds for hashing the message so many times.
fn seconds(hash: fn(&[u8]) -> [u8; 32], message: &[u8], times: usize) -> f64 {
    let start = now();
    for _ in 0..times {
        black_box(hash(black_box(message)));
    }
    now() - start
}

fn main() {
    println!("## SHA-256 against plain Rust\n");
    println!(
        "Medians of {ROUNDS} rounds, turn about, by processor time. The ratio is the port's speed divided by the plain \
         one's: above 1 the port is faster.\n"
    );
    println!("| bytes | port MB/s | plain Rust MB/s | ratio |\n|---|---|---|---|");
    for (size, times) in [(73, 50_000), (1024, 5_000), (57_694, 100), (64 << 20, 1)] {
        let message: Vec<u8> = (0..size).map(|i| (i * 7 + 1) as u8).collect();
        assert_eq!(proved(&message), plain::sha256(&message), "digests differ at {size} bytes");
        let rounds = if times == 1 { ROUNDS / 3 } else { ROUNDS };
        let (mut ours, mut theirs) = (Vec::new(), Vec::new());
        for _ in 0..rounds {
            ours.push(seconds(proved, &message, times));
            theirs.push(seconds(plain::sha256, &message, times));
        }
        let (ours, theirs) = (median(ours), median(theirs));
        let megabytes = (size * times) as f64 / 1e6;
        println!("| {size} | {:.0} | {:.0} | {:.2} |", megabytes / ours, megabytes / theirs, theirs / ours);
    }
    println!();
}
