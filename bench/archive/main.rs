//! Times the proved reader and writer of archives, through the library, and plain ones on the same bytes, turn about, and prints a table.
#[path = "../clock.rs"]
mod clock;
mod plain;

use clock::{median, now};
use std::hint::black_box;

const ROUNDS: usize = 15;

extern "C" {
    fn submission_book_write(book: *const u8, book_len: usize, archive: *mut u8, archive_len: usize, length: *mut u64) -> u8;
}

fn seconds(mut work: impl FnMut()) -> f64 {
    let start = now();
    work();
    now() - start
}

fn bundle(out: &mut Vec<u8>, mark: u8) {
    out.push(4);
    for spend in 0..4u8 {
        out.push(73);
        out.extend([spend ^ mark; 73]);
        out.extend([mark; 32]);
        out.extend([1, 4]);
        for output in 0..4u8 {
            out.extend([output; 32]);
            out.extend(u64::from(mark).to_be_bytes());
        }
    }
}

fn attach(out: &mut Vec<u8>) {
    out.push(2);
    out.extend([9; 32]);
    out.extend(77u64.to_be_bytes());
}

/// The largest book there is: 57,694 bytes.
fn largest() -> Vec<u8> {
    let mut out = vec![2];
    out.extend(1000u64.to_be_bytes());
    out.extend(17u64.to_be_bytes());
    out.push(16);
    for i in 0..16u64 {
        out.extend(i.to_be_bytes());
        for slot in 0..2 {
            out.push(1);
            out.extend((2 * i + slot).to_be_bytes());
            out.push(0);
            out.extend([3; 32]);
            out.push(1);
            out.extend([4; 32]);
        }
        out.extend([5; 32]);
        bundle(&mut out, i as u8);
        out.push(1);
        bundle(&mut out, 100 + i as u8);
        out.extend(77u64.to_be_bytes());
        out.push(2);
        attach(&mut out);
        out.push(1);
        out.extend([6; 32]);
        out.push(0);
        out.push(1);
        out.extend(500u64.to_be_bytes());
    }
    out.push(16);
    for i in 0..16u64 {
        out.push(1);
        out.extend(i.to_be_bytes());
        bundle(&mut out, 50 + i as u8);
        out.push(1);
        out.extend(400u64.to_be_bytes());
        attach(&mut out);
        out.extend([3, 1]);
    }
    out.push(64);
    (0..64u64).for_each(|i| out.extend(i.to_be_bytes()));
    out.push(1);
    out.extend(300u64.to_be_bytes());
    out.push(16);
    (0..16u64).for_each(|i| out.extend(i.to_be_bytes()));
    out
}

fn main() {
    let bytes = largest();
    assert_eq!(bytes.len(), 57_694);
    let book = plain::read(&bytes).unwrap_or_else(|place| panic!("refused at {place}"));
    assert_eq!(plain::write(&book, bytes.len()), bytes);
    let lent = [&(bytes.len() as u64).to_be_bytes()[..], &bytes].concat();
    let (mut none, mut room) = ([0u8; 0], vec![0u8; bytes.len()]);
    let mut length = 0u64;
    // The function reads the lent book, and writes at most the archive and its length.
    let mut write = |archive: &mut [u8]| unsafe {
        submission_book_write(lent.as_ptr(), lent.len(), archive.as_mut_ptr(), archive.len(), &mut length)
    };
    assert_eq!(write(&mut none), 12);
    assert_eq!(write(&mut room), 0);
    assert_eq!(room, bytes);
    let times = 100;
    let [mut ours_read, mut ours_write, mut plain_read, mut plain_write] = [const { Vec::new() }; 4];
    for _ in 0..ROUNDS {
        let reading = seconds(|| (0..times).for_each(|_| assert_eq!(black_box(write(&mut none)), 12)));
        let both = seconds(|| (0..times).for_each(|_| assert_eq!(black_box(write(&mut room)), 0)));
        ours_read.push(reading);
        ours_write.push(both - reading);
        plain_read.push(seconds(|| (0..times).for_each(|_| assert!(black_box(plain::read(&bytes)).is_ok()))));
        plain_write.push(seconds(|| (0..times).for_each(|_| drop(black_box(plain::write(&book, bytes.len()))))));
    }
    assert_eq!(length, bytes.len() as u64);
    println!("## Archives against plain Rust\n");
    println!(
        "The largest book, 57,694 bytes. Medians of {ROUNDS} rounds, turn about, by processor time. The ratio is the port's \
         speed divided by the plain one's: above 1 the port is faster. The port is timed through `submission_book_write` \
         of a lent book: reading into a buffer of no bytes, which is refused 12 once the book is read and its size known, writing as an accepted call less that.\n"
    );
    println!("| | port MB/s | plain Rust MB/s | ratio |\n|---|---|---|---|");
    let rate = |time: f64| bytes.len() as f64 * times as f64 / 1e6 / time;
    for (name, ours, theirs) in [("read", ours_read, plain_read), ("write", ours_write, plain_write)] {
        let (ours, theirs) = (median(ours), median(theirs));
        println!("| {name} | {:.0} | {:.0} | {:.2} |", rate(ours), rate(theirs), theirs / ours);
    }
    println!();
}
