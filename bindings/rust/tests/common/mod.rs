//! Values for the tests.
#![allow(dead_code)]

// The Rust side of the comparison has the tests' SHA-256.
#[path = "../../../../tests/oracle/rust_book/src/sha256.rs"]
mod sha256;

/// Another SHA-256 than the library's.
pub use sha256::sha256 as plain_sha256;
use submission_book::*;

pub fn book() -> SubmissionBook {
    SubmissionBook::open(Token(5), SubmissionId(1))
}

pub fn output(n: u8, amount: u64) -> Output {
    Output { puzzle_hash: PuzzleHash([n; 32]), amount }
}

pub fn coin(n: u8) -> CoinString {
    CoinString::from_parts(&CoinID([n; 32]), &PuzzleHash([n + 1; 32]), 1_000 + u64::from(n))
}

pub fn spend(n: u8, outputs: Vec<Output>) -> CoinSpend {
    CoinSpend { coin: coin(n), digest: Hash32([n + 2; 32]), run: Run::Outputs(outputs) }
}

/// One spend, of coin n, that makes one coin.
pub fn deposit(n: u8) -> SpendBundle {
    SpendBundle { spends: vec![spend(n, vec![output(n + 3, 500)])] }
}

/// The coin that `deposit(n)` makes.
pub fn made(n: u8) -> CoinString {
    CoinString::from_parts(&coin_id(&coin(n)), &PuzzleHash([n + 3; 32]), 500)
}

pub fn attach(amount: u64) -> SubmissionFeeIntent {
    SubmissionFeeIntent::Attach { target: CoinID([9; 32]), amount }
}

pub const NO_FEE: SubmissionFeeIntent = SubmissionFeeIntent::NoFeeConfigured;

pub fn queue(book: &mut SubmissionBook, n: u8, fee_intent: SubmissionFeeIntent) {
    book.queue(&PendingDelivery::protocol(deposit(n), None, fee_intent)).unwrap();
}

/// A book with deposit 10 drained: submission 1, token 5 live.
pub fn drained_book(fee_intent: SubmissionFeeIntent) -> SubmissionBook {
    let mut book = book();
    queue(&mut book, 10, fee_intent);
    assert_eq!(tokens(&book.drain().unwrap()), [5]);
    book
}

/// The same, finalised without a fee and acknowledged.
pub fn acknowledged_book(fee_intent: SubmissionFeeIntent) -> SubmissionBook {
    let mut book = drained_book(fee_intent);
    book.finalize_attempt(Token(5), &SubmissionFeeSource::NotRequested).unwrap().unwrap();
    assert_eq!(book.acknowledge_attempt(Token(5)), Ok(SubmissionAttemptStatus::Applied));
    book
}

pub fn tokens(drained: &SubmissionDrainResult) -> Vec<u64> {
    drained.submissions.iter().map(|submission| submission.attempt_token.0).collect()
}

pub fn ids(numbers: impl IntoIterator<Item = u64>) -> Vec<SubmissionId> {
    numbers.into_iter().map(SubmissionId).collect()
}

/// The next token, as the archive has it.
pub fn next_token(archive: &[u8]) -> u64 {
    u64::from_be_bytes(archive[1..9].try_into().unwrap())
}

/// The archive form of a bundle, cut out of an archive that has it alone in the queue: 20 bytes
/// stand in front of it, and expiry, fee intent, trigger, goal and three empty counts behind it.
fn bundle_form(bundle: &SpendBundle) -> Vec<u8> {
    let mut holder = Archive::read(&book().to_archive()).unwrap();
    holder.pending_deliveries.push(PendingDelivery::protocol(bundle.clone(), None, NO_FEE));
    let form = holder.to_bytes();
    form[20..form.len() - 7].to_vec()
}

/// What a look must say of a submission of the archive.
fn look_of(tx: &SubmittedTx) -> SubmissionLook {
    let fingerprint = Hash32(plain_sha256(&bundle_form(tx.current_bundle())));
    SubmissionLook {
        chain_terminality: tx.chain_terminality,
        acknowledged: tx.acknowledged_variant_fingerprint == Some(fingerprint),
        fee_resolution: tx.fee_resolution,
        applied_fee: match tx.current_variant {
            SubmissionBroadcastVariant::Base => 0,
            SubmissionBroadcastVariant::FeeBearing { applied_fee, .. } => applied_fee,
        },
        expiry: tx.expiry,
        active_attempt_token: tx.active_attempt.map(|attempt| attempt.token),
        completed_attempt_token: tx.completed_attempt.map(|attempt| attempt.token),
    }
}

fn summary_of(archive: &Archive) -> BookSummary {
    BookSummary {
        next_delivery_attempt_token: archive.next_delivery_attempt_token,
        next_submission_id: archive.next_submission_id,
        submitted_count: archive.submitted.len(),
        pending_count: archive.pending_deliveries.len(),
        retired_count: archive.retired_submission_ids.len(),
        replayed_count: archive.replayed_submission_ids.len(),
        rollback_height: archive.rollback_height,
    }
}

/// The archive of a book as plain values, which must say what the book's own calls say.
pub fn archive_of(book: &SubmissionBook) -> Archive {
    let bytes = book.to_archive();
    let archive = Archive::read(&bytes).expect("an archive");
    assert!(archive.to_bytes() == bytes, "written again, it is another string");
    let active = |tx: &&SubmittedTx| tx.chain_terminality == SubmissionChainTerminality::Active;
    let active: Vec<_> = archive.submitted.iter().filter(active).map(|tx| tx.id).collect();
    assert_eq!(book.active_ids(), active);
    assert_eq!(book.replay_rollback_height(), archive.rollback_height);
    assert_eq!(book.summary(), summary_of(&archive));
    let mut copy = book.clone();
    assert_eq!(copy.drain_retirements(), archive.retired_submission_ids);
    for tx in &archive.submitted {
        assert_eq!(book.look(tx.id), Some(look_of(tx)));
        for attempt in tx.active_attempt.iter() {
            assert_eq!(book.attempt(attempt.token), Some(*attempt));
        }
        for attempt in tx.completed_attempt.iter() {
            let status = copy.relinquish_completed_attempt(attempt.token);
            assert_eq!(status, Ok(SubmissionAttemptStatus::Applied));
        }
    }
    archive
}

/// The worked example of docs/ARCHIVE.md.
pub fn worked_example() -> Vec<u8> {
    let bundle = [vec![1, 2, 0xaa, 0xbb], vec![1; 32], vec![1, 1], vec![2; 32]].concat();
    let bundle = [bundle, vec![0, 0, 0, 0, 0, 0, 1, 2]].concat();
    let number = |n: u8| vec![0, 0, 0, 0, 0, 0, 0, n];
    [
        vec![2],
        number(6),
        number(2),
        vec![1],
        number(1),
        vec![1],
        number(5),
        vec![0],
        vec![3; 32],
        vec![1],
        vec![3; 32],
        vec![0],
        vec![4; 32],
        bundle.clone(),
        vec![0, 0, 2],
        vec![5; 32],
        number(9),
        vec![0, 0, 1],
        number(77),
        vec![1, 1],
        number(1),
        bundle,
        vec![0, 0, 2, 0, 1],
        number(7),
        vec![1],
        number(100),
        vec![1],
        number(1),
    ]
    .concat()
}

pub fn coin_id(coin: &CoinString) -> CoinID {
    CoinID(plain_sha256(coin.to_bytes()))
}
