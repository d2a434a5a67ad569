//! The oracle's own tests: published digests, the specimens of paper 01, the archive's bounds,
//! and that the upstream text is unchanged.

use std::fs;
use std::path::Path;

use rust_book::archive;
use rust_book::call::{Answer, Call, Outcome, BUNDLE_CELLS};
use rust_book::judge::{expected_outputs, intent_fingerprint};
use rust_book::model::*;
use rust_book::play::play;
use rust_book::rules::make;
use rust_book::sha256::sha256;
use rust_book::sound;
use rust_book::upstream;

use crate::generate;
use crate::generate::books::largest_book;
use crate::generate::damage::queue_call;
use crate::show;

/// Runs every test; a failed one panics.
pub fn run() {
    upstream_text();
    digests();
    amounts();
    opening();
    replay();
    tokens();
    drains();
    chain();
    looks();
    limits();
    largest_archive();
    truncated_archives();
    println!("selftest: all passed");
}

/// The two whole files are those at hand, byte for byte.
fn upstream_text() {
    if upstream::MUTANT != "0" {
        return;
    }
    let root = Path::new(upstream::ROOT).join("src/transaction_manager");
    for (name, text) in [("submission.rs", upstream::SUBMISSION), ("replay.rs", upstream::REPLAY)] {
        let held = fs::read_to_string(root.join(name)).expect("the upstream file");
        assert_eq!(held, text, "{name} was built from other text");
    }
    let whole = fs::read_to_string(root.with_extension("rs")).expect("the upstream file");
    let cut = upstream::MANAGER;
    assert!(whole.contains(cut), "transaction_manager.rs was cut from other text");
}

/// Vectors of FIPS 180-4 and of NIST's long and short message files.
fn digests() {
    let million = vec![b'a'; 1_000_000];
    let vectors: [(&[u8], &str); 6] = [
        (b"", "e3b0c44298fc1c149afbf4c8996fb92427ae41e4649b934ca495991b7852b855"),
        (b"abc", "ba7816bf8f01cfea414140de5dae2223b00361a396177a9cb410ff61f20015ad"),
        (
            b"abcdbcdecdefdefgefghfghighijhijkijkljklmklmnlmnomnopnopq",
            "248d6a61d20638b8e5c026930c3e6039a33ce45964ff2167f6ecedd419db06c1",
        ),
        (
            b"abcdefghbcdefghicdefghijdefghijkefghijklfghijklmghijklmnhijklmnoijklmnopjklmnopqklmnopqrlmnopqrsmnopqrstnopqrstu",
            "cf5b16a778af8380036ce59e7b0492370b249b11e8f07a51afac45037afee9d1",
        ),
        (&[0xbd], "68325720aabd7c82f30f554b313d0570c95accbb7dc4b5aae11204c08ffe732b"),
        (&million, "cdc76e5c9914fb9281a1c7e284d73e67f1809a48a497200e046d39ccc7112cd0"),
    ];
    for (message, digest) in vectors {
        let hex: String = sha256(message).iter().map(|byte| format!("{byte:02x}")).collect();
        assert_eq!(hex, digest);
    }
}

fn one_output(amount: u64) -> Bundle {
    vec![Spend {
        coin: vec![1; 64],
        digest: [2; 32],
        run: Some(vec![Output { puzzle_hash: [3; 32], amount }]),
    }]
}

fn amounts() {
    let atoms: [(u64, &[u8]); 6] = [
        (0, &[]),
        (127, &[0x7f]),
        (128, &[0, 0x80]),
        (255, &[0, 0xff]),
        (256, &[1, 0]),
        (u64::MAX, &[0, 255, 255, 255, 255, 255, 255, 255, 255]),
    ];
    for (amount, atom) in atoms {
        let outputs = expected_outputs(&one_output(amount));
        let mut coin = sha256(&[1; 64]).to_vec();
        coin.extend_from_slice(&[3; 32]);
        coin.extend_from_slice(atom);
        assert_eq!(outputs, [coin]);
    }
}

fn opening() {
    let book = Book::open(5, 1);
    let bytes = archive::write(&book);
    let expected = "02 00*7 05 00*7 01 00*5";
    assert_eq!(show::hex(&bytes).replace(' ', ""), expected.replace(' ', ""));
    assert_eq!(bytes.len(), 22);
    assert_eq!(archive::read(&bytes), Ok(book));
    assert_eq!(play(&[]), [0xff]);
    assert_eq!(play(&[0; 15]), [0xff]);
    assert_eq!(play(&[0; 16]), [0u8; 0]);
    assert_eq!(play(&[0; 17]), [0xff]);
}

fn number(outcome: &Outcome) -> u8 {
    outcome.as_ref().err().map_or(0, |refusal| refusal.number)
}

fn replay() {
    let mut book = Book::open(5, 1);
    assert_eq!(make(&mut book, &Call::BeginReplay { height: 100 }), Ok(Answer::Flag(true)));
    assert_eq!(make(&mut book, &Call::BeginReplay { height: 100 }), Ok(Answer::Flag(false)));
    make(&mut book, &Call::FinishReplayIfAdvanced { height: 100 }).expect("accepted");
    assert_eq!(book.rollback, Some(100));
    make(&mut book, &Call::FinishReplayIfAdvanced { height: 101 }).expect("accepted");
    assert_eq!(book.rollback, None);
}

fn intent(expiry: u64) -> Queued {
    Queued {
        id: None,
        bundle: one_output(9),
        expiry: Some(expiry),
        fee_intent: FeeIntent::AlreadyPaid,
        trigger: PROTOCOL,
        goal: ENSURE_BROADCAST,
    }
}

fn drain(book: &mut Book) -> Drained {
    match make(book, &Call::Drain) {
        Ok(Answer::Drained(drained)) => drained,
        other => panic!("the drain was refused: {other:?}"),
    }
}

fn tokens() {
    let mut book = Book::open(6, 1);
    let acknowledge = |token| Call::AcknowledgeAttempt { token };
    assert_eq!(make(&mut book, &acknowledge(5)), Ok(Answer::Applied(false)));
    assert_eq!(number(&make(&mut book, &acknowledge(6))), 4);

    let mut book = Book::open(u64::MAX - 1, 1);
    make(&mut book, &queue_call(&intent(1))).expect("accepted");
    make(&mut book, &queue_call(&intent(2))).expect("accepted");
    assert_eq!(number(&make(&mut book, &Call::Drain)), 11);
    assert_eq!((book.next_token, book.next_id), (u64::MAX, 3));
    assert_eq!(book.retained.len(), 2);
    assert!(book.queue.is_empty());
    assert!(book.retained[0].live.is_some() && book.retained[1].live.is_none());
    let live = Call::RelinquishCompletedAttempt { token: u64::MAX - 1 };
    assert_eq!(make(&mut book, &live), Ok(Answer::Applied(false)));

    let mut book = Book::open(5, u64::MAX);
    make(&mut book, &queue_call(&intent(1))).expect("accepted");
    assert_eq!(drain(&mut book).failures[0].stage, 3);
}

fn drains() {
    let mut book = Book::open(5, 1);
    let empty = Drained { submissions: Vec::new(), failures: Vec::new() };
    assert_eq!(drain(&mut book), empty);
    make(&mut book, &queue_call(&intent(1))).expect("accepted");
    make(&mut book, &queue_call(&intent(1))).expect("accepted");
    let drained = drain(&mut book);
    assert_eq!(drained.submissions.len(), 1);
    assert_eq!(drained.submissions[0].relationship, 0);
    make(&mut book, &queue_call(&intent(1))).expect("accepted");
    let again = drain(&mut book);
    assert_eq!(again.submissions[0].predecessor, Some(5));
    assert_eq!(again.submissions[0].relationship, 1);
    assert_eq!(book.retained[0].intent, intent_fingerprint(&intent(1)));
    assert_ne!(intent_fingerprint(&intent(1)), intent_fingerprint(&intent(2)));
}

/// Landed, only an input spent: without a reorg Landed, with one InputSpent; both halted.
fn chain() {
    for (reorg, expected) in [(0, LANDED), (1, INPUT_SPENT)] {
        let mut book = Book::open(5, 1);
        make(&mut book, &queue_call(&intent(1))).expect("accepted");
        drain(&mut book);
        book.retained[0].chain = LANDED;
        let report = Call::ReconcileChainTerminality {
            observed: vec![0, 0],
            spent: sha256(&[1; 64]).to_vec(),
            reorg,
            ids: Vec::new(),
        };
        make(&mut book, &report).expect("accepted");
        assert_eq!(book.retained[0].chain, expected);
        assert_eq!(book.retirements, [1]);
        assert!(book.retained[0].live.is_none() && book.retained[0].set_aside.is_some());
    }
}

/// A look at a submission in each state, and the summaries beside.
fn looks() {
    let mut book = Book::open(5, 1);
    let look = |book: &mut Book| match make(book, &Call::Look { id: 1 }) {
        Ok(Answer::Look(look)) => look,
        other => panic!("the look was refused: {other:?}"),
    };
    let counts = |book: &mut Book| match make(book, &Call::Summary) {
        Ok(Answer::Summary(all)) => [all.retained, all.queued, all.retirements, all.replayed],
        other => panic!("the summary was refused: {other:?}"),
    };
    make(&mut book, &queue_call(&intent(7))).expect("accepted");
    assert_eq!((look(&mut book), counts(&mut book)), (None, [0, 1, 0, 0]));
    drain(&mut book);
    let mut expected = Look {
        chain: ACTIVE,
        acknowledged: false,
        mark: NOT_REQUESTED,
        applied_fee: 0,
        expiry: Some(7),
        live: Some(5),
        set_aside: None,
    };
    assert_eq!(look(&mut book).as_ref(), Some(&expected));
    let finalise = Call::FinalizeAttempt { token: 5, source: 0, bundle: vec![0; BUNDLE_CELLS] };
    make(&mut book, &finalise).expect("accepted");
    make(&mut book, &Call::AcknowledgeAttempt { token: 5 }).expect("accepted");
    (expected.acknowledged, expected.live, expected.set_aside) = (true, None, Some(5));
    assert_eq!(look(&mut book), Some(expected));
    make(&mut book, &Call::RetainSubmitted { ids: vec![1] }).expect("accepted");
    assert_eq!((look(&mut book), counts(&mut book)), (None, [0, 0, 1, 0]));
}

fn limits() {
    let mut book = Book::open(5, 1);
    for expiry in 0..16 {
        make(&mut book, &queue_call(&intent(expiry))).expect("accepted");
    }
    assert_eq!(number(&make(&mut book, &queue_call(&intent(16)))), 10);
    assert_eq!(drain(&mut book).submissions.len(), 16);
    make(&mut book, &queue_call(&intent(16))).expect("accepted");
    let before = book.clone();
    assert_eq!(number(&make(&mut book, &Call::Drain)), 10);
    assert_eq!(book, before);
    for id in 100..164 {
        make(&mut book, &Call::EmitRetirement { id }).expect("accepted");
    }
    assert_eq!(number(&make(&mut book, &Call::EmitRetirement { id: 164 })), 10);
    assert_eq!(number(&make(&mut book, &Call::EmitRetirement { id: 163 })), 0);
}

fn largest_archive() {
    let book = largest_book();
    assert_eq!(sound::broken_rule(&book), None);
    let bytes = archive::write(&book);
    assert_eq!(bytes.len(), 57_694);
    assert_eq!(archive::read(&bytes).as_ref(), Ok(&book));
    let exact = Call::WriteArchive { buffer: 57_694 };
    assert_eq!(make(&mut book.clone(), &exact), Ok(Answer::Written(bytes)));
    assert_eq!(number(&make(&mut book.clone(), &Call::WriteArchive { buffer: 57_693 })), 12);
}

/// Every truncation of an archive is refused at the start of the item that it cuts, and every
/// accepted change of one byte is written back as it was read.
fn truncated_archives() {
    for number in 0..16 {
        let script = generate::script(99, number * generate::SCENARIOS + 4);
        let Some(Call::ReadArchive { bytes }) = script.calls.first() else {
            panic!("the scenario starts with an archive");
        };
        if bytes.len() > 6000 {
            continue;
        }
        let starts: Vec<usize> = archive::items(bytes).iter().map(|(place, _)| *place).collect();
        for length in 0..bytes.len() {
            let broken = archive::read(&bytes[..length]).expect_err("cut short");
            let start = starts.iter().rev().find(|start| **start <= length).expect("an item");
            assert!(broken.cut_short);
            assert_eq!(broken.place, *start);
        }
        for at in 0..bytes.len() {
            let mut changed = bytes.clone();
            changed[at] ^= 1 << (at % 8);
            match archive::read(&changed) {
                Ok(book) => assert_eq!(archive::write(&book), changed),
                Err(broken) => assert!(broken.place <= changed.len()),
            }
        }
    }
}
