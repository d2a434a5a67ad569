//! The good case of every call.

mod common;

use common::*;
use submission_book::SubmissionAttemptStatus::{Applied, Stale};
use submission_book::*;

const NOT_REQUESTED: SubmissionFeeSource = SubmissionFeeSource::NotRequested;

fn hex(bytes: &[u8]) -> String {
    bytes.iter().map(|byte| format!("{byte:02x}")).collect()
}

#[test]
fn sha256_of_the_published_vectors() {
    let digest = "ba7816bf8f01cfea414140de5dae2223b00361a396177a9cb410ff61f20015ad";
    assert_eq!(sha256(b"abc").to_string(), digest);
    assert_eq!(hex(&plain_sha256(b"abc")), digest);
    let digest = "248d6a61d20638b8e5c026930c3e6039a33ce45964ff2167f6ecedd419db06c1";
    let message = b"abcdbcdecdefdefgefghfghighijhijkijkljklmklmnlmnomnopnopq";
    assert_eq!(sha256(message).to_string(), digest);
    assert_eq!(hex(&plain_sha256(message)), digest);
    for length in 0..300 {
        let message = vec![7; length];
        assert_eq!(sha256(&message).0, plain_sha256(&message), "{length} bytes");
    }
}

fn from_hex(text: &str) -> Vec<u8> {
    let digits = (0..text.len()).step_by(2);
    digits.map(|at| u8::from_str_radix(&text[at..at + 2], 16).unwrap()).collect()
}

/// A line each: the amount's bytes, the coin string, its id.
#[test]
fn coin_ids_are_the_recorded_ones() {
    let lines: Vec<&str> =
        include_str!("../../../crates/tool_coin_vectors/stdout").lines().collect();
    assert_eq!(lines.len(), 35);
    for line in lines {
        let words: Vec<&str> = line.split(' ').collect();
        let coin = CoinString::from_bytes(&from_hex(words[1]));
        assert_eq!(coin.id().unwrap().to_string(), words[2]);
        let (parent, puzzle_hash, amount) = coin.to_parts().unwrap();
        assert_eq!(CoinString::from_parts(&parent, &puzzle_hash, amount), coin);
    }
}

#[test]
fn a_coin_of_over_73_bytes_has_no_id() {
    for length in 0..100 {
        let coin = CoinString::from_bytes(&vec![9; length]);
        let wanted = if length <= 73 { Ok(coin_id(&coin)) } else { Err(Refusal::BadValue) };
        assert_eq!(coin.id(), wanted, "{length} bytes");
    }
}

/// The answers of every method with `&self`.
fn looks(book: &SubmissionBook) -> String {
    let coins = book.reconciliation_input_coins(&[made(10)]);
    let tokens = (0..9).map(Token);
    let attempts: Vec<_> = tokens
        .map(|t| {
            (book.attempt(t), book.fee_intent_for_attempt(t), book.relinquish_completed_attempt(t))
        })
        .collect();
    let rolled_back = book.causally_rolled_back_ids(&[made(10)], &[coin_id(&coin(10))]);
    let absent = book.absent_outputs_for_ids(&book.active_ids(), &[made(10)]);
    let numbers = (book.replay_rollback_height(), book.summary());
    let submissions: Vec<_> = ids(0..4).into_iter().map(|id| book.look(id)).collect();
    let archive = book.to_archive();
    format!(
        "{coins:?} {attempts:?} {rolled_back:?} {absent:?} {numbers:?} {submissions:?} {archive:?}"
    )
}

#[test]
fn threads_look_at_one_book_at_once() {
    let mut book = drained_book(attach(7));
    book.begin_replay(Height(8));
    let wanted = looks(&book);
    std::thread::scope(|scope| {
        for _ in 0..2 {
            scope.spawn(|| {
                for _ in 0..50 {
                    assert_eq!(looks(&book), wanted);
                }
            });
        }
    });
}

#[test]
fn coin_strings_have_the_shortest_amount() {
    let atom = |amount| {
        let coin = CoinString::from_parts(&CoinID([1; 32]), &PuzzleHash([2; 32]), amount);
        assert_eq!(coin.to_bytes()[..64], [[1; 32], [2; 32]].concat());
        assert_eq!(coin.to_parts(), Some((CoinID([1; 32]), PuzzleHash([2; 32]), amount)));
        hex(&coin.to_bytes()[64..])
    };
    assert_eq!(atom(0), "");
    assert_eq!(atom(1), "01");
    assert_eq!(atom(127), "7f");
    assert_eq!(atom(128), "0080");
    assert_eq!(atom(255), "00ff");
    assert_eq!(atom(256), "0100");
    assert_eq!(atom(0x7fff), "7fff");
    assert_eq!(atom(0x8000), "008000");
    assert_eq!(atom(u64::MAX >> 1), "7fffffffffffffff");
    assert_eq!(atom(u64::MAX), "00ffffffffffffffff");
    assert_eq!(CoinString::from_bytes(&[7; 63]).to_parts(), None);
    assert_eq!(CoinString::from_bytes(&[7; 73]).amount(), None);
}

#[test]
fn open_takes_any_two_numbers() {
    let opened = SubmissionBook::open(Token(u64::MAX), SubmissionId(0x0102));
    let archive = "02ffffffffffffffff00000000000001020000000000";
    assert_eq!(hex(&opened.to_archive()), archive);
    assert_eq!(SubmissionBook::default(), SubmissionBook::open(Token(0), SubmissionId(0)));
    assert_ne!(book(), SubmissionBook::open(Token(6), SubmissionId(1)));
    assert_ne!(book(), SubmissionBook::open(Token(5), SubmissionId(2)));
    let text =
        "SubmissionBook { next_token: 18446744073709551615, next_id: 258, archive_bytes: 22 }";
    assert_eq!(format!("{opened:?}"), text);
}

#[test]
fn archive_and_back() {
    let mut first = acknowledged_book(attach(7));
    first.queue_fee_readiness().unwrap();
    first.emit_retirement(SubmissionId(70)).unwrap();
    first.begin_replay(Height(100));
    queue(&mut first, 20, NO_FEE);
    let archive = first.to_archive();
    let mut second = SubmissionBook::from_archive(&archive).unwrap();
    assert_eq!(second.to_archive(), archive);
    assert_eq!(second, first);
    assert_eq!(second.drain(), first.drain());
    assert_eq!(second, first);
    assert_ne!(second.to_archive(), archive);
}

#[test]
fn the_worked_example_of_the_archive() {
    let archive = worked_example();
    assert_eq!(archive.len(), 385);
    let digest = "0121cf1cca836e61062f887a4ddc2c41ffa43287af94c7c6a0600eb94a755211";
    assert_eq!(sha256(&archive).to_string(), digest);
    let mut book = SubmissionBook::from_archive(&archive).unwrap();
    assert_eq!(book.to_archive(), archive);
    assert_eq!(book.active_ids(), ids([1]));
    assert_eq!(book.replay_rollback_height(), Some(Height(100)));
    let attempt = DeliveryAttempt {
        token: Token(5),
        goal: SubmissionDeliveryGoal::EnsureBroadcast,
        drained_variant_fingerprint: Hash32([3; 32]),
        finalized_variant_fingerprint: Some(Hash32([3; 32])),
    };
    assert_eq!(book.attempt(Token(5)), Some(attempt));
    let fee_intent = SubmissionFeeIntent::Attach { target: CoinID([5; 32]), amount: 9 };
    assert_eq!(book.fee_intent_for_attempt(Token(5)), Ok(Some(fee_intent)));
    assert_eq!(book.drain_retirements(), ids([7]));
    let inputs = book.reconciliation_input_coins(&[]).unwrap();
    assert_eq!(inputs, [CoinString::from_bytes(&[0xaa, 0xbb])]);
}

/// The archive form of a bundle of the largest size; no two coins are equal.
fn largest_bundle(n: u8) -> Vec<u8> {
    let outputs = [&[9; 32][..], &[0xff; 8]].concat().repeat(4);
    let spend = |i: u8| {
        let coin = [&[n, i][..], &[7; 71]].concat();
        [&[73][..], &coin, &[8; 32], &[1, 4], &outputs].concat()
    };
    [vec![4], spend(0), spend(1), spend(2), spend(3)].concat()
}

/// An archive of the largest size: every list full, every optional part there.
fn largest_archive() -> Vec<u8> {
    let number = |n: u8| vec![0, 0, 0, 0, 0, 0, 0, n];
    let attempt = |n: u8| [vec![1], number(n), vec![0], vec![3; 32], vec![1], vec![3; 32]].concat();
    let fee_intent = [vec![2], vec![5; 32], number(9)].concat();
    let expiry = [vec![1], number(77)].concat();
    let submission = |n: u8| {
        let attempts = [attempt(2 * n), attempt(2 * n + 1)].concat();
        let bundles = [largest_bundle(n), vec![1], largest_bundle(n), number(9)].concat();
        let state = [vec![2], fee_intent.clone(), vec![1], vec![6; 32], vec![0]].concat();
        [number(n), attempts, vec![4; 32], bundles, state, expiry.clone()].concat()
    };
    let delivery = |n: u8| {
        let intent = [expiry.clone(), fee_intent.clone()].concat();
        [vec![1], number(n), largest_bundle(n), intent, vec![3, 1]].concat()
    };
    [
        [vec![2], number(32), number(16)].concat(),
        [vec![16], (0..16).flat_map(submission).collect()].concat(),
        [vec![16], (0..16).flat_map(delivery).collect()].concat(),
        [vec![64], (100..164).flat_map(number).collect()].concat(),
        [vec![1], number(200)].concat(),
        [vec![16], (0..16).flat_map(number).collect()].concat(),
    ]
    .concat()
}

#[test]
fn the_largest_book() {
    let archive = largest_archive();
    assert_eq!(archive.len(), 57_694);
    let mut book = SubmissionBook::from_archive(&archive).unwrap();
    assert_eq!(book.to_archive(), archive);
    assert_eq!(book.active_ids(), ids(0..16));
    assert_eq!(book.replay_rollback_height(), Some(Height(200)));
    assert_eq!(book.attempt(Token(30)).unwrap().token, Token(30));
    let look = book.look(SubmissionId(15)).unwrap();
    assert_eq!(look.active_attempt_token, Some(Token(30)));
    assert_eq!(look.completed_attempt_token, Some(Token(31)));
    assert_eq!((look.applied_fee, look.expiry), (9, Some(Height(77))));
    assert_eq!(book.summary().retired_count, 64);
    let inputs = book.reconciliation_input_coins(&[]).unwrap();
    assert_eq!(inputs.len(), 64);
    let fits = book.relinquish_completed_attempt(Token(31));
    assert_eq!(fits, Ok(Applied));
    assert_eq!(book.to_archive(), archive);
    assert_eq!(book.drain_retirements(), ids(100..164));
}

#[test]
fn queue_puts_the_delivery_into_the_archive() {
    let mut book = book();
    let delivery = PendingDelivery {
        intent: PendingSubmissionIntent {
            id: Some(SubmissionId(3)),
            bundle: SpendBundle {
                spends: vec![CoinSpend {
                    coin: CoinString::from_bytes(&[0xaa, 0xbb]),
                    digest: Hash32([1; 32]),
                    run: Run::Unreadable,
                }],
            },
            expiry: Some(Height(77)),
            fee_intent: SubmissionFeeIntent::AlreadyPaid,
        },
        trigger: DeliveryTrigger::ProviderReadiness,
        goal: SubmissionDeliveryGoal::FeeUpgrade,
    };
    book.queue(&delivery).unwrap();
    let entry = [
        "01",
        "01",
        "0000000000000003",
        "01",
        "02aabb",
        &"01".repeat(32),
        "00",
        "01",
        "000000000000004d",
        "00",
        "03",
        "01",
    ];
    assert_eq!(hex(&book.to_archive()[18..]), entry.concat() + "000000");
}

#[test]
fn largest_values_come_back_whole() {
    let mut book = book();
    let outputs: Vec<Output> = (0..4).map(|n| output(n, u64::MAX - u64::from(n))).collect();
    let spends = (0..4)
        .map(|n| CoinSpend {
            coin: CoinString::from_bytes(&[n; 73]),
            digest: Hash32([n + 40; 32]),
            run: Run::Outputs(outputs.clone()),
        })
        .collect();
    let bundle = SpendBundle { spends };
    let fee_intent = attach(u64::MAX);
    let expiry = Some(Height(u64::MAX));
    for n in 0..16 {
        let mut one = bundle.clone();
        one.spends[0].digest = Hash32([n; 32]);
        book.queue(&PendingDelivery::protocol(one, expiry, fee_intent)).unwrap();
    }
    let drained = book.drain().unwrap();
    assert_eq!(tokens(&drained), (5..21).collect::<Vec<_>>());
    for (n, submission) in (0..16).zip(&drained.submissions) {
        assert_eq!(submission.bundle.spends[0].digest, Hash32([n; 32]));
        assert_eq!(submission.bundle.spends[1..], bundle.spends[1..]);
        assert_eq!((submission.expiry, submission.fee_intent), (expiry, fee_intent));
    }
    let finalized = book.finalize_attempt(Token(5), &SubmissionFeeSource::Joined(bundle.clone()));
    assert_eq!(finalized.unwrap().unwrap().bundle, bundle);
    assert_eq!(book.reconciliation_input_coins(&[]).unwrap().len(), 4);
    let parents: Vec<CoinID> = bundle.spends.iter().map(|spend| coin_id(&spend.coin)).collect();
    let made: Vec<CoinString> = parents
        .iter()
        .flat_map(|id| outputs.iter().map(|o| CoinString::from_parts(id, &o.puzzle_hash, o.amount)))
        .collect();
    let absent = book.absent_outputs_for_ids(&ids(1..17), &made).unwrap();
    assert_eq!(absent, vec![made; 16].concat());
}

#[test]
fn drain_of_an_empty_queue_is_empty() {
    let mut book = book();
    let before = book.clone();
    assert_eq!(book.drain(), Ok(SubmissionDrainResult::default()));
    assert_eq!(book, before);
}

#[test]
fn drain_hands_out_what_was_queued() {
    let mut book = book();
    let expiry = Some(Height(9_000));
    book.queue(&PendingDelivery::protocol(deposit(10), expiry, NO_FEE)).unwrap();
    book.queue(&PendingDelivery::protocol(deposit(10), expiry, NO_FEE)).unwrap();
    book.queue(&PendingDelivery::protocol(deposit(20), None, attach(7))).unwrap();
    let drained = book.drain().unwrap();
    let first = DrainedSubmission {
        id: SubmissionId(1),
        attempt_token: Token(5),
        predecessor_attempt_token: None,
        relationship: SubmissionAttemptRelationship::Initial,
        bundle: deposit(10),
        expiry,
        fee_intent: SubmissionFeeIntent::AlreadyPaid,
    };
    let second = DrainedSubmission {
        id: SubmissionId(2),
        attempt_token: Token(6),
        bundle: deposit(20),
        expiry: None,
        fee_intent: attach(7),
        ..first.clone()
    };
    let expected = SubmissionDrainResult { submissions: vec![first, second], failures: vec![] };
    assert_eq!(drained, expected);
}

#[test]
fn drained_again_it_has_a_predecessor() {
    let mut book = drained_book(NO_FEE);
    queue(&mut book, 10, NO_FEE);
    let drained = book.drain().unwrap();
    let again = &drained.submissions[0];
    assert_eq!((again.id, again.attempt_token), (SubmissionId(1), Token(6)));
    assert_eq!(again.predecessor_attempt_token, Some(Token(5)));
    assert_eq!(again.relationship, SubmissionAttemptRelationship::Exact);
    assert_eq!(book.attempt(Token(5)), None);
    assert!(book.attempt(Token(6)).is_some());
}

#[test]
fn finalize_without_a_fee() {
    let mut book = drained_book(NO_FEE);
    let finalized = book.finalize_attempt(Token(5), &NOT_REQUESTED).unwrap().unwrap();
    let fingerprint = book.attempt(Token(5)).unwrap().drained_variant_fingerprint;
    let expected = FinalizedSubmission {
        bundle: deposit(10),
        applied_fee: 0,
        warning: false,
        fee_source_disposition: FeeSourceDisposition::NotRequested,
        variant_fingerprint: fingerprint,
        should_broadcast: true,
    };
    assert_eq!(finalized, expected);
    let attempt = book.attempt(Token(5)).unwrap();
    assert_eq!(attempt.finalized_variant_fingerprint, Some(fingerprint));
}

#[test]
fn every_fee_source() {
    let finalize = |source: &SubmissionFeeSource| {
        let mut book = drained_book(attach(7));
        book.finalize_attempt(Token(5), source).unwrap().unwrap()
    };
    let joined = finalize(&SubmissionFeeSource::Joined(deposit(30)));
    assert_eq!((joined.bundle, joined.applied_fee, joined.warning), (deposit(30), 7, false));
    assert_eq!(joined.fee_source_disposition, FeeSourceDisposition::Attached);
    let without = [NOT_REQUESTED, SubmissionFeeSource::JoinFailed, SubmissionFeeSource::Failed]
        .map(|source| {
            let finalized = finalize(&source);
            assert_eq!(finalized.fee_source_disposition, FeeSourceDisposition::Unused);
            (finalized.bundle, finalized.applied_fee, finalized.warning)
        });
    assert_eq!(without, [(); 3].map(|()| (deposit(10), 0, true)));
}

#[test]
fn an_attempt_that_is_not_live_is_not_finalized() {
    let mut book = acknowledged_book(NO_FEE);
    assert_eq!(book.finalize_attempt(Token(5), &NOT_REQUESTED), Ok(None));
    assert_eq!(book.fee_intent_for_attempt(Token(5)), Ok(None));
    assert_eq!(book.attempt(Token(5)), None);
}

#[test]
fn fee_intent_for_attempt_of_each_kind() {
    assert_eq!(drained_book(attach(7)).fee_intent_for_attempt(Token(5)), Ok(Some(attach(7))));
    let none = Ok(Some(SubmissionFeeIntent::AlreadyPaid));
    assert_eq!(drained_book(NO_FEE).fee_intent_for_attempt(Token(5)), none);
}

#[test]
fn acknowledge_then_stale() {
    let mut book = acknowledged_book(NO_FEE);
    let before = book.clone();
    assert_eq!(book.acknowledge_attempt(Token(5)), Ok(Stale));
    assert_eq!(book.acknowledge_attempt(Token(4)), Ok(Stale));
    assert_eq!(book, before);
    queue(&mut book, 10, NO_FEE);
    assert_eq!(book.drain(), Ok(SubmissionDrainResult::default()));
}

#[test]
fn stop_sets_the_attempt_aside() {
    let mut book = drained_book(NO_FEE);
    assert_eq!(book.relinquish_completed_attempt(Token(5)), Ok(Stale));
    assert_eq!(book.stop_attempt(Token(5)), Ok(Applied));
    assert_eq!(book.attempt(Token(5)), None);
    let before = book.clone();
    assert_eq!(book.stop_attempt(Token(5)), Ok(Stale));
    assert_eq!(book.relinquish_completed_attempt(Token(5)), Ok(Applied));
    assert_eq!(book, before);
    assert_eq!(book.active_ids(), ids([1]));
}

#[test]
fn abandon_removes_the_submission() {
    let mut book = drained_book(NO_FEE);
    assert_eq!(book.abandon_attempt(Token(5)), Ok(Applied));
    assert_eq!(book.active_ids(), []);
    assert_eq!(book.drain_retirements(), ids([1]));
    assert_eq!(book.abandon_attempt(Token(5)), Ok(Stale));
}

#[test]
fn retain_submitted_removes_the_named_ones() {
    let mut book = book();
    (1..5).for_each(|n| queue(&mut book, 10 * n, NO_FEE));
    book.drain().unwrap();
    assert_eq!(book.active_ids(), ids(1..5));
    assert_eq!(book.retain_submitted(&ids([4, 9, 2, 4])), Ok(ids([2, 4])));
    assert_eq!(book.active_ids(), ids([1, 3]));
    assert_eq!(book.drain_retirements(), ids([2, 4]));
    assert_eq!(book.retain_submitted(&[]), Ok(vec![]));
}

#[test]
fn retirements_are_kept_once_and_taken_once() {
    let mut book = book();
    for id in ids([8, 3, 8]) {
        book.emit_retirement(id).unwrap();
    }
    assert_eq!(book.drain_retirements(), ids([8, 3]));
    assert_eq!(book.drain_retirements(), []);
}

#[test]
fn clear_local_artifacts_keeps_the_numbers() {
    let mut book = drained_book(NO_FEE);
    queue(&mut book, 20, NO_FEE);
    book.begin_replay(Height(100));
    book.clear_local_artifacts().unwrap();
    assert_eq!(book.drain_retirements(), ids([1]));
    assert_eq!(book, SubmissionBook::open(Token(6), SubmissionId(2)));
}

#[test]
fn restore_runtime_sets_every_attempt_aside() {
    let mut book = drained_book(NO_FEE);
    book.restore_runtime();
    assert_eq!(book.attempt(Token(5)), None);
    assert_eq!(book.relinquish_completed_attempt(Token(5)), Ok(Applied));
    queue(&mut book, 10, NO_FEE);
    assert_eq!(book.drain().unwrap().submissions[0].predecessor_attempt_token, Some(Token(5)));
}

#[test]
fn rebroadcast_of_what_is_not_acknowledged() {
    let mut book = drained_book(NO_FEE);
    book.queue_rebroadcast_epoch(&ids([7, 1]), DeliveryTrigger::Protocol).unwrap();
    assert_eq!(book.drain(), Ok(SubmissionDrainResult::default()));
    book.queue_rebroadcast_epoch(&ids([7, 1, 1]), DeliveryTrigger::FreshChain).unwrap();
    let drained = book.drain().unwrap();
    assert_eq!(tokens(&drained), [6]);
    assert_eq!(drained.submissions[0].relationship, SubmissionAttemptRelationship::Exact);
}

#[test]
fn retained_delivery_by_goal() {
    let mut book = acknowledged_book(attach(7));
    let (trigger, goal) = (DeliveryTrigger::Rollback, SubmissionDeliveryGoal::EnsureBroadcast);
    book.queue_retained_delivery(SubmissionId(1), trigger, goal).unwrap();
    assert_eq!(tokens(&book.drain().unwrap()), []);
    let goal = SubmissionDeliveryGoal::FeeUpgrade;
    book.queue_retained_delivery(SubmissionId(1), trigger, goal).unwrap();
    assert_eq!(tokens(&book.drain().unwrap()), [6]);
    assert_eq!(book.attempt(Token(6)).unwrap().goal, goal);
}

#[test]
fn replay_epoch() {
    let mut book = book();
    assert_eq!(book.replay_rollback_height(), None);
    assert!(book.begin_replay(Height(100)));
    assert!(!book.begin_replay(Height(100)));
    assert_eq!(book.replay_rollback_height(), Some(Height(100)));
    book.finish_replay_if_advanced(Height(100));
    assert_eq!(book.replay_rollback_height(), Some(Height(100)));
    book.finish_replay_if_advanced(Height(101));
    assert_eq!(book.replay_rollback_height(), None);
}

#[test]
fn landed_and_input_spent() {
    let mut book = drained_book(NO_FEE);
    assert_eq!(book.reconciliation_input_coins(&[]), Ok(vec![coin(10)]));
    book.reconcile_chain_terminality(&[made(20), made(10)], &[], false, &[]).unwrap();
    assert_eq!(book.active_ids(), []);
    assert_eq!(book.attempt(Token(5)), None);
    assert_eq!(book.drain_retirements(), ids([1]));
    // landed: its input is watched only for an output that is named
    assert_eq!(book.reconciliation_input_coins(&[made(20)]), Ok(vec![]));
    assert_eq!(book.reconciliation_input_coins(&[made(10)]), Ok(vec![coin(10)]));
    // with the input spent: still landed, and in a reorg no longer
    book.reconcile_chain_terminality(&[], &[coin_id(&coin(10))], false, &[]).unwrap();
    assert_eq!(book.reconciliation_input_coins(&[]), Ok(vec![]));
    book.reconcile_chain_terminality(&[], &[coin_id(&coin(10))], true, &[]).unwrap();
    assert_eq!(book.reconciliation_input_coins(&[]), Ok(vec![coin(10)]));
    assert_eq!(book.active_ids(), []);
}

/// The two tokens that a look at submission 1 shows.
fn attempts(book: &SubmissionBook) -> (Option<Token>, Option<Token>) {
    let look = book.look(SubmissionId(1)).unwrap();
    (look.active_attempt_token, look.completed_attempt_token)
}

#[test]
fn a_look_at_each_state_of_an_attempt() {
    let mut book = book();
    let expiry = Some(Height(77));
    book.queue(&PendingDelivery::protocol(deposit(10), expiry, NO_FEE)).unwrap();
    assert_eq!(book.look(SubmissionId(1)), None);
    book.drain().unwrap();
    let drained = SubmissionLook {
        chain_terminality: SubmissionChainTerminality::Active,
        acknowledged: false,
        fee_resolution: FeeResolution::NotRequested,
        applied_fee: 0,
        expiry,
        active_attempt_token: Some(Token(5)),
        completed_attempt_token: None,
    };
    assert_eq!(book.look(SubmissionId(1)), Some(drained));
    assert_eq!(book.look(SubmissionId(2)), None);
    book.stop_attempt(Token(5)).unwrap();
    assert_eq!(attempts(&book), (None, Some(Token(5))));
    book.queue_rebroadcast_epoch(&ids([1]), DeliveryTrigger::FreshChain).unwrap();
    book.drain().unwrap();
    assert_eq!(attempts(&book), (Some(Token(6)), None));
    book.finalize_attempt(Token(6), &NOT_REQUESTED).unwrap();
    book.acknowledge_attempt(Token(6)).unwrap();
    assert_eq!(attempts(&book), (None, Some(Token(6))));
    assert!(book.look(SubmissionId(1)).unwrap().acknowledged);
    book.retain_submitted(&ids([1])).unwrap();
    assert_eq!(book.look(SubmissionId(1)), None);
}

#[test]
fn a_look_at_the_fee() {
    let fee = |book: &SubmissionBook| {
        let look = book.look(SubmissionId(1)).unwrap();
        (look.fee_resolution, look.applied_fee, look.acknowledged)
    };
    let mut book = acknowledged_book(attach(7));
    assert_eq!(fee(&book), (FeeResolution::Unresolved, 0, true));
    book.queue_fee_readiness().unwrap();
    book.drain().unwrap();
    // the bundle with the fee is another one than that which was acknowledged
    book.finalize_attempt(Token(6), &SubmissionFeeSource::Joined(deposit(30))).unwrap();
    assert_eq!(fee(&book), (FeeResolution::Attached, 7, false));
    book.acknowledge_attempt(Token(6)).unwrap();
    assert_eq!(fee(&book), (FeeResolution::Attached, 7, true));
    book.collect_rollback_replay_ids(&ids([1])).unwrap();
    assert_eq!(fee(&book), (FeeResolution::Attached, 7, false));
}

#[test]
fn a_look_at_what_the_chain_has_shown() {
    use SubmissionChainTerminality::*;
    let chain = |book: &SubmissionBook| book.look(SubmissionId(1)).unwrap().chain_terminality;
    let mut book = drained_book(NO_FEE);
    assert_eq!(chain(&book), Active);
    book.reconcile_chain_terminality(&[made(10)], &[], false, &[]).unwrap();
    assert_eq!(chain(&book), Landed);
    book.reconcile_chain_terminality(&[], &[coin_id(&coin(10))], true, &[]).unwrap();
    assert_eq!(chain(&book), InputSpent);
    book.reconcile_chain_terminality(&[], &[], true, &ids([1])).unwrap();
    assert_eq!(chain(&book), Active);
}

#[test]
fn the_summary_behind_calls() {
    let mut book = book();
    let counts = |book: &SubmissionBook| {
        let all = book.summary();
        [all.submitted_count, all.pending_count, all.retired_count, all.replayed_count]
    };
    let opened = BookSummary {
        next_delivery_attempt_token: Token(5),
        next_submission_id: SubmissionId(1),
        submitted_count: 0,
        pending_count: 0,
        retired_count: 0,
        replayed_count: 0,
        rollback_height: None,
    };
    assert_eq!(book.summary(), opened);
    (1..3).for_each(|n| queue(&mut book, 10 * n, NO_FEE));
    assert_eq!(counts(&book), [0, 2, 0, 0]);
    book.drain().unwrap();
    assert_eq!(counts(&book), [2, 0, 0, 0]);
    book.begin_replay(Height(100));
    book.collect_rollback_replay_ids(&ids([1, 2])).unwrap();
    assert_eq!(counts(&book), [2, 2, 0, 2]);
    assert_eq!(book.summary().rollback_height, Some(Height(100)));
    book.abandon_attempt(Token(5)).unwrap();
    assert_eq!(counts(&book), [1, 1, 1, 1]);
    book.drain_retirements();
    book.finish_replay_if_advanced(Height(101));
    let numbers = (book.summary().next_delivery_attempt_token, book.summary().next_submission_id);
    assert_eq!(counts(&book), [1, 1, 0, 0]);
    assert_eq!(numbers, (Token(7), SubmissionId(3)));
    assert_eq!(book.summary().rollback_height, None);
}

#[test]
fn lists_at_their_limits_are_taken() {
    let mut book = drained_book(NO_FEE);
    let mut coins = vec![CoinString::from_bytes(&[1; 73]); 799];
    coins.push(made(10));
    let spent = vec![CoinID([1; 32]); 800];
    let many = ids(0..64);
    assert_eq!(book.causally_rolled_back_ids(&coins, &spent), Ok(vec![]));
    assert_eq!(book.absent_outputs_for_ids(&many, &coins), Ok(vec![made(10)]));
    assert_eq!(book.reconciliation_input_coins(&coins), Ok(vec![coin(10)]));
    book.reconcile_chain_terminality(&coins, &spent, false, &many).unwrap();
    assert_eq!(book.active_ids(), []);
    assert_eq!(book.retain_submitted(&many), Ok(ids([1])));
}

#[test]
fn looking_leaves_the_book() {
    let book = drained_book(attach(7));
    let before = book.to_archive();
    book.active_ids();
    book.attempt(Token(5));
    book.replay_rollback_height();
    book.look(SubmissionId(1)).unwrap();
    book.summary();
    book.fee_intent_for_attempt(Token(5)).unwrap();
    book.causally_rolled_back_ids(&[made(10)], &[coin_id(&coin(10))]).unwrap();
    book.reconciliation_input_coins(&[made(10)]).unwrap();
    book.absent_outputs_for_ids(&ids([1]), &[made(10)]).unwrap();
    assert_eq!(book.to_archive(), before);
}

#[test]
fn books_go_to_other_threads() {
    fn sent_and_shared<T: Send + Sync + Clone>(_: &T) {}
    let book = drained_book(NO_FEE);
    sent_and_shared(&book);
    std::thread::scope(|scope| {
        for _ in 0..4 {
            scope.spawn(|| {
                let mut mine = book.clone();
                for token in 5..25 {
                    assert_eq!(book.active_ids(), ids([1]));
                    mine.stop_attempt(Token(token)).unwrap();
                    queue(&mut mine, 10, NO_FEE);
                    assert_eq!(tokens(&mine.drain().unwrap()), [token + 1]);
                }
            });
        }
    });
    assert_eq!(book, drained_book(NO_FEE));
}

#[test]
fn tokens_ids_and_heights_are_numbers() {
    let numbers: (Token, SubmissionId, Height) = (5.into(), 6.into(), u64::MAX.into());
    assert_eq!(numbers, (Token(5), SubmissionId(6), Height(u64::MAX)));
    assert_eq!(u64::from(numbers.0), 5);
    assert_eq!(u64::from(numbers.1), 6);
    assert_eq!(u64::from(numbers.2), u64::MAX);
}
