//! Each refusal that the methods can answer, and that it leaves the book (but for 11).
//!
//! 1 and 12 cannot be had: a `SubmissionBook` never holds bytes that are no sound book, and the
//! crate itself lends the buffers, each as long as the longest answer.

mod common;

use common::*;
use submission_book::*;

const NOT_REQUESTED: SubmissionFeeSource = SubmissionFeeSource::NotRequested;

/// The call is refused so, and leaves the book.
#[track_caller]
fn refused<T: std::fmt::Debug>(
    book: &mut SubmissionBook,
    refusal: Refusal,
    call: impl FnOnce(&mut SubmissionBook) -> Result<T, Refusal>,
) {
    let before = book.to_archive();
    match call(book) {
        Err(answer) => assert_eq!(answer, refusal),
        Ok(answer) => panic!("accepted: {answer:?}"),
    }
    assert_eq!(book.to_archive(), before);
}

fn spends(count: usize) -> SpendBundle {
    SpendBundle { spends: vec![spend(10, vec![]); count] }
}

fn coin_of(length: usize) -> SpendBundle {
    let coin = CoinString::from_bytes(&vec![7; length]);
    SpendBundle { spends: vec![CoinSpend { coin, ..spend(10, vec![]) }] }
}

fn outputs(count: usize) -> SpendBundle {
    SpendBundle { spends: vec![spend(10, vec![output(1, 2); count])] }
}

/// Lengths over a limit, some of which a byte would show as one that is within it.
fn over(limit: usize) -> Vec<usize> {
    vec![limit + 1, 255, 256, 256 + 1, 256 + limit, 512, 65_536, 65_537]
}

#[test]
fn every_refusal_has_its_number_and_text() {
    let all = [
        Refusal::NoBook,
        Refusal::BadList,
        Refusal::BadValue,
        Refusal::UnknownToken,
        Refusal::AlreadyFinalized,
        Refusal::NotFinalized,
        Refusal::InvalidSubmission,
        Refusal::StaleVariant,
        Refusal::UnrequestedFee,
        Refusal::Full,
        Refusal::NoToken,
        Refusal::ShortBuffer,
        Refusal::NoArchive { place: 27 },
    ];
    for (number, refusal) in (1..).zip(all) {
        assert_eq!(refusal.number(), number);
        let error: Box<dyn std::error::Error> = refusal.into();
        let text = error.to_string();
        assert!(text.starts_with(&format!("refused {number}: ")), "{text}");
    }
    let text = Refusal::NoArchive { place: 27 }.to_string();
    let whole = "refused 13: the bytes are no archive, the first broken item starts at byte 27";
    assert_eq!(text, whole);
    assert!(Refusal::NoToken.to_string().contains("what it did before stays"));
}

#[test]
fn refused_2_too_many_ids() {
    for count in [65, 256, 320, 65_537] {
        let mut book = drained_book(NO_FEE);
        let many = vec![SubmissionId(1); count];
        let refusal = Refusal::BadList;
        refused(&mut book, refusal, |book| {
            book.queue_rebroadcast_epoch(&many, DeliveryTrigger::FreshChain)
        });
        refused(&mut book, refusal, |book| book.retain_submitted(&many));
        refused(&mut book, refusal, |book| book.collect_rollback_replay_ids(&many));
        refused(&mut book, refusal, |book| book.absent_outputs_for_ids(&many, &[]));
        refused(&mut book, refusal, |book| {
            book.reconcile_chain_terminality(&[], &[], false, &many)
        });
    }
}

#[track_caller]
fn refused_coins(coins: &[CoinString]) {
    let mut book = drained_book(NO_FEE);
    let refusal = Refusal::BadList;
    refused(&mut book, refusal, |book| book.reconcile_chain_terminality(coins, &[], false, &[]));
    refused(&mut book, refusal, |book| book.causally_rolled_back_ids(coins, &[]));
    refused(&mut book, refusal, |book| book.reconciliation_input_coins(coins));
    refused(&mut book, refusal, |book| book.absent_outputs_for_ids(&ids([1]), coins));
}

#[test]
fn refused_2_coin_lists() {
    for count in [801, 65_535, 65_536, 65_537, 66_336] {
        refused_coins(&vec![made(10); count]);
    }
    for length in over(73) {
        refused_coins(&[made(10), CoinString::from_bytes(&vec![7; length])]);
    }
}

#[test]
fn refused_2_too_many_coin_ids() {
    for count in [801, 65_536] {
        let many = vec![coin_id(&coin(10)); count];
        let mut book = drained_book(NO_FEE);
        let refusal = Refusal::BadList;
        refused(&mut book, refusal, |book| {
            book.reconcile_chain_terminality(&[], &many, false, &[])
        });
        refused(&mut book, refusal, |book| book.causally_rolled_back_ids(&[], &many));
    }
}

#[test]
fn refused_3_bundles() {
    let bundles = over(4).into_iter().flat_map(|n| [spends(n), outputs(n)]);
    let coins = over(73).into_iter().map(coin_of);
    for bundle in bundles.chain(coins) {
        let mut book = drained_book(attach(7));
        let delivery = PendingDelivery::protocol(bundle.clone(), None, NO_FEE);
        refused(&mut book, Refusal::BadValue, |book| book.queue(&delivery));
        // before the token is looked at
        for token in [5, 6] {
            let joined = SubmissionFeeSource::Joined(bundle.clone());
            refused(&mut book, Refusal::BadValue, |book| {
                book.finalize_attempt(Token(token), &joined)
            });
        }
    }
}

/// Three spends, the first of a coin of 256 bytes. Were its length cut to a byte, 0, the bytes that
/// follow would be read as three other spends, all within their ranges.
fn other_spends_within() -> SpendBundle {
    let mut coin = [7; 256];
    // first: no coin, digest, unreadable
    coin[32] = 0;
    // second: a coin of 73 bytes, digest, four outputs, which end in the next spend's digest
    coin[33] = 73;
    coin[139] = 1;
    coin[140] = 4;
    let spend = |coin: &[u8], digest: [u8; 32]| CoinSpend {
        coin: CoinString::from_bytes(coin),
        digest: Hash32(digest),
        run: Run::Unreadable,
    };
    // third: a coin of 22 bytes, then the digest of the last spend
    let mut digest = [5; 32];
    digest[11] = 22;
    SpendBundle { spends: vec![spend(&coin, [4; 32]), spend(&[], digest), spend(&[], [6; 32])] }
}

#[test]
fn refused_3_and_not_read_as_other_spends() {
    let mut book = drained_book(attach(7));
    let joined = SubmissionFeeSource::Joined(other_spends_within());
    refused(&mut book, Refusal::BadValue, |book| book.finalize_attempt(Token(5), &joined));
    let delivery = PendingDelivery::protocol(other_spends_within(), None, NO_FEE);
    refused(&mut book, Refusal::BadValue, |book| book.queue(&delivery));
}

#[test]
fn taken_at_the_limits() {
    for bundle in [spends(4), coin_of(73), outputs(4), spends(0), coin_of(0), outputs(0)] {
        let mut book = book();
        book.queue(&PendingDelivery::protocol(bundle.clone(), None, NO_FEE)).unwrap();
        assert_eq!(book.drain().unwrap().submissions[0].bundle, bundle);
    }
}

#[test]
fn refused_4_tokens_that_were_not_issued() {
    let mut book = drained_book(NO_FEE);
    for token in [Token(6), Token(u64::MAX)] {
        let refusal = Refusal::UnknownToken;
        refused(&mut book, refusal, |book| book.finalize_attempt(token, &NOT_REQUESTED));
        refused(&mut book, refusal, |book| book.fee_intent_for_attempt(token));
        refused(&mut book, refusal, |book| book.acknowledge_attempt(token));
        refused(&mut book, refusal, |book| book.stop_attempt(token));
        refused(&mut book, refusal, |book| book.abandon_attempt(token));
        refused(&mut book, refusal, |book| book.relinquish_completed_attempt(token));
        assert_eq!(book.attempt(token), None);
    }
}

#[test]
fn refused_5_finalized_twice() {
    let mut book = drained_book(NO_FEE);
    book.finalize_attempt(Token(5), &NOT_REQUESTED).unwrap();
    refused(&mut book, Refusal::AlreadyFinalized, |book| {
        book.finalize_attempt(Token(5), &SubmissionFeeSource::Failed)
    });
}

#[test]
fn refused_6_not_finalized() {
    let mut book = drained_book(NO_FEE);
    refused(&mut book, Refusal::NotFinalized, |book| book.acknowledge_attempt(Token(5)));
}

#[test]
fn refused_7_a_submission_that_contradicts_itself() {
    // the worked example, without the finalised fingerprint and with a fee that is unresolved
    // though nothing is to be attached
    let mut archive = worked_example();
    assert_eq!((archive[68], archive[214]), (1, 2));
    archive[214] = 0;
    archive.drain(215..255);
    archive[68] = 0;
    archive.drain(69..101);
    let mut book = SubmissionBook::from_archive(&archive).unwrap();
    refused(&mut book, Refusal::InvalidSubmission, |book| {
        book.finalize_attempt(Token(5), &NOT_REQUESTED)
    });
}

#[test]
fn refused_8_another_bundle() {
    let mut archive = worked_example();
    let mut book = SubmissionBook::from_archive(&archive).unwrap();
    refused(&mut book, Refusal::StaleVariant, |book| book.acknowledge_attempt(Token(5)));
    archive[68] = 0;
    archive.drain(69..101);
    let mut book = SubmissionBook::from_archive(&archive).unwrap();
    refused(&mut book, Refusal::StaleVariant, |book| {
        book.finalize_attempt(Token(5), &NOT_REQUESTED)
    });
}

#[test]
fn refused_9_a_fee_that_nobody_asked_for() {
    let mut book = drained_book(NO_FEE);
    let joined = SubmissionFeeSource::Joined(deposit(30));
    for source in [joined, SubmissionFeeSource::JoinFailed, SubmissionFeeSource::Failed] {
        refused(&mut book, Refusal::UnrequestedFee, |book| {
            book.finalize_attempt(Token(5), &source)
        });
    }
}

#[test]
fn refused_10_a_full_queue() {
    let mut book = acknowledged_book(attach(7));
    (0..16).for_each(|_| queue(&mut book, 20, NO_FEE));
    let delivery = PendingDelivery::protocol(deposit(20), None, NO_FEE);
    let one = ids([1]);
    refused(&mut book, Refusal::Full, |book| book.queue(&delivery));
    refused(&mut book, Refusal::Full, |book| book.queue_fee_readiness());
    refused(&mut book, Refusal::Full, |book| {
        book.queue_rebroadcast_epoch(&one, DeliveryTrigger::FreshChain)
    });
    refused(&mut book, Refusal::Full, |book| {
        let goal = SubmissionDeliveryGoal::FeeUpgrade;
        book.queue_retained_delivery(SubmissionId(1), DeliveryTrigger::FreshChain, goal)
    });
    refused(&mut book, Refusal::Full, |book| book.collect_rollback_replay_ids(&one));
}

#[test]
fn refused_10_a_17th_submission() {
    let mut book = book();
    (0..16).for_each(|n| queue(&mut book, 10 * n, NO_FEE));
    assert_eq!(book.drain().unwrap().submissions.len(), 16);
    queue(&mut book, 200, NO_FEE);
    refused(&mut book, Refusal::Full, |book| book.drain());
    book.retain_submitted(&ids([1])).unwrap();
    assert_eq!(tokens(&book.drain().unwrap()), [21]);
}

#[test]
fn refused_10_a_65th_retirement() {
    let mut book = drained_book(NO_FEE);
    for id in ids(100..164) {
        book.emit_retirement(id).unwrap();
    }
    refused(&mut book, Refusal::Full, |book| book.emit_retirement(SubmissionId(1)));
    refused(&mut book, Refusal::Full, |book| book.abandon_attempt(Token(5)));
    refused(&mut book, Refusal::Full, |book| book.retain_submitted(&ids([1])));
    refused(&mut book, Refusal::Full, |book| book.clear_local_artifacts());
    refused(&mut book, Refusal::Full, |book| {
        book.reconcile_chain_terminality(&[made(10)], &[], false, &[])
    });
    // a candidate that is removed
    let mut wrong = PendingDelivery::protocol(deposit(20), None, NO_FEE);
    wrong.intent.id = Some(SubmissionId(1));
    book.queue(&wrong).unwrap();
    refused(&mut book, Refusal::Full, |book| book.drain());
    // one that is there already
    book.emit_retirement(SubmissionId(100)).unwrap();
    assert_eq!(book.drain_retirements().len(), 64);
    assert_eq!(book.emit_retirement(SubmissionId(1)), Ok(()));
}

#[test]
fn refused_11_keeps_what_the_drain_did() {
    let mut book = SubmissionBook::open(Token(u64::MAX - 1), SubmissionId(1));
    queue(&mut book, 10, NO_FEE);
    queue(&mut book, 20, NO_FEE);
    queue(&mut book, 30, NO_FEE);
    assert_eq!(book.drain(), Err(Refusal::NoToken));
    // the first candidate has its token, the second is retained without one, the third is gone
    let attempt = book.attempt(Token(u64::MAX - 1)).unwrap();
    assert_eq!(attempt.goal, SubmissionDeliveryGoal::EnsureBroadcast);
    assert_eq!(book.active_ids(), ids([1, 2]));
    assert_eq!(next_token(&book.to_archive()), u64::MAX);
    assert_eq!(book.drain(), Ok(SubmissionDrainResult::default()));
    // and it can be gone on with
    book.finalize_attempt(Token(u64::MAX - 1), &NOT_REQUESTED).unwrap().unwrap();
    let status = book.acknowledge_attempt(Token(u64::MAX - 1));
    assert_eq!(status, Ok(SubmissionAttemptStatus::Applied));
    assert_eq!(SubmissionBook::from_archive(&book.to_archive()), Ok(book));
}

#[test]
fn refused_13_with_the_place() {
    let place = |archive: &[u8]| match SubmissionBook::from_archive(archive) {
        Err(Refusal::NoArchive { place }) => place,
        other => panic!("{other:?}"),
    };
    let whole = worked_example();
    let with = |at: usize, byte: u8| {
        let mut archive = whole.clone();
        archive[at] = byte;
        archive
    };
    assert_eq!(place(&[]), 0);
    assert_eq!(place(&whole[..100]), 69);
    assert_eq!(place(&with(213, 7)), 213);
    assert_eq!(place(&with(34, 6)), 27);
    assert_eq!(place(&[&whole[..], &[0]].concat()), 385);
    assert_eq!(place(&vec![0xff; 100_000]), 0);
}

#[test]
fn refused_13_for_every_cut() {
    let mut book = acknowledged_book(attach(7));
    book.queue_fee_readiness().unwrap();
    let archive = book.to_archive();
    for length in 0..archive.len() {
        let refusal = SubmissionBook::from_archive(&archive[..length]).unwrap_err();
        let Refusal::NoArchive { place } = refusal else {
            panic!("{refusal}");
        };
        assert!(place <= length as u64 && length as u64 <= place + 80, "{place} for {length}");
    }
}
