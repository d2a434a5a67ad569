//! A submission from its queue to the end: a fee upgrade, a reorg, failing drains, a restart.

mod common;

use common::*;
use submission_book::*;

#[test]
fn a_fee_upgrade() {
    let mut book = drained_book(attach(7));
    assert_eq!(book.fee_intent_for_attempt(Token(5)), Ok(Some(attach(7))));

    // the wallet has no fee yet: the deposit goes without
    let first = book.finalize_attempt(Token(5), &SubmissionFeeSource::Failed).unwrap().unwrap();
    assert!(first.should_broadcast && first.warning);
    assert_eq!((first.bundle, first.applied_fee), (deposit(10), 0));
    assert_eq!(book.acknowledge_attempt(Token(5)), Ok(SubmissionAttemptStatus::Applied));

    // now it has one
    book.queue_fee_readiness().unwrap();
    let drained = book.drain().unwrap();
    let upgrade = DrainedSubmission {
        id: SubmissionId(1),
        attempt_token: Token(6),
        predecessor_attempt_token: Some(Token(5)),
        relationship: SubmissionAttemptRelationship::NewerFeeBearing,
        bundle: deposit(10),
        expiry: None,
        fee_intent: attach(7),
    };
    assert_eq!(drained.submissions, [upgrade]);
    assert_eq!(book.attempt(Token(6)).unwrap().goal, SubmissionDeliveryGoal::FeeUpgrade);

    let mut with_fee = deposit(10);
    with_fee.spends.push(spend(40, vec![]));
    let joined = SubmissionFeeSource::Joined(with_fee.clone());
    let second = book.finalize_attempt(Token(6), &joined).unwrap().unwrap();
    assert_eq!(second.fee_source_disposition, FeeSourceDisposition::Attached);
    assert_eq!((second.bundle, second.applied_fee), (with_fee.clone(), 7));
    assert!(second.should_broadcast && !second.warning);
    assert_ne!(second.variant_fingerprint, first.variant_fingerprint);
    let attempt = book.attempt(Token(6)).unwrap();
    assert_eq!(attempt.drained_variant_fingerprint, first.variant_fingerprint);
    assert_eq!(attempt.finalized_variant_fingerprint, Some(second.variant_fingerprint));
    assert_eq!(book.acknowledge_attempt(Token(6)), Ok(SubmissionAttemptStatus::Applied));

    // the fee is resolved: there is nothing more to do
    book.queue_fee_readiness().unwrap();
    assert_eq!(book.drain(), Ok(SubmissionDrainResult::default()));
}

#[test]
fn readiness_waits_for_an_attempt_that_is_not_finalized() {
    let mut book = drained_book(attach(7));
    book.queue_fee_readiness().unwrap();
    assert_eq!(book.drain(), Ok(SubmissionDrainResult::default()));
    book.finalize_attempt(Token(5), &SubmissionFeeSource::JoinFailed).unwrap();
    book.queue_fee_readiness().unwrap();
    let drained = book.drain().unwrap();
    assert_eq!(tokens(&drained), [6]);
    assert_eq!(drained.submissions[0].relationship, SubmissionAttemptRelationship::Exact);
}

#[test]
fn a_reorg_with_replay() {
    let mut book = acknowledged_book(NO_FEE);
    let (input, output) = ([coin_id(&coin(10))], [made(10)]);

    // it lands at height 1,000
    book.reconcile_chain_terminality(&output, &input, false, &[]).unwrap();
    assert_eq!(book.active_ids(), []);
    assert_eq!(book.drain_retirements(), ids([1]));
    assert_eq!(book.causally_rolled_back_ids(&[], &input), Ok(vec![]));
    assert_eq!(book.causally_rolled_back_ids(&output, &[]), Ok(vec![]));

    // the chain goes back to 990: the output is gone, the input is there again
    assert!(book.begin_replay(Height(990)));
    let rolled_back = book.causally_rolled_back_ids(&output, &input).unwrap();
    assert_eq!(rolled_back, ids([1]));
    let absent = book.absent_outputs_for_ids(&rolled_back, &[made(20), made(10)]).unwrap();
    assert_eq!(absent, output);
    book.reconcile_chain_terminality(&[], &[], true, &rolled_back).unwrap();
    assert_eq!(book.active_ids(), ids([1]));
    book.collect_rollback_replay_ids(&rolled_back).unwrap();

    // the same deposit is delivered once more
    let drained = book.drain().unwrap();
    let again = &drained.submissions[0];
    assert_eq!((again.id, again.attempt_token), (SubmissionId(1), Token(6)));
    assert_eq!(again.predecessor_attempt_token, Some(Token(5)));
    assert_eq!(again.relationship, SubmissionAttemptRelationship::Exact);
    assert_eq!(again.bundle, deposit(10));
    let finalized = book.finalize_attempt(Token(6), &SubmissionFeeSource::NotRequested);
    assert!(finalized.unwrap().unwrap().should_broadcast);
    assert_eq!(book.acknowledge_attempt(Token(6)), Ok(SubmissionAttemptStatus::Applied));

    // it is named again in the same epoch: queued, and not delivered since it is acknowledged
    book.collect_rollback_replay_ids(&rolled_back).unwrap();
    assert_eq!(book.drain(), Ok(SubmissionDrainResult::default()));

    // it lands again, and the epoch ends
    book.reconcile_chain_terminality(&output, &input, false, &[]).unwrap();
    book.finish_replay_if_advanced(Height(990));
    assert_eq!(book.replay_rollback_height(), Some(Height(990)));
    book.finish_replay_if_advanced(Height(1_001));
    assert_eq!(book.replay_rollback_height(), None);
    assert_eq!(book.drain_retirements(), ids([1]));
}

/// The fingerprint of a deposit without expiry and fee, from the archive form of its parts.
fn intent_fingerprint(bundle_form: &[u8]) -> Hash32 {
    sha256(&[bundle_form, &[0, 1]].concat())
}

#[test]
fn failing_candidates_with_their_stages() {
    let mut book = drained_book(NO_FEE);
    let digest = Hash32([1; 32]);
    let unreadable = SpendBundle {
        spends: vec![CoinSpend { coin: CoinString::default(), digest, run: Run::Unreadable }],
    };
    let unreadable_form = [&[1, 0][..], &[1; 32], &[0]].concat();
    let empty = SpendBundle::default();
    let named = |id: u64, bundle: &SpendBundle| {
        let mut delivery = PendingDelivery::protocol(bundle.clone(), None, NO_FEE);
        delivery.intent.id = Some(SubmissionId(id));
        delivery
    };
    book.queue(&named(9, &empty)).unwrap();
    book.queue(&PendingDelivery::protocol(unreadable, None, NO_FEE)).unwrap();
    book.queue(&named(1, &empty)).unwrap();
    book.queue(&named(1, &deposit(10))).unwrap();
    queue(&mut book, 20, NO_FEE);
    let drained = book.drain().unwrap();

    // submission 1 was removed by candidate 2, and candidate 3 went with it
    assert_eq!(tokens(&drained), [6]);
    assert_eq!(drained.submissions[0].id, SubmissionId(2));
    let not_retained = SubmissionDrainFailure {
        candidate_index: 0,
        retained_submission_id: None,
        candidate_submission_id: Some(SubmissionId(9)),
        intent_fingerprint: intent_fingerprint(&[0]),
        stage: SubmissionDrainFailureStage::RetainedState,
    };
    let cannot_be_read = SubmissionDrainFailure {
        candidate_index: 1,
        retained_submission_id: None,
        candidate_submission_id: Some(SubmissionId(2)),
        intent_fingerprint: intent_fingerprint(&unreadable_form),
        stage: SubmissionDrainFailureStage::ExpectedOutputs,
    };
    let does_not_agree = SubmissionDrainFailure {
        candidate_index: 2,
        retained_submission_id: Some(SubmissionId(1)),
        candidate_submission_id: Some(SubmissionId(1)),
        ..not_retained
    };
    assert_eq!(drained.failures, [not_retained, cannot_be_read, does_not_agree]);
    assert_eq!(book.active_ids(), ids([2]));
    assert_eq!(book.drain_retirements(), ids([1]));
}

#[test]
fn no_id_is_left() {
    let mut book = SubmissionBook::open(Token(5), SubmissionId(u64::MAX));
    book.queue(&PendingDelivery::protocol(SpendBundle::default(), None, NO_FEE)).unwrap();
    let drained = book.drain().unwrap();
    assert_eq!(drained.submissions, []);
    let failure = SubmissionDrainFailure {
        candidate_index: 0,
        retained_submission_id: None,
        candidate_submission_id: Some(SubmissionId(u64::MAX)),
        intent_fingerprint: intent_fingerprint(&[0]),
        stage: SubmissionDrainFailureStage::SubmissionId,
    };
    assert_eq!(drained.failures, [failure]);
    assert_eq!(book, SubmissionBook::open(Token(5), SubmissionId(u64::MAX)));
}

#[test]
fn a_restart_from_the_archive() {
    let archive = drained_book(attach(7)).to_archive();
    let mut book = SubmissionBook::from_archive(&archive).unwrap();
    book.restore_runtime();
    book.queue_rebroadcast_epoch(&book.active_ids(), DeliveryTrigger::FreshChain).unwrap();
    let drained = book.drain().unwrap();
    assert_eq!(tokens(&drained), [6]);
    assert_eq!(drained.submissions[0].predecessor_attempt_token, Some(Token(5)));
    let stale = book.finalize_attempt(Token(5), &SubmissionFeeSource::NotRequested);
    assert_eq!(stale, Ok(None));
}
