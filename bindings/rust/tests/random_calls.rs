//! Random calls: a refused one leaves the book, tokens run upward by one, and the archive is read
//! back after every call.

mod common;

use common::*;
use submission_book::*;

/// SplitMix64.
struct Generator(u64);

impl Generator {
    fn next(&mut self) -> u64 {
        self.0 = self.0.wrapping_add(0x9e37_79b9_7f4a_7c15);
        let mut z = self.0;
        z = (z ^ (z >> 30)).wrapping_mul(0xbf58_476d_1ce4_e5b9);
        z = (z ^ (z >> 27)).wrapping_mul(0x94d0_49bb_1331_11eb);
        z ^ (z >> 31)
    }

    fn below(&mut self, n: u64) -> u64 {
        self.next() % n
    }

    fn one_in(&mut self, n: u64) -> bool {
        self.below(n) == 0
    }

    fn of<T: Clone>(&mut self, values: &[T]) -> T {
        values[self.below(values.len() as u64) as usize].clone()
    }

    /// The number of one of eight deposits.
    fn n(&mut self) -> u8 {
        10 * (1 + self.below(8) as u8)
    }

    fn bundle(&mut self) -> SpendBundle {
        let count = if self.one_in(40) { 5 } else { 1 + self.below(2) };
        let mut spends: Vec<CoinSpend> =
            (0..count).map(|_| deposit(self.n()).spends.remove(0)).collect();
        if self.one_in(40) {
            spends[0].coin = CoinString::from_bytes(&[7; 74]);
        }
        if self.one_in(20) {
            spends[0].run = Run::Unreadable;
        }
        SpendBundle { spends }
    }

    fn delivery(&mut self, first_id: u64) -> PendingDelivery {
        let expiry = self.one_in(4).then(|| Height(self.below(3)));
        let fee_intent = self.of(&[NO_FEE, SubmissionFeeIntent::AlreadyPaid, attach(7)]);
        let mut delivery = PendingDelivery::protocol(self.bundle(), expiry, fee_intent);
        delivery.intent.id = self.one_in(8).then(|| self.id(first_id));
        delivery.trigger = self.trigger();
        delivery.goal = self.goal();
        delivery
    }

    fn trigger(&mut self) -> DeliveryTrigger {
        use DeliveryTrigger::*;
        self.of(&[Protocol, FreshChain, Rollback, ProviderReadiness])
    }

    fn goal(&mut self) -> SubmissionDeliveryGoal {
        use SubmissionDeliveryGoal::*;
        self.of(&[EnsureBroadcast, EnsureBroadcast, EnsureBroadcast, FeeUpgrade])
    }

    fn source(&mut self) -> SubmissionFeeSource {
        use SubmissionFeeSource::*;
        let joined = Joined(self.bundle());
        self.of(&[NotRequested, NotRequested, joined.clone(), joined, JoinFailed, Failed])
    }

    fn id(&mut self, first: u64) -> SubmissionId {
        SubmissionId(first.wrapping_add(self.below(30)))
    }

    fn ids(&mut self, first: u64) -> Vec<SubmissionId> {
        let count = if self.one_in(30) { 65 } else { self.below(6) };
        (0..count).map(|_| self.id(first)).collect()
    }

    fn coins(&mut self) -> Vec<CoinString> {
        let count = if self.one_in(60) { 801 } else { self.below(4) };
        (0..count).map(|_| made(self.n())).collect()
    }

    fn coin_ids(&mut self) -> Vec<CoinID> {
        let count = if self.one_in(60) { 801 } else { self.below(6) };
        (0..count).map(|_| coin_id(&coin(self.n()))).collect()
    }
}

/// What is known of the book without looking at it.
struct Trial {
    book: SubmissionBook,
    generator: Generator,
    first_id: u64,
    /// The token that the next attempt must get.
    next_token: u64,
    /// How often each refusal was answered; 0 for none.
    refusals: [u32; 14],
}

impl Trial {
    fn new(seed: u64, next_token: u64, first_id: u64) -> Trial {
        Trial {
            book: SubmissionBook::open(Token(next_token), SubmissionId(first_id)),
            generator: Generator(seed),
            first_id,
            next_token,
            refusals: [0; 14],
        }
    }

    /// A token of the last few, or the next one.
    fn token(&mut self) -> Token {
        Token(self.next_token.wrapping_sub(self.generator.below(6)))
    }

    fn drain(&mut self) -> Result<(), Refusal> {
        let drained = self.book.drain()?;
        for submission in &drained.submissions {
            assert_eq!(submission.attempt_token.0, self.next_token);
            let initial = submission.relationship == SubmissionAttemptRelationship::Initial;
            assert_eq!(submission.predecessor_attempt_token.is_none(), initial);
            assert!(submission.predecessor_attempt_token < Some(submission.attempt_token));
            self.next_token += 1;
        }
        let indices: Vec<u64> = drained.failures.iter().map(|f| f.candidate_index).collect();
        assert!(indices.windows(2).all(|two| two[0] < two[1]), "{indices:?}");
        Ok(())
    }

    fn finalize(&mut self) -> Result<(), Refusal> {
        let (token, source) = (self.token(), self.generator.source());
        let live = self.book.attempt(token).is_some();
        let finalized = self.book.finalize_attempt(token, &source)?;
        assert_eq!(finalized.is_some(), live);
        if let Some(finalized) = finalized {
            let attempt = self.book.attempt(token).unwrap();
            let fingerprint = attempt.finalized_variant_fingerprint;
            assert_eq!(fingerprint, Some(finalized.variant_fingerprint));
        }
        Ok(())
    }

    /// A call by a token that takes the live attempt from it.
    fn end_attempt(&mut self) -> Result<(), Refusal> {
        let token = self.token();
        let live = self.book.attempt(token).is_some();
        let status = match self.generator.below(8) {
            0..=4 => self.book.acknowledge_attempt(token)?,
            5 | 6 => self.book.stop_attempt(token)?,
            _ => self.book.abandon_attempt(token)?,
        };
        assert_eq!(status == SubmissionAttemptStatus::Applied, live);
        assert_eq!(self.book.attempt(token), None);
        Ok(())
    }

    fn remove(&mut self) -> Result<(), Refusal> {
        let ids = self.generator.ids(self.first_id);
        let removed = self.book.retain_submitted(&ids)?;
        assert!(removed.windows(2).all(|two| two[0] < two[1]));
        assert!(removed.iter().all(|id| ids.contains(id)));
        let active = self.book.active_ids();
        assert!(removed.iter().all(|id| !active.contains(id)));
        Ok(())
    }

    /// Calls on the chain, the replay epoch and the retirements.
    fn chain_call(&mut self) -> Result<(), Refusal> {
        let (book, generator) = (&mut self.book, &mut self.generator);
        match generator.below(7) {
            0..=2 => {
                let (observed, spent) = (generator.coins(), generator.coin_ids());
                let rolled_back = generator.ids(self.first_id);
                let reorg = generator.one_in(2);
                book.reconcile_chain_terminality(&observed, &spent, reorg, &rolled_back)
            }
            3 => book.collect_rollback_replay_ids(&generator.ids(self.first_id)),
            4 => {
                let height = Height(generator.below(3));
                let held = book.replay_rollback_height();
                assert_eq!(book.begin_replay(height), held != Some(height));
                assert_eq!(book.replay_rollback_height(), Some(height));
                Ok(())
            }
            5 => {
                book.finish_replay_if_advanced(Height(generator.below(3)));
                Ok(())
            }
            _ => book.emit_retirement(SubmissionId(generator.below(200))),
        }
    }

    /// Calls that only look.
    fn look(&mut self) -> Result<(), Refusal> {
        let token = self.token();
        let (book, generator) = (&self.book, &mut self.generator);
        let id = generator.id(self.first_id);
        let live = book.look(id).is_some_and(|look| look.active_attempt_token == Some(token));
        assert!(!live || book.attempt(token).is_some());
        assert_eq!(book.summary().next_delivery_attempt_token, Token(self.next_token));
        let fee_intent = book.fee_intent_for_attempt(token)?;
        assert_eq!(fee_intent.is_some(), book.attempt(token).is_some());
        let absent = generator.coins();
        let rolled_back = book.causally_rolled_back_ids(&absent, &generator.coin_ids())?;
        let active = book.active_ids();
        assert!(rolled_back.iter().all(|id| !active.contains(id)));
        let coins = book.absent_outputs_for_ids(&rolled_back, &absent)?;
        assert!(coins.iter().all(|coin| absent.contains(coin)));
        let inputs = book.reconciliation_input_coins(&absent)?;
        assert!(inputs.windows(2).all(|two| two[0] < two[1]));
        Ok(())
    }

    fn call(&mut self) -> Result<(), Refusal> {
        match self.generator.below(100) {
            0..=29 => self.book.queue(&self.generator.delivery(self.first_id)),
            30..=44 => self.drain(),
            45..=59 => self.finalize(),
            60..=71 => self.end_attempt(),
            72 => self.book.relinquish_completed_attempt(Token(self.next_token)).map(drop),
            73..=75 => self.remove(),
            76..=83 => self.chain_call(),
            84..=88 => self.look(),
            89..=91 => {
                let (ids, trigger) = (self.generator.ids(self.first_id), self.generator.trigger());
                self.book.queue_rebroadcast_epoch(&ids, trigger)
            }
            92..=94 => {
                let (id, trigger) = (self.generator.id(self.first_id), self.generator.trigger());
                self.book.queue_retained_delivery(id, trigger, self.generator.goal())
            }
            95 | 96 => self.book.queue_fee_readiness(),
            97 => {
                self.book.drain_retirements();
                Ok(())
            }
            98 => {
                self.book.restore_runtime();
                Ok(())
            }
            _ if self.generator.one_in(4) => self.book.clear_local_artifacts(),
            _ => Ok(()),
        }
    }

    /// One call, and what holds behind every call.
    fn step(&mut self) {
        let before = self.book.to_archive();
        let result = self.call();
        let after = self.book.to_archive();
        match result {
            Err(Refusal::NoToken) => self.next_token = u64::MAX,
            Err(_) => assert_eq!(before, after, "{result:?} changed the book"),
            Ok(()) => {}
        }
        assert_eq!(next_token(&after), self.next_token);
        assert_eq!(SubmissionBook::from_archive(&after).as_ref(), Ok(&self.book));
        if self.generator.one_in(5) {
            assert_eq!(archive_of(&self.book).next_delivery_attempt_token, Token(self.next_token));
        }
        let number = result.err().map_or(0, |refusal| refusal.number());
        self.refusals[usize::from(number)] += 1;
    }
}

#[test]
fn refused_calls_leave_the_book_and_tokens_run_up_by_one() {
    let mut refusals = [0; 14];
    let mut issued = 0;
    for seed in 0..30 {
        let mut trial = Trial::new(seed, 5, 1);
        (0..200).for_each(|_| trial.step());
        issued += trial.next_token - 5;
        for (all, one) in refusals.iter_mut().zip(trial.refusals) {
            *all += one;
        }
    }
    assert!(issued > 500, "{issued} tokens");
    for number in [0, 2, 3, 4, 5, 6, 9, 10] {
        assert!(refusals[number] > 5, "{number}: {refusals:?}");
    }
    for number in [1, 7, 8, 11, 12, 13] {
        assert_eq!(refusals[number], 0, "{number}: {refusals:?}");
    }
}

#[test]
fn at_the_end_of_tokens_and_ids() {
    let mut exhausted = 0;
    for seed in 1_000..1_020 {
        let mut trial = Trial::new(seed, u64::MAX - 12, u64::MAX - 12);
        (0..120).for_each(|_| trial.step());
        assert!(trial.next_token > u64::MAX - 12, "no token was issued");
        exhausted += trial.refusals[11];
    }
    assert!(exhausted > 20, "{exhausted} drains were refused 11");
}
