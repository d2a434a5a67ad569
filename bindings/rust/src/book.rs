//! The book, with a method for each function of the library.

use std::fmt;

use crate::coin::{CoinID, CoinString};
use crate::ffi;
use crate::reader::{Read, Reader};
use crate::refusal::Refusal;
use crate::submission::*;
use crate::version::{expect_version, wrong_library};
use crate::wire;

/// A submission book: the queue of deliveries, the retained submissions with their attempts, the
/// retirements and the replay epoch.
///
/// The book is 57,702 bytes on the heap and nothing else. It holds the book's archive, so two
/// books are equal exactly if their archives are, a clone is a book of its own, and a book can be
/// sent to and looked at from other threads.
///
/// Methods with `&self` leave the book: the library writes nothing to it, so that any number of
/// threads may look at one book at once.
///
/// A method that answers no [`Result`] cannot be refused.
///
/// ```
/// use submission_book::{SubmissionBook, SubmissionId, Token};
///
/// let book = SubmissionBook::open(Token(5), SubmissionId(1));
/// let archive = book.to_archive();
/// assert_eq!(archive, b"\x02\0\0\0\0\0\0\0\x05\0\0\0\0\0\0\0\x01\0\0\0\0\0");
/// assert_eq!(SubmissionBook::from_archive(&archive), Ok(book));
/// ```
#[derive(Clone)]
pub struct SubmissionBook {
    /// The archive's length (8), the archive, and bytes without meaning.
    bytes: Box<[u8]>,
}

/// `Ok` for 0, else the refusal of that number.
fn accepted(number: u8) -> Result<(), Refusal> {
    if number == 0 {
        return Ok(());
    }
    Err(Refusal::of(number, 0).unwrap_or_else(|| wrong_library()))
}

/// For calls that the rules never refuse on a book that is sound and with buffers that are long
/// enough.
fn never_refused<T>(result: Result<T, Refusal>) -> T {
    result.unwrap_or_else(|_| wrong_library())
}

/// Lends a buffer of `size` bytes to the call, and reads the answer that it leaves there.
fn answered<T>(
    size: usize,
    call: impl FnOnce(&mut [u8]) -> u8,
    read: impl FnOnce(&mut Reader) -> Read<T>,
) -> Result<T, Refusal> {
    let mut answer = vec![0; size];
    accepted(call(&mut answer))?;
    Ok(read(&mut Reader::new(&answer)).unwrap_or_else(|_| wrong_library()))
}

/// The same for the two calls that answer a coin list and its length.
fn answered_coins(
    size: usize,
    call: impl FnOnce(&mut [u8], &mut u64) -> u8,
) -> Result<Vec<CoinString>, Refusal> {
    let mut answer = vec![0; size];
    let mut length = 0;
    accepted(call(&mut answer, &mut length))?;
    let list = usize::try_from(length).ok().and_then(|length| answer.get(..length));
    Ok(list.and_then(|list| Reader::new(list).coins().ok()).unwrap_or_else(|| wrong_library()))
}

/// The whole book.
impl SubmissionBook {
    /// Every book begins here, so no other function of another version's library is called.
    fn blank() -> SubmissionBook {
        expect_version();
        SubmissionBook { bytes: vec![0; ffi::BOOK_BYTES].into_boxed_slice() }
    }

    /// Length and archive, without what stands behind them.
    fn held(&self) -> &[u8] {
        let length = self.bytes.first_chunk().map_or(0, |length| u64::from_be_bytes(*length));
        let end = usize::try_from(length).ok().and_then(|length| length.checked_add(8));
        end.and_then(|end| self.bytes.get(..end)).unwrap_or(&self.bytes)
    }

    /// An empty book whose first token and first submission id are these.
    pub fn open(next_token: Token, next_id: SubmissionId) -> SubmissionBook {
        let mut book = SubmissionBook::blank();
        let number = ffi::submission_book_open(&mut book.bytes, next_token.0, next_id.0);
        never_refused(accepted(number));
        book
    }

    /// The book that an archive stands for.
    ///
    /// # Errors
    ///
    /// [`NoArchive`](Refusal::NoArchive) with the place of the first broken item.
    ///
    /// ```
    /// use submission_book::{Refusal, SubmissionBook, SubmissionId, Token};
    ///
    /// let archive = SubmissionBook::open(Token(5), SubmissionId(1)).to_archive();
    /// let cut = SubmissionBook::from_archive(&archive[..12]);
    /// assert_eq!(cut, Err(Refusal::NoArchive { place: 9 }));
    /// ```
    pub fn from_archive(archive: &[u8]) -> Result<SubmissionBook, Refusal> {
        let mut book = SubmissionBook::blank();
        let mut place = 0;
        match ffi::submission_book_read(&mut book.bytes, archive, &mut place) {
            0 => Ok(book),
            number => Err(Refusal::of(number, place).unwrap_or_else(|| wrong_library())),
        }
    }

    /// The archive of the book, 22 to 57,694 bytes. Equal books have equal archives.
    pub fn to_archive(&self) -> Vec<u8> {
        let mut archive = vec![0; ffi::ARCHIVE_BYTES];
        let mut length = 0;
        let number = ffi::submission_book_write(&self.bytes, &mut archive, &mut length);
        never_refused(accepted(number));
        archive.truncate(usize::try_from(length).unwrap_or_else(|_| wrong_library()));
        archive
    }

    /// The book in numbers.
    ///
    /// ```
    /// use submission_book::*;
    ///
    /// let mut book = SubmissionBook::open(Token(5), SubmissionId(1));
    /// let fee = SubmissionFeeIntent::NoFeeConfigured;
    /// book.queue(&PendingDelivery::protocol(SpendBundle::default(), None, fee))?;
    /// assert_eq!(book.summary().pending_count, 1);
    ///
    /// book.drain()?;
    /// let summary = book.summary();
    /// assert_eq!((summary.submitted_count, summary.pending_count), (1, 0));
    /// assert_eq!(summary.next_delivery_attempt_token, Token(6));
    /// # Ok::<(), Refusal>(())
    /// ```
    pub fn summary(&self) -> BookSummary {
        never_refused(answered(
            ffi::SUMMARY_BYTES,
            |answer| ffi::submission_book_summary(&self.bytes, answer),
            |answer| answer.summary(),
        ))
    }

    /// Removes everything: submissions (each is retired), queue and replay epoch. The two numbers
    /// go on.
    ///
    /// # Errors
    ///
    /// [`Full`](Refusal::Full) where there would be over 64 retirements.
    pub fn clear_local_artifacts(&mut self) -> Result<(), Refusal> {
        accepted(ffi::submission_book_clear_local_artifacts(&mut self.bytes))
    }

    /// After a restart: no attempt has anyone who works on it, so each live one is set aside.
    pub fn restore_runtime(&mut self) {
        never_refused(accepted(ffi::submission_book_restore_runtime(&mut self.bytes)));
    }
}

/// Deliveries.
impl SubmissionBook {
    /// Puts a delivery into the queue. The next [`drain`](Self::drain) plans it.
    ///
    /// # Errors
    ///
    /// [`BadValue`](Refusal::BadValue) for a bundle that is too large,
    /// [`Full`](Refusal::Full) for a 17th delivery.
    ///
    /// ```
    /// use submission_book::*;
    ///
    /// let mut book = SubmissionBook::open(Token(5), SubmissionId(1));
    /// let spend = CoinSpend {
    ///     coin: CoinString::from_parts(&CoinID([1; 32]), &PuzzleHash([2; 32]), 250_000),
    ///     digest: Hash32([3; 32]),
    ///     run: Run::Outputs(vec![Output { puzzle_hash: PuzzleHash([4; 32]), amount: 250_000 }]),
    /// };
    /// let deposit = SpendBundle { spends: vec![spend.clone()] };
    /// let fee = SubmissionFeeIntent::NoFeeConfigured;
    /// book.queue(&PendingDelivery::protocol(deposit, Some(Height(9_000)), fee))?;
    ///
    /// let five = SpendBundle { spends: vec![spend; 5] };
    /// let refused = book.queue(&PendingDelivery::protocol(five, None, fee));
    /// assert_eq!(refused, Err(Refusal::BadValue));
    /// # Ok::<(), Refusal>(())
    /// ```
    pub fn queue(&mut self, delivery: &PendingDelivery) -> Result<(), Refusal> {
        accepted(ffi::submission_book_queue(&mut self.bytes, &wire::delivery(delivery)))
    }

    /// Queues each named submission that [`queue_retained_delivery`](Self::queue_retained_delivery)
    /// takes, for a fee where its bundle is acknowledged, else to be broadcast. Ids that are not
    /// retained are passed over.
    ///
    /// # Errors
    ///
    /// [`BadList`](Refusal::BadList) for over 64 ids, [`Full`](Refusal::Full).
    pub fn queue_rebroadcast_epoch(
        &mut self,
        ids: &[SubmissionId],
        trigger: DeliveryTrigger,
    ) -> Result<(), Refusal> {
        let (ids, trigger) = (wire::ids(ids), wire::trigger_number(trigger));
        accepted(ffi::submission_book_queue_rebroadcast_epoch(&mut self.bytes, &ids, trigger))
    }

    /// The wallet can attach fees: queues every active submission whose fee is unresolved.
    ///
    /// # Errors
    ///
    /// [`Full`](Refusal::Full).
    pub fn queue_fee_readiness(&mut self) -> Result<(), Refusal> {
        accepted(ffi::submission_book_queue_fee_readiness(&mut self.bytes))
    }

    /// Queues a retained submission again. Nothing is done where it is queued already, is not
    /// retained or not active, where a live attempt is still at work, or where it has no fee to be
    /// upgraded.
    ///
    /// # Errors
    ///
    /// [`Full`](Refusal::Full).
    pub fn queue_retained_delivery(
        &mut self,
        id: SubmissionId,
        trigger: DeliveryTrigger,
        goal: SubmissionDeliveryGoal,
    ) -> Result<(), Refusal> {
        let (trigger, goal) = (wire::trigger_number(trigger), wire::goal_number(goal));
        let book = &mut self.bytes;
        accepted(ffi::submission_book_queue_retained_delivery(book, id.0, trigger, goal))
    }

    /// Empties the queue: each candidate is planned in its order, and what is to be delivered gets
    /// a token and is handed out.
    ///
    /// # Errors
    ///
    /// [`Full`](Refusal::Full) where a 17th submission or a 65th retirement would come up; the
    /// book, its queue too, stays as it was.
    ///
    /// [`NoToken`](Refusal::NoToken) where a token is needed and the next one is
    /// 2^64 − 1. **The book then keeps what the drain had done**, and its queue is empty.
    ///
    /// ```
    /// use submission_book::*;
    ///
    /// let mut book = SubmissionBook::open(Token(5), SubmissionId(1));
    /// let deposit = SpendBundle::default();
    /// let fee = SubmissionFeeIntent::NoFeeConfigured;
    /// book.queue(&PendingDelivery::protocol(deposit, None, fee))?;
    ///
    /// let drained = book.drain()?;
    /// assert_eq!(drained.failures, []);
    /// let submission = &drained.submissions[0];
    /// assert_eq!(submission.id, SubmissionId(1));
    /// assert_eq!(submission.attempt_token, Token(5));
    /// assert_eq!(submission.relationship, SubmissionAttemptRelationship::Initial);
    /// # Ok::<(), Refusal>(())
    /// ```
    pub fn drain(&mut self) -> Result<SubmissionDrainResult, Refusal> {
        let book = &mut self.bytes;
        answered(
            ffi::DRAIN_BYTES,
            |answer| ffi::submission_book_drain(book, answer),
            |answer| answer.drain(),
        )
    }
}

/// Attempts, by their tokens.
impl SubmissionBook {
    fn status(
        &mut self,
        token: Token,
        call: fn(&mut [u8], u64, &mut [u8]) -> u8,
    ) -> Result<SubmissionAttemptStatus, Refusal> {
        let book = &mut self.bytes;
        answered(ffi::STATUS_BYTES, |answer| call(book, token.0, answer), |answer| answer.status())
    }

    /// Settles the bundle that the attempt is to broadcast, with its fee. `None` where the attempt
    /// is no longer live.
    ///
    /// # Errors
    ///
    /// [`BadValue`](Refusal::BadValue) for a joined bundle that is too large,
    /// [`UnknownToken`](Refusal::UnknownToken), [`AlreadyFinalized`](Refusal::AlreadyFinalized),
    /// [`InvalidSubmission`](Refusal::InvalidSubmission), [`StaleVariant`](Refusal::StaleVariant),
    /// [`UnrequestedFee`](Refusal::UnrequestedFee).
    ///
    /// ```
    /// use submission_book::*;
    ///
    /// let mut book = SubmissionBook::open(Token(5), SubmissionId(1));
    /// let fee = SubmissionFeeIntent::Attach { target: CoinID([9; 32]), amount: 7 };
    /// book.queue(&PendingDelivery::protocol(SpendBundle::default(), None, fee))?;
    /// let token = book.drain()?.submissions[0].attempt_token;
    ///
    /// // The wallet has no fee to give, so the deposit goes without.
    /// let finalized = book.finalize_attempt(token, &SubmissionFeeSource::Failed)?.unwrap();
    /// assert!(finalized.should_broadcast && finalized.warning);
    /// assert_eq!(finalized.fee_source_disposition, FeeSourceDisposition::Unused);
    /// # Ok::<(), Refusal>(())
    /// ```
    pub fn finalize_attempt(
        &mut self,
        token: Token,
        fee_source: &SubmissionFeeSource,
    ) -> Result<Option<FinalizedSubmission>, Refusal> {
        let (source, joined) = wire::source(fee_source);
        let book = &mut self.bytes;
        answered(
            ffi::FINALIZED_BYTES,
            |answer| ffi::submission_book_finalize_attempt(book, token.0, source, &joined, answer),
            |answer| answer.finalized(),
        )
    }

    /// The fee that a live attempt is to get; `AlreadyPaid` where none is unresolved, `None` where
    /// the attempt is no longer live.
    ///
    /// # Errors
    ///
    /// [`UnknownToken`](Refusal::UnknownToken).
    pub fn fee_intent_for_attempt(
        &self,
        token: Token,
    ) -> Result<Option<SubmissionFeeIntent>, Refusal> {
        answered(
            ffi::FEE_INTENT_BYTES,
            |answer| ffi::submission_book_fee_intent_for_attempt(&self.bytes, token.0, answer),
            |answer| answer.optional_fee_intent(),
        )
    }

    /// The wallet has taken the finalised bundle: it counts as acknowledged, the attempt is set
    /// aside, and queued deliveries of its submission are dropped.
    ///
    /// # Errors
    ///
    /// [`UnknownToken`](Refusal::UnknownToken), [`NotFinalized`](Refusal::NotFinalized),
    /// [`StaleVariant`](Refusal::StaleVariant).
    ///
    /// ```
    /// use submission_book::*;
    ///
    /// let mut book = SubmissionBook::open(Token(5), SubmissionId(1));
    /// let fee = SubmissionFeeIntent::NoFeeConfigured;
    /// book.queue(&PendingDelivery::protocol(SpendBundle::default(), None, fee))?;
    /// book.drain()?;
    /// assert_eq!(book.acknowledge_attempt(Token(5)), Err(Refusal::NotFinalized));
    ///
    /// book.finalize_attempt(Token(5), &SubmissionFeeSource::NotRequested)?;
    /// assert_eq!(book.acknowledge_attempt(Token(5))?, SubmissionAttemptStatus::Applied);
    /// assert_eq!(book.acknowledge_attempt(Token(5))?, SubmissionAttemptStatus::Stale);
    /// # Ok::<(), Refusal>(())
    /// ```
    pub fn acknowledge_attempt(
        &mut self,
        token: Token,
    ) -> Result<SubmissionAttemptStatus, Refusal> {
        self.status(token, ffi::submission_book_acknowledge_attempt)
    }

    /// Sets a live attempt aside. Its submission stays.
    ///
    /// # Errors
    ///
    /// [`UnknownToken`](Refusal::UnknownToken).
    pub fn stop_attempt(&mut self, token: Token) -> Result<SubmissionAttemptStatus, Refusal> {
        self.status(token, ffi::submission_book_stop_attempt)
    }

    /// Removes the submission of a live attempt, and retires it.
    ///
    /// # Errors
    ///
    /// [`UnknownToken`](Refusal::UnknownToken), [`Full`](Refusal::Full) for a 65th retirement.
    pub fn abandon_attempt(&mut self, token: Token) -> Result<SubmissionAttemptStatus, Refusal> {
        self.status(token, ffi::submission_book_abandon_attempt)
    }

    /// `Applied` for an attempt that is set aside, `Stale` for any other that was issued. The book
    /// stays as it is in either case.
    ///
    /// # Errors
    ///
    /// [`UnknownToken`](Refusal::UnknownToken).
    pub fn relinquish_completed_attempt(
        &self,
        token: Token,
    ) -> Result<SubmissionAttemptStatus, Refusal> {
        answered(
            ffi::STATUS_BYTES,
            |answer| {
                ffi::submission_book_relinquish_completed_attempt(&self.bytes, token.0, answer)
            },
            |answer| answer.status(),
        )
    }

    /// The live attempt with this token.
    pub fn attempt(&self, token: Token) -> Option<DeliveryAttempt> {
        never_refused(answered(
            ffi::ATTEMPT_BYTES,
            |answer| ffi::submission_book_attempt(&self.bytes, token.0, answer),
            |answer| answer.optional_attempt(),
        ))
    }
}

/// Retained submissions and retirements.
impl SubmissionBook {
    /// Removes these submissions with their queue entries and retires them. Answers the ids that
    /// were retained, rising.
    ///
    /// # Errors
    ///
    /// [`BadList`](Refusal::BadList) for over 64 ids, [`Full`](Refusal::Full) where
    /// there would be over 64 retirements.
    pub fn retain_submitted(
        &mut self,
        removed: &[SubmissionId],
    ) -> Result<Vec<SubmissionId>, Refusal> {
        let book = &mut self.bytes;
        answered(
            ffi::IDS_BYTES,
            |answer| ffi::submission_book_retain_submitted(book, &wire::ids(removed), answer),
            |answer| answer.ids(),
        )
    }

    /// The submissions that the chain has not settled, in retained order.
    pub fn active_ids(&self) -> Vec<SubmissionId> {
        never_refused(answered(
            ffi::IDS_BYTES,
            |answer| ffi::submission_book_active_ids(&self.bytes, answer),
            |answer| answer.ids(),
        ))
    }

    /// What the submission of this id holds; `None` where it is not retained.
    ///
    /// ```
    /// use submission_book::*;
    ///
    /// let mut book = SubmissionBook::open(Token(5), SubmissionId(1));
    /// let fee = SubmissionFeeIntent::NoFeeConfigured;
    /// book.queue(&PendingDelivery::protocol(SpendBundle::default(), None, fee))?;
    /// assert_eq!(book.look(SubmissionId(1)), None);
    ///
    /// book.drain()?;
    /// let look = book.look(SubmissionId(1)).unwrap();
    /// assert_eq!(look.active_attempt_token, Some(Token(5)));
    /// assert_eq!(look.chain_terminality, SubmissionChainTerminality::Active);
    /// assert!(!look.acknowledged);
    /// # Ok::<(), Refusal>(())
    /// ```
    pub fn look(&self, id: SubmissionId) -> Option<SubmissionLook> {
        never_refused(answered(
            ffi::LOOK_BYTES,
            |answer| ffi::submission_book_look(&self.bytes, id.0, answer),
            |answer| answer.look(),
        ))
    }

    /// Takes the retirements out of the book: the ids that a wallet should forget.
    pub fn drain_retirements(&mut self) -> Vec<SubmissionId> {
        let book = &mut self.bytes;
        never_refused(answered(
            ffi::IDS_BYTES,
            |answer| ffi::submission_book_drain_retirements(book, answer),
            |answer| answer.ids(),
        ))
    }

    /// Adds a retirement, unless it is there already.
    ///
    /// # Errors
    ///
    /// [`Full`](Refusal::Full) for a 65th retirement.
    pub fn emit_retirement(&mut self, id: SubmissionId) -> Result<(), Refusal> {
        accepted(ffi::submission_book_emit_retirement(&mut self.bytes, id.0))
    }
}

/// Replay after a rollback.
impl SubmissionBook {
    /// Starts a replay epoch at this height; false, and nothing is done, where it is at this height
    /// already.
    pub fn begin_replay(&mut self, height: Height) -> bool {
        let book = &mut self.bytes;
        never_refused(answered(
            ffi::FLAG_BYTES,
            |answer| ffi::submission_book_begin_replay(book, height.0, answer),
            |answer| answer.flag(),
        ))
    }

    /// Ends the replay epoch where the chain is above the height that it was rolled back to.
    pub fn finish_replay_if_advanced(&mut self, height: Height) {
        let number = ffi::submission_book_finish_replay_if_advanced(&mut self.bytes, height.0);
        never_refused(accepted(number));
    }

    /// The height of the replay epoch, if there is one.
    pub fn replay_rollback_height(&self) -> Option<Height> {
        never_refused(answered(
            ffi::HEIGHT_BYTES,
            |answer| ffi::submission_book_replay_rollback_height(&self.bytes, answer),
            |answer| answer.height(),
        ))
    }

    /// Makes each named submission that this epoch has not replayed yet active and unacknowledged,
    /// then queues every named one to be broadcast.
    ///
    /// # Errors
    ///
    /// [`BadList`](Refusal::BadList) for over 64 ids, [`Full`](Refusal::Full).
    pub fn collect_rollback_replay_ids(&mut self, ids: &[SubmissionId]) -> Result<(), Refusal> {
        let ids = wire::ids(ids);
        accepted(ffi::submission_book_collect_rollback_replay_ids(&mut self.bytes, &ids))
    }
}

/// What the chain shows.
impl SubmissionBook {
    /// Takes a report of the chain into the book. A submission one of whose outputs was observed has
    /// landed; else one of whose inputs is spent counts as spent, but a landed one stays landed
    /// unless `reorg`; else one that was rolled back is active again. In the first two cases it is
    /// settled: its live attempt is set aside, its queue entries and replay mark go, and it is
    /// retired.
    ///
    /// # Errors
    ///
    /// [`BadList`](Refusal::BadList), [`Full`](Refusal::Full) for a 65th retirement.
    pub fn reconcile_chain_terminality(
        &mut self,
        observed_created: &[CoinString],
        spent_inputs: &[CoinID],
        reorg: bool,
        causally_rolled_back_ids: &[SubmissionId],
    ) -> Result<(), Refusal> {
        let observed = wire::coin_list(observed_created);
        let spent = wire::coin_ids(spent_inputs);
        let rolled_back = wire::ids(causally_rolled_back_ids);
        accepted(ffi::submission_book_reconcile_chain_terminality(
            &mut self.bytes,
            &observed,
            &spent,
            reorg.into(),
            &rolled_back,
        ))
    }

    /// The settled submissions that a rollback made possible again, rising: an output is absent (or
    /// only an input was spent), and every input from outside of the bundle is live.
    ///
    /// # Errors
    ///
    /// [`BadList`](Refusal::BadList).
    pub fn causally_rolled_back_ids(
        &self,
        explicitly_absent: &[CoinString],
        explicitly_live_input_ids: &[CoinID],
    ) -> Result<Vec<SubmissionId>, Refusal> {
        let absent = wire::coin_list(explicitly_absent);
        let inputs = wire::coin_ids(explicitly_live_input_ids);
        answered(
            ffi::IDS_BYTES,
            |answer| {
                ffi::submission_book_causally_rolled_back_ids(&self.bytes, &absent, &inputs, answer)
            },
            |answer| answer.ids(),
        )
    }

    /// The coins that are to be watched: the inputs of every submission that has not landed, and of
    /// each landed one that has an output among `landed_outputs`. Rising, without repeats.
    ///
    /// # Errors
    ///
    /// [`BadList`](Refusal::BadList).
    pub fn reconciliation_input_coins(
        &self,
        landed_outputs: &[CoinString],
    ) -> Result<Vec<CoinString>, Refusal> {
        let (book, outputs) = (&self.bytes, wire::coin_list(landed_outputs));
        answered_coins(ffi::INPUT_COINS_BYTES, |answer, length| {
            ffi::submission_book_reconciliation_input_coins(book, &outputs, answer, length)
        })
    }

    /// The outputs of the named submissions that are among the absent coins, in retained and output
    /// order; repeats stay.
    ///
    /// # Errors
    ///
    /// [`BadList`](Refusal::BadList).
    pub fn absent_outputs_for_ids(
        &self,
        ids: &[SubmissionId],
        explicitly_absent: &[CoinString],
    ) -> Result<Vec<CoinString>, Refusal> {
        let (book, ids, absent) = (&self.bytes, wire::ids(ids), wire::coin_list(explicitly_absent));
        answered_coins(ffi::ABSENT_OUTPUTS_BYTES, |answer, length| {
            ffi::submission_book_absent_outputs_for_ids(book, &ids, &absent, answer, length)
        })
    }
}

impl Default for SubmissionBook {
    /// An empty book whose first token and first id are 0, as the Rust book has them.
    fn default() -> SubmissionBook {
        SubmissionBook::open(Token(0), SubmissionId(0))
    }
}

impl PartialEq for SubmissionBook {
    fn eq(&self, other: &SubmissionBook) -> bool {
        self.held() == other.held()
    }
}

impl Eq for SubmissionBook {}

impl fmt::Debug for SubmissionBook {
    /// The two numbers and the length of the archive.
    fn fmt(&self, f: &mut fmt::Formatter<'_>) -> fmt::Result {
        let archive = &self.held()[8..];
        let number = |at: usize| archive.get(at..at + 8).map_or(0, number_of);
        f.debug_struct("SubmissionBook")
            .field("next_token", &number(1))
            .field("next_id", &number(9))
            .field("archive_bytes", &archive.len())
            .finish()
    }
}

fn number_of(bytes: &[u8]) -> u64 {
    bytes.iter().fold(0, |number, byte| number << 8 | u64::from(*byte))
}
