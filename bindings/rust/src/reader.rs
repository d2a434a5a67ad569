//! Reads answers and archives. Numbers are big-endian, and a count, kind or mark is one byte; the
//! forms are those of `docs/ARCHIVE.md`.

use crate::coin::{CoinID, CoinString, Hash32, PuzzleHash};
use crate::submission::*;

/// A form is broken: where the first item starts that is cut short or out of its range.
#[derive(Debug, Clone, Copy, PartialEq, Eq)]
pub struct Broken(pub u64);

pub type Read<T> = Result<T, Broken>;

/// Whether unreadable runs are broken.
#[derive(Clone, Copy, PartialEq, Eq)]
pub enum Runs {
    Any,
    Readable,
}

pub struct Reader<'a> {
    bytes: &'a [u8],
    at: usize,
}

impl<'a> Reader<'a> {
    pub fn new(bytes: &'a [u8]) -> Reader<'a> {
        Reader { bytes, at: 0 }
    }

    /// Where the next item starts.
    pub fn here(&self) -> Broken {
        Broken(self.at as u64)
    }

    fn take(&mut self, length: usize) -> Read<&'a [u8]> {
        let taken = self.bytes.get(self.at..).and_then(|rest| rest.get(..length));
        let taken = taken.ok_or(self.here())?;
        self.at += length;
        Ok(taken)
    }

    fn array<const N: usize>(&mut self) -> Read<[u8; N]> {
        let start = self.here();
        self.take(N)?.try_into().map_err(|_| start)
    }

    pub fn byte(&mut self, most: usize) -> Read<usize> {
        let byte = self.bytes.get(self.at).map(|byte| usize::from(*byte));
        let byte = byte.filter(|byte| *byte <= most).ok_or(self.here())?;
        self.at += 1;
        Ok(byte)
    }

    /// The value of this number in the list.
    pub fn kind<T: Copy>(&mut self, values: &[T]) -> Read<T> {
        self.byte(values.len() - 1).map(|number| values[number])
    }

    /// Nothing may stand behind.
    pub fn end(&self) -> Read<()> {
        if self.at == self.bytes.len() {
            return Ok(());
        }
        Err(self.here())
    }

    pub fn flag(&mut self) -> Read<bool> {
        self.kind(&[false, true])
    }

    pub fn number(&mut self) -> Read<u64> {
        self.array().map(u64::from_be_bytes)
    }

    /// A number that breaks no rule.
    pub fn checked(&mut self, good: impl FnOnce(u64) -> bool) -> Read<u64> {
        let start = self.here();
        self.number().and_then(|number| if good(number) { Ok(number) } else { Err(start) })
    }

    pub fn hash(&mut self) -> Read<Hash32> {
        self.array().map(Hash32)
    }

    /// A mark, and what stands behind a mark of 1.
    pub fn optional<T>(&mut self, read: impl FnOnce(&mut Self) -> Read<T>) -> Read<Option<T>> {
        if self.flag()? {
            return read(self).map(Some);
        }
        Ok(None)
    }

    /// A count, and as many items.
    pub fn list<T>(
        &mut self,
        most: usize,
        mut read: impl FnMut(&mut Self) -> Read<T>,
    ) -> Read<Vec<T>> {
        let count = self.byte(most)?;
        (0..count).map(|_| read(self)).collect()
    }

    pub fn id(&mut self) -> Read<SubmissionId> {
        self.number().map(SubmissionId)
    }

    pub fn ids(&mut self) -> Read<Vec<SubmissionId>> {
        self.list(64, Self::id)
    }

    pub fn height(&mut self) -> Read<Option<Height>> {
        self.optional(|reader| reader.number().map(Height))
    }

    /// A count of eight bytes, at most `most`.
    fn count(&mut self, most: usize) -> Read<usize> {
        let start = self.here();
        let count = usize::try_from(self.number()?).map_err(|_| start)?;
        if count <= most {
            return Ok(count);
        }
        Err(start)
    }

    fn token(&mut self) -> Read<Token> {
        self.number().map(Token)
    }

    pub fn fee_resolution(&mut self) -> Read<FeeResolution> {
        self.kind(&[
            FeeResolution::Unresolved,
            FeeResolution::NotRequested,
            FeeResolution::Attached,
        ])
    }

    pub fn chain_terminality(&mut self) -> Read<SubmissionChainTerminality> {
        self.kind(&[
            SubmissionChainTerminality::Active,
            SubmissionChainTerminality::InputSpent,
            SubmissionChainTerminality::Landed,
        ])
    }

    pub fn look(&mut self) -> Read<Option<SubmissionLook>> {
        self.optional(|reader| {
            Ok(SubmissionLook {
                chain_terminality: reader.chain_terminality()?,
                acknowledged: reader.flag()?,
                fee_resolution: reader.fee_resolution()?,
                applied_fee: reader.number()?,
                expiry: reader.height()?,
                active_attempt_token: reader.optional(Self::token)?,
                completed_attempt_token: reader.optional(Self::token)?,
            })
        })
    }

    pub fn summary(&mut self) -> Read<BookSummary> {
        Ok(BookSummary {
            next_delivery_attempt_token: self.token()?,
            next_submission_id: self.id()?,
            submitted_count: self.count(16)?,
            pending_count: self.count(16)?,
            retired_count: self.count(64)?,
            replayed_count: self.count(16)?,
            rollback_height: self.height()?,
        })
    }

    pub fn status(&mut self) -> Read<SubmissionAttemptStatus> {
        self.kind(&[SubmissionAttemptStatus::Applied, SubmissionAttemptStatus::Stale])
    }

    fn goal(&mut self) -> Read<SubmissionDeliveryGoal> {
        self.kind(&[SubmissionDeliveryGoal::EnsureBroadcast, SubmissionDeliveryGoal::FeeUpgrade])
    }

    /// A token, and the rest of its attempt.
    pub fn attempt(
        &mut self,
        token: impl FnOnce(&mut Self) -> Read<Token>,
    ) -> Read<DeliveryAttempt> {
        Ok(DeliveryAttempt {
            token: token(self)?,
            goal: self.goal()?,
            drained_variant_fingerprint: self.hash()?,
            finalized_variant_fingerprint: self.optional(Self::hash)?,
        })
    }

    pub fn optional_attempt(&mut self) -> Read<Option<DeliveryAttempt>> {
        self.optional(|reader| reader.attempt(Self::token))
    }

    fn coin(&mut self) -> Read<CoinString> {
        let length = self.byte(73)?;
        self.take(length).map(CoinString::from_bytes)
    }

    /// A coin list that is all of the bytes.
    pub fn coins(mut self) -> Read<Vec<CoinString>> {
        let count = u16::from_be_bytes(self.array()?);
        let coins = (0..count).map(|_| self.coin()).collect::<Read<_>>()?;
        self.end().map(|()| coins)
    }

    fn output(&mut self) -> Read<Output> {
        Ok(Output { puzzle_hash: PuzzleHash(self.array()?), amount: self.number()? })
    }

    fn run(&mut self, runs: Runs) -> Read<Run> {
        let start = self.here();
        if self.flag()? {
            return self.list(4, Self::output).map(Run::Outputs);
        }
        if runs == Runs::Readable {
            return Err(start);
        }
        Ok(Run::Unreadable)
    }

    fn spend(&mut self, runs: Runs) -> Read<CoinSpend> {
        Ok(CoinSpend { coin: self.coin()?, digest: self.hash()?, run: self.run(runs)? })
    }

    pub fn bundle(&mut self, runs: Runs) -> Read<SpendBundle> {
        self.list(4, |reader| reader.spend(runs)).map(|spends| SpendBundle { spends })
    }

    pub fn fee_intent(&mut self) -> Read<SubmissionFeeIntent> {
        match self.byte(2)? {
            0 => Ok(SubmissionFeeIntent::AlreadyPaid),
            1 => Ok(SubmissionFeeIntent::NoFeeConfigured),
            _ => Ok(SubmissionFeeIntent::Attach {
                target: CoinID(self.array()?),
                amount: self.number()?,
            }),
        }
    }

    pub fn optional_fee_intent(&mut self) -> Read<Option<SubmissionFeeIntent>> {
        self.optional(Self::fee_intent)
    }

    pub fn delivery(&mut self) -> Read<PendingDelivery> {
        Ok(PendingDelivery {
            intent: PendingSubmissionIntent {
                id: self.optional(Self::id)?,
                bundle: self.bundle(Runs::Any)?,
                expiry: self.height()?,
                fee_intent: self.fee_intent()?,
            },
            trigger: self.kind(&[
                DeliveryTrigger::Protocol,
                DeliveryTrigger::FreshChain,
                DeliveryTrigger::Rollback,
                DeliveryTrigger::ProviderReadiness,
            ])?,
            goal: self.goal()?,
        })
    }

    pub fn finalized(&mut self) -> Read<Option<FinalizedSubmission>> {
        self.optional(|reader| {
            Ok(FinalizedSubmission {
                bundle: reader.bundle(Runs::Any)?,
                applied_fee: reader.number()?,
                warning: reader.flag()?,
                fee_source_disposition: reader.kind(&[
                    FeeSourceDisposition::Attached,
                    FeeSourceDisposition::Unused,
                    FeeSourceDisposition::NotRequested,
                ])?,
                variant_fingerprint: reader.hash()?,
                should_broadcast: reader.flag()?,
            })
        })
    }

    fn drained(&mut self) -> Read<DrainedSubmission> {
        Ok(DrainedSubmission {
            id: self.id()?,
            attempt_token: self.token()?,
            predecessor_attempt_token: self.optional(Self::token)?,
            relationship: self.kind(&[
                SubmissionAttemptRelationship::Initial,
                SubmissionAttemptRelationship::Exact,
                SubmissionAttemptRelationship::NewerFeeBearing,
                SubmissionAttemptRelationship::Other,
            ])?,
            bundle: self.bundle(Runs::Any)?,
            expiry: self.height()?,
            fee_intent: self.fee_intent()?,
        })
    }

    fn failure(&mut self) -> Read<SubmissionDrainFailure> {
        Ok(SubmissionDrainFailure {
            candidate_index: self.number()?,
            retained_submission_id: self.optional(Self::id)?,
            candidate_submission_id: self.optional(Self::id)?,
            intent_fingerprint: self.hash()?,
            stage: self.kind(&[
                SubmissionDrainFailureStage::Fingerprint,
                SubmissionDrainFailureStage::RetainedState,
                SubmissionDrainFailureStage::ExpectedOutputs,
                SubmissionDrainFailureStage::SubmissionId,
            ])?,
        })
    }

    pub fn drain(&mut self) -> Read<SubmissionDrainResult> {
        Ok(SubmissionDrainResult {
            submissions: self.list(16, Self::drained)?,
            failures: self.list(16, Self::failure)?,
        })
    }
}

#[cfg(test)]
mod tests {
    use super::*;

    /// One submission without predecessor, spends and expiry, and one failure.
    fn drain_answer() -> Vec<u8> {
        let submission = [&[0; 15][..], &[9, 0, 0, 0, 0, 1]].concat();
        let failure = [&[0; 8][..], &[0, 1], &[0; 7], &[4], &[8; 32], &[2]].concat();
        [&[1][..], &submission, &[1], &failure].concat()
    }

    #[test]
    fn an_answer_that_is_cut_short_is_broken() {
        let whole = drain_answer();
        let drained = Reader::new(&whole).drain().unwrap();
        assert_eq!(drained.submissions[0].attempt_token, Token(9));
        assert_eq!(drained.submissions[0].fee_intent, SubmissionFeeIntent::NoFeeConfigured);
        assert_eq!(drained.failures[0].candidate_submission_id, Some(SubmissionId(4)));
        assert_eq!(drained.failures[0].stage, SubmissionDrainFailureStage::ExpectedOutputs);
        for length in 0..whole.len() {
            assert!(Reader::new(&whole[..length]).drain().is_err());
        }
    }

    #[test]
    fn a_kind_that_is_unknown_is_broken() {
        let broken = Err(Broken(0));
        assert_eq!(Reader::new(&[2]).flag(), Err(Broken(0)));
        assert_eq!(Reader::new(&[2]).status(), Err(Broken(0)));
        assert_eq!(Reader::new(&[2]).goal(), Err(Broken(0)));
        assert_eq!(Reader::new(&[3; 41]).fee_intent(), broken);
        assert_eq!(Reader::new(&[2; 9]).height(), Err(Broken(0)));
        assert_eq!(Reader::new(&[65; 600]).ids(), Err(Broken(0)));
        // the last byte of a failure is its stage
        let mut drain = drain_answer();
        *drain.last_mut().unwrap() = 4;
        assert_eq!(Reader::new(&drain).drain(), Err(Broken(drain.len() as u64 - 1)));
        drain[18] = 4;
        assert_eq!(Reader::new(&drain).drain(), Err(Broken(18)), "relationship");
    }

    /// Mark, chain, acknowledged, fee resolution, applied fee, and three optional numbers.
    fn look_answer() -> Vec<u8> {
        let optional = |number: u8| [&[1][..], &[0; 7], &[number]].concat();
        let fee = [&[1, 2, 1, 2][..], &[0; 7], &[25]].concat();
        [fee, optional(77), optional(6), optional(5)].concat()
    }

    #[test]
    fn a_look_is_read_whole_or_not() {
        let whole = look_answer();
        let look = SubmissionLook {
            chain_terminality: SubmissionChainTerminality::Landed,
            acknowledged: true,
            fee_resolution: FeeResolution::Attached,
            applied_fee: 25,
            expiry: Some(Height(77)),
            active_attempt_token: Some(Token(6)),
            completed_attempt_token: Some(Token(5)),
        };
        assert_eq!(whole.len(), crate::ffi::LOOK_BYTES);
        assert_eq!(Reader::new(&whole).look(), Ok(Some(look)));
        assert_eq!(Reader::new(&[0]).look(), Ok(None));
        for length in 0..whole.len() {
            assert!(Reader::new(&whole[..length]).look().is_err());
        }
        for (at, most) in [(0, 1), (1, 2), (2, 1), (3, 2), (12, 1), (21, 1), (30, 1)] {
            let mut broken = whole.clone();
            broken[at] = most + 1;
            assert_eq!(Reader::new(&broken).look(), Err(Broken(at as u64)));
        }
    }

    #[test]
    fn a_summary_is_read_whole_or_not() {
        let numbers: [u64; 6] = [9, 4, 16, 15, 64, 14];
        let numbers: Vec<u8> = numbers.iter().flat_map(|number| number.to_be_bytes()).collect();
        let whole = [&numbers[..], &[1], &[0; 7], &[100]].concat();
        let summary = BookSummary {
            next_delivery_attempt_token: Token(9),
            next_submission_id: SubmissionId(4),
            submitted_count: 16,
            pending_count: 15,
            retired_count: 64,
            replayed_count: 14,
            rollback_height: Some(Height(100)),
        };
        assert_eq!(whole.len(), crate::ffi::SUMMARY_BYTES);
        assert_eq!(Reader::new(&whole).summary(), Ok(summary));
        for length in 0..whole.len() {
            assert!(Reader::new(&whole[..length]).summary().is_err());
        }
        for (place, most) in [(16, 16), (24, 16), (32, 64), (40, 16)] {
            for (at, byte) in [(place + 7, most + 1), (place, 1)] {
                let mut broken = whole.clone();
                broken[at] = byte;
                assert_eq!(Reader::new(&broken).summary(), Err(Broken(place as u64)));
            }
        }
    }

    #[test]
    fn a_coin_list_uses_its_bytes_up() {
        let coin = CoinString::from_bytes(&[7]);
        assert_eq!(Reader::new(&[0, 1, 1, 7]).coins(), Ok(vec![coin]));
        assert_eq!(Reader::new(&[0, 1, 1, 7, 0]).coins(), Err(Broken(4)));
        assert_eq!(Reader::new(&[0, 1, 2, 7]).coins(), Err(Broken(3)));
    }
}
