//! Archives as plain values. The form is `docs/ARCHIVE.md`; nothing here calls the library.

use crate::coin::Hash32;
use crate::reader::{Broken, Read, Reader, Runs};
use crate::refusal::Refusal;
use crate::submission::*;
use crate::wire;

/// What is broadcast for a submission at present.
#[derive(Debug, Clone, PartialEq, Eq, Hash)]
pub enum SubmissionBroadcastVariant {
    /// The base bundle.
    Base,
    /// The payment with its fee.
    FeeBearing {
        /// The bundle.
        bundle: SpendBundle,
        /// The fee that the intent asked for; nobody has counted the coins.
        applied_fee: u64,
    },
}

/// A retained submission.
#[derive(Debug, Clone, PartialEq, Eq, Hash)]
pub struct SubmittedTx {
    /// Its id.
    pub id: SubmissionId,
    /// The live attempt.
    pub active_attempt: Option<DeliveryAttempt>,
    /// The attempt that is set aside.
    pub completed_attempt: Option<DeliveryAttempt>,
    /// The fingerprint of bundle, expiry and fee intent as they were first queued.
    pub intent_fingerprint: Hash32,
    /// The payment without the wallet's fee.
    pub base_bundle: SpendBundle,
    /// What is broadcast.
    pub current_variant: SubmissionBroadcastVariant,
    /// What became of the fee.
    pub fee_resolution: FeeResolution,
    /// The fee that was asked for.
    pub fee_intent: SubmissionFeeIntent,
    /// The fingerprint of the bundle that was acknowledged last.
    pub acknowledged_variant_fingerprint: Option<Hash32>,
    /// What the chain has shown.
    pub chain_terminality: SubmissionChainTerminality,
    /// The height at which it can no longer be included.
    pub expiry: Option<Height>,
}

impl SubmittedTx {
    /// The bundle that is broadcast at present.
    pub fn current_bundle(&self) -> &SpendBundle {
        match &self.current_variant {
            SubmissionBroadcastVariant::Base => &self.base_bundle,
            SubmissionBroadcastVariant::FeeBearing { bundle, .. } => bundle,
        }
    }
}

/// An archive as plain values: all that a book holds, to look at.
///
/// [`read`](Archive::read) is plain Rust that takes the same bytes as
/// [`SubmissionBook::from_archive`](crate::SubmissionBook::from_archive), and refuses others at the
/// same place. It is tested against it, not proved.
///
/// ```
/// use submission_book::*;
///
/// let mut book = SubmissionBook::open(5.into(), 1.into());
/// let fee = SubmissionFeeIntent::NoFeeConfigured;
/// book.queue(&PendingDelivery::protocol(SpendBundle::default(), Some(9_000.into()), fee))?;
/// book.drain()?;
///
/// let archive = Archive::read(&book.to_archive())?;
/// assert_eq!(archive.next_delivery_attempt_token, Token(6));
/// assert_eq!(archive.submitted[0].active_attempt.unwrap().token, Token(5));
/// assert_eq!(archive.submitted[0].expiry, Some(Height(9_000)));
/// # Ok::<(), Refusal>(())
/// ```
#[derive(Debug, Clone, PartialEq, Eq, Hash)]
pub struct Archive {
    /// The token that is issued next.
    pub next_delivery_attempt_token: Token,
    /// The id of the next new submission.
    pub next_submission_id: SubmissionId,
    /// The retained submissions, in the order in which they were retained.
    pub submitted: Vec<SubmittedTx>,
    /// The queue.
    pub pending_deliveries: Vec<PendingDelivery>,
    /// The retirements that wait to be collected.
    pub retired_submission_ids: Vec<SubmissionId>,
    /// The height of the running replay.
    pub rollback_height: Option<Height>,
    /// The submissions that it has offered again, rising.
    pub replayed_submission_ids: Vec<SubmissionId>,
}

/// What the rules about ids and tokens look back at.
struct Seen {
    next_token: u64,
    ids: Vec<u64>,
    tokens: Vec<u64>,
}

/// Puts a number into the list if it breaks no rule.
fn checked(
    reader: &mut Reader,
    list: &mut Vec<u64>,
    good: impl FnOnce(&[u64], u64) -> bool,
) -> Read<u64> {
    let number = reader.checked(|number| good(list, number))?;
    list.push(number);
    Ok(number)
}

fn attempt(reader: &mut Reader, seen: &mut Seen) -> Read<Option<DeliveryAttempt>> {
    let next = seen.next_token;
    let new = |tokens: &[u64], token: u64| token < next && !tokens.contains(&token);
    reader.optional(|reader| {
        reader.attempt(|reader| checked(reader, &mut seen.tokens, new).map(Token))
    })
}

fn current_variant(reader: &mut Reader) -> Read<SubmissionBroadcastVariant> {
    if !reader.flag()? {
        return Ok(SubmissionBroadcastVariant::Base);
    }
    Ok(SubmissionBroadcastVariant::FeeBearing {
        bundle: reader.bundle(Runs::Any)?,
        applied_fee: reader.number()?,
    })
}

fn submitted(reader: &mut Reader, seen: &mut Seen) -> Read<SubmittedTx> {
    Ok(SubmittedTx {
        id: checked(reader, &mut seen.ids, |ids, id| !ids.contains(&id)).map(SubmissionId)?,
        active_attempt: attempt(reader, seen)?,
        completed_attempt: attempt(reader, seen)?,
        intent_fingerprint: reader.hash()?,
        base_bundle: reader.bundle(Runs::Readable)?,
        current_variant: current_variant(reader)?,
        fee_resolution: reader.fee_resolution()?,
        fee_intent: reader.fee_intent()?,
        acknowledged_variant_fingerprint: reader.optional(Reader::hash)?,
        chain_terminality: reader.chain_terminality()?,
        expiry: reader.height()?,
    })
}

/// A count, and as many ids, each of which breaks no rule with those before it.
fn id_list(
    reader: &mut Reader,
    most: usize,
    good: impl Fn(&[u64], u64) -> bool,
) -> Read<Vec<SubmissionId>> {
    let mut before = Vec::new();
    reader.list(most, |reader| checked(reader, &mut before, &good).map(SubmissionId))
}

fn archive(reader: &mut Reader) -> Read<Archive> {
    let start = reader.here();
    if reader.byte(2)? != 2 {
        return Err(start);
    }
    let (next_token, next_id) = (reader.number()?, reader.number()?);
    let mut seen = Seen { next_token, ids: Vec::new(), tokens: Vec::new() };
    let archive = Archive {
        next_delivery_attempt_token: Token(next_token),
        next_submission_id: SubmissionId(next_id),
        submitted: reader.list(16, |reader| submitted(reader, &mut seen))?,
        pending_deliveries: reader.list(16, Reader::delivery)?,
        retired_submission_ids: id_list(reader, 64, |before, id| !before.contains(&id))?,
        rollback_height: reader.height()?,
        replayed_submission_ids: id_list(reader, 16, |before, id| {
            seen.ids.contains(&id) && before.last() < Some(&id)
        })?,
    };
    reader.end().map(|()| archive)
}

fn put_attempt(out: &mut Vec<u8>, attempt: &Option<DeliveryAttempt>) {
    out.push(u8::from(attempt.is_some()));
    let Some(attempt) = attempt else {
        return;
    };
    wire::put_number(out, attempt.token.0);
    out.push(wire::goal_number(attempt.goal));
    out.extend(attempt.drained_variant_fingerprint.0);
    wire::put_optional_hash(out, attempt.finalized_variant_fingerprint);
}

fn put_submitted(out: &mut Vec<u8>, tx: &SubmittedTx) {
    wire::put_number(out, tx.id.0);
    put_attempt(out, &tx.active_attempt);
    put_attempt(out, &tx.completed_attempt);
    out.extend(tx.intent_fingerprint.0);
    wire::put_bundle(out, &tx.base_bundle);
    match &tx.current_variant {
        SubmissionBroadcastVariant::Base => out.push(0),
        SubmissionBroadcastVariant::FeeBearing { bundle, applied_fee } => {
            out.push(1);
            wire::put_bundle(out, bundle);
            wire::put_number(out, *applied_fee);
        }
    }
    out.push(tx.fee_resolution as u8);
    wire::put_fee_intent(out, &tx.fee_intent);
    wire::put_optional_hash(out, tx.acknowledged_variant_fingerprint);
    out.push(tx.chain_terminality as u8);
    wire::put_optional(out, tx.expiry.map(|height| height.0));
}

fn put_list<T>(out: &mut Vec<u8>, items: &[T], put: impl Fn(&mut Vec<u8>, &T)) {
    out.push(wire::count(items.len()));
    items.iter().for_each(|item| put(out, item));
}

impl Archive {
    /// Reads an archive.
    ///
    /// # Errors
    ///
    /// [`NoArchive`](Refusal::NoArchive) with the place of the first broken item.
    pub fn read(bytes: &[u8]) -> Result<Archive, Refusal> {
        archive(&mut Reader::new(bytes)).map_err(|Broken(place)| Refusal::NoArchive { place })
    }

    /// The bytes of these values. They are an archive if the values are within its ranges and
    /// rules, which [`read`](Archive::read) tells; nothing is looked at here.
    pub fn to_bytes(&self) -> Vec<u8> {
        let mut out = vec![2];
        let put_id = |out: &mut Vec<u8>, id: &SubmissionId| wire::put_number(out, id.0);
        wire::put_number(&mut out, self.next_delivery_attempt_token.0);
        wire::put_number(&mut out, self.next_submission_id.0);
        put_list(&mut out, &self.submitted, put_submitted);
        put_list(&mut out, &self.pending_deliveries, wire::put_delivery);
        put_list(&mut out, &self.retired_submission_ids, put_id);
        wire::put_optional(&mut out, self.rollback_height.map(|height| height.0));
        put_list(&mut out, &self.replayed_submission_ids, put_id);
        out
    }
}
