//! The call script of DRIVER.md: reading one, writing one, and the output for each call.

use crate::archive;
use crate::call::{Answer, Call, OptionalCell, Outcome, BUNDLE_CELLS, FEE_CELLS};
use crate::model::{Book, Drained, Finalised, Look, Summary};
use crate::sha256::sha256;

pub const LONGEST_BYTES: u32 = 65_536;

/// The byte that ends the run of a script that is not whole.
pub const BROKEN: u8 = 0xff;

/// What a lent buffer holds at first.
pub const BUFFER_FILL: u8 = 0xa5;

/// A script: the opening, the whole calls, and whether something that is no call follows.
#[derive(Clone, Debug, PartialEq, Eq)]
pub struct Script {
    pub next_token: u64,
    pub next_id: u64,
    pub calls: Vec<Call>,
    /// The bytes behind the last whole call.
    pub tail: Vec<u8>,
}

impl Script {
    /// Reads a script; none if its opening is cut short.
    pub fn parse(bytes: &[u8]) -> Option<Script> {
        let mut input = Input { bytes };
        let (next_token, next_id) = (input.number()?, input.number()?);
        let mut calls = Vec::new();
        loop {
            let behind = input.bytes;
            match input.call() {
                Some(call) => calls.push(call),
                None => {
                    let tail = behind.to_vec();
                    return Some(Script { next_token, next_id, calls, tail });
                }
            }
        }
    }

    /// The scripts one behind the other in one script: each but the first starts by reading the
    /// archive of a book opened at its two numbers. What is behind the last whole calls is lost.
    pub fn joined(scripts: &[Script]) -> Script {
        let mut all = scripts[0].clone();
        all.tail.clear();
        for script in &scripts[1..] {
            let opened = Book::open(script.next_token, script.next_id);
            let bytes = archive::write(&opened);
            all.calls.push(Call::ReadArchive { bytes });
            all.calls.extend(script.calls.iter().cloned());
        }
        all
    }

    pub fn bytes(&self) -> Vec<u8> {
        let mut out = self.next_token.to_be_bytes().to_vec();
        out.extend_from_slice(&self.next_id.to_be_bytes());
        for call in &self.calls {
            write_call(&mut out, call);
        }
        out.extend_from_slice(&self.tail);
        out
    }
}

struct Input<'a> {
    bytes: &'a [u8],
}

impl Input<'_> {
    fn run(&mut self, length: usize) -> Option<Vec<u8>> {
        let (run, rest) = self.bytes.split_at_checked(length)?;
        self.bytes = rest;
        Some(run.to_vec())
    }

    fn byte(&mut self) -> Option<u8> {
        Some(self.run(1)?[0])
    }

    fn number(&mut self) -> Option<u64> {
        Some(u64::from_be_bytes(self.run(8)?.try_into().expect("8 bytes")))
    }

    fn optional(&mut self) -> Option<OptionalCell> {
        Some(OptionalCell { mark: self.byte()?, value: self.number()? })
    }

    fn ids(&mut self) -> Option<Vec<u64>> {
        let count = u16::from_be_bytes(self.run(2)?.try_into().expect("2 bytes"));
        (0..count).map(|_| self.number()).collect()
    }

    /// A length of at most 65,536.
    fn length(&mut self) -> Option<u32> {
        let length = u32::from_be_bytes(self.run(4)?.try_into().expect("4 bytes"));
        (length <= LONGEST_BYTES).then_some(length)
    }

    fn bytes(&mut self) -> Option<Vec<u8>> {
        let length = self.length()?;
        self.run(length as usize)
    }

    fn call(&mut self) -> Option<Call> {
        Some(match self.byte()? {
            0x01 => Call::Queue {
                id: self.optional()?,
                bundle: self.run(BUNDLE_CELLS)?,
                expiry: self.optional()?,
                fee_intent: self.run(FEE_CELLS)?,
                trigger: self.byte()?,
                goal: self.byte()?,
            },
            0x02 => Call::QueueRebroadcastEpoch { ids: self.ids()?, trigger: self.byte()? },
            0x03 => Call::QueueFeeReadiness,
            0x04 => Call::QueueRetainedDelivery {
                id: self.number()?,
                trigger: self.byte()?,
                goal: self.byte()?,
            },
            0x05 => Call::Drain,
            0x06 => Call::FinalizeAttempt {
                token: self.number()?,
                source: self.byte()?,
                bundle: self.run(BUNDLE_CELLS)?,
            },
            0x07 => Call::FeeIntentForAttempt { token: self.number()? },
            0x08 => Call::AcknowledgeAttempt { token: self.number()? },
            0x09 => Call::StopAttempt { token: self.number()? },
            0x0a => Call::AbandonAttempt { token: self.number()? },
            0x0b => Call::RelinquishCompletedAttempt { token: self.number()? },
            0x0c => Call::RetainSubmitted { ids: self.ids()? },
            0x0d => Call::EmitRetirement { id: self.number()? },
            0x0e => Call::DrainRetirements,
            0x0f => {
                Call::ReconciliationInputCoins { landed: self.bytes()?, buffer: self.length()? }
            }
            0x10 => Call::ActiveIds,
            0x11 => Call::BeginReplay { height: self.number()? },
            0x12 => Call::FinishReplayIfAdvanced { height: self.number()? },
            0x13 => Call::ReplayRollbackHeight,
            0x14 => Call::ReconcileChainTerminality {
                observed: self.bytes()?,
                spent: self.bytes()?,
                reorg: self.byte()?,
                ids: self.ids()?,
            },
            0x15 => {
                Call::CausallyRolledBackIds { absent: self.bytes()?, live_inputs: self.bytes()? }
            }
            0x16 => Call::AbsentOutputsForIds {
                ids: self.ids()?,
                absent: self.bytes()?,
                buffer: self.length()?,
            },
            0x17 => Call::CollectRollbackReplayIds { ids: self.ids()? },
            0x18 => Call::ClearLocalArtifacts,
            0x19 => Call::RestoreRuntime,
            0x1a => Call::Attempt { token: self.number()? },
            0x1b => Call::WriteArchive { buffer: self.length()? },
            0x1c => Call::ReadArchive { bytes: self.bytes()? },
            0x1d => Call::Sound,
            0x1e => Call::Look { id: self.number()? },
            0x1f => Call::Summary,
            _ => return None,
        })
    }
}

fn put_number(out: &mut Vec<u8>, value: u64) {
    out.extend_from_slice(&value.to_be_bytes());
}

fn put_optional(out: &mut Vec<u8>, cell: &OptionalCell) {
    out.push(cell.mark);
    put_number(out, cell.value);
}

fn put_ids(out: &mut Vec<u8>, ids: &[u64]) {
    let count = u16::try_from(ids.len()).expect("a 2-byte count");
    out.extend_from_slice(&count.to_be_bytes());
    for id in ids {
        put_number(out, *id);
    }
}

fn put_bytes(out: &mut Vec<u8>, bytes: &[u8]) {
    let length = u32::try_from(bytes.len()).expect("a 4-byte length");
    out.extend_from_slice(&length.to_be_bytes());
    out.extend_from_slice(bytes);
}

pub fn write_call(out: &mut Vec<u8>, call: &Call) {
    out.push(call.opcode());
    match call {
        Call::Queue { id, bundle, expiry, fee_intent, trigger, goal } => {
            put_optional(out, id);
            out.extend_from_slice(bundle);
            put_optional(out, expiry);
            out.extend_from_slice(fee_intent);
            out.extend_from_slice(&[*trigger, *goal]);
        }
        Call::QueueRebroadcastEpoch { ids, trigger } => {
            put_ids(out, ids);
            out.push(*trigger);
        }
        Call::QueueRetainedDelivery { id, trigger, goal } => {
            put_number(out, *id);
            out.extend_from_slice(&[*trigger, *goal]);
        }
        Call::FinalizeAttempt { token, source, bundle } => {
            put_number(out, *token);
            out.push(*source);
            out.extend_from_slice(bundle);
        }
        Call::FeeIntentForAttempt { token }
        | Call::AcknowledgeAttempt { token }
        | Call::StopAttempt { token }
        | Call::AbandonAttempt { token }
        | Call::RelinquishCompletedAttempt { token }
        | Call::Attempt { token } => put_number(out, *token),
        Call::EmitRetirement { id } | Call::Look { id } => put_number(out, *id),
        Call::BeginReplay { height } | Call::FinishReplayIfAdvanced { height } => {
            put_number(out, *height);
        }
        Call::RetainSubmitted { ids } | Call::CollectRollbackReplayIds { ids } => {
            put_ids(out, ids);
        }
        Call::ReconciliationInputCoins { landed, buffer } => {
            put_bytes(out, landed);
            out.extend_from_slice(&buffer.to_be_bytes());
        }
        Call::ReconcileChainTerminality { observed, spent, reorg, ids } => {
            put_bytes(out, observed);
            put_bytes(out, spent);
            out.push(*reorg);
            put_ids(out, ids);
        }
        Call::CausallyRolledBackIds { absent, live_inputs } => {
            put_bytes(out, absent);
            put_bytes(out, live_inputs);
        }
        Call::AbsentOutputsForIds { ids, absent, buffer } => {
            put_ids(out, ids);
            put_bytes(out, absent);
            out.extend_from_slice(&buffer.to_be_bytes());
        }
        Call::WriteArchive { buffer } => out.extend_from_slice(&buffer.to_be_bytes()),
        Call::ReadArchive { bytes } => put_bytes(out, bytes),
        Call::QueueFeeReadiness
        | Call::Drain
        | Call::DrainRetirements
        | Call::ActiveIds
        | Call::ReplayRollbackHeight
        | Call::ClearLocalArtifacts
        | Call::RestoreRuntime
        | Call::Sound
        | Call::Summary => {}
    }
}

/// The output of one call: refusal or 0, answer or place, lent buffer, digest of the book.
pub fn output(call: &Call, outcome: &Outcome, after: &Book) -> Vec<u8> {
    let mut out = Vec::new();
    let mut buffer = call.buffer().map(|length| vec![BUFFER_FILL; length]);
    match outcome {
        Ok(answer) => {
            out.push(0);
            put_answer(&mut out, answer);
            if let (Answer::Written(bytes), Some(buffer)) = (answer, &mut buffer) {
                buffer[..bytes.len()].copy_from_slice(bytes);
            }
        }
        Err(refusal) => {
            out.push(refusal.number);
            if let Some(place) = refusal.place {
                put_number(&mut out, place);
            }
        }
    }
    out.extend(buffer.unwrap_or_default());
    out.extend_from_slice(&sha256(&archive::write(after)));
    out
}

fn put_answer(out: &mut Vec<u8>, answer: &Answer) {
    match answer {
        Answer::Nothing => {}
        Answer::Drained(drained) => put_drained(out, drained),
        Answer::Finalised(finalised) => {
            out.push(u8::from(finalised.is_some()));
            if let Some(finalised) = finalised {
                put_finalised(out, finalised);
            }
        }
        Answer::FeeIntent(intent) => {
            out.push(u8::from(intent.is_some()));
            if let Some(intent) = intent {
                archive::write_fee_intent(out, intent);
            }
        }
        Answer::Applied(applied) => out.push(u8::from(!applied)),
        Answer::Ids(ids) => archive::write_ids(out, ids),
        Answer::Flag(flag) => out.push(u8::from(*flag)),
        Answer::Height(height) => archive::write_optional_number(out, *height),
        Answer::Attempt(attempt) => {
            out.push(u8::from(attempt.is_some()));
            if let Some(attempt) = attempt {
                archive::write_attempt(out, attempt);
            }
        }
        Answer::Look(look) => {
            out.push(u8::from(look.is_some()));
            if let Some(look) = look {
                put_look(out, look);
            }
        }
        Answer::Summary(summary) => put_summary(out, summary),
        Answer::Written(bytes) => {
            let length = u32::try_from(bytes.len()).expect("a 4-byte length");
            out.extend_from_slice(&length.to_be_bytes());
        }
    }
}

fn put_drained(out: &mut Vec<u8>, drained: &Drained) {
    archive::count(out, drained.submissions.len());
    for emitted in &drained.submissions {
        put_number(out, emitted.id);
        put_number(out, emitted.token);
        archive::write_optional_number(out, emitted.predecessor);
        out.push(emitted.relationship);
        archive::write_bundle(out, &emitted.bundle);
        archive::write_optional_number(out, emitted.expiry);
        archive::write_fee_intent(out, &emitted.fee_intent);
    }
    archive::count(out, drained.failures.len());
    for failure in &drained.failures {
        put_number(out, failure.index);
        archive::write_optional_number(out, failure.retained);
        archive::write_optional_number(out, failure.candidate);
        out.extend_from_slice(&failure.intent);
        out.push(failure.stage);
    }
}

fn put_finalised(out: &mut Vec<u8>, finalised: &Finalised) {
    archive::write_bundle(out, &finalised.bundle);
    put_number(out, finalised.applied_fee);
    out.push(u8::from(finalised.warning));
    out.push(finalised.disposition);
    out.extend_from_slice(&finalised.fingerprint);
    out.push(u8::from(finalised.should_broadcast));
}

fn put_look(out: &mut Vec<u8>, look: &Look) {
    out.extend_from_slice(&[look.chain, u8::from(look.acknowledged), look.mark]);
    put_number(out, look.applied_fee);
    for number in [look.expiry, look.live, look.set_aside] {
        archive::write_optional_number(out, number);
    }
}

fn put_summary(out: &mut Vec<u8>, summary: &Summary) {
    let counts = [summary.retained, summary.queued, summary.retirements, summary.replayed];
    put_number(out, summary.next_token);
    put_number(out, summary.next_id);
    counts.iter().for_each(|count| put_number(out, *count));
    archive::write_optional_number(out, summary.rollback);
}
