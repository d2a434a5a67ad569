//! Books, calls and answers as antt terms, by the short forms of `rules_recorded_lists`' `Pieces.antt`.

use std::collections::BTreeMap;

use rust_book::call::{Answer, Call, Outcome, SPEND_CELLS};
use rust_book::door;
use rust_book::model::*;

use crate::generate::damage::bundle_cells;

/// Bundles and digests that got a name, in the order in which they came up.
#[derive(Default)]
pub struct Names {
    bundles: Vec<(Vec<u8>, String)>,
    digests: BTreeMap<Digest, usize>,
}

/// The misses of the plan: words of the Rust's message, stage, whether it removes, the rules' name.
const CAUSES: [(&str, u8, bool, &str); 7] = [
    ("no longer has retained", 1, false, "NoRetainedState"),
    ("fee intent that does not match", 1, true, "FeeIntentDiffers"),
    ("invalid retained", 1, true, "InvalidRetainedState"),
    ("does not match its retained", 1, true, "IntentDiffers"),
    ("collides with", 3, false, "IdCollides"),
    ("expected outputs", 2, false, "OutputsUnreadable"),
    ("is exhausted", 3, false, "IdsExhausted"),
];

const TRIGGERS: [&str; 4] = ["Protocol", "FreshChain", "Rollback", "ProviderReadiness"];
const GOALS: [&str; 2] = ["EnsureBroadcast", "FeeUpgrade"];
const SOURCES: [&str; 4] =
    ["source.NotRequested", "source.Joined", "source.JoinFailed", "source.Failed"];
const FEE_KINDS: [&str; 3] = ["AlreadyPaid", "NoFeeConfigured", "Attach"];
const RESOLUTIONS: [&str; 3] = ["Unresolved", "NotRequested", "Attached"];
const CHAIN: [&str; 3] = ["Active", "InputSpent", "Landed"];
const RELATIONSHIPS: [&str; 4] = ["Initial", "Exact", "NewerFeeBearing", "Other"];
const DISPOSITIONS: [&str; 3] =
    ["disposition.Attached", "disposition.Unused", "disposition.NotRequested"];

/// A list with one item to a line, for the right side of an equation.
pub fn lines(items: &[String]) -> String {
    let items: String = items.iter().map(|item| format!("{item}\n    ∷ ")).collect();
    format!("\n    {items}[]")
}

fn list(items: &[String]) -> String {
    if items.is_empty() {
        return "[]".to_string();
    }
    if items.len() > 3 && items.iter().all(|item| *item == items[0]) {
        let item = if items[0].contains(' ') && !items[0].starts_with('(') {
            format!("({})", items[0])
        } else {
            items[0].clone()
        };
        return format!("(replicate {} {item})", items.len());
    }
    format!("({} ∷ [])", items.join(" ∷ "))
}

fn numbers(numbers: &[u64]) -> String {
    let rising = numbers.windows(2).all(|pair| pair[0].checked_add(1) == Some(pair[1]));
    if numbers.len() > 4 && rising {
        return format!("(countFrom {} {})", numbers[0], numbers.len());
    }
    list(&numbers.iter().map(u64::to_string).collect::<Vec<_>>())
}

fn height(height: Option<u64>) -> String {
    height.map_or("NoHeight".to_string(), |height| format!("(at {height})"))
}

fn option(value: Option<String>) -> String {
    value.map_or("none".to_string(), |value| format!("(some {value})"))
}

fn flag(flag: bool) -> &'static str {
    if flag {
        "true"
    } else {
        "false"
    }
}

fn token(token: Option<u64>) -> String {
    format!("tokenBy {}", option(token.map(|token| token.to_string())))
}

fn look(look: &Look) -> String {
    format!(
        "(record {{ expiry = {}; «active_attempt_token» = {}; «completed_attempt_token» = {}; \
         «applied_fee» = {}; «fee_resolution» = {}; «chain_terminality» = {}; acknowledged = {} }})",
        height(look.expiry),
        token(look.live),
        token(look.set_aside),
        look.applied_fee,
        RESOLUTIONS[usize::from(look.mark)],
        CHAIN[usize::from(look.chain)],
        flag(look.acknowledged),
    )
}

fn summary(summary: &Summary) -> String {
    format!(
        "(record {{ «next_delivery_attempt_token» = record {{ 0 = {} }}; \
         «next_submission_id» = record {{ 0 = {} }}; «submitted_count» = {}; «pending_count» = {}; \
         «retired_count» = {}; «replayed_count» = {}; «rollback_height» = {} }})",
        summary.next_token,
        summary.next_id,
        summary.retained,
        summary.queued,
        summary.retirements,
        summary.replayed,
        height(summary.rollback),
    )
}

impl Names {
    /// Gives the digest a name.
    pub fn learn(&mut self, digest: &Digest) {
        let number = self.digests.len() + 1;
        if digest.iter().any(|byte| *byte != digest[0]) {
            self.digests.entry(*digest).or_insert(number);
        }
    }

    /// Names the fingerprints of a book.
    pub fn learn_book(&mut self, book: &Book) {
        for entry in &book.retained {
            self.learn(&entry.intent);
            entry.acknowledged.iter().for_each(|digest| self.learn(digest));
        }
        for attempt in book.slots() {
            self.learn(&attempt.drained);
            attempt.finalised.iter().for_each(|digest| self.learn(digest));
        }
    }

    fn named_at(&self, bytes: &[u8]) -> Option<usize> {
        self.digests.get(bytes.first_chunk::<32>()?).copied()
    }

    /// Bytes as they are, long runs of one byte and named digests in short.
    pub fn bytes(&self, bytes: &[u8]) -> String {
        let (mut parts, mut plain): (Vec<String>, Vec<String>) = (Vec::new(), Vec::new());
        let mut rest = bytes;
        while let Some(first) = rest.first() {
            let run = rest.iter().take_while(|byte| *byte == first).count();
            let (part, length) = match self.named_at(rest) {
                Some(number) => (format!("digest{number}"), 32),
                None if run == 7 && *first == 0 && rest.len() > 7 => {
                    (format!("num {}", rest[7]), 8)
                }
                None if run > 4 && *first == 0 => (format!("zeros {run}"), run),
                None if run > 4 => (format!("replicate {run} {first}"), run),
                None => {
                    plain.push(first.to_string());
                    rest = &rest[1..];
                    continue;
                }
            };
            if !plain.is_empty() {
                parts.push(list(&std::mem::take(&mut plain)));
            }
            parts.push(part);
            rest = &rest[length..];
        }
        if !plain.is_empty() || parts.is_empty() {
            parts.push(list(&plain));
        }
        match &parts[..] {
            [part] if part.starts_with('(') || !part.contains(' ') => part.clone(),
            parts => format!("({})", parts.join(" ++ ")),
        }
    }

    fn output(&self, output: &Output) -> String {
        if output.amount == 0 && output.puzzle_hash == [0; 32] {
            return "zeroOutput".to_string();
        }
        format!("output {} {}", self.bytes(&output.puzzle_hash), output.amount)
    }

    fn outputs(&self, outputs: &[Output]) -> String {
        list(&outputs.iter().map(|output| self.output(output)).collect::<Vec<_>>())
    }

    fn spend(&self, spend: &Spend) -> String {
        let (coin, digest) = (self.bytes(&spend.coin), self.bytes(&spend.digest));
        match &spend.run {
            Some(outputs) => format!("spend {coin} {digest} {}", self.outputs(outputs)),
            None => format!("unreadable {coin} {digest}"),
        }
    }

    pub fn bundle(&mut self, bundle: &Bundle) -> String {
        self.cells(&bundle_cells(bundle)).expect("the cells of a bundle")
    }

    /// A bundle by its cells; none if a byte is no value of the cell's type.
    fn cells(&mut self, cells: &[u8]) -> Option<String> {
        if cells.iter().all(|byte| *byte == 0) {
            return Some("zeroBundle".to_string());
        }
        if let Some(number) = self.bundles.iter().position(|(held, _)| held == cells) {
            return Some(format!("bundle{}", number + 1));
        }
        let text = match door::bundle(cells) {
            Ok(bundle) => {
                let spends: Vec<String> = bundle.iter().map(|spend| self.spend(spend)).collect();
                format!("bundleOf {}", list(&spends))
            }
            Err(_) => {
                let spends: Option<Vec<String>> = cells[1..]
                    .chunks_exact(SPEND_CELLS)
                    .map(|cells| self.spend_cells(cells))
                    .collect();
                format!("bundleCells {} {}", cells[0], list(&spends?))
            }
        };
        self.bundles.push((cells.to_vec(), text));
        Some(format!("bundle{}", self.bundles.len()))
    }

    fn spend_cells(&self, cells: &[u8]) -> Option<String> {
        if cells.iter().all(|byte| *byte == 0) {
            return Some("zeroSpend".to_string());
        }
        let readable = *["false", "true"].get(usize::from(cells[106]))?;
        let outputs: Vec<Output> = cells[108..]
            .chunks_exact(40)
            .map(|cells| Output {
                puzzle_hash: cells[..32].try_into().expect("32 bytes"),
                amount: u64::from_be_bytes(cells[32..].try_into().expect("8 bytes")),
            })
            .collect();
        let (coin, digest) = (self.bytes(&cells[1..74]), self.bytes(&cells[74..106]));
        let (count, outputs) = (cells[107], self.outputs(&outputs));
        Some(format!("spendCells {} {coin} {digest} {readable} {count} {outputs}", cells[0]))
    }

    fn fee_intent(&self, intent: &FeeIntent) -> String {
        match intent {
            FeeIntent::AlreadyPaid => "alreadyPaid".to_string(),
            FeeIntent::NoFeeConfigured => "noFee".to_string(),
            FeeIntent::Attach { target, amount } => {
                format!("(attach {} {amount})", self.bytes(target))
            }
        }
    }

    fn fee_cells(&self, cells: &[u8]) -> Option<String> {
        if let Ok(intent) = door::fee_intent(cells) {
            return Some(self.fee_intent(&intent));
        }
        let kind = FEE_KINDS.get(usize::from(cells[0]))?;
        let amount = u64::from_be_bytes(cells[33..].try_into().expect("8 bytes"));
        Some(format!("(feeCells {kind} {} {amount})", self.bytes(&cells[1..33])))
    }

    fn hash(&self, hash: Option<&Digest>) -> String {
        hash.map_or("zeroHash".to_string(), |hash| format!("(hash {})", self.bytes(hash)))
    }

    fn attempt(&self, attempt: &Attempt) -> String {
        let goal = GOALS[usize::from(attempt.goal)];
        let (drained, finalised) =
            (self.bytes(&attempt.drained), self.hash(attempt.finalised.as_ref()));
        format!("(attempt {} {goal} {drained} {finalised})", attempt.token)
    }

    fn slot(&self, slot: Option<&Attempt>) -> String {
        slot.map_or("noAttempt".to_string(), |attempt| format!("(held {})", self.attempt(attempt)))
    }

    fn submission(&mut self, entry: &Retained) -> String {
        let variant = match &entry.fee {
            None => "baseVariant".to_string(),
            Some((bundle, fee)) => format!("(feeBearing {} {fee})", self.bundle(bundle)),
        };
        let base = self.bundle(&entry.base);
        let words = [
            "submission".to_string(),
            entry.id.to_string(),
            self.slot(entry.live.as_ref()),
            self.slot(entry.set_aside.as_ref()),
            self.bytes(&entry.intent),
            base,
            variant,
            RESOLUTIONS[usize::from(entry.mark)].to_string(),
            self.fee_intent(&entry.fee_intent),
            self.hash(entry.acknowledged.as_ref()),
            CHAIN[usize::from(entry.chain)].to_string(),
            height(entry.expiry),
        ];
        words.join(" ")
    }

    fn delivery(&mut self, entry: &Queued) -> String {
        let id = entry.id.map_or("NoId".to_string(), |id| format!("(byId {id})"));
        let bundle = self.bundle(&entry.bundle);
        let (expiry, fee) = (height(entry.expiry), self.fee_intent(&entry.fee_intent));
        let (trigger, goal) =
            (TRIGGERS[usize::from(entry.trigger)], GOALS[usize::from(entry.goal)]);
        format!("(delivery {id} {bundle} {expiry} {fee} {trigger} {goal})")
    }

    pub fn book(&mut self, book: &Book) -> String {
        let retained: Vec<String> =
            book.retained.iter().map(|entry| self.submission(entry)).collect();
        let queue: Vec<String> = book.queue.iter().map(|entry| self.delivery(entry)).collect();
        if book.retained.is_empty() && *book == Book::open(book.next_token, book.next_id) {
            return format!("opened {} {}", book.next_token, book.next_id);
        }
        let retained = match retained.len() {
            0 => "[]".to_string(),
            _ => format!("({})", lines(&retained)),
        };
        format!(
            "bookOf {} {} {retained}\n    {} {} {} {}",
            book.next_token,
            book.next_id,
            list(&queue),
            numbers(&book.retirements),
            height(book.rollback),
            numbers(&book.replayed),
        )
    }

    /// The call as a value; none if an argument is no value of its type.
    pub fn call(&mut self, call: &Call) -> Option<String> {
        let trigger = |trigger: &u8| TRIGGERS.get(usize::from(*trigger)).copied();
        let goal = |goal: &u8| GOALS.get(usize::from(*goal)).copied();
        let text = match call {
            Call::Queue { id, bundle, expiry, fee_intent, trigger: by, goal: for_goal } => {
                let id = door::optional(*id).ok()?;
                let expiry = height(door::optional(*expiry).ok()?);
                let id = id.map_or("NoId".to_string(), |id| format!("(byId {id})"));
                let (bundle, fee) = (self.cells(bundle)?, self.fee_cells(fee_intent)?);
                format!(
                    "Queue (delivery {id} {bundle} {expiry} {fee} {} {})",
                    trigger(by)?,
                    goal(for_goal)?
                )
            }
            Call::QueueRebroadcastEpoch { ids, trigger: by } => {
                format!("QueueRebroadcastEpoch {} {}", numbers(ids), trigger(by)?)
            }
            Call::QueueFeeReadiness => "QueueFeeReadiness".to_string(),
            Call::QueueRetainedDelivery { id, trigger: by, goal: for_goal } => {
                format!("QueueRetainedDelivery {id} {} {}", trigger(by)?, goal(for_goal)?)
            }
            Call::Drain => "Drain".to_string(),
            Call::FinalizeAttempt { token, source, bundle } => {
                let source = SOURCES.get(usize::from(*source))?;
                format!("FinalizeAttempt {token} {source} {}", self.cells(bundle)?)
            }
            Call::FeeIntentForAttempt { token } => format!("FeeIntentForAttempt {token}"),
            Call::AcknowledgeAttempt { token } => format!("AcknowledgeAttempt {token}"),
            Call::StopAttempt { token } => format!("StopAttempt {token}"),
            Call::AbandonAttempt { token } => format!("AbandonAttempt {token}"),
            Call::RelinquishCompletedAttempt { token } => {
                format!("RelinquishCompletedAttempt {token}")
            }
            Call::RetainSubmitted { ids } => format!("RetainSubmitted {}", numbers(ids)),
            Call::EmitRetirement { id } => format!("EmitRetirement {id}"),
            Call::DrainRetirements => "DrainRetirements".to_string(),
            Call::ReconciliationInputCoins { landed, buffer } => {
                format!("ReconciliationInputCoins {} {buffer}", self.bytes(landed))
            }
            Call::ActiveIds => "ActiveIds".to_string(),
            Call::BeginReplay { height } => format!("BeginReplay (height {height})"),
            Call::FinishReplayIfAdvanced { height } => {
                format!("FinishReplayIfAdvanced (height {height})")
            }
            Call::ReplayRollbackHeight => "ReplayRollbackHeight".to_string(),
            Call::ReconcileChainTerminality { observed, spent, reorg, ids } => {
                let reorg = ["false", "true"].get(usize::from(*reorg))?;
                let (observed, spent) = (self.bytes(observed), self.bytes(spent));
                format!("ReconcileChainTerminality {observed} {spent} {reorg} {}", numbers(ids))
            }
            Call::CausallyRolledBackIds { absent, live_inputs } => {
                format!("CausallyRolledBackIds {} {}", self.bytes(absent), self.bytes(live_inputs))
            }
            Call::AbsentOutputsForIds { ids, absent, buffer } => {
                format!("AbsentOutputsForIds {} {} {buffer}", numbers(ids), self.bytes(absent))
            }
            Call::CollectRollbackReplayIds { ids } => {
                format!("CollectRollbackReplayIds {}", numbers(ids))
            }
            Call::ClearLocalArtifacts => "ClearLocalArtifacts".to_string(),
            Call::RestoreRuntime => "RestoreRuntime".to_string(),
            Call::Attempt { token } => format!("Attempt {token}"),
            Call::Look { id } => format!("Look {id}"),
            Call::Summary => "Summary".to_string(),
            Call::WriteArchive { buffer } => format!("WriteArchive {buffer}"),
            Call::ReadArchive { .. } | Call::Sound => return None,
        };
        Some(format!("Call.{text}"))
    }

    fn emitted(&mut self, emitted: &Emitted) -> String {
        let predecessor = option(emitted.predecessor.map(|token| token.to_string()));
        let relationship = RELATIONSHIPS[usize::from(emitted.relationship)];
        let bundle = self.bundle(&emitted.bundle);
        let (expiry, fee) = (height(emitted.expiry), self.fee_intent(&emitted.fee_intent));
        let (id, token) = (emitted.id, emitted.token);
        format!("drained {id} {token} {predecessor} {relationship} {bundle} {expiry} {fee}")
    }

    /// The rules name the cause; stage and retained id follow from it, and are held against it here.
    fn failure(&self, failure: &Failure) -> String {
        let cause = CAUSES.iter().find(|(words, ..)| failure.message.contains(words));
        let (_, stage, removes, name) = cause.expect("a known cause");
        let candidate = failure.candidate.expect("a candidate id");
        assert_eq!(failure.stage, *stage, "stage of {name}");
        assert_eq!(failure.retained, removes.then_some(candidate), "retained id of {name}");
        format!("failed {} {name} {candidate} {}", failure.index, self.bytes(&failure.intent))
    }

    fn finalised(&mut self, finalised: &Finalised) -> String {
        format!(
            "(finalizedAs {} {} {} {} {} {})",
            self.bundle(&finalised.bundle),
            finalised.applied_fee,
            flag(finalised.warning),
            DISPOSITIONS[usize::from(finalised.disposition)],
            self.bytes(&finalised.fingerprint),
            flag(finalised.should_broadcast),
        )
    }

    fn value(&mut self, answer: &Answer) -> String {
        match answer {
            Answer::Nothing => "noValue".to_string(),
            Answer::Drained(drained) => {
                let failures: Vec<String> =
                    drained.failures.iter().map(|failure| self.failure(failure)).collect();
                format!("(failures {})", list(&failures))
            }
            Answer::Finalised(finalised) => {
                let finalised = finalised.as_ref().map(|finalised| self.finalised(finalised));
                format!("(finalized {})", option(finalised))
            }
            Answer::FeeIntent(intent) => {
                let intent = intent.as_ref().map(|intent| self.fee_intent(intent));
                format!("(feeIntentIs {})", option(intent))
            }
            Answer::Applied(true) => "(statusIs Applied)".to_string(),
            Answer::Applied(false) => "(statusIs Stale)".to_string(),
            Answer::Ids(ids) => format!("(idsAre {})", numbers(ids)),
            Answer::Flag(value) => format!("(flag {})", flag(*value)),
            Answer::Height(value) => format!("(heightIs {})", height(*value)),
            Answer::Attempt(attempt) => {
                format!(
                    "(attemptIs {})",
                    option(attempt.as_ref().map(|attempt| self.attempt(attempt)))
                )
            }
            Answer::Look(value) => format!("(lookIs {})", option(value.as_ref().map(look))),
            Answer::Summary(value) => format!("(summaryIs {})", summary(value)),
            Answer::Written(bytes) => format!("(written {})", self.bytes(bytes)),
        }
    }

    pub fn outcome(&mut self, outcome: &Outcome) -> String {
        let answer = match outcome {
            Err(refusal) => return format!("refused {}", refusal.number),
            Ok(answer) => answer,
        };
        let submissions: Vec<String> = match answer {
            Answer::Drained(drained) => {
                drained.submissions.iter().map(|emitted| self.emitted(emitted)).collect()
            }
            _ => Vec::new(),
        };
        format!("answer {} {}", list(&submissions), self.value(answer))
    }

    /// All names so far.
    pub fn all(&self) -> String {
        let digests = (1..=self.digests.len()).map(|number| format!("digest{number} "));
        let bundles = (1..=self.bundles.len()).map(|number| format!("bundle{number} "));
        digests.chain(bundles).collect()
    }

    /// The definitions of all names.
    pub fn definitions(&self) -> String {
        let mut digests: Vec<_> = self.digests.iter().collect();
        digests.sort_by_key(|(_, number)| **number);
        let digest = |(digest, number): (&Digest, &usize)| {
            let bytes = list(&digest.iter().map(u8::to_string).collect::<Vec<_>>());
            let bytes = bytes.trim_matches(|c| c == '(' || c == ')').to_string();
            format!("\nabbrev pub digest{number} : List ℕ\ndigest{number} = {bytes}\n")
        };
        let bundle = |(number, (_, text)): (usize, &(Vec<u8>, String))| {
            let number = number + 1;
            format!("\nabbrev pub bundle{number} : SpendBundle\nbundle{number} = {text}\n")
        };
        let digests: String = digests.into_iter().map(digest).collect();
        let bundles: String = self.bundles.iter().enumerate().map(bundle).collect();
        digests + &bundles
    }
}
