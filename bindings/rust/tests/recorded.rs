//! The recorded lists (tests/recorded of the repository) through the methods of this crate: the
//! same answers, buffers and archives as the Rust book gave. The form is that of docs/DRIVER.md.
//!
//! Arguments that no value of this crate stands for (a trigger of 9, a damaged coin list) cannot be
//! handed in; the player answers them with the number that the form names, as the driver does.

mod common;

use std::fs;
use std::path::PathBuf;

use common::{archive_of, plain_sha256};
use submission_book::*;

/// An answer in bytes, or a refusal in bytes: its number, and the place of a 13.
type Answered<T> = Result<T, Vec<u8>>;

fn refusal(refusal: Refusal) -> Vec<u8> {
    let mut bytes = vec![refusal.number()];
    if let Refusal::NoArchive { place } = refusal {
        bytes.extend(place.to_be_bytes());
    }
    bytes
}

/// No value stands for the argument.
fn no_value<T>(number: u8) -> Answered<T> {
    Err(vec![number])
}

/// A value beside ids: over 64 of them are refused 2, before the 3 of the value.
fn beside<T>(ids: &[SubmissionId], value: Answered<T>) -> Answered<T> {
    value.map_err(|refused| if ids.len() > 64 { vec![2] } else { refused })
}

fn is_zero(bytes: &[u8]) -> bool {
    bytes.iter().all(|byte| *byte == 0)
}

fn number(bytes: &[u8]) -> u64 {
    u64::from_be_bytes(bytes.try_into().unwrap())
}

fn hash(bytes: &[u8]) -> [u8; 32] {
    bytes.try_into().unwrap()
}

fn spend(cell: &[u8]) -> Answered<CoinSpend> {
    let (length, coin, digest) = (cell[0] as usize, &cell[1..74], hash(&cell[74..106]));
    let (mark, count, outputs) = (cell[106], cell[107] as usize, &cell[108..]);
    if length > 73 || mark > 1 || count > 4 || (mark == 0 && count > 0) {
        return no_value(3);
    }
    if !is_zero(&coin[length..]) || !is_zero(&outputs[40 * count..]) {
        return no_value(3);
    }
    let output = |cell: &[u8]| Output {
        puzzle_hash: PuzzleHash(hash(&cell[..32])),
        amount: number(&cell[32..]),
    };
    let outputs = outputs.chunks(40).take(count).map(output).collect();
    let run = if mark == 1 { Run::Outputs(outputs) } else { Run::Unreadable };
    Ok(CoinSpend { coin: CoinString::from_bytes(&coin[..length]), digest: Hash32(digest), run })
}

fn bundle(cells: &[u8]) -> Answered<SpendBundle> {
    let (count, cells) = (cells[0] as usize, &cells[1..]);
    if count > 4 || !is_zero(&cells[268 * count..]) {
        return no_value(3);
    }
    let spends = cells.chunks(268).take(count).map(spend).collect::<Answered<_>>()?;
    Ok(SpendBundle { spends })
}

fn fee_intent(cells: &[u8]) -> Answered<SubmissionFeeIntent> {
    match cells[0] {
        0 if is_zero(&cells[1..]) => Ok(SubmissionFeeIntent::AlreadyPaid),
        1 if is_zero(&cells[1..]) => Ok(SubmissionFeeIntent::NoFeeConfigured),
        2 => Ok(SubmissionFeeIntent::Attach {
            target: CoinID(hash(&cells[1..33])),
            amount: number(&cells[33..]),
        }),
        _ => no_value(3),
    }
}

fn optional(cells: &[u8]) -> Answered<Option<u64>> {
    match cells[0] {
        0 if is_zero(&cells[1..]) => Ok(None),
        1 => Ok(Some(number(&cells[1..]))),
        _ => no_value(3),
    }
}

fn trigger(byte: u8) -> Answered<DeliveryTrigger> {
    match byte {
        0 => Ok(DeliveryTrigger::Protocol),
        1 => Ok(DeliveryTrigger::FreshChain),
        2 => Ok(DeliveryTrigger::Rollback),
        3 => Ok(DeliveryTrigger::ProviderReadiness),
        _ => no_value(3),
    }
}

fn goal(byte: u8) -> Answered<SubmissionDeliveryGoal> {
    match byte {
        0 => Ok(SubmissionDeliveryGoal::EnsureBroadcast),
        1 => Ok(SubmissionDeliveryGoal::FeeUpgrade),
        _ => no_value(3),
    }
}

fn flag(byte: u8) -> Answered<bool> {
    match byte {
        0 => Ok(false),
        1 => Ok(true),
        _ => no_value(3),
    }
}

fn source(byte: u8, cells: &[u8]) -> Answered<SubmissionFeeSource> {
    match byte {
        0 if is_zero(cells) => Ok(SubmissionFeeSource::NotRequested),
        1 => bundle(cells).map(SubmissionFeeSource::Joined),
        2 if is_zero(cells) => Ok(SubmissionFeeSource::JoinFailed),
        3 if is_zero(cells) => Ok(SubmissionFeeSource::Failed),
        _ => no_value(3),
    }
}

/// Over 800 coins and coins of over 73 bytes are values of this crate.
fn coins(bytes: &[u8]) -> Answered<Vec<CoinString>> {
    let mut list = Script(bytes);
    let Some(count) = list.run(2) else {
        return no_value(2);
    };
    let mut coins = Vec::new();
    for _ in 0..u16::from_be_bytes(count.try_into().unwrap()) {
        let Some(coin) = list.byte().and_then(|length| list.run(length.into())) else {
            return no_value(2);
        };
        coins.push(CoinString::from_bytes(coin));
    }
    if list.0.is_empty() {
        return Ok(coins);
    }
    no_value(2)
}

fn coin_ids(bytes: &[u8]) -> Answered<Vec<CoinID>> {
    if bytes.len() % 32 != 0 {
        return no_value(2);
    }
    Ok(bytes.chunks(32).map(|id| CoinID(hash(id))).collect())
}

/// The rest of a script. `None` where it is not whole.
struct Script<'a>(&'a [u8]);

impl<'a> Script<'a> {
    fn run(&mut self, length: usize) -> Option<&'a [u8]> {
        let (run, rest) = self.0.split_at_checked(length)?;
        self.0 = rest;
        Some(run)
    }

    fn byte(&mut self) -> Option<u8> {
        self.run(1).map(|byte| byte[0])
    }

    fn number(&mut self) -> Option<u64> {
        self.run(8).map(number)
    }

    fn token(&mut self) -> Option<Token> {
        self.number().map(Token)
    }

    fn ids(&mut self) -> Option<Vec<SubmissionId>> {
        let count = u16::from_be_bytes(self.run(2)?.try_into().ok()?);
        (0..count).map(|_| self.number().map(SubmissionId)).collect()
    }

    fn length(&mut self) -> Option<usize> {
        let length = u32::from_be_bytes(self.run(4)?.try_into().ok()?);
        (length <= 65_536).then_some(length as usize)
    }

    fn bytes(&mut self) -> Option<&'a [u8]> {
        let length = self.length()?;
        self.run(length)
    }
}

/// Answers in bytes.
fn number_form(number: u64) -> Vec<u8> {
    number.to_be_bytes().to_vec()
}

fn optional_form<T>(value: Option<T>, form: impl Fn(T) -> Vec<u8>) -> Vec<u8> {
    value.map_or(vec![0], |value| [vec![1], form(value)].concat())
}

fn list_form<T>(values: &[T], form: impl Fn(&T) -> Vec<u8>) -> Vec<u8> {
    let count = u8::try_from(values.len()).unwrap();
    values.iter().fold(vec![count], |list, value| [list, form(value)].concat())
}

fn ids_form(ids: Vec<SubmissionId>) -> Vec<u8> {
    list_form(&ids, |id| number_form(id.0))
}

fn coins_form(coins: Vec<CoinString>) -> Vec<u8> {
    let count = u16::try_from(coins.len()).unwrap().to_be_bytes().to_vec();
    coins.iter().fold(count, |list, coin| {
        let bytes = coin.to_bytes();
        [&list, &[bytes.len() as u8][..], bytes].concat()
    })
}

fn spend_form(spend: &CoinSpend) -> Vec<u8> {
    let coin = spend.coin.to_bytes();
    let run = match &spend.run {
        Run::Unreadable => vec![0],
        Run::Outputs(outputs) => {
            let output = |o: &Output| [&o.puzzle_hash.0[..], &o.amount.to_be_bytes()].concat();
            [vec![1], list_form(outputs, output)].concat()
        }
    };
    [&[coin.len() as u8], coin, &spend.digest.0, &run].concat()
}

fn bundle_form(bundle: &SpendBundle) -> Vec<u8> {
    list_form(&bundle.spends, spend_form)
}

fn fee_intent_form(fee_intent: SubmissionFeeIntent) -> Vec<u8> {
    match fee_intent {
        SubmissionFeeIntent::AlreadyPaid => vec![0],
        SubmissionFeeIntent::NoFeeConfigured => vec![1],
        SubmissionFeeIntent::Attach { target, amount } => {
            [&[2][..], &target.0, &amount.to_be_bytes()].concat()
        }
    }
}

fn attempt_form(attempt: DeliveryAttempt) -> Vec<u8> {
    [
        number_form(attempt.token.0),
        vec![attempt.goal as u8],
        attempt.drained_variant_fingerprint.0.to_vec(),
        optional_form(attempt.finalized_variant_fingerprint, |hash| hash.0.to_vec()),
    ]
    .concat()
}

fn finalized_form(finalized: FinalizedSubmission) -> Vec<u8> {
    [
        bundle_form(&finalized.bundle),
        number_form(finalized.applied_fee),
        vec![finalized.warning.into(), finalized.fee_source_disposition as u8],
        finalized.variant_fingerprint.0.to_vec(),
        vec![finalized.should_broadcast.into()],
    ]
    .concat()
}

fn look_form(look: SubmissionLook) -> Vec<u8> {
    let marks =
        vec![look.chain_terminality as u8, look.acknowledged.into(), look.fee_resolution as u8];
    [
        marks,
        number_form(look.applied_fee),
        optional_form(look.expiry, |height| number_form(height.0)),
        optional_form(look.active_attempt_token, |token| number_form(token.0)),
        optional_form(look.completed_attempt_token, |token| number_form(token.0)),
    ]
    .concat()
}

fn summary_form(summary: BookSummary) -> Vec<u8> {
    let counts = [
        summary.submitted_count,
        summary.pending_count,
        summary.retired_count,
        summary.replayed_count,
    ];
    [
        number_form(summary.next_delivery_attempt_token.0),
        number_form(summary.next_submission_id.0),
        counts.into_iter().flat_map(|count| number_form(count as u64)).collect(),
        optional_form(summary.rollback_height, |height| number_form(height.0)),
    ]
    .concat()
}

fn drained_form(drained: &DrainedSubmission) -> Vec<u8> {
    [
        number_form(drained.id.0),
        number_form(drained.attempt_token.0),
        optional_form(drained.predecessor_attempt_token, |token| number_form(token.0)),
        vec![drained.relationship as u8],
        bundle_form(&drained.bundle),
        optional_form(drained.expiry, |height| number_form(height.0)),
        fee_intent_form(drained.fee_intent),
    ]
    .concat()
}

fn failure_form(failure: &SubmissionDrainFailure) -> Vec<u8> {
    [
        number_form(failure.candidate_index),
        optional_form(failure.retained_submission_id, |id| number_form(id.0)),
        optional_form(failure.candidate_submission_id, |id| number_form(id.0)),
        failure.intent_fingerprint.0.to_vec(),
        vec![failure.stage as u8],
    ]
    .concat()
}

fn result_form(result: SubmissionDrainResult) -> Vec<u8> {
    let submissions = list_form(&result.submissions, drained_form);
    [submissions, list_form(&result.failures, failure_form)].concat()
}

fn nothing(_: ()) -> Vec<u8> {
    vec![]
}

/// Plays a script on a book.
struct Player {
    book: SubmissionBook,
    out: Vec<u8>,
    /// The opcodes of the calls that were accepted.
    accepted: Vec<u8>,
    /// The numbers of the others.
    refused: Vec<u8>,
}

/// What a call answers, before it is written; `None` where the script is not whole.
type Played = Option<Answered<Vec<u8>>>;

impl Player {
    fn queue(&mut self, script: &mut Script) -> Answered<Option<PendingDelivery>> {
        let mut cells = || {
            let (id, bundle) = (script.run(9)?, script.run(1_073)?);
            let (expiry, fee_intent) = (script.run(9)?, script.run(41)?);
            Some((id, bundle, expiry, fee_intent, script.byte()?, script.byte()?))
        };
        let Some((id, spends, expiry, fee, trigger_byte, goal_byte)) = cells() else {
            return Ok(None);
        };
        let intent = PendingSubmissionIntent {
            id: optional(id)?.map(SubmissionId),
            bundle: bundle(spends)?,
            expiry: optional(expiry)?.map(Height),
            fee_intent: fee_intent(fee)?,
        };
        let (trigger, goal) = (trigger(trigger_byte)?, goal(goal_byte)?);
        Ok(Some(PendingDelivery { intent, trigger, goal }))
    }

    fn delivery_call(&mut self, opcode: u8, script: &mut Script) -> Played {
        Some(match opcode {
            0x01 => match self.queue(script) {
                Ok(delivery) => self.book.queue(&delivery?).map(nothing).map_err(refusal),
                Err(refused) => Err(refused),
            },
            0x02 => {
                let (ids, byte) = (script.ids()?, script.byte()?);
                beside(&ids, trigger(byte)).and_then(|trigger| {
                    let queued = self.book.queue_rebroadcast_epoch(&ids, trigger);
                    queued.map(nothing).map_err(refusal)
                })
            }
            0x03 => self.book.queue_fee_readiness().map(nothing).map_err(refusal),
            0x04 => {
                let (id, first, second) = (script.number()?, script.byte()?, script.byte()?);
                let kinds = trigger(first).and_then(|trigger| Ok((trigger, goal(second)?)));
                kinds.and_then(|(trigger, goal)| {
                    let id = SubmissionId(id);
                    let queued = self.book.queue_retained_delivery(id, trigger, goal);
                    queued.map(nothing).map_err(refusal)
                })
            }
            _ => self.book.drain().map(result_form).map_err(refusal),
        })
    }

    fn attempt_call(&mut self, opcode: u8, script: &mut Script) -> Played {
        let token = script.token()?;
        if opcode == 0x06 {
            let (byte, cells) = (script.byte()?, script.run(1_073)?);
            return Some(source(byte, cells).and_then(|source| {
                let finalized = self.book.finalize_attempt(token, &source).map_err(refusal)?;
                Ok(optional_form(finalized, finalized_form))
            }));
        }
        if opcode == 0x07 {
            let intent = self.book.fee_intent_for_attempt(token);
            return Some(intent.map(|i| optional_form(i, fee_intent_form)).map_err(refusal));
        }
        let status = match opcode {
            0x08 => self.book.acknowledge_attempt(token),
            0x09 => self.book.stop_attempt(token),
            0x0a => self.book.abandon_attempt(token),
            _ => self.book.relinquish_completed_attempt(token),
        };
        Some(status.map(|status| vec![status as u8]).map_err(refusal))
    }

    fn chain_call(&mut self, opcode: u8, script: &mut Script) -> Played {
        let (first, second) = (script.bytes()?, script.bytes()?);
        if opcode == 0x15 {
            let lists = coins(first).and_then(|absent| Ok((absent, coin_ids(second)?)));
            return Some(lists.and_then(|(absent, inputs)| {
                let ids = self.book.causally_rolled_back_ids(&absent, &inputs);
                ids.map(ids_form).map_err(refusal)
            }));
        }
        let (byte, ids) = (script.byte()?, script.ids()?);
        let lists = coins(first).and_then(|observed| Ok((observed, coin_ids(second)?)));
        let given = lists.and_then(|(observed, spent)| {
            let reorg = beside(&ids, flag(byte))?;
            Ok((observed, spent, reorg))
        });
        Some(given.and_then(|(observed, spent, reorg)| {
            let done = self.book.reconcile_chain_terminality(&observed, &spent, reorg, &ids);
            done.map(nothing).map_err(refusal)
        }))
    }

    fn epoch_call(&mut self, opcode: u8, script: &mut Script) -> Played {
        let book = &mut self.book;
        Some(match opcode {
            0x0c => book.retain_submitted(&script.ids()?).map(ids_form).map_err(refusal),
            0x0d => {
                let id = SubmissionId(script.number()?);
                book.emit_retirement(id).map(nothing).map_err(refusal)
            }
            0x0e => Ok(ids_form(book.drain_retirements())),
            0x10 => Ok(ids_form(book.active_ids())),
            0x11 => Ok(vec![book.begin_replay(Height(script.number()?)).into()]),
            0x12 => {
                book.finish_replay_if_advanced(Height(script.number()?));
                Ok(vec![])
            }
            0x13 => Ok(optional_form(book.replay_rollback_height(), |h| number_form(h.0))),
            0x17 => {
                let ids = script.ids()?;
                book.collect_rollback_replay_ids(&ids).map(nothing).map_err(refusal)
            }
            0x18 => book.clear_local_artifacts().map(nothing).map_err(refusal),
            0x19 => {
                book.restore_runtime();
                Ok(vec![])
            }
            _ => Ok(optional_form(book.attempt(script.token()?), attempt_form)),
        })
    }

    fn read_call(&mut self, script: &mut Script) -> Played {
        let bytes = script.bytes()?;
        let read = SubmissionBook::from_archive(bytes);
        let refused = read.as_ref().err().copied();
        assert_eq!(Archive::read(bytes).err(), refused);
        Some(read.map(|book| self.book = book).map(nothing).map_err(refusal))
    }

    /// Calls whose answer goes into a lent buffer: the answer, and the length of the buffer.
    fn lent_call(&mut self, opcode: u8, script: &mut Script) -> Option<(Answered<Vec<u8>>, usize)> {
        let book = &self.book;
        let answer = match opcode {
            0x0f => coins(script.bytes()?).and_then(|outputs| {
                book.reconciliation_input_coins(&outputs).map(coins_form).map_err(refusal)
            }),
            0x16 => {
                let ids = script.ids()?;
                coins(script.bytes()?).and_then(|absent| {
                    book.absent_outputs_for_ids(&ids, &absent).map(coins_form).map_err(refusal)
                })
            }
            _ => Ok(book.to_archive()),
        };
        Some((answer, script.length()?))
    }

    /// The answer as it stands in a buffer of that length; a buffer that is too short is refused
    /// 12 by the driver.
    fn lend(&self, answer: Answered<Vec<u8>>, length: usize) -> Answered<Vec<u8>> {
        let mut buffer = vec![0xa5; length];
        match answer {
            Ok(bytes) if bytes.len() <= length => {
                buffer[..bytes.len()].copy_from_slice(&bytes);
                let written = u32::try_from(bytes.len()).unwrap().to_be_bytes();
                Ok([&written[..], &buffer].concat())
            }
            Ok(_) => Err([vec![12], buffer].concat()),
            Err(refused) => Err([refused, buffer].concat()),
        }
    }

    fn call(&mut self, script: &mut Script) -> Option<()> {
        let opcode = script.byte()?;
        let answer = match opcode {
            0x01..=0x05 => self.delivery_call(opcode, script)?,
            0x06..=0x0b => self.attempt_call(opcode, script)?,
            0x0f | 0x16 | 0x1b => {
                let (answer, length) = self.lent_call(opcode, script)?;
                self.lend(answer, length)
            }
            0x14 | 0x15 => self.chain_call(opcode, script)?,
            0x0c..=0x1a => self.epoch_call(opcode, script)?,
            0x1c => self.read_call(script)?,
            0x1d => Ok(vec![1]),
            0x1e => {
                let id = SubmissionId(script.number()?);
                Ok(optional_form(self.book.look(id), look_form))
            }
            0x1f => Ok(summary_form(self.book.summary())),
            _ => return None,
        };
        match answer {
            Ok(bytes) => {
                self.accepted.push(opcode);
                self.out.push(0);
                self.out.extend(bytes);
            }
            Err(bytes) => {
                self.refused.push(bytes[0]);
                self.out.extend(bytes);
            }
        }
        self.out.extend(plain_sha256(&archive_of(&self.book).to_bytes()));
        Some(())
    }
}

/// The output for a script.
fn play(bytes: &[u8]) -> Player {
    let mut script = Script(bytes);
    let next_token = script.token().unwrap();
    let next_id = SubmissionId(script.number().unwrap());
    let book = SubmissionBook::open(next_token, next_id);
    let mut player = Player { book, out: vec![], accepted: vec![], refused: vec![] };
    while !script.0.is_empty() {
        if player.call(&mut script).is_none() {
            player.out.push(0xff);
            break;
        }
    }
    player
}

/// The lists, each with its name, script and output.
fn lists() -> Vec<(String, Vec<u8>, Vec<u8>)> {
    let folder = PathBuf::from(env!("CARGO_MANIFEST_DIR")).join("../../tests/recorded");
    let mut names: Vec<PathBuf> = fs::read_dir(folder)
        .unwrap()
        .map(|entry| entry.unwrap().path())
        .filter(|path| path.extension().is_some_and(|extension| extension == "in"))
        .collect();
    names.sort();
    let read = |path: PathBuf| {
        let name = path.file_stem().unwrap().to_string_lossy().into_owned();
        (name, fs::read(&path).unwrap(), fs::read(path.with_extension("out")).unwrap())
    };
    names.into_iter().map(read).collect()
}

#[test]
fn the_recorded_lists() {
    let lists = lists();
    assert!(lists.len() >= 29, "{} lists", lists.len());
    for (name, script, output) in lists {
        let player = play(&script);
        let same = player.out.iter().zip(&output).take_while(|(a, b)| a == b).count();
        assert!(player.out == output, "{name}: differs from byte {same} on");
    }
}

#[test]
fn the_recorded_lists_have_every_call_and_refusal() {
    let players: Vec<Player> = lists().iter().map(|(_, script, _)| play(script)).collect();
    for opcode in 0x01..=0x1f {
        let accepted = players.iter().any(|player| player.accepted.contains(&opcode));
        assert!(accepted, "{opcode:02x} was never accepted");
    }
    for number in 2..=13 {
        let refused = players.iter().any(|player| player.refused.contains(&number));
        assert!(refused, "{number} was never answered");
    }
}
