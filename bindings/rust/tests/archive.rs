//! Archives as plain values: every part of an example, the strings that are no archive against the
//! library, and the decoder in Python. `tests/recorded.rs` and `tests/random_calls.rs` read the
//! archive behind every call.

mod common;

use std::io::Write;
use std::path::PathBuf;
use std::process::{Command, Stdio};

use common::*;
use submission_book::*;

/// What the library says of the bytes, which the reader must say too.
fn same_as_the_library(bytes: &[u8]) -> Result<Archive, Refusal> {
    let read = Archive::read(bytes);
    let library = SubmissionBook::from_archive(bytes);
    assert_eq!(read.as_ref().err(), library.as_ref().err(), "{bytes:02x?}");
    if let Ok(archive) = &read {
        assert!(archive.to_bytes() == bytes, "written again, it is another string: {bytes:02x?}");
    }
    read
}

fn refused_at(archive: &Archive) -> u64 {
    match same_as_the_library(&archive.to_bytes()) {
        Err(Refusal::NoArchive { place }) => place,
        other => panic!("{other:?}"),
    }
}

fn worked_bundle() -> SpendBundle {
    let made = Output { puzzle_hash: PuzzleHash([2; 32]), amount: 258 };
    let coin = CoinString::from_bytes(&[0xaa, 0xbb]);
    SpendBundle {
        spends: vec![CoinSpend { coin, digest: Hash32([1; 32]), run: Run::Outputs(vec![made]) }],
    }
}

#[test]
fn every_part_of_the_worked_example() {
    let wanted = Archive {
        next_delivery_attempt_token: Token(6),
        next_submission_id: SubmissionId(2),
        submitted: vec![SubmittedTx {
            id: SubmissionId(1),
            active_attempt: Some(DeliveryAttempt {
                token: Token(5),
                goal: SubmissionDeliveryGoal::EnsureBroadcast,
                drained_variant_fingerprint: Hash32([3; 32]),
                finalized_variant_fingerprint: Some(Hash32([3; 32])),
            }),
            completed_attempt: None,
            intent_fingerprint: Hash32([4; 32]),
            base_bundle: worked_bundle(),
            current_variant: SubmissionBroadcastVariant::Base,
            fee_resolution: FeeResolution::Unresolved,
            fee_intent: SubmissionFeeIntent::Attach { target: CoinID([5; 32]), amount: 9 },
            acknowledged_variant_fingerprint: None,
            chain_terminality: SubmissionChainTerminality::Active,
            expiry: Some(Height(77)),
        }],
        pending_deliveries: vec![PendingDelivery {
            intent: PendingSubmissionIntent {
                id: Some(SubmissionId(1)),
                bundle: worked_bundle(),
                expiry: None,
                fee_intent: SubmissionFeeIntent::AlreadyPaid,
            },
            trigger: DeliveryTrigger::Rollback,
            goal: SubmissionDeliveryGoal::EnsureBroadcast,
        }],
        retired_submission_ids: ids([7]),
        rollback_height: Some(Height(100)),
        replayed_submission_ids: ids([1]),
    };
    let bytes = worked_example();
    assert_eq!(same_as_the_library(&bytes), Ok(wanted.clone()));
    assert_eq!(wanted.submitted[0].current_bundle(), &worked_bundle());
}

/// Everything that an archive can hold, as often as it can.
fn largest() -> Archive {
    let outputs = vec![output(9, u64::MAX); 4];
    let coin = CoinString::from_parts(&CoinID([1; 32]), &PuzzleHash([2; 32]), u64::MAX);
    let spend = CoinSpend { coin, digest: Hash32([3; 32]), run: Run::Outputs(outputs) };
    let bundle = SpendBundle { spends: vec![spend; 4] };
    let attempt = |token| DeliveryAttempt {
        token: Token(token),
        goal: SubmissionDeliveryGoal::FeeUpgrade,
        drained_variant_fingerprint: Hash32([4; 32]),
        finalized_variant_fingerprint: Some(Hash32([5; 32])),
    };
    let submitted = |id| SubmittedTx {
        id: SubmissionId(id),
        active_attempt: Some(attempt(2 * id)),
        completed_attempt: Some(attempt(2 * id + 1)),
        intent_fingerprint: Hash32([6; 32]),
        base_bundle: bundle.clone(),
        current_variant: SubmissionBroadcastVariant::FeeBearing {
            bundle: bundle.clone(),
            applied_fee: 9,
        },
        fee_resolution: FeeResolution::Attached,
        fee_intent: attach(9),
        acknowledged_variant_fingerprint: Some(Hash32([7; 32])),
        chain_terminality: SubmissionChainTerminality::Landed,
        expiry: Some(Height(77)),
    };
    let mut delivery = PendingDelivery::protocol(bundle.clone(), Some(Height(77)), attach(9));
    delivery.intent.id = Some(SubmissionId(3));
    Archive {
        next_delivery_attempt_token: Token(100),
        next_submission_id: SubmissionId(100),
        submitted: (0..16).map(submitted).collect(),
        pending_deliveries: vec![delivery; 16],
        retired_submission_ids: ids(0..64),
        rollback_height: Some(Height(100)),
        replayed_submission_ids: ids(0..16),
    }
}

#[test]
fn the_largest_archive() {
    let bytes = largest().to_bytes();
    assert_eq!(bytes.len(), 57_694);
    assert_eq!(same_as_the_library(&bytes), Ok(largest()));
    for length in (0..bytes.len()).step_by(211) {
        assert!(same_as_the_library(&bytes[..length]).is_err());
    }
    assert!(same_as_the_library(&[&bytes[..], &[0]].concat()).is_err());
}

#[test]
fn every_cut_and_many_changes_of_the_worked_example() {
    let whole = worked_example();
    let mut archives = 0;
    for at in 0..whole.len() {
        assert!(same_as_the_library(&whole[..at]).is_err());
        for byte in [0, 1, 2, 3, 4, 5, 6, 7, 16, 17, 64, 65, 73, 74, 128, 255] {
            let mut changed = whole.clone();
            changed[at] = byte;
            archives += u32::from(same_as_the_library(&changed).is_ok());
        }
    }
    assert!(archives > 1_000, "{archives} of the changes are archives");
}

#[test]
fn numbers_that_break_a_rule() {
    let good = largest();
    let mut book = good.clone();
    book.submitted[1].id = SubmissionId(0);
    assert_eq!(refused_at(&book), 18 + 2_430, "an id twice");
    let mut book = good.clone();
    book.submitted[0].completed_attempt = book.submitted[0].active_attempt;
    assert_eq!(refused_at(&book), 18 + 8 + 75 + 1, "a token twice");
    let mut book = good.clone();
    book.next_delivery_attempt_token = Token(31);
    assert_eq!(refused_at(&book), 18 + 15 * 2_430 + 8 + 75 + 1, "a token that is not issued yet");
    let mut book = good.clone();
    book.submitted[0].base_bundle.spends[0].run = Run::Unreadable;
    assert_eq!(refused_at(&book), 18 + 8 + 2 * 75 + 32 + 1 + 74 + 32, "an unreadable base");
    let lists = 57_694 - 8 * 16 - 1 - 9;
    let mut book = good.clone();
    book.retired_submission_ids[63] = SubmissionId(62);
    assert_eq!(refused_at(&book), lists - 8, "a retired id twice");
    for (place, wrong) in [(1, 0), (15, 16), (15, 3)] {
        let mut book = good.clone();
        book.replayed_submission_ids[place] = SubmissionId(wrong);
        assert_eq!(refused_at(&book), lists + 10 + 8 * place as u64, "a replayed id");
    }
    let mut book = good;
    book.submitted.push(book.submitted[0].clone());
    assert_eq!(refused_at(&book), 17, "17 submissions");
}

// ---- the decoder in Python, which was written from docs/ARCHIVE.md

fn text(bytes: &[u8]) -> String {
    let hex: String = bytes.iter().map(|byte| format!("{byte:02x}")).collect();
    format!("\"{hex}\"")
}

fn list<T>(items: &[T], item: impl Fn(&T) -> String) -> String {
    format!("[{}]", items.iter().map(item).collect::<Vec<_>>().join(","))
}

fn optional<T>(part: Option<T>, form: impl Fn(T) -> String) -> String {
    part.map_or("null".to_string(), form)
}

fn bundle(bundle: &SpendBundle) -> String {
    let output = |made: &Output| {
        format!("{{\"puzzle hash\":{},\"amount\":{}}}", text(&made.puzzle_hash.0), made.amount)
    };
    list(&bundle.spends, |spend| {
        let outputs = match &spend.run {
            Run::Unreadable => "null".to_string(),
            Run::Outputs(outputs) => list(outputs, output),
        };
        let (coin, digest) = (text(spend.coin.to_bytes()), text(&spend.digest.0));
        format!("{{\"coin\":{coin},\"digest\":{digest},\"outputs\":{outputs}}}")
    })
}

fn fee_intent(intent: &SubmissionFeeIntent) -> String {
    match intent {
        SubmissionFeeIntent::AlreadyPaid => "{\"kind\":0}".to_string(),
        SubmissionFeeIntent::NoFeeConfigured => "{\"kind\":1}".to_string(),
        SubmissionFeeIntent::Attach { target, amount } => {
            format!("{{\"kind\":2,\"target\":{},\"amount\":{amount}}}", text(&target.0))
        }
    }
}

fn goal(goal: SubmissionDeliveryGoal) -> u8 {
    u8::from(goal == SubmissionDeliveryGoal::FeeUpgrade)
}

fn attempt(attempt: DeliveryAttempt) -> String {
    let finalized = attempt.finalized_variant_fingerprint;
    format!(
        "{{\"token\":{},\"goal\":{},\"drained\":{},\"finalised\":{}}}",
        attempt.token,
        goal(attempt.goal),
        text(&attempt.drained_variant_fingerprint.0),
        optional(finalized, |hash| text(&hash.0)),
    )
}

fn submitted(tx: &SubmittedTx) -> String {
    let fee = match &tx.current_variant {
        SubmissionBroadcastVariant::Base => "null".to_string(),
        SubmissionBroadcastVariant::FeeBearing { bundle: joined, applied_fee } => {
            format!("{{\"bundle\":{},\"applied fee\":{applied_fee}}}", bundle(joined))
        }
    };
    let mark = match tx.fee_resolution {
        FeeResolution::Unresolved => 0,
        FeeResolution::NotRequested => 1,
        FeeResolution::Attached => 2,
    };
    let chain = match tx.chain_terminality {
        SubmissionChainTerminality::Active => 0,
        SubmissionChainTerminality::InputSpent => 1,
        SubmissionChainTerminality::Landed => 2,
    };
    let parts = [
        format!("\"id\":{}", tx.id),
        format!("\"live\":{}", optional(tx.active_attempt, attempt)),
        format!("\"set aside\":{}", optional(tx.completed_attempt, attempt)),
        format!("\"intent fingerprint\":{}", text(&tx.intent_fingerprint.0)),
        format!("\"base bundle\":{}", bundle(&tx.base_bundle)),
        format!("\"fee bundle\":{fee}"),
        format!("\"durable mark\":{mark}"),
        format!("\"fee intent\":{}", fee_intent(&tx.fee_intent)),
        format!(
            "\"acknowledged\":{}",
            optional(tx.acknowledged_variant_fingerprint, |hash| text(&hash.0))
        ),
        format!("\"chain\":{chain}"),
        format!("\"expiry\":{}", optional(tx.expiry, |height| height.to_string())),
    ];
    format!("{{{}}}", parts.join(","))
}

fn delivery(delivery: &PendingDelivery) -> String {
    let trigger = match delivery.trigger {
        DeliveryTrigger::Protocol => 0,
        DeliveryTrigger::FreshChain => 1,
        DeliveryTrigger::Rollback => 2,
        DeliveryTrigger::ProviderReadiness => 3,
    };
    let intent = &delivery.intent;
    format!(
        "{{\"id\":{},\"bundle\":{},\"expiry\":{},\"fee intent\":{},\"trigger\":{trigger},\"goal\":{}}}",
        optional(intent.id, |id| id.to_string()),
        bundle(&intent.bundle),
        optional(intent.expiry, |height| height.to_string()),
        fee_intent(&intent.fee_intent),
        goal(delivery.goal),
    )
}

/// The archive as the decoder in Python prints it.
fn json(archive: &Archive) -> String {
    let ids = |ids: &[SubmissionId]| list(ids, |id| id.to_string());
    let parts = [
        format!("\"next token\":{}", archive.next_delivery_attempt_token),
        format!("\"next id\":{}", archive.next_submission_id),
        format!("\"retained\":{}", list(&archive.submitted, submitted)),
        format!("\"queue\":{}", list(&archive.pending_deliveries, delivery)),
        format!("\"retirements\":{}", ids(&archive.retired_submission_ids)),
        format!(
            "\"rollback height\":{}",
            optional(archive.rollback_height, |height| height.to_string())
        ),
        format!("\"replayed\":{}", ids(&archive.replayed_submission_ids)),
    ];
    format!("{{{}}}", parts.join(","))
}

const DECODE: &str = "
import json, sys
sys.dont_write_bytecode = True
sys.path.insert(0, sys.argv[1])
import archive
for line in sys.stdin:
    try:
        book = archive.decode(bytes.fromhex(line))
        print(json.dumps(book, default=bytes.hex, separators=(',', ':')))
    except archive.Refused as refused:
        print(refused.place)
";

/// What the decoder says of each of the strings; `None` where there is no Python.
fn decoded(strings: &[Vec<u8>]) -> Option<Vec<String>> {
    let folder = PathBuf::from(env!("CARGO_MANIFEST_DIR")).join("../../tests/archive_decoder");
    let mut command = Command::new("python3");
    command.args(["-c", DECODE]).arg(folder).stdin(Stdio::piped()).stdout(Stdio::piped());
    let mut python = command.spawn().ok()?;
    let lines: String = strings.iter().map(|bytes| text(bytes).replace('"', "") + "\n").collect();
    let mut input = python.stdin.take().unwrap();
    let writing = std::thread::spawn(move || input.write_all(lines.as_bytes()).unwrap());
    let output = python.wait_with_output().unwrap();
    writing.join().unwrap();
    assert!(output.status.success());
    Some(String::from_utf8(output.stdout).unwrap().lines().map(str::to_string).collect())
}

/// Archives of every kind, and strings that are none.
fn strings() -> Vec<Vec<u8>> {
    let mut book = acknowledged_book(attach(7));
    queue(&mut book, 20, NO_FEE);
    let mut strings = vec![vec![], largest().to_bytes(), worked_example(), book.to_archive()];
    book.drain().unwrap();
    book.stop_attempt(Token(6)).unwrap();
    book.queue_fee_readiness().unwrap();
    book.begin_replay(Height(3));
    book.collect_rollback_replay_ids(&ids([2])).unwrap();
    strings.push(book.to_archive());
    book.drain().unwrap();
    let joined = SubmissionFeeSource::Joined(deposit(30));
    book.finalize_attempt(Token(7), &joined).unwrap();
    let mut unreadable = deposit(40);
    unreadable.spends[0].run = Run::Unreadable;
    book.queue(&PendingDelivery::protocol(unreadable, Some(Height(9)), NO_FEE)).unwrap();
    book.reconcile_chain_terminality(&[], &[coin_id(&coin(20))], false, &[]).unwrap();
    strings.push(book.to_archive());
    for whole in strings.clone() {
        let step = if whole.len() > 10_000 { 1_801 } else { 1 + whole.len() / 300 };
        for at in (0..whole.len()).step_by(step) {
            strings.push(whole[..at].to_vec());
            let mut changed = whole.clone();
            changed[at] ^= 1;
            strings.push(changed);
        }
    }
    strings
}

#[test]
fn the_decoder_in_python_says_the_same() {
    let strings = strings();
    let Some(decoded) = decoded(&strings) else {
        eprintln!("There is no python3 here: the decoder was not run.");
        return;
    };
    assert_eq!(decoded.len(), strings.len());
    let mut archives = 0;
    for (bytes, said) in strings.iter().zip(&decoded) {
        match same_as_the_library(bytes) {
            Ok(archive) => {
                archives += 1;
                assert_eq!(json(&archive), *said);
            }
            Err(Refusal::NoArchive { place }) => assert_eq!(place.to_string(), *said),
            Err(other) => panic!("{other}"),
        }
    }
    assert!(archives > 800, "{archives} of {} strings are archives", strings.len());
}
