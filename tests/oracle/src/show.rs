//! Calls, books and outputs as text.

use std::fmt::Write;

use rust_book::archive::{Broken, Reader};
use rust_book::call::{name, Call, OptionalCell};
use rust_book::door;
use rust_book::model::*;

/// Bytes in hexadecimal; a run of one byte as `07*32`.
pub fn hex(bytes: &[u8]) -> String {
    let mut text = String::new();
    let mut rest = bytes;
    while let Some(first) = rest.first() {
        let same = rest.iter().take_while(|byte| *byte == first).count();
        if same > 4 {
            let space = if text.is_empty() { "" } else { " " };
            write!(text, "{space}{first:02x}*{same} ").expect("a string");
            rest = &rest[same..];
        } else {
            write!(text, "{first:02x}").expect("a string");
            rest = &rest[1..];
        }
    }
    text.trim_end().to_string()
}

/// Bytes in hexadecimal, the middle of long ones left out.
fn short(bytes: &[u8]) -> String {
    let text = hex(bytes);
    if text.len() <= 40 {
        return text;
    }
    format!("{}..{} ({} bytes)", &text[..16], &text[text.len() - 8..], bytes.len())
}

pub fn bundle(bundle: &Bundle) -> String {
    let spend = |spend: &Spend| {
        let output = |output: &Output| format!("{}={}", short(&output.puzzle_hash), output.amount);
        let run = match &spend.run {
            None => "unreadable".to_string(),
            Some(run) => run.iter().map(output).collect::<Vec<_>>().join(", "),
        };
        format!("(coin {}; digest {}; run {run})", short(&spend.coin), short(&spend.digest))
    };
    format!("[{}]", bundle.iter().map(spend).collect::<Vec<_>>().join(" "))
}

pub fn fee_intent(intent: &FeeIntent) -> String {
    match intent {
        FeeIntent::AlreadyPaid => "AlreadyPaid".to_string(),
        FeeIntent::NoFeeConfigured => "NoFeeConfigured".to_string(),
        FeeIntent::Attach { target, amount } => format!("Attach {amount} to {}", short(target)),
    }
}

fn optional(value: Option<u64>) -> String {
    value.map_or("none".to_string(), |value| value.to_string())
}

fn attempt(attempt: &Attempt) -> String {
    let finalised = attempt.finalised.map_or("no".to_string(), |digest| short(&digest));
    format!(
        "(token {}, goal {}, drained {}, finalised {finalised})",
        attempt.token,
        attempt.goal,
        short(&attempt.drained)
    )
}

pub fn book(book: &Book) -> String {
    let mut text = format!("next token {}, next id {}\n", book.next_token, book.next_id);
    for entry in &book.retained {
        let slot = |slot: &Option<Attempt>| slot.as_ref().map_or("none".to_string(), attempt);
        let fee = entry.fee.as_ref().map_or("none".to_string(), |(fee_bundle, applied)| {
            format!("{} applied {applied}", bundle(fee_bundle))
        });
        let acknowledged = entry.acknowledged.map_or("no".to_string(), |digest| short(&digest));
        writeln!(
            text,
            "retained {}: live {}, set aside {}, intent {}, base {}, fee bundle {fee}, mark {}, {}, \
             acknowledged {acknowledged}, chain {}, expiry {}",
            entry.id,
            slot(&entry.live),
            slot(&entry.set_aside),
            short(&entry.intent),
            bundle(&entry.base),
            entry.mark,
            fee_intent(&entry.fee_intent),
            entry.chain,
            optional(entry.expiry)
        )
        .expect("a string");
    }
    for entry in &book.queue {
        writeln!(text, "queued {}", queued(entry)).expect("a string");
    }
    let (rollback, replayed) = (optional(book.rollback), &book.replayed);
    writeln!(text, "retirements {:?}", book.retirements).expect("a string");
    write!(text, "rollback height {rollback}, replayed {replayed:?}").expect("a string");
    text
}

fn queued(entry: &Queued) -> String {
    format!(
        "id {}, {}, expiry {}, {}, trigger {}, goal {}",
        optional(entry.id),
        bundle(&entry.bundle),
        optional(entry.expiry),
        fee_intent(&entry.fee_intent),
        entry.trigger,
        entry.goal
    )
}

fn cell(cell: &OptionalCell) -> String {
    format!("{}/{}", cell.mark, cell.value)
}

fn bundle_cells(cells: &[u8]) -> String {
    door::bundle(cells).map_or_else(|_| format!("damaged {}", short(cells)), |b| bundle(&b))
}

fn coins(bytes: &[u8]) -> String {
    match door::coin_list(bytes) {
        Err(_) => format!("damaged coins {}", short(bytes)),
        Ok(coins) => {
            let coins: Vec<String> = coins.iter().map(|coin| short(coin)).collect();
            format!("coins [{}]", coins.join(", "))
        }
    }
}

fn coin_ids(bytes: &[u8]) -> String {
    let ids: Vec<String> = bytes.chunks(32).map(short).collect();
    format!("coin ids [{}]", ids.join(", "))
}

/// A call with its arguments.
pub fn call(call: &Call) -> String {
    let arguments = match call {
        Call::Queue { id, bundle, expiry, fee_intent: fee_cells, trigger, goal } => {
            let fee = door::fee_intent(fee_cells);
            let fee =
                fee.map_or_else(|_| format!("damaged {}", short(fee_cells)), |f| fee_intent(&f));
            let bundle = bundle_cells(bundle);
            let (id, expiry) = (cell(id), cell(expiry));
            format!("id {id}, {bundle}, expiry {expiry}, {fee}, trigger {trigger}, goal {goal}")
        }
        Call::QueueRebroadcastEpoch { ids, trigger } => format!("{ids:?}, trigger {trigger}"),
        Call::QueueRetainedDelivery { id, trigger, goal } => {
            format!("id {id}, trigger {trigger}, goal {goal}")
        }
        Call::FinalizeAttempt { token, source, bundle } => {
            format!("token {token}, source {source}, {}", bundle_cells(bundle))
        }
        Call::FeeIntentForAttempt { token }
        | Call::AcknowledgeAttempt { token }
        | Call::StopAttempt { token }
        | Call::AbandonAttempt { token }
        | Call::RelinquishCompletedAttempt { token }
        | Call::Attempt { token } => format!("token {token}"),
        Call::RetainSubmitted { ids } | Call::CollectRollbackReplayIds { ids } => {
            format!("{ids:?}")
        }
        Call::EmitRetirement { id } | Call::Look { id } => format!("id {id}"),
        Call::BeginReplay { height } | Call::FinishReplayIfAdvanced { height } => {
            format!("height {height}")
        }
        Call::ReconciliationInputCoins { landed, buffer } => {
            format!("{}, buffer {buffer}", coins(landed))
        }
        Call::ReconcileChainTerminality { observed, spent, reorg, ids } => {
            let (observed, spent) = (coins(observed), coin_ids(spent));
            format!("observed {observed}, spent {spent}, reorg {reorg}, rolled back {ids:?}")
        }
        Call::CausallyRolledBackIds { absent, live_inputs } => {
            format!("absent {}, live {}", coins(absent), coin_ids(live_inputs))
        }
        Call::AbsentOutputsForIds { ids, absent, buffer } => {
            format!("{ids:?}, absent {}, buffer {buffer}", coins(absent))
        }
        Call::WriteArchive { buffer } => format!("buffer {buffer}"),
        Call::ReadArchive { bytes } => match rust_book::archive::read(bytes) {
            Ok(read) => format!("\n    {}", book(&read).replace('\n', "\n    ")),
            Err(broken) => {
                format!("{} bytes, broken at {}: {}", bytes.len(), broken.place, hex(bytes))
            }
        },
        _ => String::new(),
    };
    format!("{:02x} {} {arguments}", call.opcode(), name(call.opcode()))
}

/// What a driver wrote for a call, as far as it can be read; and the bytes used.
pub fn output(call: &Call, bytes: &[u8]) -> (String, usize) {
    let mut reader = Reader::new(bytes);
    let mut text = String::new();
    let whole = put_output(call, &mut reader, &mut text);
    if let Err(broken) = whole {
        let rest = &bytes[broken.place.min(bytes.len())..];
        write!(text, " ?? {} here: {}", broken.item, short(rest)).expect("a string");
        return (text, bytes.len());
    }
    (text, reader.at)
}

fn put_output(call: &Call, reader: &mut Reader, text: &mut String) -> Result<(), Broken> {
    let refusal = reader.run(1, "refusal")?[0];
    match refusal {
        0 => {
            text.push_str("accepted");
            put_answer(call, reader, text)?;
        }
        13 => {
            let place = reader.number("place")?;
            text.push_str(&format!("refused 13 at {place}"));
        }
        _ => text.push_str(&format!("refused {refusal}")),
    }
    if let Some(length) = call.buffer() {
        let buffer = reader.run(length, "buffer")?;
        text.push_str(&format!("; buffer {}", hex(buffer)));
    }
    let digest = reader.digest("digest of the book")?;
    text.push_str(&format!("; book {}", short(&digest)));
    Ok(())
}

fn put_answer(call: &Call, reader: &mut Reader, text: &mut String) -> Result<(), Broken> {
    let answer = match call {
        Call::Drain => return put_drained(reader, text),
        Call::FinalizeAttempt { .. } => match reader.up_to(1, "mark")? {
            0 => "none".to_string(),
            _ => format!(
                "{}, fee {}, warning {}, disposition {}, fingerprint {}, broadcast {}",
                bundle(&reader.bundle()?),
                reader.number("applied fee")?,
                reader.up_to(1, "warning")?,
                reader.up_to(2, "disposition")?,
                short(&reader.digest("fingerprint")?),
                reader.up_to(1, "broadcast")?
            ),
        },
        Call::FeeIntentForAttempt { .. } => match reader.up_to(1, "mark")? {
            0 => "none".to_string(),
            _ => fee_intent(&reader.fee_intent()?),
        },
        Call::AcknowledgeAttempt { .. }
        | Call::StopAttempt { .. }
        | Call::AbandonAttempt { .. }
        | Call::RelinquishCompletedAttempt { .. } => match reader.up_to(1, "status")? {
            0 => "Applied".to_string(),
            _ => "Stale".to_string(),
        },
        Call::RetainSubmitted { .. }
        | Call::DrainRetirements
        | Call::ActiveIds
        | Call::CausallyRolledBackIds { .. } => {
            let count = reader.up_to(255, "id count")?;
            let ids: Result<Vec<u64>, Broken> = (0..count).map(|_| reader.number("id")).collect();
            format!("{:?}", ids?)
        }
        Call::BeginReplay { .. } | Call::Sound => reader.up_to(1, "flag")?.to_string(),
        Call::ReplayRollbackHeight => optional(reader.optional_number("mark", "height")?),
        Call::Attempt { .. } => match reader.up_to(1, "mark")? {
            0 => "none".to_string(),
            _ => attempt(&reader.attempt()?),
        },
        Call::Look { .. } => match reader.up_to(1, "mark")? {
            0 => "none".to_string(),
            _ => look(reader)?,
        },
        Call::Summary => summary(reader)?,
        Call::ReconciliationInputCoins { .. }
        | Call::AbsentOutputsForIds { .. }
        | Call::WriteArchive { .. } => {
            let length = reader.run(4, "length")?;
            format!("length {}", hex(length))
        }
        _ => String::new(),
    };
    text.push_str(&format!(": {answer}"));
    Ok(())
}

fn look(reader: &mut Reader) -> Result<String, Broken> {
    Ok(format!(
        "chain {}, acknowledged {}, mark {}, applied {}, expiry {}, live {}, set aside {}",
        reader.up_to(2, "chain")?,
        reader.up_to(1, "acknowledged")?,
        reader.up_to(2, "mark")?,
        reader.number("applied fee")?,
        optional(reader.optional_number("mark", "expiry")?),
        optional(reader.optional_number("mark", "live token")?),
        optional(reader.optional_number("mark", "set-aside token")?)
    ))
}

fn summary(reader: &mut Reader) -> Result<String, Broken> {
    Ok(format!(
        "next token {}, next id {}, retained {}, queued {}, retirements {}, replayed {}, rollback height {}",
        reader.number("next token")?,
        reader.number("next id")?,
        reader.number("retained")?,
        reader.number("queued")?,
        reader.number("retirements")?,
        reader.number("replayed")?,
        optional(reader.optional_number("mark", "height")?)
    ))
}

fn put_drained(reader: &mut Reader, text: &mut String) -> Result<(), Broken> {
    for _ in 0..reader.up_to(16, "submission count")? {
        text.push_str(&format!(
            "\n    emitted id {}, token {}, predecessor {}, relationship {}, {}, expiry {}, {}",
            reader.number("id")?,
            reader.number("token")?,
            optional(reader.optional_number("mark", "predecessor")?),
            reader.up_to(3, "relationship")?,
            bundle(&reader.bundle()?),
            optional(reader.optional_number("mark", "expiry")?),
            fee_intent(&reader.fee_intent()?)
        ));
    }
    for _ in 0..reader.up_to(16, "failure count")? {
        text.push_str(&format!(
            "\n    failure at {}, retained {}, candidate {}, intent {}, stage {}",
            reader.number("index")?,
            optional(reader.optional_number("mark", "retained id")?),
            optional(reader.optional_number("mark", "candidate id")?),
            short(&reader.digest("intent")?),
            reader.up_to(3, "stage")?
        ));
    }
    text.push_str("\n   ");
    Ok(())
}
