//! The books and arguments that are timed. Fingerprints are the right ones, so that each call does its whole work.

use crate::case::Case;
use crate::oracle::archive;
use crate::oracle::model::*;
use crate::oracle::sha256::sha256;

/// How much a book holds.
#[derive(Clone, Copy)]
pub struct Size {
    pub name: &'static str,
    pub retained: usize,
    pub queued: usize,
    pub retirements: usize,
    pub spends: u8,
    pub outputs: u8,
    /// Submissions that are not the call's own have a set-aside attempt and a fee bundle too.
    pub whole: bool,
}

pub const EMPTY: Size =
    Size { name: "empty", retained: 0, queued: 0, retirements: 0, spends: 2, outputs: 2, whole: false };
pub const TYPICAL: Size =
    Size { name: "typical", retained: 4, queued: 2, retirements: 2, spends: 2, outputs: 2, whole: false };
pub const FULL: Size =
    Size { name: "full", retained: 16, queued: 16, retirements: 64, spends: 4, outputs: 4, whole: true };

/// What the submission that a call is about looks like.
#[derive(Clone, Copy, PartialEq)]
enum State {
    /// A live attempt, the fee unresolved.
    Live,
    /// A live attempt that was finalised, with its fee attached.
    Finalised,
    /// A set-aside attempt, the fee unresolved.
    Completed,
    /// Finalised, set aside and seen on the chain.
    Landed,
}

fn hash(parts: &[u64]) -> Digest {
    let bytes: Vec<u8> = parts.iter().flat_map(|part| part.to_be_bytes()).collect();
    sha256(&bytes)
}

/// A coin string: parent, puzzle hash, amount in the shortest two's complement.
fn coin_string(parent: &Digest, puzzle_hash: &Digest, amount: u64) -> Vec<u8> {
    let bytes = amount.to_be_bytes();
    let first = bytes.iter().position(|byte| *byte != 0).unwrap_or(8);
    let mut coin = [&parent[..], &puzzle_hash[..]].concat();
    if first < 8 && bytes[first] >= 0x80 {
        coin.push(0);
    }
    coin.extend_from_slice(&bytes[first..]);
    coin
}

/// A full book has the longest coin strings, of 73 bytes.
fn amount(size: Size, i: u64) -> u64 {
    if size.whole {
        u64::MAX - i
    } else {
        1_750_000_000_000 + i
    }
}

fn bundle(size: Size, mark: u64) -> Bundle {
    let spend = |s: u64| Spend {
        coin: coin_string(&hash(&[mark, s, 0]), &hash(&[mark, s, 1]), amount(size, s)),
        digest: hash(&[mark, s, 2]),
        run: Some(
            (0..u64::from(size.outputs))
                .map(|o| Output { puzzle_hash: hash(&[mark, s, 3, o]), amount: amount(size, 8 + o) })
                .collect(),
        ),
    };
    (0..u64::from(size.spends)).map(spend).collect()
}

/// The coins that a bundle creates.
fn created(bundle: &Bundle) -> Vec<Vec<u8>> {
    let of = |spend: &Spend| -> Vec<Vec<u8>> {
        let parent = sha256(&spend.coin);
        let outputs = spend.run.iter().flatten();
        outputs.map(|output| coin_string(&parent, &output.puzzle_hash, output.amount)).collect()
    };
    bundle.iter().flat_map(of).collect()
}

fn bundle_bytes(bundle: &Bundle) -> Vec<u8> {
    let mut out = Vec::new();
    archive::write_bundle(&mut out, bundle);
    out
}

fn intent(bundle: &Bundle, expiry: Option<u64>, fee_intent: &FeeIntent) -> Digest {
    let mut out = bundle_bytes(bundle);
    archive::write_optional_number(&mut out, expiry);
    archive::write_fee_intent(&mut out, fee_intent);
    sha256(&out)
}

fn fee_intent(mark: u64) -> FeeIntent {
    FeeIntent::Attach { target: hash(&[mark, 4]), amount: 20_000_000 + mark }
}

fn queued(size: Size, id: Option<u64>, mark: u64) -> Queued {
    Queued {
        id,
        bundle: bundle(size, mark),
        expiry: Some(900_000 + mark),
        fee_intent: fee_intent(mark),
        trigger: PROTOCOL,
        goal: ENSURE_BROADCAST,
    }
}

fn retained(size: Size, id: u64, state: State) -> Retained {
    let base = bundle(size, id);
    let fee = match state {
        State::Finalised | State::Landed => Some((bundle(size, 100 + id), 20_000_000 + id)),
        State::Live | State::Completed => None,
    };
    let current = sha256(&bundle_bytes(fee.as_ref().map_or(&base, |(bundle, _)| bundle)));
    let attempt = |token, finalised: bool| Attempt {
        token,
        goal: ENSURE_BROADCAST,
        drained: current,
        finalised: finalised.then_some(current),
    };
    let live = matches!(state, State::Live | State::Finalised);
    let (expiry, fee_intent) = (Some(900_000 + id), fee_intent(id));
    Retained {
        id,
        live: live.then(|| attempt(2 * id, state == State::Finalised)),
        set_aside: (size.whole || !live).then(|| attempt(2 * id + 1, true)),
        intent: intent(&base, expiry, &fee_intent),
        mark: if fee.is_some() { ATTACHED } else { UNRESOLVED },
        base,
        fee,
        fee_intent,
        acknowledged: None,
        chain: if state == State::Landed { LANDED } else { ACTIVE },
        expiry,
    }
}

/// The submissions are in this state: all of them, or (with `last`) the last, and the others finalised.
fn book(size: Size, state: State, last: bool) -> Book {
    let n = size.retained as u64;
    let mut book = Book::open(100, 100);
    book.retained =
        (1..=n).map(|id| retained(size, id, if last && id < n { State::Finalised } else { state })).collect();
    book.queue = (0..size.queued as u64).map(|i| queued(size, None, 50 + i)).collect();
    book.retirements = (0..size.retirements as u64).map(|i| 1000 + i).collect();
    book.rollback = Some(800_000);
    if size.whole {
        book.replayed = (1..=n).collect();
    }
    book
}

/// The retained submissions' own deliveries, as rebroadcast queues them.
fn own_deliveries(size: Size) -> Vec<Queued> {
    let own = |id| Queued { trigger: FRESH_CHAIN, ..queued(size, Some(id), id) };
    (1..=size.retained as u64).map(own).collect()
}

fn coin_list(coins: &[Vec<u8>]) -> Vec<u8> {
    let mut out = (coins.len() as u16).to_be_bytes().to_vec();
    for coin in coins {
        out.push(coin.len() as u8);
        out.extend_from_slice(coin);
    }
    out
}

fn all_created(book: &Book) -> Vec<Vec<u8>> {
    book.retained.iter().flat_map(|entry| created(&entry.base)).collect()
}

/// The last created coin of each submission, which a search meets last.
fn last_created(book: &Book) -> Vec<Vec<u8>> {
    book.retained.iter().filter_map(|entry| created(&entry.base).pop()).collect()
}

fn input_ids(book: &Book) -> Vec<u8> {
    let spends = book.retained.iter().flat_map(|entry| &entry.base);
    spends.flat_map(|spend| sha256(&spend.coin)).collect()
}

fn case(call: &'static str, book: &Book) -> Case {
    Case {
        call,
        book: archive::write(book),
        number: 0,
        kinds: [0, 0],
        bytes: Vec::new(),
        more: Vec::new(),
        ids: Vec::new(),
    }
}

fn live_token(size: Size) -> u64 {
    2 * size.retained as u64
}

fn delivery_bytes(entry: &Queued) -> Vec<u8> {
    let mut holder = Book::open(0, 0);
    holder.queue.push(entry.clone());
    let bytes = archive::write(&holder);
    // Behind the two numbers and the two counts; before the three empty counts.
    bytes[19..bytes.len() - 3].to_vec()
}

fn token_cases(size: Size) -> Vec<Case> {
    let token = live_token(size);
    let finalised = book(size, State::Finalised, true);
    let mut room = finalised.clone();
    room.retirements.truncate(63);
    let mut own = finalised.clone();
    own.queue = own_deliveries(size);
    let on_token = |call, book: &Book, number| Case { number, ..case(call, book) };
    let live = book(size, State::Live, true);
    let joined = bundle_bytes(&bundle(size, 70));
    vec![
        Case { bytes: joined, kinds: [1, 0], ..on_token("finalize_attempt", &live, token) },
        on_token("fee_intent_for_attempt", &live, token),
        on_token("acknowledge_attempt", &own, token),
        on_token("stop_attempt", &finalised, token),
        on_token("abandon_attempt", &room, token),
        on_token("relinquish_completed_attempt", &book(size, State::Completed, true), token + 1),
        on_token("attempt", &finalised, token),
    ]
}

fn queue_cases(size: Size) -> Vec<Case> {
    let ids: Vec<u64> = (1..=size.retained as u64).collect();
    let mut room = book(size, State::Finalised, true);
    room.queue.truncate(15);
    let mut quiet = book(size, State::Finalised, true);
    quiet.queue.clear();
    let mut unresolved = book(size, State::Completed, false);
    unresolved.queue.clear();
    let mut again = book(size, State::Finalised, false);
    again.queue = own_deliveries(size);
    let last = size.retained as u64;
    vec![
        Case { bytes: delivery_bytes(&queued(size, None, 70)), ..case("queue", &room) },
        Case { ids, kinds: [FRESH_CHAIN, 0], ..case("queue_rebroadcast_epoch", &quiet) },
        case("queue_fee_readiness", &unresolved),
        Case { number: last, kinds: [FRESH_CHAIN, 0], ..case("queue_retained_delivery", &room) },
        case("drain", &again),
    ]
}

fn chain_cases(size: Size) -> Vec<Case> {
    let ids: Vec<u64> = (1..=size.retained as u64).collect();
    let landed = book(size, State::Landed, false);
    let mut active = book(size, State::Finalised, false);
    active.queue = own_deliveries(size);
    active.retirements.truncate(48);
    let mut replay = landed.clone();
    replay.queue.clear();
    replay.replayed.clear();
    let some = coin_list(&last_created(&landed));
    let all = coin_list(&all_created(&landed));
    let inputs = input_ids(&landed);
    vec![
        Case { bytes: some.clone(), ..case("reconciliation_input_coins", &landed) },
        Case { bytes: some.clone(), ..case("reconcile_chain_terminality", &active) },
        Case { bytes: some, more: inputs, ..case("causally_rolled_back_ids", &landed) },
        Case { bytes: all, ids: ids.clone(), ..case("absent_outputs_for_ids", &landed) },
        Case { ids, ..case("collect_rollback_replay_ids", &replay) },
    ]
}

fn other_cases(size: Size) -> Vec<Case> {
    let ids: Vec<u64> = (1..=size.retained as u64).collect();
    let whole = book(size, State::Finalised, false);
    let mut room = whole.clone();
    room.queue = own_deliveries(size);
    room.retirements.truncate(48);
    let mut one_more = whole.clone();
    one_more.retirements.truncate(63);
    // acknowledged, so that a look takes the fingerprint of the current bundle
    let mut taken = whole.clone();
    for entry in &mut taken.retained {
        entry.acknowledged = entry.live.as_ref().map(|attempt| attempt.drained);
    }
    vec![
        Case { ids, ..case("retain_submitted", &room) },
        Case { number: 5000, ..case("emit_retirement", &one_more) },
        case("drain_retirements", &whole),
        case("active_ids", &whole),
        Case { number: size.retained as u64, ..case("look", &taken) },
        case("summary", &whole),
        Case { number: 700_000, ..case("begin_replay", &whole) },
        Case { number: 800_001, ..case("finish_replay_if_advanced", &whole) },
        case("replay_rollback_height", &whole),
        case("clear_local_artifacts", &room),
        case("restore_runtime", &whole),
        case("write", &whole),
        case("read", &whole),
    ]
}

/// So many intents that were never drained, in an otherwise empty book.
pub fn new_intents(count: usize, size: Size) -> Case {
    let mut book = Book::open(100, 100);
    book.queue = (0..count as u64).map(|i| queued(size, None, 50 + i)).collect();
    case("drain", &book)
}

/// Every call on a book of this size, in the order of the table.
pub fn cases(size: Size) -> Vec<Case> {
    let mut cases = vec![Case { number: 5, ..case("open", &Book::open(5, 1)) }];
    cases.extend(queue_cases(size));
    cases.push(new_intents(size.retained, size));
    cases.extend(token_cases(size));
    cases.extend(chain_cases(size));
    cases.extend(other_cases(size));
    cases
}
