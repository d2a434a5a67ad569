//! The port through its C boundary: the book in lent bytes.

use crate::case::Case;

/// `SUBMISSION_BOOK_BYTES` of the header.
pub const BOOK_BYTES: usize = 57_702;

macro_rules! boundary {
    ($($name:ident($($argument:ident: $type:ty),*);)*) => {
        extern "C" { $(#[link_name = symbol!($name)] fn $name(book: *mut u8, length: usize, $($argument: $type),*) -> u8;)* }
    };
}

boundary! {
    submission_book_open(next_token: u64, next_id: u64);
    submission_book_read(archive: *const u8, archive_len: usize, place: *mut u64);
    submission_book_write(archive: *mut u8, archive_len: usize, written: *mut u64);
    submission_book_queue(delivery: *const u8, delivery_len: usize);
    submission_book_queue_rebroadcast_epoch(ids: *const u64, ids_len: usize, trigger: u8);
    submission_book_queue_fee_readiness();
    submission_book_queue_retained_delivery(id: u64, trigger: u8, goal: u8);
    submission_book_drain(answer: *mut u8, answer_len: usize);
    submission_book_finalize_attempt(token: u64, source: u8, joined: *const u8, joined_len: usize, answer: *mut u8, answer_len: usize);
    submission_book_fee_intent_for_attempt(token: u64, answer: *mut u8, answer_len: usize);
    submission_book_acknowledge_attempt(token: u64, answer: *mut u8, answer_len: usize);
    submission_book_stop_attempt(token: u64, answer: *mut u8, answer_len: usize);
    submission_book_abandon_attempt(token: u64, answer: *mut u8, answer_len: usize);
    submission_book_relinquish_completed_attempt(token: u64, answer: *mut u8, answer_len: usize);
    submission_book_attempt(token: u64, answer: *mut u8, answer_len: usize);
    submission_book_retain_submitted(removed: *const u64, removed_len: usize, answer: *mut u8, answer_len: usize);
    submission_book_active_ids(answer: *mut u8, answer_len: usize);
    submission_book_drain_retirements(answer: *mut u8, answer_len: usize);
    submission_book_emit_retirement(id: u64);
    submission_book_clear_local_artifacts();
    submission_book_restore_runtime();
    submission_book_begin_replay(height: u64, answer: *mut u8, answer_len: usize);
    submission_book_finish_replay_if_advanced(height: u64);
    submission_book_replay_rollback_height(answer: *mut u8, answer_len: usize);
    submission_book_collect_rollback_replay_ids(ids: *const u64, ids_len: usize);
    submission_book_reconcile_chain_terminality(observed: *const u8, observed_len: usize, spent: *const u8, spent_len: usize, reorg: u8, rolled_back: *const u64, rolled_back_len: usize);
    submission_book_causally_rolled_back_ids(absent: *const u8, absent_len: usize, inputs: *const u8, inputs_len: usize, answer: *mut u8, answer_len: usize);
    submission_book_reconciliation_input_coins(outputs: *const u8, outputs_len: usize, answer: *mut u8, answer_len: usize, count: *mut u64);
    submission_book_absent_outputs_for_ids(ids: *const u64, ids_len: usize, absent: *const u8, absent_len: usize, answer: *mut u8, answer_len: usize, count: *mut u64);
}

/// The lent bytes of a book: its archive behind its length.
pub fn lent(archive: &[u8]) -> Vec<u8> {
    let mut book = (archive.len() as u64).to_be_bytes().to_vec();
    book.extend_from_slice(archive);
    book.resize(BOOK_BYTES, 0xa5);
    book
}

/// The archive in lent bytes.
pub fn archive(book: &[u8]) -> &[u8] {
    let length = u64::from_be_bytes(book[..8].try_into().expect("8 bytes"));
    &book[8..8 + length as usize]
}

/// A call with its arguments and its answer's buffer; it gives the refusal's number, or 0.
pub type Call = Box<dyn FnMut(&mut [u8]) -> u8>;

// The functions keep no pointer that they are lent.
macro_rules! lend {
    ($function:ident($($argument:expr),*)) => {
        Box::new(move |book: &mut [u8]| unsafe {
            $function(book.as_mut_ptr(), book.len(), $($argument),*)
        }) as Call
    };
}

fn by_token(case: Case, mut answer: Vec<u8>) -> Option<Call> {
    let Case { call, number, kinds, bytes, .. } = case;
    let source = kinds[0];
    Some(match call {
        "finalize_attempt" => lend!(submission_book_finalize_attempt(
            number,
            source,
            bytes.as_ptr(),
            bytes.len(),
            answer.as_mut_ptr(),
            answer.len()
        )),
        "fee_intent_for_attempt" => {
            lend!(submission_book_fee_intent_for_attempt(number, answer.as_mut_ptr(), answer.len()))
        }
        "acknowledge_attempt" => {
            lend!(submission_book_acknowledge_attempt(number, answer.as_mut_ptr(), answer.len()))
        }
        "stop_attempt" => {
            lend!(submission_book_stop_attempt(number, answer.as_mut_ptr(), answer.len()))
        }
        "abandon_attempt" => {
            lend!(submission_book_abandon_attempt(number, answer.as_mut_ptr(), answer.len()))
        }
        "relinquish_completed_attempt" => {
            lend!(submission_book_relinquish_completed_attempt(number, answer.as_mut_ptr(), answer.len()))
        }
        "attempt" => lend!(submission_book_attempt(number, answer.as_mut_ptr(), answer.len())),
        _ => return None,
    })
}

fn of_queue(case: Case, mut answer: Vec<u8>) -> Option<Call> {
    let Case { call, number, kinds: [trigger, goal], bytes, ids, .. } = case;
    Some(match call {
        "queue" => lend!(submission_book_queue(bytes.as_ptr(), bytes.len())),
        "queue_rebroadcast_epoch" => {
            lend!(submission_book_queue_rebroadcast_epoch(ids.as_ptr(), ids.len(), trigger))
        }
        "queue_fee_readiness" => lend!(submission_book_queue_fee_readiness()),
        "queue_retained_delivery" => {
            lend!(submission_book_queue_retained_delivery(number, trigger, goal))
        }
        "drain" => lend!(submission_book_drain(answer.as_mut_ptr(), answer.len())),
        _ => return None,
    })
}

fn of_chain(case: Case, mut answer: Vec<u8>) -> Option<Call> {
    let Case { call, kinds, bytes, more, ids, .. } = case;
    let (reorg, mut count) = (kinds[0], 0u64);
    Some(match call {
        "reconciliation_input_coins" => lend!(submission_book_reconciliation_input_coins(
            bytes.as_ptr(),
            bytes.len(),
            answer.as_mut_ptr(),
            answer.len(),
            &mut count
        )),
        "reconcile_chain_terminality" => lend!(submission_book_reconcile_chain_terminality(
            bytes.as_ptr(),
            bytes.len(),
            more.as_ptr(),
            more.len(),
            reorg,
            ids.as_ptr(),
            ids.len()
        )),
        "causally_rolled_back_ids" => lend!(submission_book_causally_rolled_back_ids(
            bytes.as_ptr(),
            bytes.len(),
            more.as_ptr(),
            more.len(),
            answer.as_mut_ptr(),
            answer.len()
        )),
        "absent_outputs_for_ids" => lend!(submission_book_absent_outputs_for_ids(
            ids.as_ptr(),
            ids.len(),
            bytes.as_ptr(),
            bytes.len(),
            answer.as_mut_ptr(),
            answer.len(),
            &mut count
        )),
        _ => return None,
    })
}

fn of_epoch(case: Case, mut answer: Vec<u8>) -> Option<Call> {
    let Case { call, number: height, ids, .. } = case;
    Some(match call {
        "collect_rollback_replay_ids" => {
            lend!(submission_book_collect_rollback_replay_ids(ids.as_ptr(), ids.len()))
        }
        "begin_replay" => {
            lend!(submission_book_begin_replay(height, answer.as_mut_ptr(), answer.len()))
        }
        "finish_replay_if_advanced" => lend!(submission_book_finish_replay_if_advanced(height)),
        "replay_rollback_height" => {
            lend!(submission_book_replay_rollback_height(answer.as_mut_ptr(), answer.len()))
        }
        _ => return None,
    })
}

fn others(case: Case, mut answer: Vec<u8>) -> Call {
    let Case { call, book: archive, number, ids, .. } = case;
    let mut count = 0u64;
    match call {
        "open" => lend!(submission_book_open(number, 1)),
        "read" => lend!(submission_book_read(archive.as_ptr(), archive.len(), &mut count)),
        "write" => lend!(submission_book_write(answer.as_mut_ptr(), answer.len(), &mut count)),
        "retain_submitted" => {
            lend!(submission_book_retain_submitted(ids.as_ptr(), ids.len(), answer.as_mut_ptr(), answer.len()))
        }
        "emit_retirement" => lend!(submission_book_emit_retirement(number)),
        "drain_retirements" => {
            lend!(submission_book_drain_retirements(answer.as_mut_ptr(), answer.len()))
        }
        "active_ids" => lend!(submission_book_active_ids(answer.as_mut_ptr(), answer.len())),
        "clear_local_artifacts" => lend!(submission_book_clear_local_artifacts()),
        "restore_runtime" => lend!(submission_book_restore_runtime()),
        other => panic!("no call {other}"),
    }
}

/// Reads the book and writes it back unchanged.
pub fn idle() -> Call {
    lend!(submission_book_finish_replay_if_advanced(0))
}

pub fn call(case: &Case) -> Call {
    let answer = || vec![0u8; BOOK_BYTES];
    by_token(case.clone(), answer())
        .or_else(|| of_queue(case.clone(), answer()))
        .or_else(|| of_chain(case.clone(), answer()))
        .or_else(|| of_epoch(case.clone(), answer()))
        .unwrap_or_else(|| others(case.clone(), answer()))
}
