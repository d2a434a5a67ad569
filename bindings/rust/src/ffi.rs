//! The functions of the library behind safe signatures. This is the only module with `unsafe`.
//!
//! The library asks the same of every caller (`submission_book.h`): a pointer and the count behind
//! it are a slice that can be read, and where the pointer is `*mut` written, for the time of the
//! call; a slice that is written overlaps no other. The library keeps no pointer, has no state of
//! its own, always returns, does not unwind, and stays within the counts whatever the bytes are:
//! bytes that hold no book are refused 1. It touches every page of its stack in order, so a stack
//! that is too small ends the program at the guard page.

/// Bytes that hold every book: the length of its archive (8), then the archive.
pub const BOOK_BYTES: usize = 57_702;
/// The longest archive.
pub const ARCHIVE_BYTES: usize = 57_694;
/// Enough for every answer of a drain.
pub const DRAIN_BYTES: usize = 19_330;
/// The longest finalised submission, with its mark.
pub const FINALIZED_BYTES: usize = 1_117;
/// The longest fee intent, with its mark.
pub const FEE_INTENT_BYTES: usize = 42;
/// The longest attempt, with its mark.
pub const ATTEMPT_BYTES: usize = 75;
/// The longest list of ids.
pub const IDS_BYTES: usize = 513;
/// A height, with its mark.
pub const HEIGHT_BYTES: usize = 9;
/// A status.
pub const STATUS_BYTES: usize = 1;
/// A flag.
pub const FLAG_BYTES: usize = 1;
/// The longest list of input coins.
pub const INPUT_COINS_BYTES: usize = 4_738;
/// The longest list of absent outputs.
pub const ABSENT_OUTPUTS_BYTES: usize = 18_946;
/// The longest look at a submission, with its mark.
pub const LOOK_BYTES: usize = 39;
/// The longest summary.
pub const SUMMARY_BYTES: usize = 57;

/// A SHA-256.
pub const DIGEST_BYTES: usize = 32;
/// A coin id.
pub const COIN_ID_BYTES: usize = 32;

/// SUBMISSION_BOOK_VERSION of the library that is linked.
pub fn version() -> u32 {
    extern "C" {
        fn submission_book_version() -> u32;
    }
    // SAFETY: it takes nothing and returns a number.
    unsafe { submission_book_version() }
}

/// For each function as the library's source writes it: the C declaration, in which a slice is a
/// pointer and a count and a reference a pointer, and a safe function of the same name.
///
/// The arguments are taken one by one. The brackets gather what is done: the parameters of the
/// safe function, those of the C function, and what the first hands to the second.
macro_rules! functions {
    ($(fn $name:ident($($params:tt)*);)*) => {
        $(functions! { @ $name [] [] [] $($params)*, })*
    };
    (@ $name:ident [$($safe:tt)*] [$($c:tt)*] [$($given:tt)*]) => {
        pub fn $name($($safe)*) -> u8 {
            extern "C" {
                fn $name($($c)*) -> u8;
            }
            // SAFETY: each pointer with its count is one whole slice, and each other pointer one
            // reference; both live until the call is over. Where the library writes they are
            // `&mut`, so they overlap nothing. The pointer of an empty slice is aligned and not
            // null. The types are those of the header.
            unsafe { $name($($given)*) }
        }
    };
    (@ $name:ident [$($safe:tt)*] [$($c:tt)*] [$($given:tt)*] $arg:ident: &mut [$t:ty], $($rest:tt)*) => {
        functions! { @ $name
            [$($safe)* $arg: &mut [$t],]
            [$($c)* $arg: *mut $t, _: usize,]
            [$($given)* $arg.as_mut_ptr(), $arg.len(),]
            $($rest)*
        }
    };
    (@ $name:ident [$($safe:tt)*] [$($c:tt)*] [$($given:tt)*] $arg:ident: &[$t:ty], $($rest:tt)*) => {
        functions! { @ $name
            [$($safe)* $arg: &[$t],]
            [$($c)* $arg: *const $t, _: usize,]
            [$($given)* $arg.as_ptr(), $arg.len(),]
            $($rest)*
        }
    };
    (@ $name:ident [$($safe:tt)*] [$($c:tt)*] [$($given:tt)*] $arg:ident: &mut $t:ty, $($rest:tt)*) => {
        functions! { @ $name
            [$($safe)* $arg: &mut $t,]
            [$($c)* $arg: *mut $t,]
            [$($given)* $arg,]
            $($rest)*
        }
    };
    (@ $name:ident [$($safe:tt)*] [$($c:tt)*] [$($given:tt)*] $arg:ident: $t:ty, $($rest:tt)*) => {
        functions! { @ $name
            [$($safe)* $arg: $t,]
            [$($c)* $arg: $t,]
            [$($given)* $arg,]
            $($rest)*
        }
    };
}

functions! {
    fn submission_book_open(book: &mut [u8], next_token: u64, next_id: u64);
    fn submission_book_read(book: &mut [u8], archive: &[u8], place: &mut u64);
    fn submission_book_write(book: &[u8], archive: &mut [u8], length: &mut u64);
    fn submission_book_summary(book: &[u8], answer: &mut [u8]);

    fn submission_book_queue(book: &mut [u8], delivery: &[u8]);
    fn submission_book_queue_rebroadcast_epoch(book: &mut [u8], ids: &[u64], trigger: u8);
    fn submission_book_queue_fee_readiness(book: &mut [u8]);
    fn submission_book_queue_retained_delivery(book: &mut [u8], id: u64, trigger: u8, goal: u8);
    fn submission_book_drain(book: &mut [u8], answer: &mut [u8]);

    fn submission_book_finalize_attempt(book: &mut [u8], token: u64, source: u8, joined: &[u8], answer: &mut [u8]);
    fn submission_book_fee_intent_for_attempt(book: &[u8], token: u64, answer: &mut [u8]);
    fn submission_book_acknowledge_attempt(book: &mut [u8], token: u64, answer: &mut [u8]);
    fn submission_book_stop_attempt(book: &mut [u8], token: u64, answer: &mut [u8]);
    fn submission_book_abandon_attempt(book: &mut [u8], token: u64, answer: &mut [u8]);
    fn submission_book_relinquish_completed_attempt(book: &[u8], token: u64, answer: &mut [u8]);
    fn submission_book_attempt(book: &[u8], token: u64, answer: &mut [u8]);

    fn submission_book_retain_submitted(book: &mut [u8], removed: &[u64], answer: &mut [u8]);
    fn submission_book_active_ids(book: &[u8], answer: &mut [u8]);
    fn submission_book_look(book: &[u8], id: u64, answer: &mut [u8]);
    fn submission_book_drain_retirements(book: &mut [u8], answer: &mut [u8]);
    fn submission_book_emit_retirement(book: &mut [u8], id: u64);
    fn submission_book_clear_local_artifacts(book: &mut [u8]);
    fn submission_book_restore_runtime(book: &mut [u8]);

    fn submission_book_begin_replay(book: &mut [u8], height: u64, answer: &mut [u8]);
    fn submission_book_finish_replay_if_advanced(book: &mut [u8], height: u64);
    fn submission_book_replay_rollback_height(book: &[u8], answer: &mut [u8]);
    fn submission_book_collect_rollback_replay_ids(book: &mut [u8], ids: &[u64]);

    fn submission_book_reconcile_chain_terminality(book: &mut [u8], observed: &[u8], spent: &[u8], reorg: u8, rolled_back: &[u64]);
    fn submission_book_causally_rolled_back_ids(book: &[u8], absent: &[u8], inputs: &[u8], answer: &mut [u8]);
    fn submission_book_reconciliation_input_coins(book: &[u8], outputs: &[u8], answer: &mut [u8], count: &mut u64);
    fn submission_book_absent_outputs_for_ids(book: &[u8], ids: &[u64], absent: &[u8], answer: &mut [u8], count: &mut u64);

    fn submission_book_sha256(message: &[u8], digest: &mut [u8]);
    fn submission_book_coin_id(coin: &[u8], id: &mut [u8]);
}
