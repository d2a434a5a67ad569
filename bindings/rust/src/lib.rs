//! The submission book: a queue of deliveries for a wallet, the submissions that it retains, and
//! the attempts to deliver them, each with a token of its own.
//!
//! Every rule of the book is in the static library `libsubmission_book.a`, whose functions are proved
//! to do what the project's definitions say. This crate gives them Rust types: it writes arguments as the
//! library reads them and reads its answers. It is not proved itself.
//!
//! # A deposit
//!
//! A submission is queued, drained with a token, finalised with its fee, broadcast by the wallet,
//! and acknowledged.
//!
//! ```
//! use submission_book::*;
//!
//! let mut book = SubmissionBook::open(Token(5), SubmissionId(1));
//!
//! // The deposit: a coin of 250,000 is spent, and a coin of 250,000 is made.
//! let deposit = SpendBundle {
//!     spends: vec![CoinSpend {
//!         coin: CoinString::from_parts(&CoinID([1; 32]), &PuzzleHash([2; 32]), 250_000),
//!         digest: Hash32([3; 32]),
//!         run: Run::Outputs(vec![Output { puzzle_hash: PuzzleHash([4; 32]), amount: 250_000 }]),
//!     }],
//! };
//! let fee = SubmissionFeeIntent::NoFeeConfigured;
//! book.queue(&PendingDelivery::protocol(deposit.clone(), Some(Height(9_000)), fee))?;
//!
//! let drained = book.drain()?;
//! let token = drained.submissions[0].attempt_token;
//! assert_eq!(token, Token(5));
//!
//! let finalized = book.finalize_attempt(token, &SubmissionFeeSource::NotRequested)?;
//! let finalized = finalized.expect("the attempt is live");
//! assert!(finalized.should_broadcast);
//! assert_eq!(finalized.bundle, deposit);
//!
//! // Here the wallet broadcasts the bundle. Then:
//! assert_eq!(book.acknowledge_attempt(token)?, SubmissionAttemptStatus::Applied);
//! assert_eq!(book.active_ids(), [SubmissionId(1)]);
//! assert!(book.look(SubmissionId(1)).expect("it is retained").acknowledged);
//!
//! // What is to be kept is the archive.
//! assert_eq!(SubmissionBook::from_archive(&book.to_archive())?, book);
//! # Ok::<(), Refusal>(())
//! ```
//!
//! # Refusals
//!
//! A call that the rules turn away answers a [`Refusal`] and leaves the book as it was. The one
//! exception is [`Refusal::NoToken`]: that drain keeps the book that it reached.
//!
//! Values that are too large for the book (five spends, a coin of over 73 bytes, 65 ids) are
//! refused by the library as its rules say; none is cut short.
//!
//! # Coin ids
//!
//! A coin's id is the SHA-256 of its [`CoinString`] ([`CoinString::id`]), computed by the library as
//! [`sha256`] is.
//!
//! # Stack
//!
//! The library keeps whole books on the stack: a call takes at most 1,000,000 bytes of it
//! (SUBMISSION_BOOK_STACK_BYTES in `submission_book.h`). The main thread and the threads of Rust,
//! with 2 MiB, have enough. A thread with less is to be given more
//! ([`stack_size`](std::thread::Builder::stack_size)); else the program ends with a stack overflow.
//!
//! # Panics
//!
//! No value makes a method panic. [`SubmissionBook::open`], [`SubmissionBook::from_archive`],
//! [`CoinString::id`] and [`sha256`] panic if the linked library is of another version than this
//! crate, and any method if the library answers otherwise than its header says.

#![deny(unsafe_code, unsafe_op_in_unsafe_fn, missing_docs)]

mod archive;
mod book;
mod coin;
#[allow(unsafe_code)]
mod ffi;
mod reader;
mod refusal;
mod submission;
mod version;
mod wire;

pub use archive::{Archive, SubmissionBroadcastVariant, SubmittedTx};
pub use book::SubmissionBook;
pub use coin::{sha256, CoinID, CoinString, Hash32, PuzzleHash};
pub use refusal::Refusal;
pub use submission::*;
