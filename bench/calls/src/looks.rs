//! The two looks at a submission and at the whole book. They stand apart from `port.rs`, since another build of the library may be without them.

use crate::case::Case;
use crate::port::Call;

extern "C" {
    fn submission_book_look(book: *const u8, length: usize, id: u64, answer: *mut u8, answer_len: usize) -> u8;
    fn submission_book_summary(book: *const u8, length: usize, answer: *mut u8, answer_len: usize) -> u8;
}

/// The header's `SUBMISSION_BOOK_LOOK_BYTES` and `SUBMISSION_BOOK_SUMMARY_BYTES`.
const LOOK_BYTES: usize = 39;
const SUMMARY_BYTES: usize = 57;

/// None for any other call. The upstream Rust has neither.
pub fn call(case: &Case) -> Option<Call> {
    let id = case.number;
    // The functions keep no pointer that they are lent.
    Some(match case.call {
        "look" => {
            let mut answer = [0u8; LOOK_BYTES];
            Box::new(move |book: &mut [u8]| unsafe {
                submission_book_look(book.as_ptr(), book.len(), id, answer.as_mut_ptr(), answer.len())
            })
        }
        "summary" => {
            let mut answer = [0u8; SUMMARY_BYTES];
            Box::new(move |book: &mut [u8]| unsafe {
                submission_book_summary(book.as_ptr(), book.len(), answer.as_mut_ptr(), answer.len())
            })
        }
        _ => return None,
    })
}
