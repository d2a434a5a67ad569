//! Why a call was refused.

use std::fmt;

/// Why a call was refused. The numbers are those of the library (`submission_book.h`).
///
/// A refused call leaves the book as it was, with one exception: [`NoToken`], which a
/// [`drain`](crate::SubmissionBook::drain) can meet halfway, keeps the book that it reached.
///
/// [`NoToken`]: Refusal::NoToken
#[derive(Debug, Clone, Copy, PartialEq, Eq, Hash)]
pub enum Refusal {
    /// 1: the bytes hold no sound book. A [`SubmissionBook`](crate::SubmissionBook) always holds
    /// one, so no method answers this.
    NoBook,
    /// 2: a coin list of over 800 coins or with a coin of over 73 bytes, over 800 coin ids, or
    /// over 64 submission ids.
    BadList,
    /// 3: a delivery or a joined bundle outside its ranges: over 4 spends, a coin of over 73
    /// bytes, or over 4 outputs of a spend.
    BadValue,
    /// 4: a token that this book has not issued.
    UnknownToken,
    /// 5: the attempt was already finalised.
    AlreadyFinalized,
    /// 6: the attempt is acknowledged before it was finalised.
    NotFinalized,
    /// 7: the retained submission contradicts itself (fee mark, fee bundle, acknowledged
    /// fingerprint). Only a book from an archive that no book wrote can hold such a submission.
    InvalidSubmission,
    /// 8: the submission's current bundle is not the one that the attempt is about. Only a book
    /// from an archive that no book wrote can hold such an attempt.
    StaleVariant,
    /// 9: a fee source for a submission that has no fee to be resolved.
    UnrequestedFee,
    /// 10: the call would take the book over a limit: 16 retained submissions, 16 queued
    /// deliveries, 64 retirements.
    Full,
    /// 11: a drain needed a token and none is left: the next token is 2^64 − 1.
    ///
    /// This drain is not undone. The tokens that it issued before, its removals, retirements,
    /// retained submissions and expiries stay, and the queue is empty; what it would have
    /// answered is lost. [`attempt`](crate::SubmissionBook::attempt) tells which tokens are live.
    NoToken,
    /// 12: a buffer is too short. This crate lends buffers for the longest answers, so no method
    /// answers this.
    ShortBuffer,
    /// 13: the bytes are no archive.
    NoArchive {
        /// Where the first broken item starts, from 0.
        place: u64,
    },
}

impl Refusal {
    /// The number of the refusal, 1 to 13.
    pub fn number(&self) -> u8 {
        match self {
            Refusal::NoBook => 1,
            Refusal::BadList => 2,
            Refusal::BadValue => 3,
            Refusal::UnknownToken => 4,
            Refusal::AlreadyFinalized => 5,
            Refusal::NotFinalized => 6,
            Refusal::InvalidSubmission => 7,
            Refusal::StaleVariant => 8,
            Refusal::UnrequestedFee => 9,
            Refusal::Full => 10,
            Refusal::NoToken => 11,
            Refusal::ShortBuffer => 12,
            Refusal::NoArchive { .. } => 13,
        }
    }

    /// The refusal of a number; `place` is that of a 13.
    pub(crate) fn of(number: u8, place: u64) -> Option<Refusal> {
        Some(match number {
            1 => Refusal::NoBook,
            2 => Refusal::BadList,
            3 => Refusal::BadValue,
            4 => Refusal::UnknownToken,
            5 => Refusal::AlreadyFinalized,
            6 => Refusal::NotFinalized,
            7 => Refusal::InvalidSubmission,
            8 => Refusal::StaleVariant,
            9 => Refusal::UnrequestedFee,
            10 => Refusal::Full,
            11 => Refusal::NoToken,
            12 => Refusal::ShortBuffer,
            13 => Refusal::NoArchive { place },
            _ => return None,
        })
    }

    fn text(&self) -> &'static str {
        match self {
            Refusal::NoBook => "the bytes hold no sound book",
            Refusal::BadList => {
                "a list is too long (800 coins, 800 coin ids, 64 submission ids) \
                 or has a coin of over 73 bytes"
            }
            Refusal::BadValue => {
                "a bundle has over 4 spends, a coin of over 73 bytes or a spend with over 4 outputs"
            }
            Refusal::UnknownToken => "the book has not issued this token",
            Refusal::AlreadyFinalized => "the attempt was already finalised",
            Refusal::NotFinalized => "the attempt was not finalised before it was acknowledged",
            Refusal::InvalidSubmission => "the retained submission contradicts itself",
            Refusal::StaleVariant => "the submission's bundle is not the one of this attempt",
            Refusal::UnrequestedFee => {
                "there is a fee source, but the submission has no fee to be resolved"
            }
            Refusal::Full => {
                "the book is full (16 retained submissions, 16 queued deliveries, 64 retirements)"
            }
            Refusal::NoToken => {
                "no token is left for the drain; what it did before stays, and the queue is empty"
            }
            Refusal::ShortBuffer => "a buffer is too short",
            Refusal::NoArchive { .. } => "the bytes are no archive",
        }
    }
}

impl fmt::Display for Refusal {
    fn fmt(&self, f: &mut fmt::Formatter<'_>) -> fmt::Result {
        write!(f, "refused {}: {}", self.number(), self.text())?;
        if let Refusal::NoArchive { place } = self {
            write!(f, ", the first broken item starts at byte {place}")?;
        }
        Ok(())
    }
}

impl std::error::Error for Refusal {}
