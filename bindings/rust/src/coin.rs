//! Hashes, and coins as byte strings.

use std::fmt;

use crate::ffi;
use crate::refusal::Refusal;
use crate::version::{expect_version, wrong_library};

/// The SHA-256 (FIPS 180-4) of any bytes, by the library's proved code.
///
/// ```
/// use submission_book::sha256;
///
/// let digest = sha256(b"abc").to_string();
/// assert_eq!(digest, "ba7816bf8f01cfea414140de5dae2223b00361a396177a9cb410ff61f20015ad");
/// ```
pub fn sha256(message: &[u8]) -> Hash32 {
    expect_version();
    let mut digest = [0; ffi::DIGEST_BYTES];
    match ffi::submission_book_sha256(message, &mut digest) {
        0 => Hash32(digest),
        _ => wrong_library(),
    }
}

/// Writes the bytes in hexadecimal.
fn hex(bytes: &[u8], f: &mut fmt::Formatter<'_>) -> fmt::Result {
    bytes.iter().try_for_each(|byte| write!(f, "{byte:02x}"))
}

macro_rules! hash_type {
    ($(#[$doc:meta])* $name:ident) => {
        $(#[$doc])*
        #[derive(Clone, Copy, PartialEq, Eq, PartialOrd, Ord, Hash)]
        pub struct $name(pub [u8; 32]);

        impl fmt::Display for $name {
            fn fmt(&self, f: &mut fmt::Formatter<'_>) -> fmt::Result {
                hex(&self.0, f)
            }
        }

        impl fmt::Debug for $name {
            fn fmt(&self, f: &mut fmt::Formatter<'_>) -> fmt::Result {
                write!(f, "{}({self})", stringify!($name))
            }
        }
    };
}

hash_type! {
    /// A SHA-256: a fingerprint, or the digest of a spend.
    Hash32
}

hash_type! {
    /// A coin's id, the SHA-256 of its coin string.
    CoinID
}

hash_type! {
    /// The hash of the puzzle that locks a coin.
    PuzzleHash
}

/// A coin as bytes: parent coin id, puzzle hash, amount.
///
/// Coin strings are ordered by their bytes. Any bytes can be held here; the book takes coins of at
/// most 73 bytes, which every coin of [`from_parts`](CoinString::from_parts) has.
#[derive(Clone, Default, PartialEq, Eq, PartialOrd, Ord, Hash)]
pub struct CoinString(Vec<u8>);

impl CoinString {
    /// The coin with this parent, puzzle hash and amount: 64 to 73 bytes.
    ///
    /// The amount is the shortest big-endian two's complement of the number; 0 has no byte.
    ///
    /// ```
    /// use submission_book::{CoinID, CoinString, PuzzleHash};
    ///
    /// let coin = CoinString::from_parts(&CoinID([1; 32]), &PuzzleHash([2; 32]), 128);
    /// assert_eq!(coin.to_bytes()[64..], [0x00, 0x80]);
    /// assert_eq!(coin.amount(), Some(128));
    /// ```
    pub fn from_parts(parent: &CoinID, puzzle_hash: &PuzzleHash, amount: u64) -> CoinString {
        // A ninth byte in front keeps the sign: the number is never negative.
        let mut atom = [0; 9];
        atom[1..].copy_from_slice(&amount.to_be_bytes());
        let mut start = 0;
        while start < 8 && atom[start] == 0 && atom[start + 1] < 0x80 {
            start += 1;
        }
        if amount == 0 {
            start = 9;
        }
        CoinString([&parent.0, &puzzle_hash.0, &atom[start..]].concat())
    }

    /// The coin string with these bytes, whatever they are.
    pub fn from_bytes(bytes: &[u8]) -> CoinString {
        CoinString(bytes.to_vec())
    }

    /// The bytes.
    pub fn to_bytes(&self) -> &[u8] {
        &self.0
    }

    /// The coin's id.
    ///
    /// # Errors
    ///
    /// [`BadValue`](Refusal::BadValue) for over 73 bytes, which no coin has.
    ///
    /// ```
    /// use submission_book::{sha256, CoinID, CoinString, PuzzleHash, Refusal};
    ///
    /// let coin = CoinString::from_parts(&CoinID([1; 32]), &PuzzleHash([2; 32]), 128);
    /// assert_eq!(coin.id(), Ok(CoinID(sha256(coin.to_bytes()).0)));
    /// assert_eq!(CoinString::from_bytes(&[0; 74]).id(), Err(Refusal::BadValue));
    /// ```
    pub fn id(&self) -> Result<CoinID, Refusal> {
        expect_version();
        let mut id = [0; ffi::COIN_ID_BYTES];
        match ffi::submission_book_coin_id(&self.0, &mut id) {
            0 => Ok(CoinID(id)),
            number => Err(Refusal::of(number, 0).unwrap_or_else(|| wrong_library())),
        }
    }

    /// Parent, puzzle hash and amount; `None` where the bytes are too short, or the amount is over
    /// 2^64 − 1. Leading zero bytes of the amount are skipped, as the Rust book does.
    pub fn to_parts(&self) -> Option<(CoinID, PuzzleHash, u64)> {
        let parent = self.0.get(..32)?.try_into().ok()?;
        let puzzle_hash = self.0.get(32..64)?.try_into().ok()?;
        let amount = self.0[64..]
            .iter()
            .try_fold(0u64, |n, byte| Some(n.checked_mul(256)? + u64::from(*byte)))?;
        Some((CoinID(parent), PuzzleHash(puzzle_hash), amount))
    }

    /// The amount, where there are [parts](CoinString::to_parts).
    pub fn amount(&self) -> Option<u64> {
        self.to_parts().map(|(_, _, amount)| amount)
    }
}

impl fmt::Display for CoinString {
    fn fmt(&self, f: &mut fmt::Formatter<'_>) -> fmt::Result {
        hex(&self.0, f)
    }
}

impl fmt::Debug for CoinString {
    fn fmt(&self, f: &mut fmt::Formatter<'_>) -> fmt::Result {
        write!(f, "CoinString({self})")
    }
}
