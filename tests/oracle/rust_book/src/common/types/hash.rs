//! Stand-in for `Hash` and `Sha256Input`, whose upstream files are not at hand.

use crate::sha256::sha256;

#[derive(Default, Clone, Debug, PartialEq, Eq, Hash, PartialOrd, Ord)]
pub struct Hash(pub [u8; 32]);

impl Hash {
    /// The SHA-256 of the bytes.
    pub fn new(bytes: &[u8]) -> Hash {
        Hash(sha256(bytes))
    }

    pub fn from_bytes(bytes: [u8; 32]) -> Hash {
        Hash(bytes)
    }

    pub fn from_slice(bytes: &[u8]) -> Result<Hash, super::Error> {
        bytes
            .try_into()
            .map(Hash)
            .map_err(|_| super::Error::StrErr("a hash has 32 bytes".to_string()))
    }

    pub fn bytes(&self) -> &[u8; 32] {
        &self.0
    }
}

pub enum Sha256Input<'a> {
    Bytes(&'a [u8]),
}

impl Sha256Input<'_> {
    pub fn hash(&self) -> Hash {
        let Sha256Input::Bytes(bytes) = self;
        Hash::new(bytes)
    }
}
