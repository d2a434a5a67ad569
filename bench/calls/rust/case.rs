//! One call on one book, as both sides get it.

/// The arguments stand in the C boundary's forms; a call uses those that it has.
#[derive(Clone)]
pub struct Case {
    pub call: &'static str,
    /// The archive of the book.
    pub book: Vec<u8>,
    /// Token, id or height.
    pub number: u64,
    /// Trigger and goal; the fee source; the reorg flag.
    pub kinds: [u8; 2],
    /// A delivery, a joined bundle, or a coin list.
    pub bytes: Vec<u8>,
    /// Coin ids, or a second coin list.
    pub more: Vec<u8>,
    pub ids: Vec<u64>,
}
