//! A book, and what goes in and out of it, as plain data: the archive's content and nothing more.
//!
//! Kinds are held as the archive's bytes; their meaning stands beside each.

pub type Digest = [u8; 32];

pub const MOST_SPENDS: usize = 4;
pub const MOST_OUTPUTS: usize = 4;
pub const LONGEST_COIN: usize = 73;
pub const MOST_RETAINED: usize = 16;
pub const MOST_QUEUED: usize = 16;
pub const MOST_RETIREMENTS: usize = 64;
pub const MOST_REPLAYED: usize = 16;
pub const MOST_IDS: usize = 64;
pub const MOST_COINS: usize = 800;

#[derive(Clone, Debug, PartialEq, Eq)]
pub struct Output {
    pub puzzle_hash: Digest,
    pub amount: u64,
}

#[derive(Clone, Debug, PartialEq, Eq)]
pub struct Spend {
    pub coin: Vec<u8>,
    pub digest: Digest,
    /// None: unreadable.
    pub run: Option<Vec<Output>>,
}

pub type Bundle = Vec<Spend>;

pub fn readable(bundle: &Bundle) -> bool {
    bundle.iter().all(|spend| spend.run.is_some())
}

#[derive(Clone, Debug, PartialEq, Eq)]
pub enum FeeIntent {
    AlreadyPaid,
    NoFeeConfigured,
    Attach { target: Digest, amount: u64 },
}

/// Goals.
pub const ENSURE_BROADCAST: u8 = 0;
pub const FEE_UPGRADE: u8 = 1;

#[derive(Clone, Debug, PartialEq, Eq)]
pub struct Attempt {
    pub token: u64,
    pub goal: u8,
    pub drained: Digest,
    pub finalised: Option<Digest>,
}

/// Durable marks.
pub const UNRESOLVED: u8 = 0;
pub const NOT_REQUESTED: u8 = 1;
pub const ATTACHED: u8 = 2;

/// Chain states.
pub const ACTIVE: u8 = 0;
pub const INPUT_SPENT: u8 = 1;
pub const LANDED: u8 = 2;

#[derive(Clone, Debug, PartialEq, Eq)]
pub struct Retained {
    pub id: u64,
    pub live: Option<Attempt>,
    pub set_aside: Option<Attempt>,
    pub intent: Digest,
    pub base: Bundle,
    pub fee: Option<(Bundle, u64)>,
    pub mark: u8,
    pub fee_intent: FeeIntent,
    pub acknowledged: Option<Digest>,
    pub chain: u8,
    pub expiry: Option<u64>,
}

/// Triggers, in the order of `DeliveryTrigger`.
pub const PROTOCOL: u8 = 0;
pub const FRESH_CHAIN: u8 = 1;
pub const ROLLBACK: u8 = 2;
pub const PROVIDER_READINESS: u8 = 3;

#[derive(Clone, Debug, PartialEq, Eq)]
pub struct Queued {
    pub id: Option<u64>,
    pub bundle: Bundle,
    pub expiry: Option<u64>,
    pub fee_intent: FeeIntent,
    pub trigger: u8,
    pub goal: u8,
}

#[derive(Clone, Debug, PartialEq, Eq)]
pub struct Book {
    pub next_token: u64,
    pub next_id: u64,
    pub retained: Vec<Retained>,
    pub queue: Vec<Queued>,
    pub retirements: Vec<u64>,
    pub rollback: Option<u64>,
    pub replayed: Vec<u64>,
}

impl Book {
    pub fn open(next_token: u64, next_id: u64) -> Book {
        Book {
            next_token,
            next_id,
            retained: Vec::new(),
            queue: Vec::new(),
            retirements: Vec::new(),
            rollback: None,
            replayed: Vec::new(),
        }
    }

    /// Whether a list that a call can fill exceeds its limit.
    pub fn over_full(&self) -> bool {
        self.retained.len() > MOST_RETAINED
            || self.queue.len() > MOST_QUEUED
            || self.retirements.len() > MOST_RETIREMENTS
    }

    /// The two slots of each submission, in order.
    pub fn slots(&self) -> impl Iterator<Item = &Attempt> {
        self.retained.iter().flat_map(|entry| entry.live.iter().chain(entry.set_aside.iter()))
    }

    pub fn with_live(&self, token: u64) -> Option<&Retained> {
        self.retained
            .iter()
            .find(|entry| entry.live.as_ref().is_some_and(|live| live.token == token))
    }
}

/// The fee source of finalise.
#[derive(Clone, Debug, PartialEq, Eq)]
pub enum FeeSource {
    NotRequested,
    Joined(Bundle),
    JoinFailed,
    Failed,
}

#[derive(Clone, Debug, PartialEq, Eq)]
pub struct Emitted {
    pub id: u64,
    pub token: u64,
    pub predecessor: Option<u64>,
    /// 0 Initial, 1 Exact, 2 NewerFeeBearing, 3 Other.
    pub relationship: u8,
    pub bundle: Bundle,
    pub expiry: Option<u64>,
    pub fee_intent: FeeIntent,
}

#[derive(Clone, Debug, PartialEq, Eq)]
pub struct Failure {
    pub index: u64,
    pub retained: Option<u64>,
    pub candidate: Option<u64>,
    pub intent: Digest,
    /// 0 Fingerprint, 1 RetainedState, 2 ExpectedOutputs, 3 SubmissionId.
    pub stage: u8,
    /// The Rust's words; compared with nothing, shown in the coverage table.
    pub message: String,
}

#[derive(Clone, Debug, PartialEq, Eq)]
pub struct Drained {
    pub submissions: Vec<Emitted>,
    pub failures: Vec<Failure>,
}

#[derive(Clone, Debug, PartialEq, Eq)]
pub struct Finalised {
    pub bundle: Bundle,
    pub applied_fee: u64,
    pub warning: bool,
    /// 0 Attached, 1 Unused, 2 NotRequested.
    pub disposition: u8,
    pub fingerprint: Digest,
    pub should_broadcast: bool,
}

/// What a look shows of a retained submission.
#[derive(Clone, Debug, PartialEq, Eq)]
pub struct Look {
    pub chain: u8,
    /// Whether the current variant is acknowledged.
    pub acknowledged: bool,
    pub mark: u8,
    pub applied_fee: u64,
    pub expiry: Option<u64>,
    /// The tokens of the two slots.
    pub live: Option<u64>,
    pub set_aside: Option<u64>,
}

/// A book in numbers.
#[derive(Clone, Debug, PartialEq, Eq)]
pub struct Summary {
    pub next_token: u64,
    pub next_id: u64,
    /// How many are in the book's lists.
    pub retained: u64,
    pub queued: u64,
    pub retirements: u64,
    pub replayed: u64,
    pub rollback: Option<u64>,
}
