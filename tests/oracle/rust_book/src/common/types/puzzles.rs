//! Stand-ins for puzzles, solutions and signatures: one digest for all three, and the run that
//! replaces running the puzzle. The join of a fee bundle is handed in.

use super::{AllocEncoder, Amount, CoinID, Error, Hash, PuzzleHash, SpendBundle};

/// What a spend's puzzle and solution give: nothing readable, or these created coins.
#[derive(Clone, Debug, PartialEq, Eq)]
pub struct Program {
    pub digest: [u8; 32],
    pub run: Option<Vec<(PuzzleHash, Amount)>>,
}

#[derive(Clone, Debug, PartialEq, Eq)]
pub struct Puzzle(pub Program);

impl Puzzle {
    pub fn to_program(&self) -> Program {
        self.0.clone()
    }
}

/// The solution. It holds nothing: the digest and the run stand in the puzzle.
#[derive(Clone, Debug, PartialEq, Eq)]
pub struct ProgramRef;

impl ProgramRef {
    pub fn p(&self) -> ProgramRef {
        ProgramRef
    }
}

#[derive(Clone, Debug, PartialEq, Eq)]
pub struct Aggsig;

#[derive(Debug, Clone)]
pub enum CoinCondition {
    CreateCoin(PuzzleHash, Amount),
    ReserveFee(Amount),
}

impl CoinCondition {
    /// A condition that creates nothing stands before the created coins, so that the upstream
    /// filter has something to leave out.
    pub fn from_puzzle_and_solution(
        _allocator: &mut AllocEncoder,
        puzzle: &Program,
        _solution: &ProgramRef,
    ) -> Result<Vec<CoinCondition>, Error> {
        let Some(outputs) = &puzzle.run else {
            return Err(Error::StrErr("unreadable run".to_string()));
        };
        let mut conditions = vec![CoinCondition::ReserveFee(Amount::new(0))];
        for (puzzle_hash, amount) in outputs {
            conditions.push(CoinCondition::CreateCoin(puzzle_hash.clone(), amount.clone()));
        }
        Ok(conditions)
    }
}

/// The name of a fee bundle whose join is to fail. Names are left out everywhere else.
pub const JOIN_FAILED: &str = "the join failed";

/// The bundle handed in as the fee bundle is the joined one already, unless it bears the name
/// [`JOIN_FAILED`].
pub fn aggregate_wallet_fee_bundle(
    _protocol_bundle: SpendBundle,
    fee_bundle: SpendBundle,
    _fee: u64,
    _protocol_coin_id: &CoinID,
    _agg_sig_me_additional_data: &Hash,
    _height: u64,
) -> Result<SpendBundle, Error> {
    if fee_bundle.name.as_deref() == Some(JOIN_FAILED) {
        return Err(Error::StrErr(JOIN_FAILED.to_string()));
    }
    Ok(fee_bundle)
}
