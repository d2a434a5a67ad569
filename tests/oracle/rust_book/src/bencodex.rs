//! Stand-in for `bencodex::to_vec`: the archive form of a bundle's spends, or of spends, optional
//! expiry (a count, then 8 bytes) and fee intent.

use std::convert::Infallible;

use crate::archive;
use crate::common::types::CoinSpend;
use crate::session_phases::effects::SubmissionFeeIntent;
use crate::transaction_manager::plain;

pub trait ArchiveForm {
    fn write(&self, out: &mut Vec<u8>);
}

pub fn to_vec(value: &impl ArchiveForm) -> Result<Vec<u8>, Infallible> {
    let mut out = Vec::new();
    value.write(&mut out);
    Ok(out)
}

impl ArchiveForm for Vec<CoinSpend> {
    fn write(&self, out: &mut Vec<u8>) {
        archive::write_bundle(out, &plain::spends(self));
    }
}

impl ArchiveForm for (&Vec<CoinSpend>, Option<u64>, &SubmissionFeeIntent) {
    fn write(&self, out: &mut Vec<u8>) {
        self.0.write(out);
        archive::write_optional_number(out, self.1);
        archive::write_fee_intent(out, &plain::fee_intent(self.2));
    }
}
