//! Whether the archive and the reference answer each case alike, and with yes: a refusal's price is no price.

use crate::cases::Case;
use crate::lent::{Lent, Work};

/// The first case that is not answered alike by both with yes, if there is one.
pub fn alike(cases: &[Case]) -> Result<(), String> {
    for case in cases {
        let (ours, reference) = (answered(case.function.ours, case), answered(case.function.reference, case));
        let own = case.function.record.map_or(0, |record| answered(record, case).0);
        if ours != reference || ours.0 & 0xFF != 0 || own != 0 {
            return Err(format!("{} {}: not answered alike with yes", case.name, case.size));
        }
    }
    Ok(())
}

/// The result, the image and the bytes written, of one call.
fn answered(work: Work, case: &Case) -> (u32, Vec<u8>, Vec<u8>) {
    let mut lent: Lent = case.lent.clone();
    let result = work(&mut lent);
    (result, lent.image.to_vec(), lent.out.to_vec())
}
