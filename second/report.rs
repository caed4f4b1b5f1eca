//! The report on a stored recording, written from the papers (document 01, "Reception class and report") in the plainest way.
use crate::recording::{self, Refusal};

pub const LIMIT: usize = 65_536;

/// Octets, frames, and the frames that are speech, comfort noise, lost and empty.
pub fn report(rec: &[u8]) -> Result<[u64; 6], Refusal> {
    recording::length_in(LIMIT, rec)?;
    let list = recording::frames(3, rec)?;
    let count = |types: &[u64]| list.iter().filter(|x| types.contains(&x.ftype)).count() as u64;
    let speech = count(&[0, 1, 2, 3, 4, 5, 6, 7, 8]);
    Ok([rec.len() as u64, list.len() as u64, speech, count(&[9]), count(&[14]), count(&[15])])
}
