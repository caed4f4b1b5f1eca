//! The viewer of a recording, written from the papers (document 01, "Recordings and conversion") in the plainest way.
use crate::frame::{Frame, ALL_FORMATS};
use crate::recording::{self, outside, Refusal, LIMIT};

/// Where the first frame begins.
pub fn open(format: u64, rec: &[u8]) -> Result<usize, Refusal> {
    recording::format_in(ALL_FORMATS, format)?;
    recording::length_in(LIMIT, rec)?;
    recording::start(format, rec)
}

/// The frame at the offset and where the next one begins, or None at the end, with room for so many octets of packed core. Neither length
/// nor header is judged again.
pub fn next(format: u64, offset: u64, number: u64, rec: &[u8], room: usize) -> Result<Option<(Frame, u64)>, Refusal> {
    recording::format_in(ALL_FORMATS, format)?;
    if offset > rec.len() as u64 || number > offset {
        return Err(outside(11));
    }
    if offset == rec.len() as u64 {
        return Ok(None);
    }
    let (x, n) = recording::first_frame(format, &rec[offset as usize..]).map_err(|refused| Refusal(refused, number, offset))?;
    if room < (x.core.len() + 7) / 8 {
        return Err(outside(10));
    }
    Ok(Some((x, offset + n as u64)))
}
