//! The reception class of a frame, written from the papers (document 01, "Reception class and report").
use crate::frame::Frame;

/// 1 speech good, 2 speech bad, 3 SID first, 4 SID update, 5 SID bad, 6 speech lost, 7 no data.
pub fn class(ftype: u64, quality: u64, sti: u64) -> Result<u64, u64> {
    if ftype > 15 || quality > 1 || sti > 1 {
        return Err(11);
    }
    match ftype {
        0..=8 => Ok(2 - quality),
        9 if quality == 0 => Ok(5),
        9 => Ok(3 + sti),
        14 => Ok(6),
        15 => Ok(7),
        _ => Err(2),
    }
}

/// The class of a frame that was read; STI is d(35) of a SID frame.
pub fn frame_class(x: &Frame) -> u64 {
    let sti = x.ftype == 9 && x.core[35];
    class(x.ftype, x.quality, sti as u64).unwrap()
}
