//! Why the library refused something, in words.
use std::fmt::{Display, Formatter, Result};

pub struct Refusal {
    pub number: u64,
    pub frame: u64,
    pub octet: u64,
}

/// By number, in the words of include/amrwb.h. The consoles' 27 cannot come here.
const MEANINGS: [(u64, &str); 19] = [
    (1, "no octets"),
    (2, "reserved frame type, 10 to 13"),
    (3, "fewer octets than the type's"),
    (4, "octets behind a single frame"),
    (5, "spare or filling bit 1"),
    (6, "a mode or field out of range"),
    (7, "CRC"),
    (8, "header of a stored recording"),
    (9, "recording too long, read or about to be written"),
    (10, "buffer shorter than needed"),
    (11, "another argument out of its range"),
    (12, "no sheet for modes 5 to 8"),
    (13, "FQC 3"),
    (14, "the link has no set"),
    (15, "the link has a set"),
    (16, "RFCI or type not in the set"),
    (17, "a sub-flow's buffer with another length than its octets, or with a filling bit 1"),
    (23, "text that has not a sheet's form"),
    (24, "a number missing from a sheet"),
];

/// How long a frame lasts.
pub const FRAME_MS: u64 = 20;

impl Refusal {
    fn meaning(&self) -> &'static str {
        MEANINGS.iter().find(|m| m.0 == self.number).map_or("no number of document 01", |m| m.1)
    }
}

impl Display for Refusal {
    /// Only 2 to 7 concern a frame, and so have a place.
    fn fmt(&self, f: &mut Formatter) -> Result {
        write!(f, "refusal {} ({})", self.number, self.meaning())?;
        match self.number {
            2..=7 => write!(f, " in {}", place(self.frame, self.octet)),
            _ => Ok(()),
        }
    }
}

/// Where a frame lies, with its time in the recording.
pub fn place(frame: u64, octet: u64) -> String {
    format!("frame {frame} at octet {octet}, {} into the recording", time(frame))
}

/// How long so many frames last: minutes, seconds and milliseconds, and hours where there are any.
pub fn time(frames: u64) -> String {
    let ms = frames * FRAME_MS;
    let (hours, minutes, seconds, ms) = (ms / 3_600_000, ms / 60_000 % 60, ms / 1000 % 60, ms % 1000);
    match hours {
        0 => format!("{minutes}:{seconds:02}.{ms:03}"),
        _ => format!("{hours}:{minutes:02}:{seconds:02}.{ms:03}"),
    }
}
