//! Whole recordings, written from the papers (document 01, "Recordings and conversion") in the plainest way: all frames are read into a
//! vector, each is carried over, and the new ones are laid out. It shares no code with crates/ or benches/.
use crate::frame::{self, Frame, ALL_FORMATS};

pub const LIMIT: usize = 16_777_215;
pub const HEADER: &[u8] = b"#!AMR-WB\n";

/// A refusal's number, with the frame and the octet where it lies.
#[derive(Clone, Copy, PartialEq, Debug)]
pub struct Refusal(pub u64, pub u64, pub u64);

pub fn outside(number: u64) -> Refusal {
    Refusal(number, 0, 0)
}

/// `last` is the level's last format.
pub fn format_in(last: u64, format: u64) -> Result<(), Refusal> {
    if format < 1 || format > last { Err(outside(11)) } else { Ok(()) }
}

pub fn length_in(limit: usize, rec: &[u8]) -> Result<(), Refusal> {
    if rec.len() > limit { Err(outside(9)) } else { Ok(()) }
}

pub fn header(format: u64) -> &'static [u8] {
    if format == 3 { HEADER } else { &[] }
}

/// Where the frames of a recording begin, its format and length in range.
pub fn start(format: u64, rec: &[u8]) -> Result<usize, Refusal> {
    if rec.starts_with(header(format)) { Ok(header(format).len()) } else { Err(outside(8)) }
}

/// The frame that some octets begin with, and how many of them it takes.
pub fn first_frame(format: u64, rest: &[u8]) -> Result<(Frame, usize), u64> {
    let ftype = if format == 3 { rest[0] >> 3 & 15 } else { rest[0] >> 4 } as u64;
    // A frame ends where its type says; read refuses a reserved type and too few octets itself.
    let n = frame::octets(format, ftype).unwrap_or(1).min(rest.len());
    Ok((frame::read(ALL_FORMATS, format, &rest[..n], usize::MAX)?, n))
}

/// The frames of a recording, its format and length in range.
pub fn frames(format: u64, rec: &[u8]) -> Result<Vec<Frame>, Refusal> {
    let mut list = Vec::new();
    let mut at = start(format, rec)?;
    while at < rec.len() {
        let (x, n) = first_frame(format, &rec[at..]).map_err(|number| Refusal(number, list.len() as u64, at as u64))?;
        list.push(x);
        at += n;
    }
    Ok(list)
}

/// The frame in the format that it is converted to.
fn carried(from: u64, to: u64, request: u64, x: Frame) -> Frame {
    let (indication, request) = match (from, to, x.ftype) {
        (1, 1, _) => (x.indication, x.request),
        (_, 1, 0..=8) => (x.ftype, request),
        (_, 1, 9) => (0, request),
        _ => (0, 0),
    };
    Frame { indication, request, ..x }
}

/// Frames of a recording.
pub fn validate(last: u64, format: u64, rec: &[u8]) -> Result<usize, Refusal> {
    format_in(last, format)?;
    length_in(LIMIT, rec)?;
    Ok(frames(format, rec)?.len())
}

/// Frames of a recording, and its octets in another format.
pub type Converted = Result<(usize, Vec<u8>), Refusal>;

/// A conversion, judged up to 9 for what would be written.
pub fn converted(last: u64, from: u64, to: u64, request: u64, rec: &[u8]) -> Converted {
    format_in(last, from)?;
    format_in(last, to)?;
    if request > 8 {
        return Err(outside(11));
    }
    length_in(LIMIT, rec)?;
    let list = frames(from, rec)?;
    let count = list.len();
    let mut out = header(to).to_vec();
    for x in list {
        out.extend(frame::layout(to, &carried(from, to, request, x)));
    }
    length_in(LIMIT, &out)?;
    Ok((count, out))
}

/// What a conversion does with a buffer of so many octets: 10 is judged last.
pub fn into_buffer(done: &Converted, room: usize) -> Result<&(usize, Vec<u8>), Refusal> {
    let done = done.as_ref().map_err(|refusal| *refusal)?;
    if room < done.1.len() {
        return Err(outside(10));
    }
    Ok(done)
}
