//! Two recordings of the same talk merged, written from the papers (document 02, n) in the plainest way: the frames of both are read into
//! vectors, one is taken for each slot, and these are laid out. It shares no code with crates/ or benches/.
use crate::frame::{self, Frame};
use crate::recording::{self, Refusal, LIMIT};

/// A refusal, and the recording where it lies: 0 the first, 1 the second; 0 too where it lies in neither.
#[derive(Clone, Copy, PartialEq, Debug)]
pub struct RefusedIn(pub u64, pub Refusal);

fn refused_in(recording: u64) -> impl Fn(Refusal) -> RefusedIn {
    move |refusal| RefusedIn(recording, refusal)
}

/// "lost or empty", at either quality.
fn is_gap(x: &Frame) -> bool {
    x.ftype == 14 || x.ftype == 15
}

/// The frame of a slot; none behind the end of both.
fn chosen(first: Option<Frame>, second: Option<Frame>) -> Option<Frame> {
    match (first, second) {
        (Some(x), Some(y)) => Some(if is_gap(&x) { y } else { x }),
        (x, y) => x.or(y),
    }
}

/// "Length is that of the longer list."
fn slots(first: Vec<Frame>, second: Vec<Frame>) -> Vec<Frame> {
    let (mut first, mut second) = (first.into_iter(), second.into_iter());
    std::iter::from_fn(|| chosen(first.next(), second.next())).collect()
}

/// Frames of the result, and its octets.
pub type Merged = Result<(usize, Vec<u8>), RefusedIn>;

/// The frames of one of the two recordings, the format in range.
fn frames(recording: u64, format: u64, rec: &[u8]) -> Result<Vec<Frame>, RefusedIn> {
    recording::length_in(LIMIT, rec).and_then(|()| recording::frames(format, rec)).map_err(refused_in(recording))
}

/// A merge, judged up to 9 for the result. `last` is the level's last format.
pub fn merged(last: u64, format: u64, first: &[u8], second: &[u8]) -> Merged {
    recording::format_in(last, format).map_err(refused_in(0))?;
    let first = frames(0, format, first)?;
    let second = frames(1, format, second)?;
    let list = slots(first, second);
    let mut out = recording::header(format).to_vec();
    for x in &list {
        out.extend(frame::layout(format, x));
    }
    recording::length_in(LIMIT, &out).map_err(refused_in(0))?;
    Ok((list.len(), out))
}

/// Refusal, frame, octet, recording, frames and octets of a merge into a buffer of so many octets; and what it writes. 10 is judged last.
pub fn answer(done: &Merged, room: usize) -> ([u64; 6], &[u8]) {
    match done {
        Ok((_, octets)) if room < octets.len() => ([10, 0, 0, 0, 0, 0], &[]),
        Ok((frames, octets)) => ([0, 0, 0, 0, *frames as u64, octets.len() as u64], octets),
        Err(RefusedIn(recording, Refusal(number, frame, octet))) => ([*number, *frame, *octet, *recording, 0, 0], &[]),
    }
}
