//! Pairs of recordings of one talk that the comparison draws by chance: with many gaps, of equal and of other length, and with something wrong in
//! one of them or in both.
use crate::frame;
use crate::random::Random;
use crate::random_frames::{right_frame, wrong_frame};
use crate::random_recordings::{damage, recording_of, some_recording};

/// Two recordings, or one that is to be merged with itself.
pub struct Pair {
    pub first: Vec<u8>,
    second: Option<Vec<u8>>,
}

impl Pair {
    pub fn second(&self) -> &[u8] {
        self.second.as_ref().unwrap_or(&self.first)
    }
}

pub fn some_pair(g: &mut Random, format: u64) -> Pair {
    if g.one_in(10) {
        g.kind("recording merged with itself");
        let wrong = g.one_in(4);
        return Pair { first: recorded(g, format, 6, wrong), second: None };
    }
    let (first_wrong, second_wrong) = some_fault(g);
    let (first, second) = some_lengths(g);
    Pair { first: recorded(g, format, first, first_wrong), second: Some(recorded(g, format, second, second_wrong)) }
}

/// Whether the first is wrong, and the second.
fn some_fault(g: &mut Random) -> (bool, bool) {
    match g.below(10) {
        0..=1 => {
            g.kind("first recording damaged");
            (true, false)
        }
        2..=3 => {
            g.kind("second recording damaged");
            (false, true)
        }
        4 => {
            g.kind("both recordings damaged");
            (true, true)
        }
        _ => (false, false),
    }
}

/// Frames of the first and of the second.
fn some_lengths(g: &mut Random) -> (u64, u64) {
    let first = g.below(13);
    let second = if g.one_in(3) { first } else { g.below(13) };
    g.kind(match second.cmp(&first) {
        std::cmp::Ordering::Less => "shorter second recording",
        std::cmp::Ordering::Equal => "second recording of equal length",
        std::cmp::Ordering::Greater => "longer second recording",
    });
    (first, second)
}

/// A recording of so many frames, of which few or many are gaps; a wrong one has a wrong frame among them, or is damaged, or is any.
fn recorded(g: &mut Random, format: u64, frames: u64, wrong: bool) -> Vec<u8> {
    let gaps = g.one_of(&[0, 1, 2, 3, 4]);
    let mut list: Vec<Vec<u8>> = (0..frames).map(|_| slot(g, format, gaps)).collect();
    let fault = if wrong { g.below(4) } else { 4 };
    if fault < 2 {
        let at = g.index(list.len() + 1);
        list.insert(at, wrong_frame(g, format));
    }
    let mut rec = recording_of(format, &list.concat());
    match fault {
        2 => damage(g, format, &mut rec),
        3 => rec = some_recording(g, format),
        _ => {}
    }
    rec
}

/// The octets of a frame, which is lost or empty in so many of four slots.
fn slot(g: &mut Random, format: u64, gaps: u64) -> Vec<u8> {
    let ftype = if g.below(4) < gaps { 14 + g.below(2) } else { g.below(10) };
    frame::layout(format, &right_frame(g, format, ftype))
}
