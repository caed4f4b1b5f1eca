//! Recordings that the comparison draws by chance, right ones and ones with something wrong; and those at the length limits.
use crate::frame;
use crate::random::{Random, TYPES};
use crate::random_frames::{change_a_bit, right_frame, wrong_frame};
use crate::recording::{self, HEADER};

/// A format to lay octets out in for a call with this format, which may be out of its range: mostly the same.
pub fn format_like(g: &mut Random, format: u64) -> u64 {
    if (1..=3).contains(&format) && !g.one_in(20) { format } else { 1 + g.below(3) }
}

/// A recording of some frames, right or damaged, or octets by chance.
pub fn some_recording(g: &mut Random, format: u64) -> Vec<u8> {
    let mut rec = if format == 3 { HEADER.to_vec() } else { Vec::new() };
    let right = g.one_in(2);
    if right {
        right_frames(g, format, &mut rec);
    } else if g.one_in(6) {
        g.kind("recording of random octets");
        let n = g.index(200);
        rec.extend(g.octets(n));
    } else {
        g.kind("recording with wrong frames");
        some_wrong_frames(g, format, &mut rec);
    }
    if g.one_in(3) {
        damage(g, format, &mut rec);
    } else if right {
        g.kind("right recording");
    }
    rec
}

fn right_frames(g: &mut Random, format: u64, rec: &mut Vec<u8>) {
    for _ in 0..g.below(13) {
        let ftype = g.one_of(&TYPES);
        rec.extend(frame::layout(format, &right_frame(g, format, ftype)));
    }
}

/// Right frames, then one or two wrong ones with others between and behind.
fn some_wrong_frames(g: &mut Random, format: u64, rec: &mut Vec<u8>) {
    for _ in 0..1 + g.below(2) {
        right_frames(g, format, rec);
        rec.extend(wrong_frame(g, format));
    }
    if g.one_in(2) {
        right_frames(g, format, rec);
    }
}

/// Changes a bit or the header of a recording, cuts or lengthens it.
pub fn damage(g: &mut Random, format: u64, rec: &mut Vec<u8>) {
    match g.below(8) {
        0..=1 => {
            g.kind("recording with one bit changed");
            change_a_bit(g, rec);
        }
        2..=3 => {
            g.kind("recording cut");
            let any = g.index(rec.len() + 1);
            rec.truncate(g.one_of(&[any, rec.len().saturating_sub(1)]));
        }
        4..=5 => {
            g.kind("recording lengthened");
            let n = 1 + g.index(3);
            rec.extend(g.octets(n));
        }
        _ if format == 3 => change_the_header(g, rec),
        _ => {}
    }
}

pub fn change_the_header(g: &mut Random, rec: &mut Vec<u8>) {
    g.kind("wrong header");
    match g.below(3) {
        0 => rec.truncate(g.index(HEADER.len())),
        1 => drop(rec.drain(..HEADER.len())),
        _ => change_a_bit(g, &mut rec[..HEADER.len()]),
    }
}

/// The octets of a recording whose frames have these octets.
pub fn recording_of(format: u64, frames: &[u8]) -> Vec<u8> {
    [recording::header(format), frames].concat()
}

/// A right recording of one format that takes exactly so many octets in another: frames of one type, and at its end frames of one octet.
pub fn filled(from: u64, to: u64, ftype: u64, octets: usize) -> Vec<u8> {
    let mut g = Random::new(7);
    let octets = octets - if to == 3 { HEADER.len() } else { 0 };
    let one = frame::octets(to, ftype).unwrap();
    let mut rec = if from == 3 { HEADER.to_vec() } else { Vec::new() };
    rec.extend(frame::layout(from, &right_frame(&mut g, from, ftype)).repeat(octets / one));
    rec.extend(frame::layout(from, &right_frame(&mut g, from, 15)).repeat(octets % one));
    rec
}
