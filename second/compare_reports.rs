//! Compares the report with the second program.
use crate::compare_recordings::shown;
use crate::frame;
use crate::library::two_calls;
use crate::random::{Random, TYPES};
use crate::random_frames::right_frame;
use crate::random_recordings::{change_the_header, filled, format_like, some_recording};
use crate::recording::{Refusal, HEADER};
use crate::report::{report, LIMIT};
use crate::tally::Tally;

/// Document 01's sample: a header, type 0, type 9 and type 15, and what is printed for them.
const SAMPLE: &[u8] = b"#!AMR-WB\n\x04\0\0\0\0\0\0\0\0\0\0\0\0\0\0\0\0\0\x4C\0\0\0\0\0\x7C";
const SAMPLE_COUNTS: [u64; 6] = [34, 3, 1, 1, 0, 1];

/// A right recording of exactly so many octets: frames by chance, and at its end frames of one octet.
fn long(g: &mut Random, octets: usize) -> Vec<u8> {
    let mut rec = HEADER.to_vec();
    while rec.len() < octets {
        let ftype = if rec.len() + 61 <= octets { g.one_of(&TYPES) } else { 14 + g.below(2) };
        rec.extend(frame::layout(3, &right_frame(g, 3, ftype)));
    }
    rec
}

/// One recording by chance, seldom one about as long as the limit; true where the libraries and the second program agree.
pub fn compare(g: &mut Random, tally: &mut Tally) -> bool {
    if !g.one_in(1000) {
        let like = format_like(g, 3);
        return compare_report(tally, &some_recording(g, like));
    }
    let octets = LIMIT - 3 + g.index(7);
    let mut rec = long(g, octets);
    match g.below(4) {
        0 => change_the_header(g, &mut rec),
        1 => rec[octets - 1] = g.next() as u8,
        _ => {}
    }
    compare_report(tally, &rec)
}

fn compare_report(tally: &mut Tally, rec: &[u8]) -> bool {
    let kept = rec.to_vec();
    let want = match report(&kept) {
        Err(Refusal(refusal, frame, octet)) => [refusal, frame, octet, 0, 0, 0, 0, 0, 0],
        Ok([octets, frames, speech, comfort, lost, empty]) => [0, 0, 0, octets, frames, speech, comfort, lost, empty],
    };
    two_calls().all(|(level, calls)| {
        let got = unsafe { (calls.report)(rec.as_ptr(), rec.len()) }.fields();
        let same = got == want && rec == kept;
        tally.compared("report", level, want[0], same, || format!("{}: {got:?} and not {want:?}", shown(&kept)))
    })
}

/// The paper's sample, and recordings about as long as the limit; true where all agree.
pub fn compare_limits(tally: &mut Tally) -> bool {
    let lengths = LIMIT - 1..=LIMIT + 2;
    report(SAMPLE) == Ok(SAMPLE_COUNTS)
        && compare_report(tally, SAMPLE)
        && compare_report(tally, &[])
        && lengths.into_iter().all(|octets| TYPES.into_iter().all(|ftype| compare_long(tally, ftype, octets)))
}

fn compare_long(tally: &mut Tally, ftype: u64, octets: usize) -> bool {
    let mut rec = filled(3, 3, ftype, octets);
    let right = compare_report(tally, &rec);
    // a frame that is cut off
    *rec.last_mut().unwrap() = 0x04;
    let cut = compare_report(tally, &rec);
    // 9 before 8
    rec[0] ^= 1;
    right && cut && compare_report(tally, &rec)
}
