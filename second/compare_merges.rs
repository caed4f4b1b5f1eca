//! Compares the call that merges two recordings with the second program. That each slot's octets come from the recording that document 02 says is
//! tested here too, on the second program's result.
use crate::compare_recordings::{shown, Answers};
use crate::frame::{self, Frame, ALL_FORMATS};
use crate::library::one_calls;
use crate::merge::{self, Merged};
use crate::random::{written, Random};
use crate::random_merges::some_pair;
use crate::random_recordings::{filled, format_like, recording_of};
use crate::recording::{self, LIMIT};
use crate::tally::{agree, Refusals, Tally};

/// A real encoder's frames in storage format: every mode, SID and NO_DATA.
const SAMPLE: &[u8] = include_bytes!("../tests/sample.awb");

/// What a recording has in a slot.
const SLOTS: [&str; 5] = ["good", "bad", "lost", "empty", "ended"];
const LOST: usize = 2;
const ENDED: usize = 4;

/// What came in merges by chance.
#[derive(Default)]
pub struct Merges {
    /// Refusals of the first and of the second by their header or a frame.
    refused: [Refusals; 2],
    /// Slots of accepted merges, by what the first has there, then the second.
    slots: [[u64; SLOTS.len()]; SLOTS.len()],
}

impl Merges {
    /// One pair by chance; true where the libraries and the second program agree.
    pub fn compare(&mut self, g: &mut Random, tally: &mut Tally) -> bool {
        let format = g.format("merge format");
        let like = format_like(g, format);
        let pair = some_pair(g, like);
        let merge = Merge::new(format, &pair.first, pair.second());
        let room = g.room("merge out", merge.done.all.as_ref().map_or(60, |done| done.1.len()));
        merge.compare(tally, room) && self.note(&merge)
    }

    /// Counts what came; false where a slot's octets do not come from the recording that document 02 says.
    fn note(&mut self, merge: &Merge) -> bool {
        match &merge.done.all {
            Err(refused) if (2..=8).contains(&refused.1 .0) => {
                self.refused[refused.0 as usize].count(refused.1 .0);
                true
            }
            Err(_) => true,
            Ok((frames, octets)) => {
                let [first, second, result] = [merge.first, merge.second, octets].map(|rec| pieces(merge.format, rec));
                let right = result.len() == *frames && result.len() == first.len().max(second.len());
                let slots = right && (0..result.len()).all(|i| self.note_slot(merge.format, first.get(i), second.get(i), result[i]));
                agree(slots, || format!("slots of another recording: {}", merge.shown()))
            }
        }
    }

    fn note_slot(&mut self, format: u64, first: Option<&&[u8]>, second: Option<&&[u8]>, result: &[u8]) -> bool {
        let (x, y) = (slot_of(format, first), slot_of(format, second));
        self.slots[x][y] += 1;
        let from = if x >= LOST && y < ENDED { second } else { first };
        from == Some(&result)
    }

    /// Prints what came; false where something never did.
    pub fn show(&self) -> bool {
        let mut all = true;
        for (refused, name) in self.refused.iter().zip(["first", "second"]) {
            all &= refused.show(&format!("merge: {name} recording"), &[2, 3, 5, 6, 7, 8]);
        }
        println!("slots of merges, {SLOTS:?} in the first by the same in the second: {:?}", self.slots);
        let both_ended = self.slots[ENDED][ENDED];
        all && both_ended == 0 && self.slots.iter().flatten().filter(|count| **count == 0).count() == 1
    }
}

/// Place in `SLOTS`.
fn slot_of(format: u64, octets: Option<&&[u8]>) -> usize {
    let Some(octets) = octets else { return ENDED };
    match recording::first_frame(format, octets) {
        Ok((x, _)) if x.ftype >= 14 => LOST + x.ftype as usize - 14,
        Ok((x, _)) => 1 - x.quality as usize,
        Err(refusal) => panic!("a refused frame: {refusal}"),
    }
}

/// The octets of a right recording, frame by frame.
fn pieces(format: u64, rec: &[u8]) -> Vec<&[u8]> {
    let mut rest = &rec[recording::header(format).len()..];
    let mut list = Vec::new();
    while !rest.is_empty() {
        let (piece, behind) = rest.split_at(recording::first_frame(format, rest).expect("a right recording").1);
        list.push(piece);
        rest = behind;
    }
    list
}

/// A merge, and what the second program makes of it.
struct Merge<'a> {
    format: u64,
    first: &'a [u8],
    second: &'a [u8],
    kept: [Vec<u8>; 2],
    done: Answers<Merged>,
}

impl Merge<'_> {
    fn new<'a>(format: u64, first: &'a [u8], second: &'a [u8]) -> Merge<'a> {
        let done = Answers::new(&[format], |last| merge::merged(last, format, first, second));
        Merge { format, first, second, kept: [first.to_vec(), second.to_vec()], done }
    }

    fn shown(&self) -> String {
        let [first, second] = &self.kept;
        format!("format {}, first {}, second {}", self.format, shown(first), shown(second))
    }

    /// Into a buffer of so many octets.
    fn compare(&self, tally: &mut Tally, room: usize) -> bool {
        let (first, second) = (self.first, self.second);
        one_calls().all(|(level, calls)| {
            let mut out = written(room, &[]);
            let (a, b) = ((first.as_ptr(), first.len()), (second.as_ptr(), second.len()));
            let got = unsafe { (calls.merge)(self.format, a.0, a.1, b.0, b.1, out.as_mut_ptr(), room) }.fields();
            let (want, octets) = merge::answer(self.done.at(level), room);
            let same = got == want && [first, second] == self.kept && out == written(room, octets);
            let shown = || format!("{} into {room} octets: {got:?} and not {want:?}", self.shown());
            tally.compared("merge", level, want[0], same, shown)
        })
    }

    /// Into every room that makes a difference.
    fn compare_rooms(&self, tally: &mut Tally) -> bool {
        let need = self.done.all.as_ref().map_or(0, |done| done.1.len());
        [0, need.saturating_sub(1), need, need + 1].into_iter().all(|room| self.compare(tally, room))
    }
}

/// A real encoder's frames, recordings without frames, and the length limits; true where all agree.
pub fn compare_fixed(tally: &mut Tally) -> bool {
    (1..=ALL_FORMATS).all(|format| {
        compare_encoder(tally, format)
            && compare_empty(tally, format)
            && compare_too_long(tally, format)
            && compare_limit(tally, format)
            && compare_filled_limit(tally, format)
    })
}

/// Octets of a frame of type 14 or 15.
fn gap(format: u64, ftype: u64, quality: u64) -> Vec<u8> {
    frame::layout(format, &Frame { ftype, quality, indication: 0, request: 0, core: Vec::new() })
}

/// That two recordings are merged to this one.
fn merged_to(tally: &mut Tally, format: u64, first: &[u8], second: &[u8], result: &[u8]) -> bool {
    let merge = Merge::new(format, first, second);
    let right = merge.done.all.as_ref().is_ok_and(|done| done.1 == result);
    agree(right, || format!("not merged to {}: {}", shown(result), merge.shown())) && merge.compare_rooms(tally)
}

/// A real encoder's frames with themselves, as they are and a frame later, and whole again behind a recorder that missed some of them, bad ones
/// that are kept, and modes that come across.
fn compare_encoder(tally: &mut Tally, format: u64) -> bool {
    let requested = |request| recording::converted(ALL_FORMATS, 3, format, request, SAMPLE).expect("a right recording").1;
    let whole = requested(3);
    let frames = pieces(format, &whole);
    let holes = [(14, 0), (14, 1), (15, 0), (15, 1)].map(|(ftype, quality)| gap(format, ftype, quality));
    merged_to(tally, format, &whole, &whole, &whole)
        && holes.iter().all(|hole| compare_holes(tally, format, &whole, &frames, hole))
        && compare_ended(tally, format, &whole, &frames)
        && compare_overlap(tally, format, &whole, &frames)
        && compare_bad(tally, format, &frames, &requested(5))
}

/// Missed are all frames, the first, the last, every third, and the others.
fn compare_holes(tally: &mut Tally, format: u64, whole: &[u8], frames: &[&[u8]], hole: &[u8]) -> bool {
    let last = frames.len() - 1;
    let missed: [fn(usize, usize) -> bool; 5] =
        [|_, _| true, |i, _| i == 0, |i, last| i == last, |i, _| i % 3 == 0, |i, _| i % 3 != 0];
    missed.into_iter().all(|missed| {
        let recorded = |i: usize, frame| if missed(i, last) { hole } else { frame };
        let holed: Vec<&[u8]> = frames.iter().enumerate().map(|(i, frame)| recorded(i, *frame)).collect();
        merged_to(tally, format, &recording_of(format, &holed.concat()), whole, whole)
    })
}

/// One recorder ended early, whichever it is: the front of the other's octets, where they lie.
fn compare_ended(tally: &mut Tally, format: u64, whole: &[u8], frames: &[&[u8]]) -> bool {
    [0, 1, frames.len() / 2, frames.len() - 1].into_iter().all(|n| {
        let early = &whole[..recording_of(format, &frames[..n].concat()).len()];
        merged_to(tally, format, early, whole, whole) && merged_to(tally, format, whole, early, whole)
    })
}

/// Recordings without a file header that overlap: one lies in the other's octets, a frame behind its start.
fn compare_overlap(tally: &mut Tally, format: u64, whole: &[u8], frames: &[&[u8]]) -> bool {
    let later = &whole[frames[0].len()..];
    format == 3 || Merge::new(format, whole, later).compare_rooms(tally) && Merge::new(format, later, whole).compare_rooms(tally)
}

/// Bad frames of types 0 to 9 stay as they are, beside good ones of another request; bad ones of type 15 do not.
fn compare_bad(tally: &mut Tally, format: u64, frames: &[&[u8]], other: &[u8]) -> bool {
    let (quality, no_data) = (if format == 3 { 4 } else { 8 }, gap(format, 15, 1));
    let bad: Vec<Vec<u8>> = frames.iter().map(|frame| [&[frame[0] & !quality], &frame[1..]].concat()).collect();
    let bad: Vec<&[u8]> = bad.iter().map(Vec::as_slice).collect();
    let others = pieces(format, other);
    let kept: Vec<&[u8]> = (0..frames.len()).map(|i| if frames[i] == no_data { others[i] } else { bad[i] }).collect();
    merged_to(tally, format, &recording_of(format, &bad.concat()), other, &recording_of(format, &kept.concat()))
}

/// No frames in one of them or in both.
fn compare_empty(tally: &mut Tally, format: u64) -> bool {
    let (none, some) = (recording_of(format, &[]), filled(format, format, 0, 60));
    let pairs = [(&none, &none, &none), (&none, &some, &some), (&some, &none, &some)];
    pairs.iter().all(|(first, second, result)| merged_to(tally, format, first, second, result))
}

/// 9 for the first, then for the second, each before what else is wrong there; 11 before all.
fn compare_too_long(tally: &mut Tally, format: u64) -> bool {
    let right = filled(format, format, 8, 200);
    // no file header, and a spare or filling bit 1
    let wrong = vec![0xFF];
    let long = wrong.repeat(LIMIT + 1);
    let pairs = [(&long, &right), (&right, &long), (&long, &long), (&long, &wrong), (&wrong, &long)];
    pairs.into_iter().all(|(first, second)| Merge::new(format, first, second).compare(tally, 0))
        && [0, 4, format + (1 << 32)].into_iter().all(|format| Merge::new(format, &long, &long).compare(tally, 0))
}

/// A result at the length limit and one octet above it, by a second recording that goes on behind the first.
fn compare_limit(tally: &mut Tally, format: u64) -> bool {
    let no_data = gap(format, 15, 1);
    let mut first = filled(format, format, 8, LIMIT - 1);
    let octets = first.len() - recording::header(format).len();
    let one = frame::octets(format, 8).expect("a type that is not reserved");
    let frames = octets / one + octets % one;
    let mut second = recording_of(format, &no_data.repeat(frames + 1));
    let at_limit = Merge::new(format, &first, &second).compare_rooms(tally);
    first.extend(&no_data);
    second.extend(&no_data);
    // 9 before 10
    let above = Merge::new(format, &first, &second);
    let same = at_limit && above.compare(tally, LIMIT + 1) && above.compare(tally, 0);
    // a refused frame comes before 9 for the result
    second.push(0xD7);
    same && Merge::new(format, &first, &second).compare(tally, 0)
}

/// Both recordings at the length limit; and a result at it and one octet above it, by a SID frame in the place of a lost one.
fn compare_filled_limit(tally: &mut Tally, format: u64) -> bool {
    let header = recording::header(format).len();
    let one = frame::octets(format, 9).expect("a type that is not reserved");
    let full = filled(format, format, 8, LIMIT);
    let (sid, speech) = (filled(format, format, 9, header + one), filled(format, format, 8, LIMIT - one));
    let mut first = recording_of(format, &[&gap(format, 14, 0), &speech[header..]].concat());
    let at_limit = Merge::new(format, &full, &full).compare(tally, LIMIT) && Merge::new(format, &first, &sid).compare_rooms(tally);
    first.extend(&gap(format, 15, 1));
    at_limit && Merge::new(format, &first, &sid).compare(tally, LIMIT + 1)
}
