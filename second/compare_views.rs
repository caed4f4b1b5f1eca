//! Compares the viewer with the second program.
use crate::compare_recordings::shown;
use crate::frame::{self, ALL_FORMATS};
use crate::library::two_calls;
use crate::random::{written, Random};
use crate::random_recordings::{filled, format_like, some_recording};
use crate::reception;
use crate::recording::{Refusal, HEADER, LIMIT};
use crate::tally::Tally;
use crate::view;

/// Octets that every packed core fits into.
const MOST_CORE: usize = 60;

/// A frame without data in each format.
const NO_DATA: [u8; 3] = [0xF8, 0xF8, 0x7C];

/// Calls without a frame after which a scan ends: the viewer must stay where it is.
const STAYS: usize = 3;

/// An offset for a recording of so many octets, often at a border.
fn some_offset(g: &mut Random, len: u64) -> u64 {
    let inside = g.below(len + 1);
    let offset = match g.below(8) {
        0 => g.one_of(&[0, 1, HEADER.len() as u64, len.saturating_sub(1), len]),
        1 => g.one_of(&[len + 1, len + (1 << 32), inside + (1 << 32), inside + (1 << 63), u64::MAX - 1, u64::MAX]),
        _ => inside,
    };
    g.note("view_next offset", offset, len);
    offset
}

/// A frame's number for an offset, often at a border.
fn some_number(g: &mut Random, offset: u64) -> u64 {
    let number = match g.below(8) {
        0 => g.one_of(&[0, 1, offset.saturating_sub(1), offset, 255, 256]),
        1 => g.one_of(&[offset.saturating_add(1), offset.saturating_add(1 << 32), 1 << 32, u64::MAX - 1, u64::MAX]),
        _ => g.below(offset.saturating_add(1)),
    };
    g.note("view_next number", number, offset);
    number
}

/// The viewer's calls: how often a recording was at its end, and how often an answer had each class, 0 where it showed no frame.
#[derive(Default)]
pub struct Views {
    ends: u64,
    classes: [u64; 8],
}

impl Views {
    /// One recording by chance, seen from its start or from some place; true where the libraries and the second program agree.
    pub fn compare(&mut self, g: &mut Random, tally: &mut Tally) -> bool {
        if g.one_in(2) {
            let format = g.format("view_open format");
            let like = format_like(g, format);
            let rec = some_recording(g, like);
            return self.compare_scan(g, tally, format, &rec);
        }
        let format = g.format("view_next format");
        let like = format_like(g, format);
        let rec = some_recording(g, like);
        let offset = some_offset(g, rec.len() as u64);
        let number = some_number(g, offset);
        let need = view::next(format, offset, number, &rec, usize::MAX).ok().flatten().map_or(MOST_CORE, |(x, _)| (x.core.len() + 7) / 8);
        let room = g.room("view_next core", need);
        self.compare_next(tally, format, offset, number, &rec, room).is_some()
    }

    /// Opens a recording and takes its frames in turn, to the end or a refusal and some calls more.
    fn compare_scan(&mut self, g: &mut Random, tally: &mut Tally, format: u64, rec: &[u8]) -> bool {
        if !compare_open(tally, format, rec) {
            return false;
        }
        let Ok(start) = view::open(format, rec) else { return true };
        let mut place = (start as u64, 0);
        let mut stays = 0;
        while stays < STAYS {
            let room = if g.one_in(8) { g.index(MOST_CORE) } else { MOST_CORE };
            let Some(next) = self.compare_next(tally, format, place.0, place.1, rec, room) else { return false };
            stays += (next == place) as usize;
            place = next;
        }
        true
    }

    /// Where the viewer stands after the call; None where a library differs.
    fn compare_next(&mut self, tally: &mut Tally, format: u64, offset: u64, number: u64, rec: &[u8], room: usize) -> Option<(u64, u64)> {
        let kept = rec.to_vec();
        let mut core = Vec::new();
        let want = match view::next(format, offset, number, &kept, room) {
            Err(Refusal(refusal, frame, octet)) => [refusal, frame, octet, 0, 0, 0, 0, 0, 0, offset, number, 0],
            Ok(None) => [0, 0, 0, 1, 0, 0, 0, 0, 0, offset, number, 0],
            Ok(Some((x, next))) => {
                core = frame::pack(&x.core);
                let class = reception::frame_class(&x);
                [0, 0, 0, 0, x.ftype, x.quality, x.indication, x.request, core.len() as u64, next, number + 1, class]
            }
        };
        self.ends += want[3];
        self.classes[want[11] as usize] += 1;
        let all = two_calls().all(|(level, calls)| {
            let mut out = written(room, &[]);
            let got = unsafe { (calls.view_next)(format, offset, number, rec.as_ptr(), rec.len(), out.as_mut_ptr(), room) }.fields();
            let same = got == want && rec == kept && out == written(room, &core);
            let call = || format!("format {format} offset {offset} number {number}, {} into {room} octets", shown(&kept));
            tally.compared("view_next", level, want[0], same, || format!("{}: {got:?} and not {want:?}", call()))
        });
        all.then_some((want[9], want[10]))
    }

    /// Recordings at the length limit and one octet above it, which only opening judges; true where all agree.
    pub fn compare_limits(&mut self, tally: &mut Tally) -> bool {
        (1..=ALL_FORMATS).zip(NO_DATA).all(|(format, no_data)| {
            let mut rec = filled(format, format, 8, LIMIT);
            let mut same = compare_open(tally, format, &rec) && self.compare_place(tally, format, LIMIT, &rec);
            rec.push(no_data);
            same = same && compare_open(tally, format, &rec) && self.compare_place(tally, format, LIMIT, &rec);
            // 9 before 8, 11 before 9
            rec[0] = 0xFF;
            same && compare_open(tally, format, &rec) && compare_open(tally, 4, &rec) && self.compare_place(tally, format, 0, &rec)
        })
    }

    fn compare_place(&mut self, tally: &mut Tally, format: u64, offset: usize, rec: &[u8]) -> bool {
        self.compare_next(tally, format, offset as u64, 0, rec, MOST_CORE).is_some()
    }

    /// Prints how often a recording was at its end, and how often each class came; false where one of these never was.
    pub fn show(&self) -> bool {
        println!("view_next at the end: {}, by class (0 no frame): {:?}", self.ends, self.classes);
        self.ends > 0 && self.classes.iter().all(|count| *count > 0)
    }
}

fn compare_open(tally: &mut Tally, format: u64, rec: &[u8]) -> bool {
    let kept = rec.to_vec();
    let want = match view::open(format, &kept) {
        Err(Refusal(refusal, frame, octet)) => [refusal, frame, octet, 0, 0, 0, 0, 0, 0, 0, 0, 0],
        Ok(start) => [0, 0, 0, 0, 0, 0, 0, 0, 0, start as u64, 0, 0],
    };
    two_calls().all(|(level, calls)| {
        let got = unsafe { (calls.view_open)(format, rec.as_ptr(), rec.len()) }.fields();
        let same = got == want && rec == kept;
        tally.compared("view_open", level, want[0], same, || format!("format {format}, {}: {got:?} and not {want:?}", shown(&kept)))
    })
}
