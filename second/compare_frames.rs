//! Compares the calls for one frame and the reception class with the second program.
use crate::compare_recordings::{shown, Answers};
use crate::library::{one_calls, two_calls, Answer};
use crate::random::{written, Random, TYPES};
use crate::random_frames::{right_frame, some_core, some_octets};
use crate::random_recordings::format_like;
use crate::tally::Tally;
use crate::{frame, reception};

fn core_octets(ftype: u64) -> usize {
    (frame::core_bits(ftype) + 7) / 8
}

/// Some octets, read as a frame; true where the libraries and the second program agree.
pub fn compare_read(g: &mut Random, tally: &mut Tally) -> bool {
    let format = g.format("read_frame format");
    let like = format_like(g, format);
    let ftype = g.one_of(&TYPES);
    let x = right_frame(g, like, ftype);
    let octets = some_octets(g, like, &x);
    let room = g.room("read_frame core", core_octets(ftype));
    let kept = octets.clone();
    let done = Answers::new(&[format], |last| read(last, format, &kept, room));
    one_calls().all(|(level, calls)| {
        let mut core = written(room, &[]);
        let got = unsafe { (calls.read_frame)(format, octets.as_ptr(), octets.len(), core.as_mut_ptr(), room) }.fields();
        let (want, want_core) = done.at(level);
        let same = got == *want && octets == kept && core == written(room, want_core);
        let shown = || format!("format {format}, {} into {room} octets: {got:?} and not {want:?}", shown(&kept));
        tally.compared("read_frame", level, want[0], same, shown)
    })
}

/// The second program's answer as the library gives it, and the packed core.
fn read(last: u64, format: u64, octets: &[u8], room: usize) -> ([u64; 8], Vec<u8>) {
    match frame::read(last, format, octets, room) {
        Err(number) => ([number, 0, 0, 0, 0, 0, 0, 0], Vec::new()),
        Ok(x) => {
            let core = frame::pack(&x.core);
            ([0, 0, 0, x.ftype, x.quality, x.indication, x.request, core.len() as u64], core)
        }
    }
}

/// What a frame is built from.
struct Build {
    ftype: u64,
    quality: u64,
    indication: u64,
    request: u64,
    core: Vec<u8>,
    room: usize,
}

/// A frame built from some fields in some format; true where all agree.
pub fn compare_build(g: &mut Random, tally: &mut Tally) -> bool {
    match g.below(3) {
        0 => compare_build_if1(g, tally),
        1 => compare_build_if2(g, tally),
        _ => compare_build_stored(g, tally),
    }
}

fn compare_build_if1(g: &mut Random, tally: &mut Tally) -> bool {
    let mut b = some_fields(g, 1, ["build_if1 type", "build_if1 quality", "build_if1 out"]);
    // type 9 takes indication 0, and types 14 and 15 take both 0
    if b.ftype < 9 || g.one_in(6) {
        b.indication = g.number("build_if1 indication", 8);
    }
    if b.ftype <= 9 || g.one_in(6) {
        b.request = g.number("build_if1 request", 8);
    }
    let done = frame::build(1, b.ftype, b.quality, b.indication, b.request, &b.core, b.room);
    one_calls().all(|(level, calls)| {
        let call = |core, len, out, room| unsafe { (calls.build_if1)(b.ftype, b.quality, b.indication, b.request, core, len, out, room) };
        b.compare(tally, "build_if1", level, call, &done)
    })
}

fn compare_build_if2(g: &mut Random, tally: &mut Tally) -> bool {
    let b = some_fields(g, 2, ["build_if2 type", "build_if2 quality", "build_if2 out"]);
    let done = frame::build(2, b.ftype, b.quality, 0, 0, &b.core, b.room);
    one_calls().all(|(level, calls)| {
        let call = |core, len, out, room| unsafe { (calls.build_if2)(b.ftype, b.quality, core, len, out, room) };
        b.compare(tally, "build_if2", level, call, &done)
    })
}

fn compare_build_stored(g: &mut Random, tally: &mut Tally) -> bool {
    let b = some_fields(g, 3, ["build_stored type", "build_stored quality", "build_stored out"]);
    let done = frame::build(3, b.ftype, b.quality, 0, 0, &b.core, b.room);
    two_calls().all(|(level, calls)| {
        let call = |core, len, out, room| unsafe { (calls.build_stored)(b.ftype, b.quality, core, len, out, room) };
        b.compare(tally, "build_stored", level, call, &done)
    })
}

/// A type and quality, the core, and a buffer for the frame; indication and request are 0.
fn some_fields(g: &mut Random, format: u64, [of_type, of_quality, of_out]: [&'static str; 3]) -> Build {
    let (ftype, quality) = (g.number(of_type, 15), g.number(of_quality, 1));
    // the core of a type that is right in its low bits
    let core = some_core(g, ftype % 16);
    let room = g.room(of_out, frame::octets(format, ftype % 16).unwrap_or(1));
    Build { ftype, quality, indication: 0, request: 0, core, room }
}

impl Build {
    fn compare(
        &self, tally: &mut Tally, name: &'static str, level: usize, call: impl Fn(*const u8, usize, *mut u8, usize) -> Answer,
        done: &Result<Vec<u8>, u64>,
    ) -> bool {
        let kept = self.core.clone();
        let mut out = written(self.room, &[]);
        let got = call(self.core.as_ptr(), self.core.len(), out.as_mut_ptr(), self.room).fields();
        let (refusal, octets) = done.as_ref().map_or_else(|number| (*number, &[][..]), |octets| (0, octets));
        let want = [refusal, 0, 0, 0, octets.len() as u64];
        let same = got == want && self.core == kept && out == written(self.room, octets);
        let fields = || format!("type {} quality {} indication {} request {}", self.ftype, self.quality, self.indication, self.request);
        let shown = || format!("{} core {} into {} octets: {got:?} and not {want:?}", fields(), shown(&kept), self.room);
        tally.compared(name, level, refusal, same, shown)
    }
}

/// The reception class of some numbers; true where all agree.
pub fn compare_class(g: &mut Random, tally: &mut Tally) -> bool {
    let (ftype, quality, sti) = (g.number("class type", 15), g.number("class quality", 1), g.number("class STI", 1));
    let want = match reception::class(ftype, quality, sti) {
        Err(number) => [number, 0, 0, 0],
        Ok(class) => [0, 0, 0, class],
    };
    two_calls().all(|(level, calls)| {
        let got = unsafe { (calls.class)(ftype, quality, sti) }.fields();
        let shown = || format!("type {ftype} quality {quality} STI {sti}: {got:?} and not {want:?}");
        tally.compared("class", level, want[0], got == want, shown)
    })
}
