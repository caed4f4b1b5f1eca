//! Compares the calls for recordings with the second program.
use crate::frame::ALL_FORMATS;
use crate::library::one_calls;
use crate::random::{written, Random};
use crate::random_recordings::{filled, format_like, some_recording};
use crate::recording::{self, Converted, Refusal, LIMIT};
use crate::tally::Tally;

/// The second program's answer at each level: level one's is another where format 3 is among the arguments.
pub struct Answers<T> {
    pub all: T,
    one: Option<T>,
}

impl<T> Answers<T> {
    /// From the answer of the second program with a level's last format.
    pub fn new(formats: &[u64], second: impl Fn(u64) -> T) -> Answers<T> {
        Answers { all: second(ALL_FORMATS), one: formats.contains(&ALL_FORMATS).then(|| second(ALL_FORMATS - 1)) }
    }

    pub fn at(&self, level: usize) -> &T {
        match &self.one {
            Some(one) if level == 1 => one,
            _ => &self.all,
        }
    }
}

/// The second program's answer as the library gives it.
fn answer(done: Result<(usize, usize), Refusal>) -> [u64; 5] {
    match done {
        Ok((frames, octets)) => [0, 0, 0, frames as u64, octets as u64],
        Err(Refusal(number, frame, octet)) => [number, frame, octet, 0, 0],
    }
}

/// The octets of a call for a message: all but of a very long recording.
pub fn shown(octets: &[u8]) -> String {
    format!("{} octets {:02X?}", octets.len(), &octets[..octets.len().min(1000)])
}

/// One recording by chance, validated or converted; true where the libraries and the second program agree.
pub fn compare(g: &mut Random, tally: &mut Tally) -> bool {
    if g.one_in(4) {
        let format = g.format("validate format");
        let like = format_like(g, format);
        return validate(tally, format, &some_recording(g, like));
    }
    let (from, to) = (g.format("convert from"), g.format("convert to"));
    let request = g.number("convert request", 8);
    let like = format_like(g, from);
    let rec = some_recording(g, like);
    let call = Conversion::new(from, to, request, &rec);
    let room = g.room("convert out", call.done.all.as_ref().map_or(60, |done| done.1.len()));
    call.convert(tally, room) && call.length(tally)
}

fn validate(tally: &mut Tally, format: u64, rec: &[u8]) -> bool {
    let kept = rec.to_vec();
    let done = Answers::new(&[format], |last| recording::validate(last, format, &kept));
    one_calls().all(|(level, calls)| {
        let got = unsafe { (calls.validate)(format, rec.as_ptr(), rec.len()) }.fields();
        let want = answer(done.at(level).map(|frames| (frames, 0)));
        let same = got == want && rec == kept;
        tally.compared("validate", level, want[0], same, || format!("format {format}, {}: {got:?} and not {want:?}", shown(&kept)))
    })
}

/// A conversion, and what the second program makes of it.
struct Conversion<'a> {
    from: u64,
    to: u64,
    request: u64,
    rec: &'a [u8],
    kept: Vec<u8>,
    done: Answers<Converted>,
}

impl Conversion<'_> {
    fn new(from: u64, to: u64, request: u64, rec: &[u8]) -> Conversion<'_> {
        let done = Answers::new(&[from, to], |last| recording::converted(last, from, to, request, rec));
        Conversion { from, to, request, rec, kept: rec.to_vec(), done }
    }

    fn shown(&self) -> String {
        format!("from {} to {} request {}, {}", self.from, self.to, self.request, shown(&self.kept))
    }

    fn length(&self, tally: &mut Tally) -> bool {
        one_calls().all(|(level, calls)| {
            let (rec, len) = (self.rec.as_ptr(), self.rec.len());
            let got = unsafe { (calls.convert_length)(self.from, self.to, self.request, rec, len) }.fields();
            let done = recording::into_buffer(self.done.at(level), usize::MAX);
            let want = answer(done.map(|done| (done.0, done.1.len())));
            let same = got == want && self.rec == self.kept;
            tally.compared("convert_length", level, want[0], same, || format!("{}: {got:?} and not {want:?}", self.shown()))
        })
    }

    fn convert(&self, tally: &mut Tally, room: usize) -> bool {
        one_calls().all(|(level, calls)| {
            let (rec, len) = (self.rec.as_ptr(), self.rec.len());
            let mut out = written(room, &[]);
            let got = unsafe { (calls.convert)(self.from, self.to, self.request, rec, len, out.as_mut_ptr(), room) }.fields();
            let done = recording::into_buffer(self.done.at(level), room);
            let want = answer(done.map(|done| (done.0, done.1.len())));
            let same = got == want && self.rec == self.kept && out == written(room, done.map_or(&[], |done| &done.1));
            let shown = || format!("{} into {room} octets: {got:?} and not {want:?}", self.shown());
            tally.compared("convert", level, want[0], same, shown)
        })
    }
}

/// Recordings at the length limit and one octet above it, to be read or written; true where all agree.
pub fn compare_limits(tally: &mut Tally) -> bool {
    // directions in which a recording grows
    let growing = [(2, 1, 9), (2, 3, 1), (3, 1, 0)];
    (1..=ALL_FORMATS).all(|format| compare_read_limit(tally, format))
        && growing.into_iter().all(|(from, to, ftype)| compare_written_limit(tally, from, to, ftype))
}

fn compare_read_limit(tally: &mut Tally, format: u64) -> bool {
    let mut rec = filled(format, format, 8, LIMIT);
    let mut same = validate(tally, format, &rec) && Conversion::new(format, format, 8, &rec).convert(tally, LIMIT);
    rec.push(*rec.last().unwrap());
    same = same && compare_too_long(tally, format, &rec);
    // 9 before 8, and before a refused frame
    rec[0] = 0xFF;
    same = same && compare_too_long(tally, format, &rec);
    rec.pop();
    same && validate(tally, format, &rec)
}

/// 9, but 11 before it.
fn compare_too_long(tally: &mut Tally, format: u64, rec: &[u8]) -> bool {
    let conversions = [(format, 1, 0), (format, format, 8), (format, 4, 0), (0, format, 0), (format, 2, 9)];
    validate(tally, format, rec)
        && validate(tally, 4, rec)
        && conversions.into_iter().all(|(from, to, request)| {
            let call = Conversion::new(from, to, request, rec);
            call.convert(tally, 0) && call.length(tally)
        })
}

fn compare_written_limit(tally: &mut Tally, from: u64, to: u64, ftype: u64) -> bool {
    let mut rec = filled(from, to, ftype, LIMIT);
    let call = Conversion::new(from, to, 0, &rec);
    let mut same = call.convert(tally, LIMIT) && call.convert(tally, LIMIT - 1) && call.length(tally);
    rec.push(*rec.last().unwrap());
    let call = Conversion::new(from, to, 0, &rec);
    same = same && call.convert(tally, LIMIT + 1) && call.convert(tally, 0) && call.length(tally);
    // a refused frame comes before 9 for what would be written
    rec.push(0xD7);
    let call = Conversion::new(from, to, 0, &rec);
    same && call.convert(tally, 0) && call.length(tally)
}
