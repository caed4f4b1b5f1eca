//! The library's calls (include/amrwb.h) that the program uses, each in a safe wrapper. All unsafe code of the program is here. A Rust
//! slice lends at least its length and is never null, also where it is empty, as the header asks.
use crate::format::Format;
use crate::refusal::Refusal;

/// The most octets of a recording, and of one that the report takes.
pub const LIMIT: usize = 16_777_215;
pub const REPORT_LIMIT: usize = 65_536;

/// Octets of the longest packed core, type 8's.
const LONGEST_CORE: usize = 60;

/// Numbers of the longest sheet, mode 8's.
const LONGEST_SHEET: usize = 477;

/// The type of a SID frame.
pub const SID: u64 = 9;

/// The reception classes of lost and of empty frames.
const LOST: u64 = 6;
const EMPTY: u64 = 7;

#[repr(C)]
struct Answer {
    refusal: u64,
    frame: u64,
    octet: u64,
    frames: u64,
    octets: u64,
}

#[repr(C)]
struct Joined {
    refusal: u64,
    frame: u64,
    octet: u64,
    recording: u64,
    frames: u64,
    octets: u64,
}

#[repr(C)]
struct View {
    refusal: u64,
    frame: u64,
    octet: u64,
    end: u64,
    frame_type: u64,
    quality: u64,
    indication: u64,
    request: u64,
    _core_octets: u64,
    offset: u64,
    number: u64,
    class: u64,
}

#[repr(C)]
struct CountsAnswer {
    refusal: u64,
    frame: u64,
    octet: u64,
    counts: Counts,
}

/// Octets and frames of a recording, and its frames by class.
#[repr(C)]
#[derive(Default)]
pub struct Counts {
    pub octets: u64,
    pub frames: u64,
    pub speech: u64,
    pub comfort: u64,
    pub lost: u64,
    pub empty: u64,
}

#[repr(C)]
struct SheetAnswer {
    refusal: u64,
    frame: u64,
    octet: u64,
    sheet: Sheet,
}

/// The mode of a sheet, and how many numbers it has.
#[repr(C)]
pub struct Sheet {
    pub mode: u64,
    pub numbers: u64,
}

#[link(name = "level_three", kind = "static")]
extern "C" {
    fn amrwb_validate(format: u64, rec: *const u8, len: usize) -> Answer;
    fn amrwb_convert(from: u64, to: u64, request: u64, rec: *const u8, len: usize, out: *mut u8, out_len: usize) -> Answer;
    fn amrwb_convert_length(from: u64, to: u64, request: u64, rec: *const u8, len: usize) -> Answer;
    fn amrwb_merge(format: u64, a: *const u8, a_len: usize, b: *const u8, b_len: usize, out: *mut u8, out_len: usize) -> Joined;
    fn amrwb_view_open(format: u64, rec: *const u8, len: usize) -> View;
    fn amrwb_view_next(format: u64, offset: u64, number: u64, rec: *const u8, len: usize, core: *mut u8, core_len: usize) -> View;
    fn amrwb_report(rec: *const u8, len: usize) -> CountsAnswer;
    fn amrwb_sheet_read(text: *const u8, len: usize, numbers: *mut u16, numbers_len: usize) -> SheetAnswer;
}

extern "C" {
    fn signal(number: i32, action: usize) -> usize;
}

fn accepted(number: u64, frame: u64, octet: u64) -> Result<(), Refusal> {
    match number {
        0 => Ok(()),
        _ => Err(Refusal { number, frame, octet }),
    }
}

/// The number of frames of a valid recording.
pub fn validate(format: Format, recording: &[u8]) -> Result<u64, Refusal> {
    let a = unsafe { amrwb_validate(format as u64, recording.as_ptr(), recording.len()) };
    accepted(a.refusal, a.frame, a.octet)?;
    Ok(a.frames)
}

/// A recording in another format.
pub fn convert(from: Format, to: Format, request: u64, recording: &[u8]) -> Result<Vec<u8>, Refusal> {
    let (from, to) = (from as u64, to as u64);
    let a = unsafe { amrwb_convert_length(from, to, request, recording.as_ptr(), recording.len()) };
    accepted(a.refusal, a.frame, a.octet)?;
    let mut out = vec![0; a.octets as usize];
    let a = unsafe { amrwb_convert(from, to, request, recording.as_ptr(), recording.len(), out.as_mut_ptr(), out.len()) };
    accepted(a.refusal, a.frame, a.octet)?;
    Ok(out)
}

/// Two recordings merged: frames and octets of the result. A refusal comes with the recording that it concerns, 0 the first, 1 the second; 0
/// also where it concerns the result.
pub fn merge(format: Format, a: &[u8], b: &[u8]) -> Result<(u64, Vec<u8>), (usize, Refusal)> {
    // each frame is one of theirs, so this is enough
    let mut out = vec![0; a.len() + b.len()];
    let m = unsafe { amrwb_merge(format as u64, a.as_ptr(), a.len(), b.as_ptr(), b.len(), out.as_mut_ptr(), out.len()) };
    accepted(m.refusal, m.frame, m.octet).map_err(|refusal| (m.recording as usize, refusal))?;
    out.truncate(m.octets as usize);
    Ok((m.frames, out))
}

/// The counts of a stored recording of at most 65,536 octets.
pub fn report(recording: &[u8]) -> Result<Counts, Refusal> {
    let a = unsafe { amrwb_report(recording.as_ptr(), recording.len()) };
    accepted(a.refusal, a.frame, a.octet)?;
    Ok(a.counts)
}

/// A sheet that is read from text. Its numbers are not kept.
pub fn sheet(text: &[u8]) -> Result<Sheet, Refusal> {
    let mut numbers = [0; LONGEST_SHEET];
    let a = unsafe { amrwb_sheet_read(text.as_ptr(), text.len(), numbers.as_mut_ptr(), numbers.len()) };
    accepted(a.refusal, a.frame, a.octet)?;
    Ok(a.sheet)
}

/// One frame of a recording: its place, its fields, and the number of its reception class, 1 to 7.
pub struct Frame {
    pub number: u64,
    pub offset: usize,
    pub end: usize,
    pub frame_type: u64,
    pub quality: u64,
    pub indication: u64,
    pub request: u64,
    pub class: u64,
}

impl Frame {
    pub fn is_gap(&self) -> bool {
        self.class == LOST || self.class == EMPTY
    }
}

/// The frames of a recording in turn. At a refused frame it stays, so the first refusal must end the walk.
pub struct Viewer<'a> {
    format: Format,
    recording: &'a [u8],
    offset: u64,
    number: u64,
}

impl<'a> Viewer<'a> {
    pub fn open(format: Format, recording: &'a [u8]) -> Result<Viewer<'a>, Refusal> {
        let v = unsafe { amrwb_view_open(format as u64, recording.as_ptr(), recording.len()) };
        accepted(v.refusal, v.frame, v.octet)?;
        Ok(Viewer { format, recording, offset: v.offset, number: v.number })
    }

    /// The next frame; none at the end.
    pub fn next(&mut self) -> Result<Option<Frame>, Refusal> {
        let mut core = [0; LONGEST_CORE];
        let (rec, len) = (self.recording.as_ptr(), self.recording.len());
        let v = unsafe { amrwb_view_next(self.format as u64, self.offset, self.number, rec, len, core.as_mut_ptr(), core.len()) };
        accepted(v.refusal, v.frame, v.octet)?;
        if v.end == 1 {
            return Ok(None);
        }
        let frame = Frame {
            number: self.number,
            offset: self.offset as usize,
            end: v.offset as usize,
            frame_type: v.frame_type,
            quality: v.quality,
            indication: v.indication,
            request: v.request,
            class: v.class,
        };
        (self.offset, self.number) = (v.offset, v.number);
        Ok(Some(frame))
    }
}

/// Lets a write beyond the limit of a file's size (ulimit -f) fail like any other. Else the signal ends the program, and what it was
/// writing stays behind.
pub fn report_file_size_limit() {
    const SIGXFSZ: i32 = 25;
    const IGNORE: usize = 1;
    unsafe { signal(SIGXFSZ, IGNORE) };
}
