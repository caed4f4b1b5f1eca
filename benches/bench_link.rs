//! Compares the library's Up and Down with the plain Rust ones of link.rs.
use crate::baseline::{class_a, Bitwise, IF1};
use crate::link::{self, BITS};
use crate::measure::{in_turn, random, Answer, COLUMNS};
use std::hint::black_box;

/// The library's state, which a host only keeps between the calls.
#[repr(C)]
#[derive(Clone, Copy)]
struct State([u32; 24]);

#[repr(C)]
struct LinkAnswer {
    refusal: u64,
    frame: u64,
    octet: u64,
    link: State,
}

/// Refusal, frame, octet, FQC, RFCI, the octets of each sub-flow, whether a request is forwarded, and which.
type DownFields = [u64; 10];

#[repr(C)]
struct DownAnswer {
    fields: DownFields,
    link: State,
}

extern "C" {
    fn amrwb_link_fresh() -> State;
    fn amrwb_link_assign(link: State, rows: *const u64, rows_len: usize) -> LinkAnswer;
    fn amrwb_link_rate(link: State, mode: u64) -> LinkAnswer;
    fn amrwb_link_up(
        link: State, fqc: u64, rfci: u64, s1: *const u8, n1: usize, s2: *const u8, n2: usize, s3: *const u8, n3: usize, out: *mut u8,
        out_len: usize,
    ) -> Answer;
    fn amrwb_link_down(
        link: State, frame: *const u8, len: usize, s1: *mut u8, n1: usize, s2: *mut u8, n2: usize, s3: *mut u8, n3: usize,
    ) -> DownAnswer;
}

const FRAMES: usize = 4000;
const TYPES: [u8; 11] = [0, 1, 2, 3, 4, 5, 6, 7, 8, 9, 15];
const CLASS_A: [u64; 16] = [54, 64, 72, 72, 72, 72, 72, 72, 72, 40, 0, 0, 0, 0, 0, 0];
const REQUEST: u64 = 2;

/// Octets that every frame, and every sub-flow, fits into.
const ROOM: usize = 63;

// ---- the two sides

/// A link with a set and a stored request.
trait Side {
    fn new(rows: &[u64], request: u64) -> Self;
    fn up(&mut self, fqc: u64, rfci: u64, subflows: [&[u8]; 3], out: &mut [u8]) -> [u64; 5];
    fn down(&mut self, frame: &[u8], subflows: [&mut [u8]; 3]) -> DownFields;
}

struct Library(State);

impl Library {
    fn moved(answer: LinkAnswer) -> State {
        assert_eq!([answer.refusal, answer.frame, answer.octet], [0; 3]);
        answer.link
    }
}

impl Side for Library {
    fn new(rows: &[u64], request: u64) -> Library {
        let set = Library::moved(unsafe { amrwb_link_assign(amrwb_link_fresh(), rows.as_ptr(), rows.len()) });
        Library(Library::moved(unsafe { amrwb_link_rate(set, request) }))
    }

    fn up(&mut self, fqc: u64, rfci: u64, [s1, s2, s3]: [&[u8]; 3], out: &mut [u8]) -> [u64; 5] {
        let answer = unsafe {
            amrwb_link_up(
                self.0, fqc, rfci, s1.as_ptr(), s1.len(), s2.as_ptr(), s2.len(), s3.as_ptr(), s3.len(), out.as_mut_ptr(), out.len(),
            )
        };
        answer.fields()
    }

    fn down(&mut self, frame: &[u8], [s1, s2, s3]: [&mut [u8]; 3]) -> DownFields {
        let answer = unsafe {
            amrwb_link_down(
                self.0, frame.as_ptr(), frame.len(), s1.as_mut_ptr(), s1.len(), s2.as_mut_ptr(), s2.len(), s3.as_mut_ptr(), s3.len(),
            )
        };
        self.0 = answer.link;
        answer.fields
    }
}

impl Side for link::Link {
    fn new(rows: &[u64], request: u64) -> link::Link {
        let mut link = link::Link::default();
        link.assign(rows).and_then(|_| link.rate(request)).expect("a right set");
        link
    }

    fn up(&mut self, fqc: u64, rfci: u64, subflows: [&[u8]; 3], out: &mut [u8]) -> [u64; 5] {
        match link::Link::up(self, fqc, rfci, subflows, out) {
            Ok(octets) => [0, 0, 0, 0, octets as u64],
            Err(number) => [number as u64, 0, 0, 0, 0],
        }
    }

    fn down(&mut self, frame: &[u8], subflows: [&mut [u8]; 3]) -> DownFields {
        match link::Link::down(self, frame, subflows) {
            Ok(x) => {
                let [n1, n2, n3] = x.octets.map(|n| n as u64);
                let (forwarded, request) = (x.forwarded.is_some() as u64, x.forwarded.unwrap_or(0) as u64);
                [0, 0, 0, x.fqc as u64, x.rfci as u64, n1, n2, n3, forwarded, request]
            }
            Err(number) => [number as u64, 0, 0, 0, 0, 0, 0, 0, 0, 0],
        }
    }
}

// ---- input

/// How a core of so many bits, so many of them Class A, is split.
type Split = fn(u64, u64) -> [u64; 3];

/// Class A, Class B and nothing, as in TS 26.202's examples.
const CLASSES: Split = |bits, class_a| [class_a, bits - class_a, 0];

/// Three parts, the second and the third of which begin inside an octet.
const THIRDS: Split = |bits, _| if bits == 0 { [0; 3] } else { [bits / 3 + 2, bits / 3 + 1, bits - 2 * (bits / 3) - 3] };

/// A set with a combination for each type that may have one.
fn set(split: Split) -> Vec<u64> {
    let row = |ftype: u8| {
        let [size1, size2, size3] = split(BITS[ftype as usize] as u64, CLASS_A[ftype as usize]);
        [rfci(ftype), ftype as u64, size1, size2, size3]
    };
    TYPES.into_iter().flat_map(row).collect()
}

fn rfci(ftype: u8) -> u64 {
    ftype as u64 + 1
}

/// What a call of either direction is handed for one frame.
struct Sample {
    fqc: u64,
    rfci: u64,
    subflows: [Vec<u8>; 3],
    frame: Vec<u8>,
}

/// A right IF1 frame.
fn frame(state: &mut u64, ftype: u8, quality: u8, request: u8) -> Vec<u8> {
    let t = ftype as usize;
    let mut s: Vec<u8> = (0..IF1[t]).map(|_| (random(state) >> 32) as u8).collect();
    s[0] = ftype << 4 | quality << 3;
    if let (0..=9, Some(last)) = (ftype, s.last_mut()) {
        *last &= match ftype {
            // a SID frame's mode is up to 7
            9 => 0xF7,
            _ => !(0xFF >> (BITS[t] % 8)),
        };
        s[1] = if ftype == 9 { 0 } else { ftype << 4 } | request;
        s[2] = class_a::<Bitwise>(t, &s[3..]);
    }
    s
}

fn sample(rows: &[u64], frame: Vec<u8>, fqc: u64) -> Sample {
    let mut subflows = [[0; ROOM]; 3].map(Vec::from);
    let done = <link::Link as Side>::new(rows, 0).down(&frame, subflows.each_mut().map(Vec::as_mut_slice)).expect("a right frame");
    for (subflow, octets) in subflows.iter_mut().zip(done.octets) {
        subflow.truncate(octets);
    }
    Sample { fqc, rfci: done.rfci as u64, subflows, frame }
}

/// Good frames of one type with one request.
fn alike(rows: &[u64], ftype: u8, frames: usize) -> Vec<Sample> {
    let mut state = 0x9E37_79B9_7F4A_7C15;
    (0..frames).map(|_| sample(rows, frame(&mut state, ftype, 1, REQUEST as u8), 0)).collect()
}

/// Frames of all types, at times bad ones, and at times with another request than the one before.
fn mixed(rows: &[u64], frames: usize) -> Vec<Sample> {
    let mut state = 0x9E37_79B9_7F4A_7C15;
    let mut request = 0;
    let one = |_| {
        let x = random(&mut state) >> 8;
        if x % 8 == 0 {
            request = (x >> 8) as u8 % 9;
        }
        let ftype = TYPES[(x >> 16) as usize % TYPES.len()];
        let quality = ((x >> 32) % 8 != 0) as u8;
        let fqc = [1, 2, 2, 0, 0, 0, 0, 0, 0, 0, 0, 0, 0, 0, 0, 0][(x >> 40) as usize % 16];
        sample(rows, frame(&mut state, ftype, quality, request), fqc)
    };
    (0..frames).map(one).collect()
}

// ---- the same answers

/// Both links, which are handed the same calls.
struct Both {
    library: Library,
    baseline: link::Link,
}

impl Both {
    fn new(rows: &[u64]) -> Both {
        Both { library: Library::new(rows, REQUEST), baseline: Side::new(rows, REQUEST) }
    }

    /// Ends the program where the two differ in the answer or in an octet of the buffer.
    fn up(&mut self, fqc: u64, rfci: u64, subflows: [&[u8]; 3], room: usize) {
        let (mut got, mut want) = ([0xA7; 2 * ROOM], [0xA7; 2 * ROOM]);
        let answer = self.library.up(fqc, rfci, subflows, &mut got[..room]);
        let wanted = Side::up(&mut self.baseline, fqc, rfci, subflows, &mut want[..room]);
        if answer != wanted || got != want {
            differ(&format!("Up, FQC {fqc}, RFCI {rfci}, {subflows:02X?} into {room} octets"));
        }
    }

    fn down(&mut self, frame: &[u8], rooms: [usize; 3]) {
        let (mut got, mut want) = ([[0xA7; 2 * ROOM]; 3], [[0xA7; 2 * ROOM]; 3]);
        let answer = self.library.down(frame, lend(&mut got, rooms));
        let wanted = Side::down(&mut self.baseline, frame, lend(&mut want, rooms));
        if answer != wanted || got != want {
            differ(&format!("Down, {frame:02X?} into {rooms:?} octets"));
        }
    }
}

fn lend(buffers: &mut [[u8; 2 * ROOM]; 3], [n1, n2, n3]: [usize; 3]) -> [&mut [u8]; 3] {
    let [s1, s2, s3] = buffers;
    [&mut s1[..n1], &mut s2[..n2], &mut s3[..n3]]
}

fn differ(call: &str) -> ! {
    println!("{call}: the library and the baseline differ");
    std::process::exit(1)
}

/// Calls with a right frame, and with each thing that a call may refuse.
fn check_sample(both: &mut Both, x: &Sample) {
    let [s1, s2, s3] = x.subflows.each_ref().map(Vec::as_slice);
    let octets = [s1, s2, s3].map(<[u8]>::len);
    both.up(x.fqc, x.rfci, [s1, s2, s3], x.frame.len());
    both.down(&x.frame, octets);
    for fqc in [0, 1, 2, 3, 4, 256, u64::MAX] {
        for rfci in [x.rfci, 0, 63, 64, 256 + x.rfci, u64::MAX] {
            both.up(fqc, rfci, [s1, s2, s3], 2 * ROOM);
        }
        both.up(fqc, x.rfci, [s1, s2, s3], x.frame.len() - 1);
        both.up(fqc, x.rfci, [s3, s1, s2], ROOM);
        both.up(fqc, x.rfci, [s1, s2, &[0; 61]], ROOM);
    }
    for i in 0..3 {
        let mut wrong = x.subflows.clone();
        for low in [0x01, 0x0F] {
            if let Some(last) = wrong[i].last_mut() {
                *last |= low;
            }
            both.up(0, x.rfci, wrong.each_ref().map(Vec::as_slice), ROOM);
        }
        let mut rooms = octets;
        rooms[i] += 9;
        both.down(&x.frame, rooms);
        rooms[i] = octets[i].saturating_sub(1);
        both.down(&x.frame, rooms);
    }
    for i in 0..8 * x.frame.len() {
        let mut wrong = x.frame.clone();
        wrong[i / 8] ^= 128 >> (i % 8);
        both.down(&wrong, [ROOM; 3]);
        both.down(&x.frame[..i / 8], [ROOM; 3]);
        wrong.push(0);
        both.down(&wrong, [ROOM; 3]);
    }
}

/// No times: ends the program where the two differ.
pub fn check() {
    let borders: [Split; 7] = [
        CLASSES,
        THIRDS,
        |bits, _| [0, bits, 0],
        |bits, _| [0, 0, bits],
        |bits, _| [1.min(bits), 7.min(bits), bits.saturating_sub(8)],
        |bits, _| [9.min(bits), bits.saturating_sub(17), 8.min(bits)],
        |bits, _| [bits.saturating_sub(8), 7.min(bits), 1.min(bits)],
    ];
    for split in borders {
        let rows = set(split);
        let mut both = Both::new(&rows);
        for x in mixed(&rows, 100) {
            check_sample(&mut both, &x);
        }
    }
    // types that are not in the set
    let rows = set(CLASSES);
    let mut both = Both::new(&rows[15..30]);
    for x in mixed(&rows, 50) {
        check_sample(&mut both, &x);
    }
}

// ---- times

/// Up for every frame.
fn ups(side: &mut impl Side, samples: &[Sample], out: &mut [u8]) -> [u64; 5] {
    let mut last = [0; 5];
    for x in samples {
        last = black_box(side.up(x.fqc, x.rfci, x.subflows.each_ref().map(Vec::as_slice), out));
    }
    last
}

/// Down for every frame.
fn downs(side: &mut impl Side, samples: &[Sample], buffers: &mut [[u8; 2 * ROOM]; 3]) -> DownFields {
    let mut last = [0; 10];
    for x in samples {
        last = black_box(side.down(&x.frame, lend(buffers, [ROOM; 3])));
    }
    last
}

/// Prints a row of the table for each direction.
fn measure(title: &str, rows: &[u64], samples: &[Sample], runs: usize) {
    let Both { mut library, mut baseline } = Both::new(rows);
    let mut out = [0xA7; ROOM];
    let columns = in_turn(runs, samples.len(), |side| match side {
        0 => ups(&mut library, black_box(samples), black_box(&mut out)),
        _ => ups(&mut baseline, black_box(samples), black_box(&mut out)),
    });
    println!("| {title} | Up | {columns} |");
    let mut buffers = [[0xA7; 2 * ROOM]; 3];
    let columns = in_turn(runs, samples.len(), |side| match side {
        0 => downs(&mut library, black_box(samples), black_box(&mut buffers)),
        _ => downs(&mut baseline, black_box(samples), black_box(&mut buffers)),
    });
    println!("| {title} | Down | {columns} |");
}

fn heading(title: &str, first: &str, runs: usize) {
    println!("### {title}\n\n{FRAMES} frames, 11 combinations in the set; {runs} runs; nanoseconds per frame.\n");
    println!("| {first} | call | {COLUMNS} |\n|---|---|---|---|---|---|---|---|");
}

/// Library and baseline in turn, for each type and two ways to split it, and for frames of all types by chance.
pub fn compare(runs: usize) {
    check();
    let splits = [("Link, sub-flows by class", CLASSES), ("Link, sub-flows in thirds", THIRDS)];
    for (title, split) in splits {
        heading(title, "type, sub-flows", runs);
        let rows = set(split);
        for (ftype, row) in TYPES[..10].iter().zip(rows.chunks(5)) {
            let title = format!("{ftype}: {}, {}, {}", row[2], row[3], row[4]);
            measure(&title, &rows, &alike(&rows, *ftype, FRAMES), runs);
        }
        println!();
    }
    heading("Link, mixed frames", "sub-flows", runs);
    for (title, split) in [("by class", CLASSES), ("in thirds", THIRDS)] {
        let rows = set(split);
        measure(title, &rows, &mixed(&rows, FRAMES), runs);
    }
    println!();
}
