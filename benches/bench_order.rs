//! Compares the library's codec order with the plain Rust one of order.rs.
use crate::measure::{in_turn, random, Answer, COLUMNS};
use crate::order::{packed, to_core, to_row, BITS};
use std::hint::black_box;

extern "C" {
    fn amrwb_order_to_core(mode: u64, sheet: *const u16, sheet_len: usize, row: *const u8, row_len: usize, core: *mut u8, core_len: usize) -> Answer;
    fn amrwb_order_to_row(mode: u64, sheet: *const u16, sheet_len: usize, core: *const u8, core_len: usize, row: *mut u8, row_len: usize) -> Answer;
}

const FRAMES: usize = 4000;

/// The modes that are measured: those with a table of their own, and the longest by a sheet.
const MODES: [u64; 6] = [0, 1, 2, 3, 4, 8];

/// One of the two calls, of the library or of the baseline: mode, sheet, input and buffer, and the answer's fields.
type Call = fn(u64, &[u16], &[u8], &mut [u8]) -> [u64; 5];

/// A direction's name, the library's call and the baseline's.
const DIRECTIONS: [(&str, Call, Call); 2] = [
    ("row to core", library_to_core, |mode, sheet, row, core| answer(to_core(mode, sheet, row, core))),
    ("core to row", library_to_row, |mode, sheet, core, row| answer(to_row(mode, sheet, core, row))),
];

fn library_to_core(mode: u64, sheet: &[u16], row: &[u8], core: &mut [u8]) -> [u64; 5] {
    unsafe { amrwb_order_to_core(mode, sheet.as_ptr(), sheet.len(), row.as_ptr(), row.len(), core.as_mut_ptr(), core.len()) }.fields()
}

fn library_to_row(mode: u64, sheet: &[u16], core: &[u8], row: &mut [u8]) -> [u64; 5] {
    unsafe { amrwb_order_to_row(mode, sheet.as_ptr(), sheet.len(), core.as_ptr(), core.len(), row.as_mut_ptr(), row.len()) }.fields()
}

/// The baseline's answer as the library gives it.
fn answer(done: Result<usize, u8>) -> [u64; 5] {
    match done {
        Ok(octets) => [0, 0, 0, 0, octets as u64],
        Err(number) => [number as u64, 0, 0, 0, 0],
    }
}

/// Rows of so many frames, joined.
fn rows(bits: usize, frames: usize) -> Vec<u8> {
    let mut state = 0x9E37_79B9_7F4A_7C15;
    (0..bits * frames).map(|_| (random(&mut state) >> 40 & 1) as u8).collect()
}

/// A sheet with each number once, since 7 divides no K.
fn right_sheet(bits: usize) -> Vec<u16> {
    (0..bits).map(|j| (7 * j % bits) as u16).collect()
}

/// A right sheet, none, one of another length, and ones that lack a number.
fn sheets(bits: usize) -> Vec<Vec<u16>> {
    let right = right_sheet(bits);
    let with = |number: usize| [&right[..bits - 1], &[number as u16]].concat();
    vec![Vec::new(), right[1..].to_vec(), with(0), with(bits), with(65535), right]
}

/// Every frame of an input into its place of an output.
fn all(call: Call, mode: u64, sheet: &[u16], input: &[u8], len: usize, output: &mut [u8], out_len: usize) -> [u64; 5] {
    let mut last = [0; 5];
    for (input, output) in input.chunks_exact(len).zip(output.chunks_exact_mut(out_len)) {
        last = black_box(call(mode, sheet, input, output));
    }
    last
}

/// Ends the program where both calls differ in the answer or in an octet of the buffer.
fn same(direction: (&str, Call, Call), mode: u64, sheet: &[u16], input: &[u8], room: usize) -> Vec<u8> {
    let mut got = vec![0xA7; room];
    let mut want = got.clone();
    if direction.1(mode, sheet, input, &mut got) != direction.2(mode, sheet, input, &mut want) || got != want {
        let (name, octets) = (direction.0, input.len());
        println!("{name}, mode {mode}, sheet {sheet:?}, {octets} octets into {room}: the library and the baseline differ");
        std::process::exit(1);
    }
    want
}

/// Frames of every mode and of modes out of range, right, with wrong sheets, values, lengths and filling, and into short buffers.
pub fn check() {
    for mode in (0..=9).chain([256, u64::MAX]) {
        let bits = BITS[mode.min(8) as usize];
        sheets(bits).iter().for_each(|sheet| check_by(mode, sheet, bits));
    }
}

fn check_by(mode: u64, sheet: &[u16], bits: usize) {
    let octets = packed(bits);
    for row in rows(bits, 20).chunks(bits) {
        let mut core = same(DIRECTIONS[0], mode, sheet, row, octets);
        same(DIRECTIONS[1], mode, sheet, &core, bits);
        core[octets - 1] = 0;
        for room in [0, bits - 1, bits, bits + 9] {
            same(DIRECTIONS[1], mode, sheet, &core, room);
        }
        same(DIRECTIONS[1], mode, sheet, &core[1..], bits);
        core[octets - 1] = 1;
        same(DIRECTIONS[1], mode, sheet, &core, bits);
    }
    let mut row = rows(bits, 1);
    for room in [0, octets - 1, octets + 9] {
        same(DIRECTIONS[0], mode, sheet, &row, room);
    }
    same(DIRECTIONS[0], mode, sheet, &row[1..], octets);
    row[bits - 1] = 2;
    same(DIRECTIONS[0], mode, sheet, &row, octets);
}

/// Library and baseline in turn, which change places from run to run, for each of the modes and each direction.
pub fn compare(runs: usize) {
    check();
    println!("### Codec order\n\n{FRAMES} frames of each mode, of mode 8 by a sheet; {runs} runs; nanoseconds per frame.\n");
    println!("| mode | direction | {COLUMNS} |\n|---|---|---|---|---|---|---|---|");
    for mode in MODES {
        let bits = BITS[mode as usize];
        let octets = packed(bits);
        let rows = rows(bits, FRAMES);
        let mut cores = vec![0; octets * FRAMES];
        all(DIRECTIONS[0].2, mode, &right_sheet(bits), &rows, bits, &mut cores, octets);
        measure(DIRECTIONS[0], mode, &rows, (bits, octets), runs);
        measure(DIRECTIONS[1], mode, &cores, (octets, bits), runs);
    }
    println!();
}

/// Prints a direction's row of the table. The sizes are a frame's octets in input and output. Modes 0 to 4 leave the sheet unread.
fn measure(direction: (&str, Call, Call), mode: u64, input: &[u8], sizes: (usize, usize), runs: usize) {
    let sheet = right_sheet(BITS[mode as usize]);
    let mut output = vec![0xA7; sizes.1 * FRAMES];
    let columns = in_turn(runs, FRAMES, |side| {
        let call = [direction.1, direction.2][side];
        all(call, mode, black_box(&sheet), black_box(input), sizes.0, black_box(&mut output), sizes.1)
    });
    println!("| {mode} | {} | {columns} |", direction.0);
}
