//! Compares the library's conversion with a plain Rust one (baseline.rs, its CRC by bits) on the same recordings, and its codec order with
//! a plain Rust one (order.rs) on the same frames, and prints Markdown.
//!   bench [--runs N] [kind ..]    kinds: mixed, runs, a speech mode 0 to 8, linear, order; at least 9 runs
//!   bench --check                 no times: both convert short recordings of every kind, and order frames of every mode, alike
mod baseline;
mod bench_order;
mod measure;
mod order;

use baseline::{convert, Bitwise, Format, Table, HEADER, IF1, LIMIT, STORED};
use measure::{best_median, nanoseconds, random, Answer};
use std::hint::black_box;

#[link(name = "level_two", kind = "static")]
extern "C" {
    fn amrwb_validate(format: u64, rec: *const u8, len: usize) -> Answer;
    fn amrwb_convert(from: u64, to: u64, request: u64, rec: *const u8, len: usize, out: *mut u8, out_len: usize) -> Answer;
    fn amrwb_convert_length(from: u64, to: u64, request: u64, rec: *const u8, len: usize) -> Answer;
}

const FORMATS: [Format; 3] = [Format::If1, Format::If2, Format::Stored];
const KINDS: [&str; 5] = ["mixed", "runs", "0", "2", "8"];
const TYPES: [usize; 12] = [0, 1, 2, 3, 4, 5, 6, 7, 8, 9, 14, 15];
const REQUEST: u8 = 2;

/// A stored recording that takes at most so many octets, in IF1 too, which is the longest: frames of all types by chance (mixed), the
/// same in runs of 50 frames of one type (runs), or one speech mode.
fn stored(kind: &str, most: usize) -> Vec<u8> {
    let fill = [4, 7, 3, 3, 3, 3, 3, 3, 3, 0, 0, 0, 0, 0, 0, 0];
    let mut state = 0x9E37_79B9_7F4A_7C15;
    let mut rec = HEADER.to_vec();
    let mut if1 = 0;
    let mut t = kind.parse().unwrap_or(0);
    for i in 0.. {
        let x = random(&mut state);
        if kind == "mixed" || kind == "runs" && i % 50 == 0 {
            t = TYPES[(x >> 33) as usize % TYPES.len()];
        }
        if1 += IF1[t] as usize;
        if if1 > most || rec.len() + STORED[t] as usize > most {
            break;
        }
        rec.push((t as u8) << 3 | (x >> 20 & 1) as u8 * 4);
        for _ in 1..STORED[t] {
            rec.push(random(&mut state) as u8);
        }
        if let (0..=9, Some(last)) = (t, rec.last_mut()) {
            *last = *last >> fill[t] << fill[t];
            if t == 9 {
                *last = *last & 0xF0 | (x % 9) as u8;
            }
        }
    }
    rec
}

/// The same recording in each format, and its number of frames.
fn recordings(kind: &str, most: usize) -> ([Vec<u8>; 3], usize) {
    let rec = stored(kind, most);
    let mut frames = 0;
    let all = FORMATS.map(|to| {
        let mut out = vec![0; most];
        let done = convert::<Table>(Format::Stored, to, REQUEST, &rec, &mut out).expect("a right recording");
        frames = done.frames;
        out.truncate(done.octets);
        out
    });
    (all, frames)
}

fn library(from: Format, to: Format, rec: &[u8], out: &mut [u8]) -> Answer {
    unsafe { amrwb_convert(from as u64, to as u64, REQUEST as u64, rec.as_ptr(), rec.len(), out.as_mut_ptr(), out.len()) }
}

fn name(format: Format) -> &'static str {
    match format {
        Format::If1 => "IF1",
        Format::If2 => "IF2",
        Format::Stored => "stored",
    }
}

/// Whether both give the same octets and counts, and the library's other calls for recordings the same counts.
fn same(from: Format, to: Format, rec: &[u8]) -> bool {
    let mut want = vec![0xA7; LIMIT.min(2 * rec.len() + 64)];
    let mut got = want.clone();
    let done = convert::<Bitwise>(from, to, REQUEST, rec, &mut want).expect("a right recording");
    let (frames, octets) = (done.frames as u64, done.octets as u64);
    let length = unsafe { amrwb_convert_length(from as u64, to as u64, REQUEST as u64, rec.as_ptr(), rec.len()) };
    let valid = unsafe { amrwb_validate(from as u64, rec.as_ptr(), rec.len()) };
    let whole = library(from, to, rec, &mut got);
    whole.fields() == [0, 0, 0, frames, octets]
        && length.fields() == [0, 0, 0, frames, octets]
        && valid.fields() == [0, 0, 0, frames, 0]
        && got == want
}

/// Ends the program where a direction differs.
fn check(kind: &str, recs: &[Vec<u8>; 3]) {
    for (from, rec) in FORMATS.into_iter().zip(recs) {
        for to in FORMATS {
            if !same(from, to, rec) {
                println!("{kind}, {} to {}: the library and the baseline differ", name(from), name(to));
                std::process::exit(1);
            }
        }
    }
}

/// Library, baseline and memcpy in turn, all directions a run, so that a change of the machine's speed affects all three and every direction. The
/// first two change places from run to run, since the first one finds the caches in another state.
fn compare(kind: &str, runs: usize) {
    let (recs, frames) = recordings(kind, LIMIT);
    check(kind, &recs);
    let title = if kind.parse::<u8>().is_ok() { format!("mode {kind}") } else { kind.to_string() };
    let [if1, if2, stored] = recs.each_ref().map(Vec::len);
    println!("### {title}\n\n{frames} frames, {if1} octets in IF1, {if2} in IF2, {stored} stored; {runs} runs; nanoseconds per frame.\n");
    println!("| direction | library best | median | baseline best | median | ratio of bests | of medians | memcpy best |");
    println!("|---|---|---|---|---|---|---|---|");
    let mut out = vec![0xA7; LIMIT];
    let mut times: Vec<[Vec<f64>; 3]> = vec![Default::default(); FORMATS.len() * FORMATS.len()];
    for run in 0..runs {
        let mut row = times.iter_mut();
        for (from, rec) in FORMATS.into_iter().zip(&recs) {
            for (to, times) in FORMATS.into_iter().zip(&mut row) {
                for side in [run % 2, 1 - run % 2] {
                    times[side].push(match side {
                        0 => nanoseconds(|| library(from, to, black_box(rec), black_box(&mut out))),
                        _ => nanoseconds(|| convert::<Bitwise>(from, to, REQUEST, black_box(rec), black_box(&mut out))),
                    });
                }
                times[2].push(nanoseconds(|| black_box(&mut out[..rec.len()]).copy_from_slice(black_box(rec))));
            }
        }
    }
    let mut row = times.into_iter();
    for from in FORMATS {
        for (to, times) in FORMATS.into_iter().zip(&mut row) {
            let [l, b, m] = times.map(best_median).map(|(best, median)| (best / frames as f64, median / frames as f64));
            println!(
                "| {} to {} | {:.2} | {:.2} | {:.2} | {:.2} | {:.2} | {:.2} | {:.2} |",
                name(from), name(to), l.0, l.1, b.0, b.1, l.0 / b.0, l.1 / b.1, m.0
            );
        }
    }
    println!();
}

/// The library's time per frame must not grow with the recording.
fn linear_cost(runs: usize) {
    let sizes = [LIMIT / 16, LIMIT / 4, LIMIT].map(|most| recordings("mixed", most));
    println!("### Linear cost\n\nMixed frames; best nanoseconds per frame of the library in {runs} runs.\n");
    println!("| direction | 1 MB | 4 MB | 16 MB |\n|---|---|---|---|");
    let mut out = vec![0xA7; LIMIT];
    let mut best = [[f64::INFINITY; 3]; 9];
    for _ in 0..runs {
        for (i, from) in FORMATS.into_iter().enumerate() {
            for (k, to) in FORMATS.into_iter().enumerate() {
                for (best, (recs, frames)) in best[3 * i + k].iter_mut().zip(&sizes) {
                    let time = nanoseconds(|| library(from, to, black_box(&recs[i]), black_box(&mut out)));
                    *best = best.min(time / *frames as f64);
                }
            }
        }
    }
    for (i, from) in FORMATS.into_iter().enumerate() {
        for (k, to) in FORMATS.into_iter().enumerate() {
            let [one, four, sixteen] = best[3 * i + k];
            println!("| {} to {} | {one:.2} | {four:.2} | {sixteen:.2} |", name(from), name(to));
        }
    }
    println!();
}

/// No times: ends the program where the two differ.
fn check_all() {
    for kind in KINDS {
        for most in [9, 100, 1_000, 100_000, 1_000_000] {
            check(kind, &recordings(kind, most).0);
        }
    }
    bench_order::check();
    println!("the library and the baseline convert and order alike");
}

fn usage() -> ! {
    println!("bench [--runs N] [mixed | runs | 0 to 8 | linear | order ..], N at least 9, or bench --check");
    std::process::exit(2)
}

fn main() {
    let mut args = std::env::args().skip(1);
    let mut runs = 31;
    let mut kinds = Vec::new();
    while let Some(arg) = args.next() {
        match &arg[..] {
            "--check" => return check_all(),
            "--runs" => runs = args.next().and_then(|n| n.parse().ok()).filter(|n| *n >= 9).unwrap_or_else(|| usage()),
            "mixed" | "runs" | "0" | "1" | "2" | "3" | "4" | "5" | "6" | "7" | "8" | "linear" | "order" => kinds.push(arg),
            _ => usage(),
        }
    }
    if kinds.is_empty() {
        kinds = KINDS.into_iter().chain(["linear", "order"]).map(String::from).collect();
    }
    for kind in kinds {
        match &kind[..] {
            "linear" => linear_cost(runs),
            "order" => bench_order::compare(runs),
            _ => compare(&kind, runs),
        }
    }
}
