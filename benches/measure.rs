//! What the benchmarks share: the C answer, numbers by chance, and times.
use std::hint::black_box;
use std::time::Instant;

#[repr(C)]
pub struct Answer {
    refusal: u64,
    frame: u64,
    octet: u64,
    frames: u64,
    octets: u64,
}

impl Answer {
    pub fn fields(&self) -> [u64; 5] {
        [self.refusal, self.frame, self.octet, self.frames, self.octets]
    }
}

pub fn random(state: &mut u64) -> u64 {
    *state ^= *state << 13;
    *state ^= *state >> 7;
    *state ^= *state << 17;
    *state
}

pub fn nanoseconds<T>(f: impl FnOnce() -> T) -> f64 {
    let start = Instant::now();
    black_box(f());
    start.elapsed().as_nanos() as f64
}

/// The best and the median of some times.
pub fn best_median(mut times: Vec<f64>) -> (f64, f64) {
    times.sort_by(f64::total_cmp);
    (times[0], times[times.len() / 2])
}

/// The columns that `in_turn` fills.
pub const COLUMNS: &str = "library best | median | baseline best | median | ratio of bests | of medians";

/// Times the library (side 0) and the baseline (side 1) in turn, over so many frames, and gives nanoseconds per frame. The two change
/// places from run to run, since the first one finds the caches in another state.
pub fn in_turn<T>(runs: usize, frames: usize, mut side: impl FnMut(usize) -> T) -> String {
    let mut times: [Vec<f64>; 2] = Default::default();
    for run in 0..runs {
        for i in [run % 2, 1 - run % 2] {
            times[i].push(nanoseconds(|| side(i)));
        }
    }
    let [l, b] = times.map(best_median).map(|(best, median)| (best / frames as f64, median / frames as f64));
    format!("{:.2} | {:.2} | {:.2} | {:.2} | {:.2} | {:.2}", l.0, l.1, b.0, b.1, l.0 / b.0, l.1 / b.1)
}
