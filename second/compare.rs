//! Compares the compiled, proved libraries of all three levels with the second program: the answer, every lent octet (buffers hold a
//! pattern before the call) and the next state of the consoles or the link. Each input is handed to every level that has the call.
//!     compare CALLS SEED                 until so many calls are compared, a quarter of them the link's
//!     compare --seconds SECONDS [SEED]   for so many seconds; without a seed, by the clock's
mod compare_consoles;
mod compare_frames;
mod compare_links;
mod compare_merges;
mod compare_order;
mod compare_recordings;
mod compare_reports;
mod compare_sheets;
mod compare_views;
mod consoles;
mod frame;
mod library;
mod link;
mod merge;
mod order;
mod printed;
mod printed_subflows;
mod random;
mod random_frames;
mod random_links;
mod random_merges;
mod random_recordings;
mod random_sheets;
mod reception;
mod recording;
mod report;
mod sheet;
mod tally;
mod view;

use compare_consoles::ConsoleLists;
use compare_links::Links;
use compare_merges::Merges;
use compare_views::Views;
use order::Order;
use random::Random;
use std::time::{Duration, Instant, SystemTime, UNIX_EPOCH};
use tally::Tally;

/// How long to go on, and the seed of what is drawn.
struct Arguments {
    calls: u64,
    time: Duration,
    seed: u64,
}

fn arguments() -> Option<Arguments> {
    let words: Vec<String> = std::env::args().skip(1).collect();
    let timed = words.first().is_some_and(|word| word == "--seconds");
    let numbers: Vec<u64> = words[timed as usize..].iter().map(|word| word.parse().ok()).collect::<Option<_>>()?;
    match (timed, &numbers[..]) {
        (false, [calls, seed]) => Some(Arguments { calls: *calls, time: Duration::ZERO, seed: *seed }),
        (true, [seconds]) => Some(Arguments { calls: 0, time: Duration::from_secs(*seconds), seed: clock() }),
        (true, [seconds, seed]) => Some(Arguments { calls: 0, time: Duration::from_secs(*seconds), seed: *seed }),
        _ => None,
    }
}

/// Seconds since 1970.
fn clock() -> u64 {
    SystemTime::now().duration_since(UNIX_EPOCH).map_or(0, |time| time.as_secs())
}

/// What is drawn, and what came of it.
struct Comparison {
    g: Random,
    tally: Tally,
    order: Order,
    merges: Merges,
    views: Views,
    consoles: ConsoleLists,
    links: Links,
}

impl Comparison {
    fn new(seed: u64) -> Comparison {
        Comparison {
            g: Random::new(seed),
            tally: Tally::default(),
            order: Order::new(),
            merges: Merges::default(),
            views: Views::default(),
            consoles: ConsoleLists::new(),
            links: Links::new(),
        }
    }

    /// One input by chance, in every level that has its call; true where all agree.
    fn compare(&mut self) -> bool {
        let (g, tally) = (&mut self.g, &mut self.tally);
        match g.below(42) {
            0..=2 => compare_frames::compare_read(g, tally),
            3..=5 => compare_frames::compare_build(g, tally),
            6 => compare_frames::compare_class(g, tally),
            7..=10 => compare_recordings::compare(g, tally),
            11..=13 => compare_order::compare(g, tally, &self.order),
            14 => compare_sheets::compare(g, tally),
            15 => self.views.compare(g, tally),
            16 => compare_reports::compare(g, tally),
            17..=19 => self.consoles.compare(g, tally),
            20..=21 => self.merges.compare(g, tally),
            _ => self.links.compare(g, tally),
        }
    }

    /// Cases of the papers, sheets with something wrong everywhere, a real encoder's frames, and the length limits; true where all agree.
    fn compare_fixed(&mut self) -> bool {
        let tally = &mut self.tally;
        Links::new().compare_fixed(tally)
            && ConsoleLists::new().compare_fixed(tally)
            && compare_sheets::compare_fixed(tally)
            && compare_order::compare_encoder(tally, &self.order)
            && compare_reports::compare_limits(tally)
            && compare_recordings::compare_limits(tally)
            && compare_merges::compare_fixed(tally)
            && self.views.compare_limits(tally)
    }

    /// Prints what came; false where the answers are not all the possible ones, or some kind of input never came.
    fn show(&self) -> bool {
        self.tally.show() & self.merges.show() & self.views.show() & self.consoles.show() & self.links.show() & self.g.show()
    }
}

fn main() {
    let Some(arguments) = arguments() else {
        println!("compare CALLS SEED, or compare --seconds SECONDS [SEED]");
        std::process::exit(2);
    };
    let (calls, seed) = (arguments.calls, arguments.seed);
    println!("seed {seed}");
    let start = Instant::now();
    let mut comparison = Comparison::new(seed);
    let mut same = true;
    while same && (comparison.tally.total() < calls || comparison.tally.links() < calls / 4 || start.elapsed() < arguments.time) {
        same = comparison.compare();
    }
    // long calls: only where the others agree
    same = same && comparison.compare_fixed();
    let total = comparison.tally.total();
    if !same {
        println!("a library and the second program differ: seed {seed}, call {total}; again by: compare {total} {seed}");
        std::process::exit(1);
    }
    // a short run by time need not have everything
    if !comparison.show() && arguments.time.is_zero() {
        println!("some answer or kind of input never came (then the calls are too few), or an answer that its call cannot give");
        std::process::exit(1);
    }
    println!("the libraries and the second program agree on {total} calls, also at the length limits and on a real encoder's bit order");
}
