//! Compares level three's link with a plain Rust one (link.rs) on the same frames, and prints Markdown.
//!   bench_three [--runs N]    at least 9 runs
//!   bench_three --check       no times: both join and split frames alike
#[allow(dead_code)]
mod baseline;
mod bench_link;
mod link;
mod measure;

#[link(name = "level_three", kind = "static")]
extern "C" {}

fn usage() -> ! {
    println!("bench_three [--runs N], N at least 9, or bench_three --check");
    std::process::exit(2)
}

fn main() {
    let mut args = std::env::args().skip(1);
    let mut runs = 301; // a run is short: a fifth of a millisecond
    while let Some(arg) = args.next() {
        match &arg[..] {
            "--check" => {
                bench_link::check();
                println!("the library and the baseline join and split frames alike");
                return;
            }
            "--runs" => runs = args.next().and_then(|n| n.parse().ok()).filter(|n| *n >= 9).unwrap_or_else(|| usage()),
            _ => usage(),
        }
    }
    bench_link::compare(runs);
}
