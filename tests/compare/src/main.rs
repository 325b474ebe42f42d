//! Runs random histories through the store's static library and through a model of the written rules, and
//! compares every answer, every lent number and buffer, and every byte of the image. Beside the model stands the
//! book, which says what the accepted calls say: the listing, every find and every read must show it.
//!
//! Before the histories come fixed cases, images that break a rule, names at the edges of UTF-8, directories
//! of names that are alike, cards full of blocks and of files, and cards full of gaps.
//!
//! Arguments: the number of histories, and the seed of the first; each further history has the next seed.
//! A third argument, 1, prints every seed and call before it is run.
//!
//! With the one argument `show` the model prints the listing of the image that standard input gives.

mod alike;
mod bench;
mod book;
mod broken;
mod builder;
mod call;
mod compare;
mod coverage;
mod crowded;
mod damage;
mod foreign;
mod full;
mod gaps;
mod heaps;
mod history;
mod judge;
mod library;
mod model;
mod names;
mod pick;
mod random;
mod scatter;
mod scene;
mod shown;
mod story;
mod utf8;

use coverage::Coverage;
use model::list::{show, LONGEST_SHOWN};
use std::io::{self, Read, Write};
use std::process::ExitCode;
use std::time::Instant;

const HISTORIES: u64 = 2000;
const FAILURES_SHOWN: u64 = 20;

fn argument(position: usize, otherwise: u64) -> u64 {
    match std::env::args().nth(position) {
        Some(text) => text.parse().unwrap_or_else(|_| panic!("not a number: {text}")),
        None => otherwise,
    }
}

fn show_input() -> io::Result<()> {
    let mut card = Vec::new();
    io::stdin().take(LONGEST_SHOWN as u64 + 1).read_to_end(&mut card)?;
    io::stdout().write_all(&show(&card))
}

fn main() -> ExitCode {
    if std::env::args().nth(1).as_deref() == Some("show") {
        show_input().unwrap_or_else(|what| panic!("{what}"));
        return ExitCode::SUCCESS;
    }
    run_histories()
}

/// What is run however many histories there are; tells how many of its parts failed.
fn run_fixed(coverage: &mut Coverage, seed: u64, tell: bool) -> u64 {
    let [mut crowds, mut heaps, mut fulls] = [(); 3].map(|_| Coverage::default());
    let (mut names, mut gaps) = (utf8::Tally::default(), gaps::Tally::default());
    let mut failed = 0;
    for (title, verdict) in [
        ("worked cases", bench::run(coverage)),
        ("broken images", broken::run()),
        ("UTF-8", utf8::run(&mut names, tell)),
        ("like names", crowded::run(seed, &mut crowds, tell)),
        ("heaps of blocks", heaps::run(seed, &mut heaps, tell)),
        ("full cards", full::run(seed, &mut fulls, tell)),
        ("gaps", gaps::run(seed, &mut gaps, tell)),
    ] {
        if let Err(what) = verdict {
            println!("{title}: {what}");
            failed += 1;
        }
    }
    names.print_short("UTF-8");
    crowds.print_short("like names");
    heaps.print_short("heaps of blocks");
    fulls.print_short("full cards");
    gaps.print_short("gaps");
    failed
}

fn run_histories() -> ExitCode {
    let (count, first, tell) = (argument(1, HISTORIES), argument(2, 1), argument(3, 0) == 1);
    let started = Instant::now();
    let mut coverage = Coverage::default();
    let mut failed = run_fixed(&mut coverage, first, tell);
    let worked = failed;
    for seed in first..first.saturating_add(count) {
        if tell {
            println!("seed {seed}");
        }
        if let Err(what) = history::run(seed, &mut coverage, tell) {
            failed += 1;
            if failed <= FAILURES_SHOWN {
                println!("seed {seed}, {what}");
            }
        }
    }
    coverage.print();
    let seconds = started.elapsed().as_secs_f64();
    println!(
        "seeds from {first}; {:.1} s, {:.0} calls a second",
        seconds,
        coverage.calls_in_all() as f64 / seconds
    );
    println!("{} passed, {failed} failed", count + worked - failed);
    ExitCode::from(u8::from(failed > 0))
}
