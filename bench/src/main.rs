//! How long the calls take: the proved store beside a plain Rust program, and on larger and larger cards.
//!
//!     tools/staticlib && cargo run --release --manifest-path bench/Cargo.toml
//!
//! First the stores are compared on damaged cards, in histories of calls and on cards of gaps (alone: with the
//! argument `agree`, and a count of damaged cards). Then come lines `ratio CALL CARD NUMBER`, our time / the
//! plain program's, for
//!
//! - a: 1 MiB full of files of room 0, in directories of 1,024 slots;
//! - b: 1 MiB with about a thousand files of at most some KB;
//! - c: a typical card of 64 KiB, about a hundred files of some hundred bytes;
//! - d: 256 bytes, the root and a file;
//! - e: 1 MiB with 60 directories of 1,024 slots, one file in each (the checks and list only);
//! - f: 1 MiB of small files, each second one's room free: some thousand gaps;
//! - g: 1 MiB full of files of room 0 with names of 64 bytes below 80 (the checks, find and list only);
//! - h: the same with names of 61 to 64 bytes, all of characters of two, three and four bytes;
//!
//! lines `ratio check/lean CARD NUMBER`, our time / that of a tuned check, for which there is no target;
//! lines `growth CALL NUMBER`, the time for a unit on a full card of 1 MiB / that on one of 64 KiB; and the
//! targets. Each time is the least of some samples, taken in turn.
//!
//! `bench/instructions` counts instructions instead, by `--count CALL CARD ours|plain|lean`.

mod agree;
mod builder;
mod count;
mod job;
mod lean;
mod measure;
mod ours;
mod plain;
mod report;
mod scene;
mod store;

fn main() {
    let arguments: Vec<String> = std::env::args().skip(1).collect();
    let arguments: Vec<&str> = arguments.iter().map(String::as_str).collect();
    match arguments[..] {
        [] => {
            agree::agree(agree::CARDS);
            scene::cards().iter().chain(&scene::growing()).for_each(agree::same_calls);
            report::report();
        }
        ["agree"] => agree::agree(agree::CARDS),
        ["agree", cards] => agree::agree(cards.parse().expect("a count of cards")),
        ["--count", call, card, store] => count::count(call, card, store),
        _ => panic!("no argument, agree [CARDS], or --count CALL CARD ours|plain|lean"),
    }
}
