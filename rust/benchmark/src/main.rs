//! The proved store beside its peers.
//!
//! Without an argument: the workloads of the report's section VI on ours and on every peer. All answers are compared first, and with
//! `chip-rust` the rollback history after every rollback; a difference ends the program with status 1. Then lines `bench WORKLOAD PEER ns_ours ns_peer ratio`, nanoseconds for each call of the list and ours over
//! the peer's, and a line for each bar. In the list `block` a run of writes is one block on ours, and beside it stands ours by single WRITEs,
//! `ours-single`. Bars are aims of speed: one that is missed does not change the status. A peer that is missing is told, and the status is
//! then 1 at the end.
//!
//! `--growth`: how the cost of each call grows with L, F, P and the live frames, as a table with tabs.
//! `--replay LIST`, `--calls PEER`, `--full PEER PAGES`, `--level PEER TAGS`, `--falling PEER TAGS` and `--block`: what `rust/account` has
//! callgrind count.
#![deny(unsafe_code)]

mod block;
mod cases;
mod chip;
mod growth;
mod history;
mod latency;
mod peer;
mod plain;
mod random;
#[cfg(sqlite)]
#[allow(unsafe_code)]
mod sqlite;
mod table;
mod workload;

use cases::Target;
use chip::Chip;
use peer::{Paged, Peer};
use std::collections::BTreeMap;
use std::process::ExitCode;
use vcm::Store;
use workload::{Settings, Workload};

/// What `fine` and the counted cases run on.
const FINE: Settings = Settings {
    lines: 4096,
    frames: 64,
    pages: 512,
};

/// What `tight` runs on.
const TIGHT: Settings = Settings {
    frames: 256,
    pages: 4096,
    ..FINE
};

/// What `block` runs on.
const BLOCK: Settings = Settings {
    pages: 2048,
    ..FINE
};

/// Live frames and turns of the counted cases.
const LIVE: u32 = 32;
const TURNS: u32 = 12;

/// A short list on ours, for callgrind to count from `replay` on.
fn replay_list(list: &Workload) {
    let (warm, rest) = list.ops.split_at(list.warm);
    let mut store = peer::warmed::<Store>(list.settings, warm);
    peer::replay(&mut store, rest);
    println!("calls {}", rest.len());
}

/// Runs cases, for callgrind, and prints how many calls each has made.
fn counted(run: impl FnOnce(&mut dyn FnMut(&'static str, cases::Took))) {
    let mut counts = BTreeMap::new();
    run(&mut |name, (_, n)| *counts.entry(name).or_insert(0) += n);
    for (name, n) in counts {
        println!("{name} {n}");
    }
}

/// The cases of `--calls`.
fn calls<P: Peer>() {
    counted(|sink| cases::all::<P>(FINE, LIVE, TURNS, sink));
}

/// The cases of `--full`, with so many pages.
fn full<P: Paged>(pages: &str) {
    let pages = pages.parse().expect("a number of pages");
    let settings = Settings { pages, ..FINE };
    counted(|sink| cases::full::<P>(settings, LIVE, TURNS, sink));
}

/// The rollbacks of `--level` and `--falling`, with so many tags in use.
fn with_tags<P: Peer>(target: Target, tags: &str) {
    let tags = tags.parse().expect("a number of tags");
    counted(|sink| cases::with_tags::<P>(FINE, LIVE, TURNS, target, tags, sink));
}

/// The writes of a short `block`, by the block call and singly.
fn blocks() {
    let list = workload::block(BLOCK, 20_000);
    counted(|sink| block::counted(&list, sink));
}

fn main() -> ExitCode {
    let words: Vec<String> = std::env::args().skip(1).collect();
    let words: Vec<&str> = words.iter().map(String::as_str).collect();
    match words[..] {
        [] => {
            if let Err(words) = table::run() {
                eprintln!("bench: {words}");
                return ExitCode::FAILURE;
            }
        }
        ["--growth"] => growth::run(),
        ["--replay", "fine"] => replay_list(&workload::report("fine", FINE, 20, 20_000)),
        ["--replay", "tight"] => replay_list(&workload::tight(TIGHT, 20_000)),
        ["--calls", "ours"] => calls::<Store>(),
        ["--calls", "chip-rust"] => calls::<Chip>(),
        ["--full", "ours", pages] => full::<Store>(pages),
        ["--full", "chip-rust", pages] => full::<Chip>(pages),
        ["--level", "ours", tags] => with_tags::<Store>(Target::Level, tags),
        ["--level", "chip-rust", tags] => with_tags::<Chip>(Target::Level, tags),
        ["--falling", "ours", tags] => with_tags::<Store>(Target::Falling, tags),
        ["--falling", "chip-rust", tags] => with_tags::<Chip>(Target::Falling, tags),
        ["--block"] => blocks(),
        _ => {
            eprintln!("usage: bench [--growth | --replay fine|tight | --calls ours|chip-rust | --full ours|chip-rust PAGES | --level|--falling ours|chip-rust TAGS | --block]");
            return ExitCode::FAILURE;
        }
    }
    ExitCode::SUCCESS
}
