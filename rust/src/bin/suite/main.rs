//! The suite: the proved library against an independent plain store, an independent decision of well-formedness, and arbitrary
//! state and memory; and blocks of writes against the same writes sent singly. Its last line counts what was done; it is printed only
//! if all of it passed.
#![forbid(unsafe_code)]

mod arbitrary;
mod call;
mod collect;
mod damage;
mod edges;
mod memory;
mod plain;
mod ring;
mod ring_damage;
mod ring_edges;
mod rng;
mod rolled;
mod script;
mod side;
mod sizing;
mod spot;
mod stored;
mod tally;
mod wellformed;
mod world;
mod wrapper;
mod write_block;
mod wrote;

use std::panic::catch_unwind;
use std::process::ExitCode;
use tally::Tally;

/// How much of each part is done.
struct Size {
    is_small: bool,
    randoms: u32,
    wrapped: u32,
    runs: u32,
    steps: u32,
    worlds: u32,
    row: u32,
    blocks: u32,
}

const WHOLE: Size = Size {
    is_small: false,
    randoms: 100_000,
    wrapped: 1_000_000,
    runs: 120,
    steps: 100_000,
    worlds: 3_000,
    row: 24,
    blocks: 1_000,
};

/// For valgrind, which is slow.
const SMALL: Size = Size {
    is_small: true,
    randoms: 1_000,
    wrapped: 25_000,
    runs: 40,
    steps: 3_000,
    worlds: 150,
    row: 10,
    blocks: 40,
};

fn suite(size: Size) -> Result<Tally, String> {
    let mut all = Tally::default();
    let mut done = |name: &str, tally: &Tally| {
        println!("{name}: {tally}");
        all.add(tally);
    };
    done("sizing", &sizing::run(size.randoms)?);
    done("edges", &edges::run(size.is_small)?);
    done("wrapper", &wrapper::run(size.wrapped)?);
    done("side by side", &side::runs(size.runs, size.steps)?);
    let judge = arbitrary::run(size.worlds, size.row)?;
    println!("turned down by one clause alone: {}", judge.clauses()?);
    println!("{}", judge.stops.words()?);
    println!("{}", judge.finds.words()?);
    done("arbitrary", &judge.tally);
    let blocks = write_block::run(size.blocks)?;
    println!("in blocks, {}", blocks.finds.words()?);
    done("blocks", &blocks.tally);
    if !all.is_balanced() {
        return Err(format!("too few CHECKs say yes: {all}"));
    }
    if let Some(number) = (4..=14).find(|number| all.refusals[*number] == 0) {
        return Err(format!("refusal {number} never came"));
    }
    if all.sweeps == 0 {
        return Err("the tags never ran out".to_string());
    }
    Ok(all)
}

fn main() -> ExitCode {
    let is_small = std::env::args().skip(1).any(|word| word == "--small");
    let size = if is_small { SMALL } else { WHOLE };
    let result = catch_unwind(|| suite(size));
    match result.unwrap_or_else(|_| Err(format!("a panic at {}", spot::words()))) {
        Ok(tally) => {
            println!("{tally}");
            ExitCode::SUCCESS
        }
        Err(words) => {
            eprintln!("suite: {words}");
            ExitCode::FAILURE
        }
    }
}
