//! Cases of the ring of pages at its edges. After each call `first` and `used` are the ones written here, CHECK says yes, and the storage
//! is well-formed and of the plain store's history by the suite's own decision.
use crate::call::{Answer, Call};
use crate::edges::{done, expect, pair, write};
use crate::side::{history_agrees, Pair};
use crate::tally::Tally;
use Call::{Advance, Mark, Rollback};

/// A call, its refusal or 0, and `first` and `used` after it.
type Step = (Call, u32, (u32, u32));

/// A write to the first line of a block.
fn put(block: u32) -> Call {
    write(1, 128 * block, 7)
}

/// A store of one page: the segment is empty or the whole pool.
fn one_page() -> Vec<Step> {
    vec![
        (put(0), 0, (0, 1)),
        (put(0), 0, (0, 1)),
        (Mark, 0, (0, 1)),
        (put(0), 13, (0, 1)),
        (Rollback(1), 0, (0, 1)),
        (Mark, 0, (0, 1)),
        (Mark, 0, (0, 1)),
        (Rollback(2), 0, (0, 1)),
        (Mark, 0, (0, 1)),
        (Advance(1), 0, (0, 0)),
        (put(0), 0, (0, 1)),
        (Mark, 0, (0, 1)),
        (Advance(1), 0, (0, 0)),
        (Mark, 0, (0, 0)),
        (put(0), 0, (0, 1)),
        (Rollback(1), 0, (0, 0)),
        (put(0), 0, (0, 1)),
    ]
}

/// Four pages: the segment comes to lie across the pool's end, is cut on both sides of it, and starts behind it.
fn across_the_end() -> Vec<Step> {
    vec![
        (put(0), 0, (0, 1)),
        (put(1), 0, (0, 2)),
        (Mark, 0, (0, 2)),
        (put(0), 0, (0, 3)),
        (Mark, 0, (0, 3)),
        (put(2), 0, (0, 4)),
        (put(0), 13, (0, 4)),
        (Advance(1), 0, (2, 2)),
        (put(0), 0, (2, 3)),
        (put(1), 0, (2, 4)),
        (Mark, 0, (2, 4)),
        (put(0), 13, (2, 4)),
        (Rollback(1), 0, (2, 4)),
        (Rollback(1), 0, (2, 1)),
        (Mark, 0, (2, 1)),
        (put(0), 0, (2, 2)),
        (put(1), 0, (2, 3)),
        (Mark, 0, (2, 3)),
        (put(2), 0, (2, 4)),
        (Rollback(1), 0, (2, 3)),
        (Advance(1), 0, (3, 2)),
        (Mark, 0, (3, 2)),
        (put(0), 0, (3, 3)),
        (Advance(1), 0, (1, 1)),
    ]
}

/// Four pages: the frames gone back to have none, in the middle and at the start of the ring.
fn back_to_no_pages() -> Vec<Step> {
    vec![
        (Mark, 0, (0, 0)),
        (put(0), 0, (0, 1)),
        (Rollback(1), 0, (0, 0)),
        (put(0), 0, (0, 1)),
        (Mark, 0, (0, 1)),
        (Mark, 0, (0, 1)),
        (put(0), 0, (0, 2)),
        (put(1), 0, (0, 3)),
        (Rollback(1), 0, (0, 1)),
        (Mark, 0, (0, 1)),
        (Mark, 0, (0, 1)),
        (put(1), 0, (0, 2)),
        (Rollback(2), 0, (0, 1)),
        (Rollback(1), 0, (0, 1)),
    ]
}

/// Four pages: the frames collected have none, at the start of the ring and behind some that have.
fn over_no_pages() -> Vec<Step> {
    vec![
        (Mark, 0, (0, 0)),
        (Mark, 0, (0, 0)),
        (Advance(1), 0, (0, 0)),
        (put(0), 0, (0, 1)),
        (Mark, 0, (0, 1)),
        (Mark, 0, (0, 1)),
        (put(0), 0, (0, 2)),
        (put(1), 0, (0, 3)),
        (Mark, 0, (0, 3)),
        (Advance(1), 0, (0, 3)),
        (Advance(1), 0, (1, 2)),
        (Advance(1), 0, (1, 2)),
        (Advance(1), 0, (3, 0)),
        (put(2), 0, (3, 1)),
    ]
}

/// Three pages, all of them needed: back to a frame without pages and over frames without pages, from page 0 on and across the end.
fn full_pool() -> Vec<Step> {
    vec![
        (put(0), 0, (0, 1)),
        (Mark, 0, (0, 1)),
        (Mark, 0, (0, 1)),
        (put(0), 0, (0, 2)),
        (put(1), 0, (0, 3)),
        (put(2), 13, (0, 3)),
        (Rollback(1), 0, (0, 1)),
        (Mark, 0, (0, 1)),
        (put(1), 0, (0, 2)),
        (put(2), 0, (0, 3)),
        (Mark, 0, (0, 3)),
        (Mark, 0, (0, 3)),
        (put(0), 13, (0, 3)),
        (Advance(1), 0, (1, 2)),
        (put(0), 0, (1, 3)),
        (Mark, 0, (1, 3)),
        (Mark, 0, (1, 3)),
        (put(0), 13, (1, 3)),
        (Advance(1), 0, (1, 3)),
        (Rollback(1), 0, (1, 3)),
        (put(2), 13, (1, 3)),
        (Rollback(2), 0, (1, 2)),
        (put(0), 0, (1, 3)),
        (Advance(1), 0, (0, 1)),
    ]
}

/// One call with what it must leave.
fn step(pair: &mut Pair, step: Step, tally: &mut Tally) -> Result<(), String> {
    let (call, refusal, expected) = step;
    expect(pair, call, done(refusal), tally)?;
    let ring = (pair.state.registers.first, pair.state.registers.used);
    if ring != expected {
        return Err(format!("{call:?} leaves {ring:?}, not {expected:?}"));
    }
    let counts = Answer::Counting {
        refusal: 0,
        live: pair.plain.live(),
        pages: expected.1,
    };
    expect(pair, Call::Counts, counts, tally)?;
    let yes = Answer::Verdict {
        refusal: 0,
        yes: true,
    };
    expect(pair, Call::Check, yes, tally)?;
    history_agrees(pair)
}

/// The tags run out while three of four pages, of two frames, lie across the pool's end; then both frames go.
fn sweep(tally: &mut Tally) -> Result<(), String> {
    let mut pair = pair(24, 16, 4, tally)?;
    let begin = [
        (put(0), 0, (0, 1)),
        (put(1), 0, (0, 2)),
        (put(2), 0, (0, 3)),
        (Mark, 0, (0, 3)),
        (Advance(1), 0, (3, 0)),
        (put(0), 0, (3, 1)),
        (Mark, 0, (3, 1)),
        (put(0), 0, (3, 2)),
        (put(1), 0, (3, 3)),
    ];
    let round = [
        (Mark, 0, (3, 3)),
        (put(0), 0, (3, 4)),
        (put(1), 13, (3, 4)),
        (Rollback(1), 0, (3, 3)),
    ];
    let end = [
        (Mark, 0, (3, 3)),
        (Rollback(2), 0, (3, 1)),
        (Mark, 0, (3, 1)),
        (put(2), 0, (3, 2)),
        (Advance(1), 0, (0, 1)),
    ];
    let before = tally.sweeps;
    // 255 rollbacks take a new tag each; the next one sweeps
    let rounds = (0..256).flat_map(|_| round);
    for now in begin.into_iter().chain(rounds) {
        step(&mut pair, now, tally)?;
    }
    if tally.sweeps != before + 1 || pair.state.registers.tag != 0 {
        return Err("256 rollbacks make no sweep".to_string());
    }
    for now in end {
        step(&mut pair, now, tally)?;
    }
    Ok(())
}

pub fn run(tally: &mut Tally) -> Result<(), String> {
    let cases = [
        ("one page", 1, one_page()),
        ("across the end", 4, across_the_end()),
        ("back to no pages", 4, back_to_no_pages()),
        ("over no pages", 4, over_no_pages()),
        ("full pool", 3, full_pool()),
    ];
    for (name, pages, steps) in cases {
        let mut pair = pair(24, 16, pages, tally)?;
        for (number, now) in steps.into_iter().enumerate() {
            step(&mut pair, now, tally)
                .map_err(|words| format!("{name}, step {number}: {words}"))?;
        }
    }
    sweep(tally).map_err(|words| format!("sweep across the end: {words}"))
}
