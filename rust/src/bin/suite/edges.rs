//! Document 01's session and its cases at the edges, with the answers that it names, and a pool and a circle filled to the last page
//! and frame. The plain store is asked the same. The ring's own cases are in `ring_edges`.
use crate::call::{Answer, Call, Origin};
use crate::memory::{Lengths, Memory};
use crate::plain::Settings;
use crate::ring_edges;
use crate::rng::Rng;
use crate::side::Pair;
use crate::tally::Tally;

pub fn pair(lines: u32, frames: u32, pages: u32, tally: &mut Tally) -> Result<Pair, String> {
    let settings = Settings {
        lines,
        frames,
        pages,
    };
    let rng = Rng::new(0xED6E);
    let mut pair = Pair::new(Memory::new(Lengths::of(settings), &rng));
    let reset = Call::Reset {
        lines,
        frames,
        pages,
    };
    expect(&mut pair, reset, done(0), tally)?;
    Ok(pair)
}

pub fn done(refusal: u32) -> Answer {
    Answer::Outcome { refusal }
}

fn gives(value: u32, origin: Origin) -> Answer {
    Answer::Reading {
        refusal: 0,
        value,
        origin,
    }
}

pub fn write(width: u32, address: u32, value: u32) -> Call {
    Call::Write {
        width,
        address,
        value,
    }
}

fn read(width: u32, address: u32) -> Call {
    Call::Read { width, address }
}

pub fn expect(
    pair: &mut Pair,
    call: Call,
    answer: Answer,
    tally: &mut Tally,
) -> Result<(), String> {
    let given = pair.step(call, tally)?;
    if given != answer {
        return Err(format!("{call:?} answers {given:?}, the paper {answer:?}"));
    }
    Ok(())
}

/// The cases on settings of 8 lines, 16 frames and 2 pages, each from RESET on.
fn cases() -> Vec<Vec<(Call, Answer)>> {
    use Call::{Advance, Counts, Mark, Rollback};
    let refused_read = |number| Answer::refused(read(1, 0), number);
    let counts = |live, pages| Answer::Counting {
        refusal: 0,
        live,
        pages,
    };
    let reset = |lines, frames, pages| Call::Reset {
        lines,
        frames,
        pages,
    };
    vec![
        vec![
            (write(4, 0, 305_419_896), done(0)),
            (Mark, done(0)),
            (write(1, 1, 255), done(0)),
            (read(4, 0), gives(318_723_704, Origin::Cache)),
            (Mark, done(0)),
            (write(1, 2, 1), done(13)),
            (Rollback(2), done(0)),
            (read(4, 0), gives(305_419_896, Origin::Frame(0))),
            (read(1, 16), gives(0, Origin::Empty)),
            (Rollback(1), done(11)),
            (read(2, 1), refused_read(8)),
            (Counts, counts(1, 1)),
        ],
        vec![
            (reset(7, 16, 1), done(4)),
            (reset(12, 16, 1), done(4)),
            (reset(4104, 16, 1), done(4)),
            (reset(4096, 16, 1), done(6)),
            (reset(8, 17, 1), done(4)),
            (reset(8, 272, 1), done(4)),
            (reset(8, 256, 1), done(6)),
            (reset(8, 16, 0), done(4)),
            (reset(8, 16, 4097), done(4)),
            (reset(8, 16, 4096), done(6)),
            (reset(8, 16, 1), done(0)),
        ],
        vec![
            (read(4, 124), gives(0, Origin::Empty)),
            (read(4, 128), refused_read(9)),
            (read(2, 127), refused_read(8)),
            (read(3, 1), refused_read(7)),
            (read(1, u32::MAX), refused_read(9)),
            (write(1, 0, 255), done(0)),
            (write(1, 0, 256), done(10)),
            (write(1, 128, 256), done(9)),
        ],
        vec![
            (Mark, done(0)),
            (Mark, done(0)),
            (Mark, done(0)),
            (Rollback(4), done(11)),
            (Rollback(0), done(11)),
            (Rollback(3), done(0)),
        ],
        vec![
            (write(1, 0, 7), done(0)),
            (Mark, done(0)),
            (Mark, done(0)),
            (Advance(2), done(0)),
            (read(1, 0), gives(7, Origin::Cache)),
            (Counts, counts(1, 0)),
        ],
        vec![
            (write(1, 0, 5), done(0)),
            (Mark, done(0)),
            (write(1, 0, 6), done(0)),
            (Mark, done(0)),
            (Rollback(2), done(0)),
            (read(1, 0), gives(5, Origin::Frame(0))),
        ],
        vec![
            (write(1, 0, 5), done(0)),
            (Mark, done(0)),
            (Rollback(1), done(0)),
            (write(1, 0, 6), done(0)),
            (Mark, done(0)),
            (Rollback(1), done(0)),
            (read(1, 0), gives(6, Origin::Cache)),
        ],
        vec![
            (Mark, done(0)),
            (Rollback(1), done(0)),
            (Rollback(1), done(11)),
        ],
    ]
}

/// All frames live, then one more after an ADVANCE, many times round the circle.
fn circle(frames: u32, tally: &mut Tally) -> Result<(), String> {
    let mut pair = pair(8, frames, 1, tally)?;
    for _ in 1..frames {
        expect(&mut pair, Call::Mark, done(0), tally)?;
    }
    for _ in 0..3 * frames {
        expect(&mut pair, Call::Mark, done(12), tally)?;
        expect(&mut pair, Call::Advance(1), done(0), tally)?;
        expect(&mut pair, Call::Mark, done(0), tally)?;
    }
    Ok(())
}

/// A pool of P pages filled, block after block and frame after frame; one page more is refused until some are given back.
fn pool(lines: u32, frames: u32, pages: u32, tally: &mut Tally) -> Result<(), String> {
    let mut pair = pair(lines, frames, pages, tally)?;
    let blocks = lines / 8;
    for round in 0..3 {
        let mut full = false;
        while !full {
            for block in 0..blocks {
                let held = pair.plain.pages();
                full = held == pages;
                let answer = done(if full { 13 } else { 0 });
                let line = 8 * block + (block + round) % 8;
                expect(&mut pair, write(4, 16 * line, held + round), answer, tally)?;
                if full {
                    break;
                }
            }
            if !full {
                expect(&mut pair, Call::Mark, done(0), tally)?;
            }
        }
        let given = pair.step(Call::Counts, tally)?;
        let live = pair.plain.live();
        if given
            != (Answer::Counting {
                refusal: 0,
                live,
                pages,
            })
        {
            return Err(format!("a full pool counts {given:?}"));
        }
        pair.step(Call::Check, tally)?;
        match round {
            0 => pair.step(Call::Rollback(live / 2), tally)?,
            _ => pair.step(Call::Advance(live - 1), tally)?,
        };
        pair.step(Call::Check, tally)?;
        expect(&mut pair, Call::Mark, done(0), tally)?;
    }
    Ok(())
}

pub fn run(is_small: bool) -> Result<Tally, String> {
    let mut tally = Tally::default();
    for (number, case) in cases().into_iter().enumerate() {
        let mut pair = pair(8, 16, 2, &mut tally)?;
        for (step, (call, answer)) in case.into_iter().enumerate() {
            expect(&mut pair, call, answer, &mut tally)
                .map_err(|words| format!("edges, case {number}, step {step}: {words}"))?;
        }
    }
    let edge = |words| format!("edges: {words}");
    circle(16, &mut tally).map_err(edge)?;
    pool(8, 16, 1, &mut tally).map_err(edge)?;
    pool(64, 32, 100, &mut tally).map_err(edge)?;
    ring_edges::run(&mut tally).map_err(edge)?;
    if !is_small {
        circle(256, &mut tally).map_err(edge)?;
        pool(4096, 256, 4096, &mut tally).map_err(edge)?;
        pool(4096, 16, 4096, &mut tally).map_err(edge)?;
    }
    Ok(tally)
}
