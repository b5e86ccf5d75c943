//! The sizing call against document 01's limits and sizes.
use crate::memory::Lengths;
use crate::plain::Settings;
use crate::rng::Rng;
use crate::tally::Tally;
use vcm::calls::sizes;
use vcm::numbers::Need;

fn need(settings: Settings) -> Need {
    if !settings.within() {
        return Need {
            refusal: 4,
            archive: 0,
            pool: 0,
            groups: 0,
            table: 0,
            owners: 0,
            history: 0,
        };
    }
    let elements = Lengths::of(settings);
    Need {
        refusal: 0,
        archive: elements.archive,
        pool: elements.pool,
        groups: 4 * elements.groups,
        table: 2 * elements.table,
        owners: 4 * elements.owners,
        history: 2 * elements.history,
    }
}

fn compare(settings: Settings, tally: &mut Tally) -> Result<(), String> {
    let given = sizes(settings.lines, settings.frames, settings.pages);
    tally.refuse(given.refusal);
    if given != need(settings) {
        return Err(format!("sizing of {settings:?} gives {given:?}"));
    }
    // "All other lent memory, in bytes, is at most L × F + 16 × P + 4,096 in total."
    let others = given.groups + given.table + given.owners + given.history;
    let (lines, frames, pages) = (settings.lines, settings.frames, settings.pages);
    let most = u64::from(lines) * u64::from(frames) + 16 * u64::from(pages) + 4096;
    if others as u64 > most {
        return Err(format!("sizing of {settings:?} passes the bound"));
    }
    Ok(())
}

/// Each number over its whole range and past it, and random ones.
pub fn run(randoms: u32) -> Result<Tally, String> {
    let mut tally = Tally::default();
    let rng = Rng::new(0x512E);
    for lines in 0..4200 {
        for (frames, pages) in [(16, 1), (256, 4096), (17, 5)] {
            compare(
                Settings {
                    lines,
                    frames,
                    pages,
                },
                &mut tally,
            )?;
        }
    }
    for frames in 0..300 {
        for (lines, pages) in [(8, 1), (4096, 4096), (12, 5)] {
            compare(
                Settings {
                    lines,
                    frames,
                    pages,
                },
                &mut tally,
            )?;
        }
    }
    for pages in 0..4200 {
        for (lines, frames) in [(8, 16), (4096, 256), (8, 17)] {
            compare(
                Settings {
                    lines,
                    frames,
                    pages,
                },
                &mut tally,
            )?;
        }
    }
    for _ in 0..randoms {
        let settings = Settings {
            lines: rng.odd_word(),
            frames: rng.odd_word(),
            pages: rng.odd_word(),
        };
        compare(settings, &mut tally)?;
    }
    Ok(tally)
}
