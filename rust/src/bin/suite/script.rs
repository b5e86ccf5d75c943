//! Random calls in phases, so that live frames, tags, pages and the cache all come to their ends many times.
use crate::call::Call;
use crate::plain::Settings;
use crate::rng::Rng;
use vcm::Item;

/// How often each call comes: write, read, line, companion, mark, rollback, advance.
type Weights = [u32; 7];

/// Writes fill the pool; marks fill the circle; rollbacks use up the tags; marks and advances go round the circle; reads use the
/// cache; and everything at once.
const PHASES: [Weights; 7] = [
    [60, 10, 4, 1, 8, 4, 2],
    [25, 10, 3, 1, 50, 1, 1],
    [20, 8, 2, 1, 40, 40, 1],
    [25, 8, 2, 1, 40, 2, 30],
    [15, 60, 10, 2, 4, 3, 2],
    [20, 20, 5, 2, 20, 15, 15],
    [10, 10, 5, 1, 4, 40, 4],
];

/// Which lines a phase uses.
#[derive(Clone, Copy)]
enum Lines {
    Any,
    /// of one set of the cache
    Set(u32),
    /// of one page
    Block(u32),
    /// the first and the last
    Ends,
}

impl Lines {
    fn of(rng: &Rng, settings: Settings) -> Lines {
        match rng.below(6) {
            0 | 1 => Lines::Any,
            2 | 3 => Lines::Set(rng.below(16)),
            4 => Lines::Block(rng.below(settings.lines / 8)),
            _ => Lines::Ends,
        }
    }
}

pub struct Script {
    weights: Weights,
    lines: Lines,
    left: u32,
}

impl Script {
    pub fn new() -> Script {
        Script {
            weights: PHASES[0],
            lines: Lines::Any,
            left: 0,
        }
    }

    /// The next call but RESET, COUNTS and CHECK, which the driver asks for by itself. Most are accepted.
    pub fn next(&mut self, rng: &Rng, settings: Settings, live: u32) -> Call {
        if self.left == 0 {
            self.left = rng.between(20, 400);
            self.weights = rng.pick(&PHASES);
            self.lines = Lines::of(rng, settings);
        }
        self.left -= 1;
        let total: u32 = self.weights.iter().sum();
        let mut at = rng.below(total);
        let mut kind = 0;
        while at >= self.weights[kind] {
            at -= self.weights[kind];
            kind += 1;
        }
        self.call(rng, kind, settings, live)
    }

    /// A call of a kind: write, read, line, companion, mark, rollback, advance, counts, check.
    pub fn call(&self, rng: &Rng, kind: usize, settings: Settings, live: u32) -> Call {
        match kind {
            0 => {
                let (width, address, value) = self.write(rng, settings);
                Call::Write {
                    width,
                    address,
                    value,
                }
            }
            1 => {
                let (width, address) = self.place(rng, settings.lines);
                Call::Read { width, address }
            }
            2 => Call::Line(self.number(rng, settings.lines)),
            3 => Call::LineRefusal(self.number(rng, settings.lines)),
            4 => Call::Mark,
            5 => Call::Rollback(steps(rng, live)),
            6 => Call::Advance(steps(rng, live)),
            7 => Call::Counts,
            _ => Call::Check,
        }
    }

    /// A block of writes with so many items, of which some are refused.
    pub fn items(rng: &Rng, settings: Settings, count: usize) -> Vec<Item> {
        let mut script = Script::new();
        script.lines = Lines::of(rng, settings);
        let item = || {
            let (width, address, value) = script.write(rng, settings);
            Item {
                width,
                address,
                value,
            }
        };
        // of exactly this size, so that valgrind sees a read behind the last
        let mut items = Vec::with_capacity(count);
        items.resize_with(count, item);
        items
    }

    /// Width, address and value.
    fn write(&self, rng: &Rng, settings: Settings) -> (u32, u32, u32) {
        let (width, address) = self.place(rng, settings.lines);
        let past = 1u32.checked_shl(8 * width.min(8)).unwrap_or(0);
        let value = match rng.below(24) {
            0 => rng.odd_word(),
            1 => past,
            2 => past.wrapping_sub(1),
            _ => rng.word() & (u32::MAX >> (32 - 8 * width.clamp(1, 4))),
        };
        (width, address, value)
    }

    fn line(&self, rng: &Rng, lines: u32) -> u32 {
        match self.lines {
            Lines::Set(set) if set < lines => {
                let in_set = (lines - set + 15) / 16;
                set + 16 * rng.below(in_set)
            }
            Lines::Block(block) if 8 * block < lines => 8 * block + rng.below(8),
            Lines::Ends => rng.pick(&[0, lines - 1]),
            _ => rng.below(lines),
        }
    }

    fn number(&self, rng: &Rng, lines: u32) -> u32 {
        match rng.below(16) {
            0 => lines,
            1 => rng.odd_word(),
            _ => self.line(rng, lines),
        }
    }

    /// Width and address.
    fn place(&self, rng: &Rng, lines: u32) -> (u32, u32) {
        let width = rng.pick(&[1, 2, 4]);
        let address = 16 * self.line(rng, lines) + rng.below(16 / width) * width;
        match rng.below(64) {
            0 => (rng.odd_word(), address),
            1 => (rng.pick(&[0, 3, 5, 8]), rng.odd_word()),
            2 => (width, address + 1),
            3 => (width, 16 * lines - width + rng.below(2) * width),
            4 => (width, rng.odd_word()),
            5 => (width, (16 * lines).wrapping_sub(rng.below(4))),
            _ => (width, address),
        }
    }
}

/// How many frames to drop or to fold: mostly few, and all that there are, and those that are refused.
fn steps(rng: &Rng, live: u32) -> u32 {
    match rng.below(16) {
        0 => 0,
        1 => live,
        2 => rng.odd_word(),
        3 => live.saturating_sub(1),
        4 | 5 => rng.between(1, live.max(2) - 1),
        _ => rng.between(1, live.clamp(2, 4) - 1),
    }
}

/// Settings from the smallest to the largest, small ones often.
pub fn settings(rng: &Rng) -> Settings {
    let (blocks, areas) = match rng.below(20) {
        0 => (512, 16),
        1 => (rng.between(1, 512), rng.between(1, 16)),
        2..=5 => (rng.between(1, 40), rng.between(1, 6)),
        6..=9 => (rng.between(3, 12), rng.between(1, 2)),
        _ => (rng.between(1, 6), rng.between(1, 3)),
    };
    let places = blocks * areas * 16;
    let pages = match rng.below(6) {
        0 => rng.between(1, 3),
        1 => places.min(4096),
        2 => rng.between(1, 4096),
        3 => 4096,
        _ => rng.between(1, 1 + places / 8).min(4096),
    };
    Settings {
        lines: 8 * blocks,
        frames: 16 * areas,
        pages,
    }
}

/// Settings of which one is just outside its limits or anywhere.
pub fn bad_settings(rng: &Rng) -> Settings {
    let mut bad = settings(rng);
    let odd = rng.odd_word();
    match rng.below(3) {
        0 => bad.lines = rng.pick(&[0, 7, 9, 12, 4095, 4097, 4104, 4112, 1 << 31, odd]),
        1 => bad.frames = rng.pick(&[0, 8, 15, 17, 24, 255, 257, 272, 1 << 31, odd]),
        _ => bad.pages = rng.pick(&[0, 4097, 4098, 1 << 31, u32::MAX, odd]),
    }
    bad
}
