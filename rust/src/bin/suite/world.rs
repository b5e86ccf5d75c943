//! Where arbitrary storage comes from: random numbers, and random runs of the library.
use crate::call::{ask, Call};
use crate::memory::{Lengths, Memory};
use crate::plain::Settings;
use crate::ring::{ends, owner_of};
use crate::rng::Rng;
use crate::script::Script;
use crate::stored::Stored;
use crate::tally::Tally;
use crate::wellformed::facts;
use vcm::calls;
use vcm::{Cache, Registers, State};

pub fn small_settings(rng: &Rng) -> Settings {
    let lines = 8 * rng.pick(&[1, 1, 2, 3, 4, 6, 7, 8, 12]);
    let frames = 16 * rng.pick(&[1, 1, 1, 2, 3]);
    Settings {
        lines,
        frames,
        pages: rng.pick(&[1, 2, 5, 8, 16, 40, 100]),
    }
}

/// Large enough for every working area, small enough for the judge, who reads all of it before and after each call.
fn large_settings(rng: &Rng) -> Settings {
    Settings {
        lines: 8 * rng.between(1, 16),
        frames: 16 * rng.pick(&[4, 5, 8, 16]),
        pages: rng.pick(&[1, 20, 300, 4096]),
    }
}

/// A state of which any number may be anything.
fn any_state(rng: &Rng) -> State {
    let mut cache = Cache {
        held: [0; 32],
        origins: [0; 32],
        valid: [0; 32],
        bytes: [0; 512],
        last: [0; 16],
    };
    let few = rng.one_in(2);
    for entry in 0..32 {
        cache.held[entry] = if few { rng.below(64) } else { rng.odd_word() };
        cache.origins[entry] = if few { rng.below(40) } else { rng.word() } as u16;
        cache.valid[entry] = rng.pick(&[0, 1, 1, 2, 255]);
        cache.last[entry / 2] = rng.pick(&[0, 1, 2, 255]);
    }
    cache.bytes.fill_with(|| rng.word() as u8);
    let registers = Registers {
        lines: rng.odd_word(),
        frames: rng.odd_word(),
        pages: rng.odd_word(),
        cmf: rng.odd_word(),
        omf: rng.odd_word(),
        tag: rng.odd_word(),
        first: rng.odd_word(),
        used: rng.odd_word(),
    };
    State { registers, cache }
}

/// Random state and memory; mostly with settings and registers that let a call pass 5 and 6.
pub fn random_storage(rng: &Rng) -> Stored {
    let mut state = any_state(rng);
    let settings = small_settings(rng);
    if !rng.one_in(8) {
        state.registers.lines = settings.lines;
        state.registers.frames = settings.frames;
        state.registers.pages = settings.pages;
        state.registers.cmf = rng.below(settings.frames);
        state.registers.omf = rng.below(settings.frames);
        state.registers.tag = rng.pick(&[state.registers.tag, rng.below(256)]);
        state.registers.first = rng.pick(&ends(settings.pages, rng));
        state.registers.used = rng.pick(&ends(settings.pages, rng));
    }
    let mut lengths = Lengths::of(settings);
    if rng.one_in(4) {
        lengths = lengths.changed(rng);
    }
    let memory = Memory::new(lengths, rng);
    let mut stored = Stored { state, memory };
    if rng.one_in(2) {
        own_pages(&mut stored, settings, rng);
    }
    stored
}

/// A table of pages of the pool and owners, the flags with them, that are places, still in any order.
fn own_pages(stored: &mut Stored, settings: Settings, rng: &Rng) {
    let owner = || owner_of(rng.below(settings.frames), rng.below(settings.lines / 8));
    stored.memory.owners.get_mut().fill_with(owner);
    let page = || rng.below(settings.pages) as u16;
    stored.memory.table.get_mut().fill_with(page);
}

/// Storage that a random run leaves, for damage to be done to.
pub struct World {
    pub stored: Stored,
    script: Script,
}

impl World {
    pub fn new(rng: &Rng, tally: &mut Tally) -> World {
        let settings = if rng.one_in(100) {
            large_settings(rng)
        } else {
            small_settings(rng)
        };
        let mut lengths = Lengths::of(settings);
        if rng.one_in(2) {
            lengths = lengths.longer(rng);
        }
        let memory = Memory::new(lengths, rng);
        let state = calls::blank();
        let mut stored = Stored { state, memory };
        let reset = Call::Reset {
            lines: settings.lines,
            frames: settings.frames,
            pages: settings.pages,
        };
        ask(&mut stored.state, &mut stored.memory, reset, tally);
        World {
            stored,
            script: Script::new(),
        }
    }

    pub fn go_on(&mut self, rng: &Rng, tally: &mut Tally) {
        for _ in 0..rng.between(5, 120) {
            let facts = facts(&self.stored.state, &self.stored.memory);
            let call = self.script.next(rng, facts.settings, facts.live);
            ask(&mut self.stored.state, &mut self.stored.memory, call, tally);
        }
    }
}
