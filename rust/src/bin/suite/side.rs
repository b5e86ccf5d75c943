//! The library side by side with the plain store: long random runs, every answer compared, and of some WRITEs all that they leave.
use crate::call::{ask, ask_block, Answer, Call};
use crate::memory::{Lengths, Memory};
use crate::plain::{Plain, Settings};
use crate::rng::Rng;
use crate::script::{bad_settings, settings, Script};
use crate::spot;
use crate::stored::Stored;
use crate::tally::Tally;
use crate::wellformed::{facts, Storage};
use crate::wrote::wrote_on_well;
use std::fmt;
use vcm::calls;
use vcm::{Item, State};

pub struct Pair {
    pub state: State,
    pub memory: Memory,
    pub plain: Plain,
    /// the page where the needed ones start, by the pages that ADVANCE has freed since RESET
    first: u32,
}

impl Pair {
    /// No store yet, on memory of any contents.
    pub fn new(memory: Memory) -> Pair {
        Pair {
            state: calls::blank(),
            memory,
            plain: Plain::blank(),
            first: 0,
        }
    }

    fn stored(&self) -> Stored {
        Stored {
            state: self.state,
            memory: self.memory.clone(),
        }
    }

    /// One call on both, with the memory as lent now.
    pub fn step(&mut self, call: Call, tally: &mut Tally) -> Result<Answer, String> {
        let pages = self.plain.pages();
        let expected = self.plain.answer(call, self.memory.lengths());
        let given = ask(&mut self.state, &mut self.memory, call, tally);
        if given != expected {
            return Err(format!(
                "{call:?} answers {given:?}, the plain store {expected:?}"
            ));
        }
        match call {
            Call::Reset { .. } if given.refusal() == 0 => self.first = 0,
            Call::Advance(_) if given.refusal() == 0 => {
                let freed = pages - self.plain.pages();
                self.first = (self.first + freed) % self.plain.settings.pages;
            }
            _ => {}
        }
        self.ring_agrees(call)?;
        Ok(given)
    }

    /// A block of writes on both, with an answer list of this length.
    fn block(&mut self, items: &[Item], room: usize, tally: &mut Tally) -> Result<(), String> {
        let (mut given, mut expected) = (vec![u32::MAX; room], vec![u32::MAX; room]);
        let refusal = ask_block(&mut self.state, &mut self.memory, items, &mut given, tally);
        let due = self
            .plain
            .block(items, &mut expected, self.memory.lengths());
        if refusal != due || given != expected {
            return Err(format!(
                "{items:?} get {refusal} and {given:?}, from the plain store {due} and {expected:?}"
            ));
        }
        self.ring_agrees("a block")
    }

    /// The segment of needed pages starts where it should and has as many as the plain store needs.
    fn ring_agrees(&self, call: impl fmt::Debug) -> Result<(), String> {
        let ring = (self.state.registers.first, self.state.registers.used);
        let expected = (self.first, self.plain.pages());
        if ring != expected {
            return Err(format!(
                "after {call:?} first and used are {ring:?}, not {expected:?}"
            ));
        }
        Ok(())
    }

    /// A call on another state in the same memory, which must be refused with 5 and handed back.
    fn on_bad_state(&mut self, bad: State, call: Call, tally: &mut Tally) -> Result<(), String> {
        let mut state = bad;
        let given = ask(&mut state, &mut self.memory, call, tally);
        if given != Answer::refused(call, 5) || state != bad {
            return Err(format!("{call:?} on a bad state answers {given:?}"));
        }
        Ok(())
    }
}

/// A state that 5 is about: blank, or with one number out of its limits.
pub fn bad_state(rng: &Rng, state: &State) -> State {
    let mut bad = *state;
    match rng.below(6) {
        0 => return calls::blank(),
        1 => {
            bad.registers.cmf =
                rng.pick(&[state.registers.frames, state.registers.frames + 1, u32::MAX])
        }
        2 => {
            bad.registers.omf =
                rng.pick(&[state.registers.frames, state.registers.frames + 1, u32::MAX])
        }
        3 => bad.registers.lines = rng.pick(&[0, state.registers.lines + 1, 4104, u32::MAX]),
        4 => bad.registers.frames = rng.pick(&[0, state.registers.frames + 1, 272, u32::MAX]),
        _ => bad.registers.pages = rng.pick(&[0, 4097, u32::MAX]),
    }
    bad
}

/// One run: settings, and how many steps.
fn run(seed: u64, first: Settings, steps: u32, tally: &mut Tally) -> Result<(), String> {
    let rng = Rng::new(seed);
    spot::seed(seed);
    // any lent contents will do, and some of it may be longer than needed
    let mut whole = Lengths::of(first);
    if rng.one_in(2) {
        whole = whole.longer(&rng);
    }
    let mut pair = Pair::new(Memory::new(whole, &rng));
    let untouched = pair.memory.clone();
    let fail = |step: u32, words: String| {
        format!("side by side, seed {seed:#x}, {first:?}, step {step}: {words}")
    };
    let mut script = Script::new();
    // the most that any settings accepted in this run need of each piece
    let mut most = Lengths::of(first);
    // how often COUNTS and CHECK are asked: their cost grows with L and F
    let size = first.lines * first.frames;
    let seldom = (size / 256).clamp(1, 4000);
    for kind in 0..9 {
        let call = script.call(&rng, kind, first, 1);
        pair.step(call, tally).map_err(|words| fail(0, words))?;
    }
    let reset = |s: Settings| Call::Reset {
        lines: s.lines,
        frames: s.frames,
        pages: s.pages,
    };
    pair.step(reset(first), tally)
        .map_err(|words| fail(0, words))?;
    for step in 1..=steps {
        let now = pair.plain.settings;
        let mut call = script.next(&rng, now, pair.plain.live());
        match rng.below(8000) {
            0 => call = reset(settings(&rng)),
            1 => call = reset(bad_settings(&rng)),
            2 => call = reset(first),
            3..=80 => {
                let shorter = whole.changed(&rng);
                pair.memory.lend(shorter);
            }
            81..=160 => {
                let bad = bad_state(&rng, &pair.state);
                pair.on_bad_state(bad, call, tally)
                    .map_err(|words| fail(step, words))?;
            }
            161..=200 => {
                let items = Script::items(&rng, now, rng.place(100));
                let room = rng.pick(&[items.len(), items.len() + 3, items.len() / 2]);
                pair.block(&items, room, tally)
                    .map_err(|words| fail(step, words))?;
            }
            _ => {}
        }
        // a copy of all memory is slow
        let judged = call.item().filter(|_| rng.one_in(128 * seldom));
        let judged = judged.map(|item| (item, pair.stored()));
        let given = pair.step(call, tally).map_err(|words| fail(step, words))?;
        if let (Some((item, before)), 0) = (judged, given.refusal()) {
            wrote_on_well(&before, &pair.stored(), item).map_err(|words| fail(step, words))?;
        }
        most = most.most(Lengths::of(pair.plain.settings));
        if rng.one_in(seldom) {
            pair.step(Call::Counts, tally)
                .map_err(|words| fail(step, words))?;
            pair.step(Call::Check, tally)
                .map_err(|words| fail(step, words))?;
        }
        pair.memory.lend(whole);
        if rng.one_in(16 * seldom) {
            history_agrees(&pair).map_err(|words| fail(step, words))?;
        }
    }
    let past = pair.memory.touched_past(&untouched, most);
    if !past.is_empty() {
        return Err(fail(
            steps,
            format!("memory past the need is changed: {past:?}"),
        ));
    }
    Ok(())
}

/// The storage is well-formed by the independent decision and stands for the plain store's history.
pub fn history_agrees(pair: &Pair) -> Result<(), String> {
    if !facts(&pair.state, &pair.memory).fits {
        return Err("the state is outside its limits".to_string());
    }
    let storage = Storage {
        state: &pair.state,
        memory: pair.memory.shown(),
    };
    let failing = storage.failing();
    if !failing.is_empty() {
        return Err(format!("the storage fails {failing:?}"));
    }
    match storage.history() {
        Some(history) if history.is_same(&pair.plain) => Ok(()),
        _ => Err("the storage stands for another history or cache".to_string()),
    }
}

/// Fixed settings at the ends and in between, then random ones.
pub fn runs(count: u32, steps: u32) -> Result<Tally, String> {
    let fixed = [
        (8, 16, 1),
        (8, 16, 2),
        (8, 16, 16),
        (48, 16, 7),
        (64, 16, 96),
        (64, 32, 40),
        (128, 48, 100),
        (16, 256, 300),
        (8, 256, 4096),
        (512, 256, 256),
        (4096, 16, 4096),
        (4096, 256, 4096),
        (4088, 240, 500),
    ];
    let mut all = Tally::default();
    for number in 0..count {
        let seed = 0x51DE_0000 + u64::from(number);
        let rng = Rng::new(seed ^ 0xFFFF_0000);
        let first = match fixed.get(number as usize) {
            Some(&(lines, frames, pages)) => Settings {
                lines,
                frames,
                pages,
            },
            None => settings(&rng),
        };
        // whole copies of a large memory are slow
        let shorter = 1 + first.lines / 512;
        let mut tally = Tally::default();
        run(seed, first, steps / shorter, &mut tally)?;
        all.add(&tally);
    }
    Ok(all)
}
