//! Every call on arbitrary state and memory, each judged by what document 01, the requests and the definitions fix of it.
use crate::call::{ask, Answer, Call};
use crate::collect::collected_on_any;
use crate::memory::Lengths;
use crate::plain::{refusal, Facts, Plain, Settings};
use crate::ring::{ends, ring_on_any, ring_on_well};
use crate::rng::Rng;
use crate::rolled::{rolled_back_on_any, Stops};
use crate::script::{bad_settings, Script};
use crate::spot;
use crate::stored::Stored;
use crate::tally::Tally;
use crate::wellformed::{facts, settings_of, Clause, CLAUSES, OPEN};
use crate::world::{random_storage, small_settings, World};
use crate::wrote::{wrote_on_well, Finds};
use vcm::calls;
use vcm::{Registers, State};

/// The kinds of calls: the nine of a script, and RESET.
const KINDS: usize = 10;

/// What was done, where ROLLBACK's walks stopped, where WRITEs found their lines, how often each clause alone turned storage down, and how often a
/// call of each kind was accepted with both ring registers past the pool.
pub struct Judge {
    pub tally: Tally,
    pub stops: Stops,
    pub finds: Finds,
    alone: [u64; CLAUSES.len()],
    past_ends: [u64; KINDS],
}

/// What there is to know of storage before a call.
pub struct Known {
    pub facts: Facts,
    /// the history that it stands for, where it is well-formed
    pub history: Option<Plain>,
    failing: Vec<Clause>,
}

pub fn know(stored: &Stored) -> Known {
    let facts = facts(&stored.state, &stored.memory);
    let is_readable = facts.fits && facts.lengths.covers(Lengths::of(facts.settings));
    let failing = if is_readable {
        stored.storage().failing()
    } else {
        Vec::new()
    };
    let is_well = is_readable && failing.is_empty();
    let history = if is_well {
        stored.storage().history()
    } else {
        None
    };
    Known {
        facts,
        history,
        failing,
    }
}

/// The pieces that a call may write.
fn writes(call: Call) -> &'static [&'static str] {
    match call {
        Call::Reset { .. } | Call::Advance(_) => &["archive", "groups", "owners", "history"],
        Call::Write { .. } => &["pool", "groups", "table", "owners"],
        Call::Rollback(_) => &["groups", "history"],
        _ => &[],
    }
}

/// CMF and OMF after an accepted call.
fn registers(state: &State, call: Call) -> (u32, u32) {
    let frames = state.registers.frames;
    match call {
        Call::Mark => ((state.registers.cmf + 1) % frames, state.registers.omf),
        Call::Rollback(k) => (
            (state.registers.cmf + frames - k) % frames,
            state.registers.omf,
        ),
        Call::Advance(k) => (state.registers.cmf, (state.registers.omf + k) % frames),
        _ => (state.registers.cmf, state.registers.omf),
    }
}

/// The answer that document 01 fixes, the plain store's where the storage is well-formed. None where the outcome is free.
fn fixed(known: &mut Known, call: Call) -> Option<Answer> {
    let early = refusal(known.facts, call);
    match (&mut known.history, call) {
        _ if early != 0 => Some(Answer::refused(call, early)),
        (_, Call::Reset { .. }) => Some(Answer::Outcome { refusal: 0 }),
        (Some(plain), _) => Some(plain.answer(call, known.facts.lengths)),
        (None, Call::Check) => Some(Answer::Verdict {
            refusal: 0,
            yes: false,
        }),
        // free, but for the refusals: 13 may come or not
        (None, _) => None,
    }
}

fn is_due(known: &mut Known, call: Call, given: Answer) -> Result<(), String> {
    let may_be_full = given.refusal() == 13 && matches!(call, Call::Write { .. });
    match fixed(known, call) {
        Some(expected) if given != expected => {
            let failing = &known.failing;
            Err(format!("not {expected:?}; clauses that fail: {failing:?}"))
        }
        None if given.refusal() != 0 && !may_be_full => Err("no such refusal is due".to_string()),
        _ => Ok(()),
    }
}

/// A refused call leaves state and memory as they are.
pub fn is_untouched(stored: &Stored, before: &Stored) -> Result<(), String> {
    let changed = stored.memory.changed(&before.memory);
    if stored.state != before.state || !changed.is_empty() {
        return Err(format!("refused, but the state or {changed:?} is touched"));
    }
    Ok(())
}

/// The settings after an accepted call.
fn settings_after(known: &Known, call: Call) -> Settings {
    match call {
        Call::Reset {
            lines,
            frames,
            pages,
        } => Settings {
            lines,
            frames,
            pages,
        },
        _ => known.facts.settings,
    }
}

/// What an accepted call leaves, on any storage: pieces that it does not write, memory past the need, and of the registers what is fixed; of
/// ROLLBACK and ADVANCE every element of lent memory.
pub fn is_kept(stored: &Stored, before: &Stored, call: Call, need: Lengths) -> Result<(), String> {
    let changed = stored.memory.changed(&before.memory);
    if let Some(piece) = changed.iter().find(|piece| !writes(call).contains(piece)) {
        return Err(format!("it wrote to {piece}"));
    }
    let past = stored.memory.touched_past(&before.memory, need);
    if !past.is_empty() {
        return Err(format!("{past:?} past the need is touched"));
    }
    match call {
        Call::Rollback(k) => rolled_back_on_any(before, stored, k)?,
        Call::Advance(k) => collected_on_any(before, stored, k)?,
        _ => {}
    }
    ring_on_any(before, stored, call)
}

/// What an accepted call leaves where the storage was well-formed, or after RESET: storage of the history that is due, and after WRITE just
/// the state and memory that are due.
fn is_right(stored: &Stored, before: &Stored, call: Call, known: Known) -> Result<(), String> {
    let asked = settings_after(&known, call);
    let plain = match (known.history, call) {
        (_, Call::Reset { .. }) => {
            is_fresh(stored, before, asked)?;
            Plain::new(asked)
        }
        (Some(plain), _) => {
            let given = (stored.state.registers.cmf, stored.state.registers.omf);
            if given != registers(&before.state, call) {
                return Err("CMF or OMF is wrong".to_string());
            }
            ring_on_well(before, stored, call)?;
            if let Some(item) = call.item() {
                wrote_on_well(before, stored, item)?;
            }
            plain
        }
        (None, _) => return Ok(()),
    };
    let after = know(stored);
    match after.history {
        Some(history) if history.is_same(&plain) => Ok(()),
        Some(_) => Err("afterwards the storage stands for another history".to_string()),
        None => Err(format!("afterwards the storage fails {:?}", after.failing)),
    }
}

impl Judge {
    /// One call on any storage. Where the storage is well-formed, the answer and what the storage stands for afterwards are those of
    /// the plain store of its history.
    fn call(&mut self, stored: &mut Stored, call: Call) -> Result<Answer, String> {
        let before = stored.clone();
        let mut known = know(&before);
        let given = ask(&mut stored.state, &mut stored.memory, call, &mut self.tally);
        let fail = |words: String| format!("{call:?} answers {given:?}: {words}");
        is_due(&mut known, call, given).map_err(fail)?;
        if matches!(call, Call::Check) && known.failing.len() == 1 {
            let clause = CLAUSES.iter().position(|c| *c == known.failing[0]);
            self.alone[clause.unwrap_or(0)] += 1;
        }
        if let Call::Line(number) = call {
            self.companion(stored, number, given).map_err(fail)?;
        }
        if given.refusal() != 0 {
            is_untouched(stored, &before).map_err(fail)?;
            return Ok(given);
        }
        let need = Lengths::of(settings_after(&known, call));
        is_kept(stored, &before, call, need).map_err(fail)?;
        if let Call::Rollback(k) = call {
            self.stops.add(&before, k);
        }
        if let (Some(item), Some(_)) = (call.item(), &known.history) {
            self.finds.add(&before, item);
        }
        is_right(stored, &before, call, known).map_err(fail)?;
        Ok(given)
    }

    /// LINE's companion gives the same refusal.
    fn companion(&mut self, stored: &mut Stored, line: u32, given: Answer) -> Result<(), String> {
        let call = Call::LineRefusal(line);
        let other = ask(&mut stored.state, &mut stored.memory, call, &mut self.tally);
        if other.refusal() != given.refusal() {
            return Err(format!("its companion says {other:?}"));
        }
        Ok(())
    }

    /// A random call of one of the ten kinds.
    fn random_call(&mut self, rng: &Rng, stored: &Stored, kind: usize) -> Call {
        let facts = facts(&stored.state, &stored.memory);
        let settings = Settings {
            lines: facts.settings.lines.clamp(8, 4096),
            ..facts.settings
        };
        if kind < 9 {
            return Script::new().call(rng, kind, settings, facts.live.max(1));
        }
        let asked = match rng.below(4) {
            0 => bad_settings(rng),
            1 => small_settings(rng),
            _ => settings_of(&stored.state),
        };
        Call::Reset {
            lines: asked.lines,
            frames: asked.frames,
            pages: asked.pages,
        }
    }

    /// Every call with each pair of ring registers at the ends of the pool and of the type.
    fn ring_ends(&mut self, rng: &Rng, stored: &Stored) -> Result<(), String> {
        let pages = stored.state.registers.pages;
        for first in ends(pages, rng) {
            for used in ends(pages, rng) {
                for kind in 0..KINDS {
                    let mut stored = stored.clone();
                    stored.state.registers.first = first;
                    stored.state.registers.used = used;
                    let call = self.random_call(rng, &stored, kind);
                    let given = self
                        .call(&mut stored, call)
                        .map_err(|words| format!("first {first}, used {used}: {words}"))?;
                    if given.refusal() == 0 && first >= pages && used > pages {
                        self.past_ends[kind] += 1;
                    }
                }
            }
        }
        Ok(())
    }

    /// Every call on one storage, each on a copy, and then a number of calls in a row.
    fn case(&mut self, rng: &Rng, stored: &Stored, row: u32) -> Result<(), String> {
        for kind in 0..KINDS {
            let call = self.random_call(rng, stored, kind);
            self.call(&mut stored.clone(), call)?;
        }
        let mut stored = stored.clone();
        let mut script = Script::new();
        for _ in 0..row {
            let facts = facts(&stored.state, &stored.memory);
            let call = if facts.fits && !rng.one_in(8) {
                script.next(rng, facts.settings, facts.live)
            } else {
                let kind = rng.place(9);
                self.random_call(rng, &stored, kind)
            };
            self.call(&mut stored, call)?;
        }
        Ok(())
    }
}

/// "RESET(L, F, P): archive all zero, one live frame, no written bits, all pages free, cache empty", and by request 2.3 no line collected. Every field
/// and every element.
fn is_fresh(stored: &Stored, before: &Stored, asked: Settings) -> Result<(), &'static str> {
    let need = Lengths::of(asked);
    let registers = Registers {
        lines: asked.lines,
        frames: asked.frames,
        pages: asked.pages,
        cmf: 0,
        omf: 0,
        tag: 0,
        first: 0,
        used: 0,
    };
    let cache = calls::blank().cache;
    if stored.state != (State { registers, cache }) {
        return Err("the state is not that of an empty store");
    }
    let memory = stored.memory.shown();
    let is_zero = memory.archive[..need.archive].iter().all(|byte| *byte == 0);
    if !is_zero || memory.groups[..need.groups].iter().any(|group| *group != 0) {
        return Err("archive or groups are not all zero");
    }
    let pages = asked.pages as usize;
    let (owners, flags) = memory.owners[..need.owners].split_at(pages);
    if owners != &before.memory.owners.get()[..pages] || flags.iter().any(|flag| *flag != 0) {
        return Err("an owner is written, or a flag is not 0");
    }
    if memory.history[0] != OPEN || memory.history[1..] != before.memory.history.get()[1..] {
        return Err("the history is not open, or written past its first entry");
    }
    Ok(())
}

/// Storage made from that of a run, and how many calls in a row to make on it: random, damaged, or only changed where it does not matter.
pub fn changed(rng: &Rng, world: &World, rows: u32) -> (Stored, u32) {
    let mut stored = world.stored.clone();
    match rng.below(24) {
        0 | 1 => return (random_storage(rng), 4),
        2 => {
            let lengths = stored.memory.lengths().changed(rng);
            stored.memory = stored.memory.resized(lengths, rng);
        }
        3..=5 => stored.anywhere(rng),
        6..=10 => {
            stored.aimed(rng);
            return (stored, rows / 2);
        }
        11 => {}
        _ => {
            for _ in 0..rng.between(1, 3) {
                stored.harmless(rng);
            }
        }
    }
    (stored, rows)
}

pub fn run(worlds: u32, rows: u32) -> Result<Judge, String> {
    let mut judge = Judge {
        tally: Tally::default(),
        stops: Stops::default(),
        finds: Finds::default(),
        alone: [0; CLAUSES.len()],
        past_ends: [0; KINDS],
    };
    for number in 0..worlds {
        let seed = 0xA5B1_0000 + u64::from(number);
        let rng = Rng::new(seed);
        spot::seed(seed);
        judge
            .world(&rng, rows, number % 8 == 0)
            .map_err(|words| format!("arbitrary, seed {seed:#x}, {words}"))?;
    }
    if !judge.tally.is_balanced() {
        return Err(format!("too few CHECKs say yes: {}", judge.tally));
    }
    if let Some(kind) = judge.past_ends.iter().position(|count| *count == 0) {
        return Err(format!(
            "no call of kind {kind} passed with a ring past the pool"
        ));
    }
    Ok(judge)
}

impl Judge {
    /// One run of the library, with all that is made from the storage that it leaves; in some of them the ring registers at their ends.
    fn world(&mut self, rng: &Rng, rows: u32, has_ends: bool) -> Result<(), String> {
        let mut world = World::new(rng, &mut self.tally);
        for case in 0..24 {
            let fail = |words: String| format!("case {case}: {words}");
            if case % 4 == 0 {
                world.go_on(rng, &mut self.tally);
                if know(&world.stored).history.is_none() {
                    return Err(fail("a run from RESET left ill-formed storage".to_string()));
                }
            }
            if case == 0 && has_ends {
                for stored in [random_storage(rng), world.stored.clone()] {
                    self.ring_ends(rng, &stored).map_err(fail)?;
                }
            }
            let (stored, row) = changed(rng, &world, rows);
            self.case(rng, &stored, row).map_err(fail)?;
        }
        Ok(())
    }

    /// For each clause, how often it alone turned storage down; an error where one never did.
    pub fn clauses(&self) -> Result<String, String> {
        let counts: Vec<_> = CLAUSES.iter().zip(self.alone).collect();
        if let Some((clause, _)) = counts.iter().find(|(_, count)| *count == 0) {
            return Err(format!("no storage failed {clause:?} alone"));
        }
        let words = counts
            .iter()
            .map(|(clause, count)| format!("{clause:?}:{count}"));
        Ok(words.collect::<Vec<_>>().join(" "))
    }
}
