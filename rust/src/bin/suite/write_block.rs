//! A block of writes on twins: of two stores with the same bytes one is given the block and the other its items as single WRITEs. Answers,
//! state and every lent byte, guards included, have to be the same afterwards, on the storage of a run, damaged or random. Which answers
//! are due is the plain store's word where the storage is well-formed, and elsewhere that of the plain rules, which leave 13 open. What the
//! accepted items leave is fixed where the storage is well-formed (`wrote`).
use crate::arbitrary::{changed, is_kept, is_untouched, know};
use crate::call::{ask, ask_block, Call};
use crate::memory::{Lengths, Memory, Piece};
use crate::plain::{block_refusal, refusal, Facts, Settings};
use crate::ring::ends;
use crate::rng::Rng;
use crate::script::Script;
use crate::side::bad_state;
use crate::spot;
use crate::stored::Stored;
use crate::tally::{Tally, IN_BLOCKS};
use crate::wellformed::facts;
use crate::world::{random_storage, World};
use crate::wrote::{self, Finds};
use vcm::{calls, Item};

/// The most items of a block of writes.
const MOST: u32 = 200;

/// What stands in an answer list before the call.
const BEFORE: u32 = 0xA5A5_A5A5;

/// What was done, where items found their lines, and how often an item was accepted behind one that got 13.
#[derive(Default)]
pub struct Judge {
    pub tally: Tally,
    pub finds: Finds,
    behind_full: u64,
}

/// An answer list of so many answers.
fn list(len: usize, rng: &Rng) -> Piece<u32> {
    Piece::guarded(len, rng, || BEFORE)
}

/// The items of a block as single WRITEs, and the number of each.
fn singly(stored: &mut Stored, items: &[Item], tally: &mut Tally) -> Vec<u32> {
    let one = |item: &Item| {
        let call = Call::of(*item);
        ask(&mut stored.state, &mut stored.memory, call, tally).refusal()
    };
    items.iter().map(one).collect()
}

/// An item never gets 5, 6 or 14, 7 to 10 where the rules say so, and beside them 13 alone.
fn is_due(facts: Facts, item: Item, number: u32) -> Result<(), String> {
    let early = refusal(facts, Call::of(item));
    if number == early || early == 0 && number == 13 {
        return Ok(());
    }
    Err(format!("{item:?} gets {number}, the rules say {early}"))
}

/// Two stores after the same writes are the same to the last byte.
fn are_twins(stored: &Stored, twin: &Stored) -> Result<(), String> {
    let differing = stored.memory.changed(&twin.memory);
    if stored.state != twin.state || !differing.is_empty() {
        return Err(format!(
            "the state or {differing:?} is not what single WRITEs leave"
        ));
    }
    Ok(())
}

/// The answer list is as it was, but for these numbers at its start.
fn has_answers(
    answers: &Piece<u32>,
    mut before: Piece<u32>,
    numbers: &[u32],
) -> Result<(), String> {
    before.get_mut()[..numbers.len()].copy_from_slice(numbers);
    if *answers != before {
        let answers = answers.get();
        return Err(format!(
            "the answers are {answers:?}, not {numbers:?} and else as before"
        ));
    }
    Ok(())
}

impl Judge {
    /// One block on any storage. Gives what the answer list holds then.
    fn block(
        &mut self,
        stored: &mut Stored,
        items: &[Item],
        mut answers: Piece<u32>,
    ) -> Result<Vec<u32>, String> {
        let (before, untouched) = (stored.clone(), answers.clone());
        let (count, room) = (items.len(), answers.get().len());
        let due = block_refusal(facts(&before.state, &before.memory), count, room);
        let (state, memory) = (&mut stored.state, &mut stored.memory);
        let given = ask_block(state, memory, items, answers.get_mut(), &mut self.tally);
        let judged = if given != due {
            Err(format!("not {due}"))
        } else if given != 0 {
            is_untouched(stored, &before).and_then(|()| has_answers(&answers, untouched, &[]))
        } else {
            self.tried(&before, stored, items)
                .and_then(|numbers| has_answers(&answers, untouched, &numbers))
        };
        let fail = |words| format!("{count} items, {room} answers, refusal {given}: {words}");
        judged.map_err(fail)?;
        Ok(answers.get().to_vec())
    }

    /// A block that was not refused as a whole, beside its twin. Gives the number of each item as a single WRITE.
    fn tried(
        &mut self,
        before: &Stored,
        after: &Stored,
        items: &[Item],
    ) -> Result<Vec<u32>, String> {
        let mut twin = before.clone();
        let numbers = singly(&mut twin, items, &mut self.tally);
        are_twins(after, &twin)?;
        self.is_right(before, after, items, &numbers)?;
        self.count_full(&numbers);
        Ok(numbers)
    }

    fn count_full(&mut self, numbers: &[u32]) {
        let full = numbers.iter().position(|number| *number == 13);
        let behind = full.map_or(&[][..], |place| &numbers[place..]);
        if behind.contains(&0) {
            self.behind_full += 1;
        }
    }

    /// What the plain rules and, on well-formed storage, the plain store and the definition of WRITE say of a block that was not refused as a
    /// whole.
    fn is_right(
        &mut self,
        before: &Stored,
        after: &Stored,
        items: &[Item],
        numbers: &[u32],
    ) -> Result<(), String> {
        let known = know(before);
        let mut pairs = items.iter().zip(numbers);
        pairs.try_for_each(|(item, number)| is_due(known.facts, *item, *number))?;
        let any = Call::of(Item::u8(0, 0));
        is_kept(after, before, any, Lengths::of(known.facts.settings))?;
        let mut plain = match known.history {
            Some(plain) => plain,
            None => return Ok(()),
        };
        let mut expected = vec![BEFORE; items.len()];
        plain.block(items, &mut expected, known.facts.lengths);
        if numbers != expected {
            return Err(format!("{numbers:?}, the plain store {expected:?}"));
        }
        self.is_written(before, after, items, numbers)?;
        match know(after).history {
            Some(history) if history.is_same(&plain) => Ok(()),
            _ => Err("the storage is not of the plain store's history or cache".to_string()),
        }
    }

    /// The accepted items in order leave just the state and memory that are due. Only for well-formed storage.
    fn is_written(
        &mut self,
        before: &Stored,
        after: &Stored,
        items: &[Item],
        numbers: &[u32],
    ) -> Result<(), String> {
        let mut due = before.clone();
        let pairs = items.iter().zip(numbers);
        for (item, _) in pairs.filter(|(_, number)| **number == 0) {
            self.finds.add(&due, *item);
            wrote::write(&mut due, *item);
        }
        wrote::is_as_due(after, &due)
    }

    /// A random block with a random answer list: mostly just long enough, or longer, or too short.
    fn random(&mut self, rng: &Rng, stored: &mut Stored) -> Result<(), String> {
        let settings = facts(&stored.state, &stored.memory).settings;
        let settings = Settings {
            lines: settings.lines.clamp(8, 4096),
            ..settings
        };
        let most = rng.pick(&[0, 1, 8, 40, MOST, MOST]);
        let items = Script::items(rng, settings, rng.between(0, most) as usize);
        let count = items.len();
        let room = match rng.below(8) {
            0 => count.saturating_sub(1),
            1 => rng.place(count + 1),
            2 | 3 => count + 1 + rng.place(5),
            _ => count,
        };
        self.block(stored, &items, list(room, rng))?;
        Ok(())
    }
}

/// A store just reset, in memory of any contents.
fn fresh(settings: Settings, rng: &Rng, tally: &mut Tally) -> Stored {
    let mut stored = Stored {
        state: calls::blank(),
        memory: Memory::new(Lengths::of(settings), rng),
    };
    let reset = Call::Reset {
        lines: settings.lines,
        frames: settings.frames,
        pages: settings.pages,
    };
    ask(&mut stored.state, &mut stored.memory, reset, tally);
    stored
}

/// Three times 8 lines, and two pages.
const SMALL: Settings = Settings {
    lines: 24,
    frames: 16,
    pages: 2,
};

/// Blocks on a store just reset, with the numbers that the request names.
fn fixed() -> Vec<(Vec<Item>, Vec<u32>)> {
    let put = |page: u32, line: u32| Item::u8(128 * page + 16 * line, 7);
    let odd = |width, address, value| Item {
        width,
        address,
        value,
    };
    vec![
        (vec![], vec![]),
        // item 3 has no page left; those of item 4 and 6 are there already, and 13 is decided anew for each
        (
            vec![
                put(0, 0),
                put(1, 0),
                put(0, 1),
                put(2, 0),
                put(1, 7),
                put(2, 1),
                put(0, 0),
            ],
            vec![0, 0, 0, 13, 0, 13, 0],
        ),
        // the first number that holds, and 13 last
        (
            vec![
                odd(3, 1000, 1 << 31),
                put(0, 0),
                odd(2, 1001, 1 << 31),
                odd(1, 384, 256),
                put(1, 0),
                odd(1, 256, 256),
                odd(2, 256, 65536),
                put(2, 0),
                odd(4, 380, u32::MAX),
                odd(4, 0, u32::MAX),
                odd(0, 0, 0),
                odd(u32::MAX, u32::MAX, u32::MAX),
                odd(1, u32::MAX, 0),
            ],
            vec![7, 0, 8, 9, 0, 10, 10, 13, 13, 0, 7, 7, 9],
        ),
    ]
}

impl Judge {
    fn fixed_cases(&mut self, rng: &Rng) -> Result<(), String> {
        for (items, due) in fixed() {
            for more in 0..3 {
                let mut stored = fresh(SMALL, rng, &mut self.tally);
                let room = list(items.len() + more, rng);
                let given = self.block(&mut stored, &items, room)?;
                if given[..items.len()] != due {
                    return Err(format!("{items:?} get {given:?}, not {due:?}"));
                }
            }
        }
        Ok(())
    }

    /// 5 before 6 and 6 before 14, each with and without those behind it, and an empty block among them; none touches anything.
    fn refused_cases(&mut self, rng: &Rng, stored: &Stored) -> Result<(), String> {
        let settings = facts(&stored.state, &stored.memory).settings;
        let need = Lengths::of(settings);
        for count in [0, 1, 3] {
            let items = Script::items(rng, settings, count);
            for room in count.saturating_sub(1)..=count + 1 {
                self.block(&mut stored.clone(), &items, list(room, rng))?;
                for piece in 0..6 {
                    let mut lengths = need;
                    *lengths.piece(piece) -= 1;
                    let mut short = stored.clone();
                    short.memory = short.memory.resized(lengths, rng);
                    self.block(&mut short, &items, list(room, rng))?;
                    short.state = bad_state(rng, &stored.state);
                    self.block(&mut short, &items, list(room, rng))?;
                }
                let mut bad = stored.clone();
                bad.state = bad_state(rng, &stored.state);
                self.block(&mut bad, &items, list(room, rng))?;
            }
        }
        Ok(())
    }

    /// Blocks with each pair of ring registers at the ends of the pool and of the type.
    fn ring_ends(&mut self, rng: &Rng, stored: &Stored) -> Result<(), String> {
        let pages = stored.state.registers.pages;
        for first in ends(pages, rng) {
            for used in ends(pages, rng) {
                let mut stored = stored.clone();
                stored.state.registers.first = first;
                stored.state.registers.used = used;
                self.random(rng, &mut stored)
                    .map_err(|words| format!("first {first}, used {used}: {words}"))?;
            }
        }
        Ok(())
    }

    /// One run of the library with blocks between its calls, and blocks on what is made from the storage that it leaves.
    fn world(&mut self, rng: &Rng) -> Result<(), String> {
        let mut world = World::new(rng, &mut self.tally);
        for case in 0..12 {
            let fail = |words: String| format!("case {case}: {words}");
            if case % 4 == 0 {
                world.go_on(rng, &mut self.tally);
                self.random(rng, &mut world.stored).map_err(fail)?;
            }
            let (mut stored, _) = changed(rng, &world, 1);
            for _ in 0..3 {
                self.random(rng, &mut stored).map_err(fail)?;
            }
        }
        self.refused_cases(rng, &world.stored)?;
        for stored in [random_storage(rng), world.stored] {
            self.ring_ends(rng, &stored)?;
        }
        Ok(())
    }
}

pub fn run(worlds: u32) -> Result<Judge, String> {
    let mut judge = Judge::default();
    for number in 0..worlds {
        let seed = 0xB10C_0000 + u64::from(number);
        let rng = Rng::new(seed);
        spot::seed(seed);
        let fail = |words: String| format!("blocks, seed {seed:#x}, {words}");
        judge.fixed_cases(&rng).map_err(fail)?;
        judge.world(&rng).map_err(fail)?;
    }
    let never = |number: &&usize| judge.tally.items[**number] == 0;
    if let Some(number) = IN_BLOCKS.iter().find(never) {
        return Err(format!("no item of a block got {number}"));
    }
    if judge.behind_full == 0 {
        return Err("no item was accepted behind one that got 13".to_string());
    }
    Ok(judge)
}
