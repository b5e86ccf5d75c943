//! The wrapper `Store` side by side with the plain store: the same answers as Rust types. Between calls it is saved and loaded again, and
//! has trials, inside each other, some of which are kept, and both forms of a block of writes, in trials too.
use crate::call::{Answer, Call, Origin};
use crate::memory::Lengths;
use crate::plain::{Plain, Settings};
use crate::rng::Rng;
use crate::script::{bad_settings, Script};
use crate::spot;
use crate::tally::Tally;
use vcm::{Counts, FirstRefusal, Item, Reading, Refusal, Store, Trial};

fn number<T>(answer: &Result<T, Refusal>) -> u32 {
    match answer {
        Ok(_) => 0,
        Err(refusal) => refusal.number(),
    }
}

fn outcome(answer: Result<(), Refusal>) -> Answer {
    Answer::Outcome {
        refusal: number(&answer),
    }
}

fn read(call: Call, answer: Result<Reading, Refusal>) -> Answer {
    match answer {
        Ok(reading) => Answer::Reading {
            refusal: 0,
            value: reading.value,
            origin: match reading.origin {
                vcm::Origin::Archive => Origin::Archive,
                vcm::Origin::Frame(back) => Origin::Frame(back),
                vcm::Origin::Cache => Origin::Cache,
                vcm::Origin::Empty => Origin::Empty,
            },
        },
        Err(refusal) => Answer::refused(call, refusal.number()),
    }
}

fn lent(call: Call, answer: Result<[u8; 16], Refusal>) -> Answer {
    match answer {
        Ok(bytes) => Answer::Lending { refusal: 0, bytes },
        Err(refusal) => Answer::refused(call, refusal.number()),
    }
}

fn counted(call: Call, answer: Result<Counts, Refusal>) -> Answer {
    match answer {
        Ok(counts) => Answer::Counting {
            refusal: 0,
            live: counts.live,
            pages: counts.pages,
        },
        Err(refusal) => Answer::refused(call, refusal.number()),
    }
}

fn ask(store: &mut Store, call: Call) -> Answer {
    match call {
        Call::Reset {
            lines,
            frames,
            pages,
        } => outcome(store.reset(vcm::Settings {
            lines,
            frames,
            pages,
        })),
        Call::Write {
            width,
            address,
            value,
        } => outcome(store.write(width, address, value)),
        Call::Read { width, address } => read(call, store.read(width, address)),
        Call::Line(line) => lent(call, store.line(line)),
        Call::LineRefusal(line) => Answer::Outcome {
            refusal: number(&store.line(line)),
        },
        Call::Mark => outcome(store.mark()),
        Call::Rollback(k) => outcome(store.rollback(k)),
        Call::Advance(k) => outcome(store.advance(k)),
        Call::Counts => counted(call, store.counts()),
        Call::Check => match store.check() {
            Ok(yes) => Answer::Verdict { refusal: 0, yes },
            Err(refusal) => Answer::refused(call, refusal.number()),
        },
    }
}

/// The calls that a trial lends; the others are none of its own.
fn ask_trial(trial: &mut Trial, call: Call) -> Option<Answer> {
    Some(match call {
        Call::Write {
            width,
            address,
            value,
        } => outcome(trial.write(width, address, value)),
        Call::Read { width, address } => read(call, trial.read(width, address)),
        Call::Line(line) => lent(call, trial.line(line)),
        Call::Counts => counted(call, trial.counts()),
        _ => return None,
    })
}

/// An answer that no block gives: what stands in an answer list before the call.
const BEFORE: Result<(), Refusal> = Err(Refusal::Unknown(77));

/// The two forms of a block of writes, of a store and of a trial.
trait Blocks {
    fn block(&mut self, items: &[Item], answers: &mut [Result<(), Refusal>])
        -> Result<(), Refusal>;

    fn all(&mut self, items: &[Item]) -> Result<(), FirstRefusal>;
}

impl Blocks for Store {
    fn block(
        &mut self,
        items: &[Item],
        answers: &mut [Result<(), Refusal>],
    ) -> Result<(), Refusal> {
        self.write_block(items, answers)
    }

    fn all(&mut self, items: &[Item]) -> Result<(), FirstRefusal> {
        self.write_all(items)
    }
}

impl Blocks for Trial<'_> {
    fn block(
        &mut self,
        items: &[Item],
        answers: &mut [Result<(), Refusal>],
    ) -> Result<(), Refusal> {
        self.write_block(items, answers)
    }

    fn all(&mut self, items: &[Item]) -> Result<(), FirstRefusal> {
        self.write_all(items)
    }
}

/// Memory that is always long enough: the wrapper has its own.
const ENOUGH: Lengths = Lengths {
    archive: usize::MAX,
    pool: usize::MAX,
    groups: usize::MAX,
    table: usize::MAX,
    owners: usize::MAX,
    history: usize::MAX,
};

/// What a run of trials needs besides the trial.
struct Beside<'a> {
    plain: &'a mut Plain,
    script: &'a mut Script,
    rng: &'a Rng,
    tally: &'a mut Tally,
}

impl Beside<'_> {
    fn compare(&mut self, call: Call, given: Answer) -> Result<(), String> {
        self.tally.count(call, &given);
        let expected = self.plain.answer(call, ENOUGH);
        if given == expected {
            return Ok(());
        }
        Err(format!(
            "{call:?} answers {given:?}, the plain store {expected:?}"
        ))
    }

    /// A block of writes with up to 200 items, by one of its two forms.
    fn block(&mut self, on: &mut impl Blocks) -> Result<(), String> {
        let most = self.rng.pick(&[3, 64, 65, 200]);
        let count = self.rng.between(0, most) as usize;
        let items = Script::items(self.rng, self.plain.settings, count);
        if self.rng.one_in(2) {
            self.answered(on, &items)
        } else {
            self.first_told(on, &items)
        }
    }

    /// The form with answers, in a list that is now and then too short or longer.
    fn answered(&mut self, on: &mut impl Blocks, items: &[Item]) -> Result<(), String> {
        let room = match self.rng.below(4) {
            0 => items.len().saturating_sub(1),
            1 => items.len() + 1 + self.rng.place(70),
            _ => items.len(),
        };
        let mut answers = vec![BEFORE; room];
        let given = number(&on.block(items, &mut answers));
        let mut numbers = vec![77; room];
        let expected = self.plain.block(items, &mut numbers, ENOUGH);
        self.tally.count_block(given, items.len(), &numbers);
        if given != expected || answers.iter().map(number).ne(numbers) {
            return Err(format!(
                "{items:?} with {room} answers: {given}, the plain store {expected}, or another answer"
            ));
        }
        Ok(())
    }

    /// The form that gives the first refusal alone. That the later items are tried the comparisons that follow show.
    fn first_told(&mut self, on: &mut impl Blocks, items: &[Item]) -> Result<(), String> {
        let given = on.all(items);
        let mut numbers = vec![77; items.len()];
        let refusal = self.plain.block(items, &mut numbers, ENOUGH);
        self.tally.count_block(refusal, items.len(), &numbers);
        let place = numbers.iter().position(|number| *number != 0);
        let expected = place.map(|place| (place, numbers[place]));
        let first = given
            .err()
            .map(|first| (first.place, first.refusal.number()));
        if first != expected {
            return Err(format!(
                "{items:?}: first refused {first:?}, the plain store {expected:?}"
            ));
        }
        Ok(())
    }

    /// A trial with calls and trials inside, which then is kept or dropped. The plain store marks for it and, where it is dropped, goes
    /// back to as many live frames as it had.
    fn tries(&mut self, opened: Result<Trial, Refusal>, depth: u32) -> Result<(), String> {
        let before = self.plain.live();
        self.compare(
            Call::Mark,
            Answer::Outcome {
                refusal: number(&opened),
            },
        )?;
        let mut trial = match opened {
            Ok(trial) => trial,
            Err(_) => return Ok(()),
        };
        for _ in 0..self.rng.below(12) {
            if depth > 0 && self.rng.one_in(4) {
                self.tries(trial.trial(), depth - 1)?;
            }
            if self.rng.one_in(8) {
                self.block(&mut trial)?;
            }
            let call = match self.rng.below(8) {
                0 => Call::Counts,
                _ => {
                    let (settings, live) = (self.plain.settings, self.plain.live());
                    self.script.next(self.rng, settings, live)
                }
            };
            if let Some(given) = ask_trial(&mut trial, call) {
                self.compare(call, given)?;
            }
        }
        if self.rng.one_in(2) {
            trial.keep();
        } else {
            drop(trial);
            let back = Call::Rollback(self.plain.live() - before);
            self.compare(back, Answer::Outcome { refusal: 0 })?;
        }
        Ok(())
    }
}

pub fn run(steps: u32) -> Result<Tally, String> {
    let seed = 0x570_4E00;
    let rng = Rng::new(seed);
    spot::seed(seed);
    let mut tally = Tally::default();
    let mut script = Script::new();
    let small = |rng: &Rng| Settings {
        lines: 8 * rng.between(1, 8),
        frames: 16 * rng.between(1, 2),
        pages: rng.between(1, 60),
    };
    let first = small(&rng);
    let mut plain = Plain::new(first);
    let mut store = Store::new(vcm::Settings {
        lines: first.lines,
        frames: first.frames,
        pages: first.pages,
    })
    .map_err(|refusal| format!("wrapper: {refusal}"))?;
    for step in 0..steps {
        if rng.one_in(100) {
            let bytes = store.save();
            store = Store::load(&bytes)
                .map_err(|error| format!("wrapper, seed {seed:#x}, step {step}: {error}"))?;
        }
        let mut beside = Beside {
            plain: &mut plain,
            script: &mut script,
            rng: &rng,
            tally: &mut tally,
        };
        if rng.one_in(200) {
            beside
                .tries(store.trial(), 3)
                .map_err(|words| format!("trial, seed {seed:#x}, step {step}: {words}"))?;
        }
        if rng.one_in(200) {
            beside
                .block(&mut store)
                .map_err(|words| format!("block, seed {seed:#x}, step {step}: {words}"))?;
        }
        let mut call = script.next(&rng, plain.settings, plain.live());
        let asked = match rng.below(6000) {
            0 => Some(small(&rng)),
            1 => Some(bad_settings(&rng)),
            2 => Some(plain.settings),
            3..=600 => {
                call = rng.pick(&[Call::Counts, Call::Check]);
                None
            }
            _ => None,
        };
        if let Some(asked) = asked {
            call = Call::Reset {
                lines: asked.lines,
                frames: asked.frames,
                pages: asked.pages,
            };
        }
        let expected = plain.answer(call, ENOUGH);
        let given = ask(&mut store, call);
        tally.count(call, &given);
        if given != expected {
            return Err(format!(
                "wrapper, seed {seed:#x}, step {step}: {call:?} answers {given:?}, the plain store {expected:?}"
            ));
        }
    }
    Ok(tally)
}
