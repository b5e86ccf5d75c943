//! What the suite did, for its last line.
use crate::call::{Answer, Call};
use crate::spot;
use std::fmt;

/// The numbers that an item of a block of writes can get.
pub const IN_BLOCKS: [usize; 5] = [7, 8, 9, 10, 13];

#[derive(Clone, Default)]
pub struct Tally {
    pub calls: u64,
    pub resets: u64,
    pub sweeps: u64,
    /// blocks of writes that were not refused as a whole
    pub blocks: u64,
    /// their items by their answers, accepted ones at 0
    pub items: [u64; 15],
    pub refusals: [u64; 15],
    pub yes: u64,
    pub no: u64,
}

impl Tally {
    pub fn count(&mut self, call: Call, answer: &Answer) {
        let refusal = answer.refusal();
        self.refuse(refusal);
        if refusal == 0 && matches!(call, Call::Reset { .. }) {
            self.resets += 1;
        }
        if let Answer::Verdict { yes, .. } = answer {
            if *yes {
                self.yes += 1;
            } else {
                self.no += 1;
            }
        }
    }

    /// A block of writes with so many items, its refusal or 0, and its answer list.
    pub fn count_block(&mut self, refusal: u32, items: usize, answers: &[u32]) {
        self.refuse(refusal);
        if refusal != 0 {
            return;
        }
        self.blocks += 1;
        for answer in answers.iter().take(items) {
            if let Some(count) = self.items.get_mut(*answer as usize) {
                *count += 1;
            }
        }
    }

    /// A call and its refusal, or 0. A number that is no refusal is caught where answers are compared.
    pub fn refuse(&mut self, refusal: u32) {
        self.calls += 1;
        spot::step();
        if let Some(count) = self.refusals.get_mut(refusal as usize) {
            *count += 1;
        }
    }

    pub fn add(&mut self, other: &Tally) {
        self.calls += other.calls;
        self.resets += other.resets;
        self.sweeps += other.sweeps;
        self.blocks += other.blocks;
        for (count, more) in self.items.iter_mut().zip(other.items) {
            *count += more;
        }
        for (count, more) in self.refusals.iter_mut().zip(other.refusals) {
            *count += more;
        }
        self.yes += other.yes;
        self.no += other.no;
    }

    /// At least a third of all CHECKs said yes.
    pub fn is_balanced(&self) -> bool {
        self.no > 0 && 3 * self.yes >= self.yes + self.no
    }
}

impl fmt::Display for Tally {
    fn fmt(&self, f: &mut fmt::Formatter<'_>) -> fmt::Result {
        write!(
            f,
            "calls {} resets {} sweeps {} refusals",
            self.calls, self.resets, self.sweeps
        )?;
        for number in 4..=14 {
            write!(f, " {number}:{}", self.refusals[number])?;
        }
        if self.blocks > 0 {
            let items: u64 = self.items.iter().sum();
            write!(f, " blocks {} items {items} refused", self.blocks)?;
            for number in IN_BLOCKS {
                write!(f, " {number}:{}", self.items[number])?;
            }
        }
        write!(f, " check yes:{} no:{}", self.yes, self.no)
    }
}
