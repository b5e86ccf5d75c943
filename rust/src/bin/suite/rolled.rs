//! What ROLLBACK leaves of the tag, the history and the groups, on any storage. On a history that is not in order this is more than ROLLBACK's
//! contract says: there `written::enter` alone promises what is left.
//! Written from request 2.2 with the report's Figure 4, and for tags and sweep from document 01 and the definitions, not from the library's code.
use crate::memory::Lengths;
use crate::stored::Stored;
use crate::wellformed::{settings_of, OPEN};

/// A walk over the history: the tag of its newest entry, and its target.
struct Walk {
    tag: usize,
    target: u16,
}

impl Walk {
    fn new(before: &Stored, k: u32) -> Walk {
        Walk {
            tag: before.state.registers.tag as usize % 256,
            target: (before.storage().live() - k) as u16,
        }
    }

    /// Figure 4's update of the history, from the newest entry on: `while (dst < RBH[i]) RBH[i] := dst; i := i-1`. At the bottom it ends too.
    fn update(&self, history: &mut [u16]) {
        let newest_first = history[..=self.tag].iter_mut().rev();
        for entry in newest_first.take_while(|entry| self.target < **entry) {
            *entry = self.target;
        }
    }
}

/// Every group with its effective bits and tag 0.
fn swept(stored: &Stored) -> Vec<u32> {
    let storage = stored.storage();
    let registers = &stored.state.registers;
    let mut groups = vec![0; Lengths::of(settings_of(&stored.state)).groups];
    for index in 0..registers.frames {
        let frame = storage.frame_at(index);
        for line in 0..registers.lines {
            if storage.effective(index, line) {
                groups[storage.group_place(frame, line)] |= 1 << (frame % 16);
            }
        }
    }
    groups
}

/// The target is entered in the history. Then the next tag begins with no rollback since; past the last one all groups are swept before the
/// tags start afresh.
fn rolled_back(before: &Stored, k: u32) -> Stored {
    let walk = Walk::new(before, k);
    let mut after = before.clone();
    walk.update(after.memory.history.get_mut());
    if walk.tag == 255 {
        let groups = swept(&after);
        after.memory.groups.get_mut()[..groups.len()].copy_from_slice(&groups);
    }
    let next = (walk.tag + 1) % 256;
    after.state.registers.tag = next as u32;
    after.memory.history.get_mut()[next] = OPEN;
    after
}

/// An accepted ROLLBACK has left just that.
pub fn rolled_back_on_any(before: &Stored, after: &Stored, k: u32) -> Result<(), String> {
    let due = rolled_back(before, k);
    let (tag, next) = (after.state.registers.tag, due.state.registers.tag);
    if tag != next {
        return Err(format!("the next tag is {tag}, not {next}"));
    }
    let changed = after.memory.changed(&due.memory);
    if !changed.is_empty() {
        return Err(format!(
            "{changed:?} is not what the walk and the sweep leave"
        ));
    }
    Ok(())
}

/// How often walks over the history stopped at an entry as deep as the target, at a deeper one, and at the bottom; and how often at an equal
/// and at a deeper one that has an older, less deep one: there alone comparing every entry would leave another history.
#[derive(Default)]
pub struct Stops {
    equal: u64,
    deeper: u64,
    bottom: u64,
    equal_over_less_deep: u64,
    deeper_over_less_deep: u64,
}

impl Stops {
    /// The walk of an accepted ROLLBACK.
    pub fn add(&mut self, before: &Stored, k: u32) {
        let Walk { tag, target } = Walk::new(before, k);
        let entries = &before.memory.history.get()[..=tag];
        let stop = match entries.iter().rposition(|entry| *entry <= target) {
            Some(stop) => stop,
            None => {
                self.bottom += 1;
                return;
            }
        };
        let has_less_deep = entries[..stop].iter().any(|entry| target < *entry);
        if entries[stop] == target {
            self.equal += 1;
            self.equal_over_less_deep += u64::from(has_less_deep);
        } else {
            self.deeper += 1;
            self.deeper_over_less_deep += u64::from(has_less_deep);
        }
    }

    /// The counts in words; an error where one is 0.
    pub fn words(&self) -> Result<String, String> {
        let words = format!(
            "walks that stopped at an equal entry: {}, at a deeper one: {}, at the bottom: {}; with an older, less deep entry at an equal one: {}, at a deeper one: {}",
            self.equal, self.deeper, self.bottom, self.equal_over_less_deep, self.deeper_over_less_deep
        );
        // the other two contain the first two
        let least = [
            self.equal_over_less_deep,
            self.deeper_over_less_deep,
            self.bottom,
        ];
        if least.contains(&0) {
            return Err(format!("too few {words}"));
        }
        Ok(words)
    }
}
