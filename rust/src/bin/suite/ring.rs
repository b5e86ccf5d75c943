//! The ring of pages: positions in the segment of needed ones, the owners' places, and what each call leaves of `first` and `used`.
//! Written from the definitions (specs of `pages` and `storage`), not from the library's code.
use crate::call::Call;
use crate::rng::Rng;
use crate::stored::Stored;
use crate::wellformed::Storage;
use vcm::State;

/// A place is a frame and a block of 8 lines. This is how a page's owner names it.
pub fn owner_of(frame: u32, block: u32) -> u32 {
    512 * frame + block
}

/// Numbers for `first` and `used`: at the ends of the pool and of the type, and any other.
pub fn ends(pages: u32, rng: &Rng) -> [u32; 5] {
    let other = rng.pick(&[rng.below(pages.max(1)), rng.odd_word()]);
    [0, pages.wrapping_sub(1), pages, u32::MAX, other]
}

/// The ring that the calls but CHECK see: a start past the pool counts as 0, more pages than there are as all.
pub fn seen(state: &State) -> State {
    let mut state = *state;
    let registers = &mut state.registers;
    if registers.first >= registers.pages {
        registers.first = 0;
    }
    registers.used = registers.used.min(registers.pages);
    state
}

impl Storage<'_> {
    /// The page at a position of the segment: seg i = (first + i) mod P.
    pub fn page_at(&self, position: u32) -> u32 {
        let registers = &self.state.registers;
        let page = u64::from(registers.first) + u64::from(position);
        (page % u64::from(registers.pages)) as u32
    }

    /// The position of a page: dist p = (p - first) mod P.
    pub fn position_of(&self, page: u32) -> u32 {
        let registers = &self.state.registers;
        let distance = i64::from(page) - i64::from(registers.first);
        distance.rem_euclid(i64::from(registers.pages)) as u32
    }

    /// The index from OMF of the frame of an owner; one that names no frame counts as high.
    pub fn owner_index(&self, owner: u32) -> u32 {
        let (frames, omf) = (self.state.registers.frames, self.state.registers.omf);
        let frame = owner / 512;
        if frame < frames {
            (frame + frames - omf) % frames
        } else {
            frames
        }
    }

    /// Where the table has the page of an owner's place.
    pub fn table_entry(&self, owner: u32) -> usize {
        let blocks = self.state.registers.lines / 8;
        (owner / 512) as usize * blocks as usize + (owner % 512) as usize
    }

    /// Whether an owner is a place, and needed.
    pub fn is_needed_owner(&self, owner: u32) -> bool {
        let (frame, block) = (owner / 512, owner % 512);
        let is_place =
            frame < self.state.registers.frames && block < self.state.registers.lines / 8;
        is_place && self.needed(self.owner_index(owner), block)
    }

    /// The indexes of the owners' frames along the segment, as the calls see it.
    pub fn indexes(&self) -> Vec<u32> {
        let state = seen(self.state);
        let count = state.registers.used;
        let seen = Storage {
            state: &state,
            memory: self.memory,
        };
        let owner_at = |position| seen.memory.owners[seen.page_at(position) as usize];
        let index_at = |position| seen.owner_index(owner_at(position));
        (0..count).map(index_at).collect()
    }

    /// Whether CMF needs the page of an address already.
    pub fn has_page(&self, address: u32) -> bool {
        self.needed(self.live() - 1, address / 128)
    }

    /// `first` and `used` after an accepted call on well-formed storage.
    fn ring_after(&self, call: Call) -> (u32, u32) {
        let (first, used) = (self.state.registers.first, self.state.registers.used);
        let indexes = self.indexes();
        let below = |limit| indexes.iter().filter(|index| **index < limit).count() as u32;
        match call {
            Call::Reset { .. } => (0, 0),
            Call::Write { address, .. } if !self.has_page(address) => (first, used + 1),
            Call::Rollback(k) => (first, below(self.live() - k)),
            Call::Advance(k) => (self.page_at(below(k)), used - below(k)),
            _ => (first, used),
        }
    }
}

fn ring_of(stored: &Stored) -> (u32, u32) {
    (stored.state.registers.first, stored.state.registers.used)
}

/// What holds of `first` and `used` after an accepted call on any storage. RESET makes them 0. ROLLBACK leaves the start and adds no
/// page; where the owners' indexes never fall it leaves just the pages of the kept frames. ADVANCE's are known (`collect`). Of WRITE
/// nothing is fixed, and the other calls leave them as they are.
pub fn ring_on_any(before: &Stored, after: &Stored, call: Call) -> Result<(), String> {
    let ((old, _), (first, used)) = (ring_of(before), ring_of(after));
    let holds = match call {
        Call::Reset { .. } => (first, used) == (0, 0),
        Call::Write { .. } | Call::Advance(_) => true,
        Call::Rollback(k) => {
            let storage = before.storage();
            let indexes = storage.indexes();
            let kept = storage.live() - k;
            let below = indexes.iter().filter(|index| **index < kept).count();
            let is_sorted = indexes.windows(2).all(|pair| pair[0] <= pair[1]);
            let is_exact = !is_sorted || used as usize == below;
            first == old && used as usize <= indexes.len() && is_exact
        }
        _ => ring_of(before) == ring_of(after),
    };
    if holds {
        return Ok(());
    }
    let (before, after) = (ring_of(before), ring_of(after));
    Err(format!("the ring goes from {before:?} to {after:?}"))
}

/// The same on well-formed storage, where both are known. What else a WRITE leaves is known too (`wrote`).
pub fn ring_on_well(before: &Stored, after: &Stored, call: Call) -> Result<(), String> {
    let expected = before.storage().ring_after(call);
    if ring_of(after) != expected {
        let after = ring_of(after);
        return Err(format!("first and used are {after:?}, not {expected:?}"));
    }
    Ok(())
}
