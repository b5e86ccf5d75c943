//! An independent decision of the written well-formedness, clause by clause, and the history that well-formed storage stands for.
//! Written from the definitions (specs of `storage`, `written`, `pages`, `cache` and `rules`), not from the library's tests.
use crate::memory::Memory;
use crate::plain::{Facts, Frame, Plain, Settings};
use crate::ring::owner_of;
use vcm::calls::Shown;
use vcm::State;

/// The clauses that a state within its limits and long enough memory can fail. (That bytes are bytes, arrays have their length and a
/// version has 16 bytes holds by the types, the last once every needed page is one of the P.)
#[derive(Clone, Copy, Debug, PartialEq, Eq)]
pub enum Clause {
    /// the tag has 8 bits
    TagBelow,
    /// a group with a bit set has no tag above the current one
    TagsKnown,
    /// the current tag has no rollback since
    OpenTag,
    /// no entry of a used tag is less deep than a newer one
    Ordered,
    /// effective bits are in live frames only
    OnlyLive,
    /// R1: the segment of needed pages starts at one of the P pages
    Start,
    /// and has no more pages than there are
    Length,
    /// R2: a page of the segment has a needed place as its owner
    OwnerNeeded,
    /// and the table has that page for the place
    OwnerBack,
    /// R3: a needed place has one of the P pages
    PageBelow,
    /// the page lies in the segment
    PageInside,
    /// and its owner is the place
    PageOwner,
    /// R4: the indexes of the owners' frames never fall along the segment
    Rising,
    /// a valid entry of way 0 is in its line's set
    FirstSet,
    /// and its line is below L
    FirstBelow,
    /// the same of way 1
    SecondSet,
    SecondBelow,
    /// no line is in both ways
    Once,
    /// a valid entry has the most recent bytes
    Bytes,
    /// and the most recent version's frame
    Frame,
    /// a line that was not collected is zero in the archive
    Archive,
}

pub const CLAUSES: [Clause; 21] = [
    Clause::TagBelow,
    Clause::TagsKnown,
    Clause::OpenTag,
    Clause::Ordered,
    Clause::OnlyLive,
    Clause::Start,
    Clause::Length,
    Clause::OwnerNeeded,
    Clause::OwnerBack,
    Clause::PageBelow,
    Clause::PageInside,
    Clause::PageOwner,
    Clause::Rising,
    Clause::FirstSet,
    Clause::FirstBelow,
    Clause::SecondSet,
    Clause::SecondBelow,
    Clause::Once,
    Clause::Bytes,
    Clause::Frame,
    Clause::Archive,
];

pub const ARCHIVE: u16 = 65535;
pub const OPEN: u16 = 65535;

pub fn settings_of(state: &State) -> Settings {
    Settings {
        lines: state.registers.lines,
        frames: state.registers.frames,
        pages: state.registers.pages,
    }
}

/// What the refusals go by on any state and any memory.
pub fn facts(state: &State, memory: &Memory) -> Facts {
    let settings = settings_of(state);
    let fits = settings.within()
        && state.registers.cmf < state.registers.frames
        && state.registers.omf < state.registers.frames;
    Facts {
        settings,
        fits,
        live: if fits {
            (state.registers.cmf + state.registers.frames - state.registers.omf)
                % state.registers.frames
                + 1
        } else {
            0
        },
        lengths: memory.lengths(),
    }
}

/// State and memory of which neither 5 nor 6 holds.
#[derive(Clone, Copy)]
pub struct Storage<'a> {
    pub state: &'a State,
    pub memory: Shown<'a>,
}

impl<'a> Storage<'a> {
    pub fn live(&self) -> u32 {
        let state = self.state;
        (state.registers.cmf + state.registers.frames - state.registers.omf)
            % state.registers.frames
            + 1
    }

    pub fn frame_at(&self, index: u32) -> u32 {
        (self.state.registers.omf + index) % self.state.registers.frames
    }

    pub fn group_place(&self, frame: u32, line: u32) -> usize {
        (frame / 16 * self.state.registers.lines + line) as usize
    }

    pub fn table_place(&self, frame: u32, line: u32) -> usize {
        (frame * (self.state.registers.lines / 8) + line / 8) as usize
    }

    /// A bit is effective if it is set and the index of its frame from OMF is below the bound of its group's tag.
    pub fn effective(&self, index: u32, line: u32) -> bool {
        let frame = self.frame_at(index);
        let group = self.memory.groups[self.group_place(frame, line)];
        group >> (frame % 16) & 1 == 1 && index < u32::from(self.memory.history[tag_of(group)])
    }

    /// Whether a line of the block has an effective bit in the frame of an index.
    pub fn needed(&self, index: u32, block: u32) -> bool {
        (8 * block..8 * block + 8).any(|line| self.effective(index, line))
    }

    /// The index from OMF of the frame that has a line's most recent version.
    pub fn newest(&self, line: u32) -> Option<u32> {
        (0..self.live())
            .rev()
            .find(|index| self.effective(*index, line))
    }

    /// The bytes of a version; none where the table names a page outside the pool lent.
    pub fn version(&self, index: u32, line: u32) -> Option<&'a [u8]> {
        let page = self.memory.table[self.table_place(self.frame_at(index), line)];
        let from = 128 * usize::from(page) + 16 * (line as usize % 8);
        self.memory.pool.get(from..from + 16)
    }

    pub fn archived(&self, line: u32) -> &'a [u8] {
        &self.memory.archive[16 * line as usize..16 * line as usize + 16]
    }

    /// The flag of a line lies behind the owners of the P pages.
    pub fn flag_place(&self, line: u32) -> usize {
        (self.state.registers.pages + line) as usize
    }

    /// 0 is never collected, any other number collected.
    pub fn is_collected(&self, line: u32) -> bool {
        self.memory.owners[self.flag_place(line)] != 0
    }

    /// Frame and bytes of a line's most recent version. Past L there is nothing but zeros.
    pub fn recent(&self, line: u32) -> (u16, Option<&'a [u8]>) {
        if line >= self.state.registers.lines {
            return (ARCHIVE, Some(&[0; 16]));
        }
        match self.newest(line) {
            Some(index) => (self.frame_at(index) as u16, self.version(index, line)),
            None => (ARCHIVE, Some(self.archived(line))),
        }
    }

    /// The clauses that fail.
    pub fn failing(&self) -> Vec<Clause> {
        let mut failing = Vec::new();
        let mut hold = |clause, holds: bool| {
            if !holds && !failing.contains(&clause) {
                failing.push(clause);
            }
        };
        self.bits(&mut hold);
        self.segment(&mut hold);
        self.places(&mut hold);
        self.cache(&mut hold);
        let mut lines = 0..self.state.registers.lines;
        let is_collected_or_zero = |line| self.is_collected(line) || self.archived(line) == [0; 16];
        hold(Clause::Archive, lines.all(is_collected_or_zero));
        failing
    }

    fn bits(&self, hold: &mut impl FnMut(Clause, bool)) {
        let state = self.state;
        let entry = |tag: u32| self.memory.history.get(tag as usize).copied().unwrap_or(0);
        hold(Clause::TagBelow, state.registers.tag < 256);
        hold(Clause::OpenTag, entry(state.registers.tag) == OPEN);
        // past the end of the list every entry reads 0
        let used = state.registers.tag.min(self.memory.history.len() as u32);
        hold(
            Clause::Ordered,
            (0..used).all(|tag| entry(tag) <= entry(tag + 1)),
        );
        let count = (state.registers.frames / 16 * state.registers.lines) as usize;
        let is_known =
            |group: u32| group & 0xFFFF == 0 || tag_of(group) as u64 <= state.registers.tag.into();
        let groups = &self.memory.groups[..count];
        hold(
            Clause::TagsKnown,
            groups.iter().all(|group| is_known(*group)),
        );
        let is_clear = |index| (0..state.registers.lines).all(|line| !self.effective(index, line));
        hold(
            Clause::OnlyLive,
            (self.live()..state.registers.frames).all(is_clear),
        );
    }

    /// R1 and, position by position, R2 and R4.
    fn segment(&self, hold: &mut impl FnMut(Clause, bool)) {
        let registers = &self.state.registers;
        hold(Clause::Start, registers.first < registers.pages);
        hold(Clause::Length, registers.used <= registers.pages);
        // the positions come round with the pool: past twice its pages there is no new one, and no new pair of neighbours
        let count = registers.used.min(2 * registers.pages);
        let owner_at = |position| self.memory.owners[self.page_at(position) as usize];
        for position in 0..count {
            let owner = owner_at(position);
            hold(Clause::OwnerNeeded, self.is_needed_owner(owner));
            // past the end of the list every entry reads 0
            let entry = self.memory.table.get(self.table_entry(owner)).copied();
            let page = u32::from(entry.unwrap_or(0));
            hold(Clause::OwnerBack, page == self.page_at(position));
            if position + 1 < count {
                let next = self.owner_index(owner_at(position + 1));
                hold(Clause::Rising, self.owner_index(owner) <= next);
            }
        }
    }

    /// R3, place by place.
    fn places(&self, hold: &mut impl FnMut(Clause, bool)) {
        let registers = &self.state.registers;
        for index in 0..registers.frames {
            for block in 0..registers.lines / 8 {
                if !self.needed(index, block) {
                    continue;
                }
                let frame = self.frame_at(index);
                let page = u32::from(self.memory.table[self.table_place(frame, 8 * block)]);
                let owner = self.memory.owners.get(page as usize).copied();
                let owner = owner.unwrap_or(0);
                hold(Clause::PageBelow, page < registers.pages);
                hold(Clause::PageInside, self.position_of(page) < registers.used);
                hold(Clause::PageOwner, owner == owner_of(frame, block));
            }
        }
    }

    fn cache(&self, hold: &mut impl FnMut(Clause, bool)) {
        let cache = &self.state.cache;
        for entry in 0..32 {
            if cache.valid[entry] != 1 {
                continue;
            }
            let line = cache.held[entry];
            let is_in_set = line as usize % 16 == entry / 2;
            let is_below = line < self.state.registers.lines;
            if entry % 2 == 0 {
                hold(Clause::FirstSet, is_in_set);
                hold(Clause::FirstBelow, is_below);
                let is_twice = cache.valid[entry + 1] == 1 && cache.held[entry + 1] == line;
                hold(Clause::Once, !is_twice);
            } else {
                hold(Clause::SecondSet, is_in_set);
                hold(Clause::SecondBelow, is_below);
            }
            let (frame, bytes) = self.recent(line);
            let held = &cache.bytes[16 * entry..16 * entry + 16];
            hold(Clause::Frame, cache.origins[entry] == frame);
            hold(Clause::Bytes, bytes == Some(held));
        }
    }

    /// The surviving history that well-formed storage stands for, with its cache: none where a version lies outside the pool.
    pub fn history(&self) -> Option<Plain> {
        let state = self.state;
        let mut plain = Plain::new(settings_of(state));
        plain.base = self.memory.archive[..16 * state.registers.lines as usize].to_vec();
        let lines = 0..state.registers.lines;
        plain.ever = lines.map(|line| self.is_collected(line)).collect();
        plain.frames.clear();
        let mut memory = plain.base.clone();
        for index in 0..self.live() {
            let mut frame = Frame::over(memory);
            for line in 0..state.registers.lines {
                if self.effective(index, line) {
                    frame.write(16 * line as usize, self.version(index, line)?);
                }
            }
            memory = frame.memory.clone();
            plain.frames.push(frame);
        }
        for (number, set) in plain.sets.iter_mut().enumerate() {
            for way in 0..2 {
                let entry = 2 * number + way;
                if state.cache.valid[entry] == 1 {
                    set.ways[way] = Some(state.cache.held[entry]);
                }
            }
            // the way used last
            set.used[usize::from(state.cache.last[number] != 0)] = 1;
        }
        Some(plain)
    }
}

pub fn tag_of(group: u32) -> usize {
    (group >> 16 & 0xFF) as usize
}
