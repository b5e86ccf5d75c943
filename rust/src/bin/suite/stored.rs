//! State and memory of any contents, places in them that damage looks for, and the ring of pages built anew.
use crate::memory::Memory;
use crate::ring::owner_of;
use crate::rng::Rng;
use crate::wellformed::Storage;
use vcm::State;

/// A page of needed lines: the index of its frame from OMF, its block, and its bytes.
#[derive(Clone, Copy)]
pub struct Page {
    pub index: u32,
    pub block: u32,
    pub bytes: [u8; 128],
}

/// State and memory, whatever they hold.
#[derive(Clone, Debug, PartialEq, Eq)]
pub struct Stored {
    pub state: State,
    pub memory: Memory,
}

impl Stored {
    /// Only for a state within its limits and memory that is long enough.
    pub fn storage(&self) -> Storage<'_> {
        Storage {
            state: &self.state,
            memory: self.memory.shown(),
        }
    }

    pub fn entry_of(&self, rng: &Rng, is_valid: bool) -> Option<usize> {
        let first = rng.place(32);
        let mut entries = (0..32).map(|n| (first + n) % 32);
        entries.find(|entry| (self.state.cache.valid[*entry] == 1) == is_valid)
    }

    /// A place that is not needed: an index from OMF and a block of 8 lines.
    pub fn place_not_needed(&self, rng: &Rng) -> Option<(u32, u32)> {
        let blocks = self.state.registers.lines / 8;
        let count = self.state.registers.frames * blocks;
        let first = rng.below(count);
        let mut places =
            (0..count).map(|n| ((first + n) % count / blocks, (first + n) % count % blocks));
        let storage = self.storage();
        places.find(|(index, block)| !storage.needed(*index, *block))
    }

    /// A page outside the segment; none where that goes all round.
    pub fn free_page(&self, rng: &Rng) -> Option<u32> {
        let registers = &self.state.registers;
        let is_free = registers.used < registers.pages;
        is_free.then(|| {
            let position = rng.between(registers.used, registers.pages - 1);
            self.storage().page_at(position)
        })
    }

    /// An owner that is a place, needed or not.
    pub fn any_owner(&self, rng: &Rng) -> u32 {
        let frame = rng.below(self.state.registers.frames);
        owner_of(frame, rng.below(self.state.registers.lines / 8))
    }

    pub fn table_place(&self, index: u32, block: u32) -> usize {
        let storage = self.storage();
        storage.table_place(storage.frame_at(index), 8 * block)
    }

    /// A valid entry with a line's most recent bytes and frame.
    pub fn fill_entry(&mut self, entry: usize, line: u32) {
        let (frame, bytes) = self.storage().recent(line);
        let mut content = [0; 16];
        if let Some(bytes) = bytes {
            content.copy_from_slice(bytes);
        }
        let cache = &mut self.state.cache;
        cache.held[entry] = line;
        cache.origins[entry] = frame;
        cache.valid[entry] = 1;
        cache.bytes[16 * entry..16 * entry + 16].copy_from_slice(&content);
    }

    /// Every valid entry with its line's most recent bytes and frame.
    pub fn renew_entries(&mut self) {
        for entry in 0..32 {
            if self.state.cache.valid[entry] == 1 {
                self.fill_entry(entry, self.state.cache.held[entry]);
            }
        }
    }

    /// The needed pages, those of older frames first. Only for well-formed storage.
    pub fn needed_pages(&self) -> Vec<Page> {
        let storage = self.storage();
        let mut pages = Vec::new();
        for index in 0..self.state.registers.frames {
            for block in 0..self.state.registers.lines / 8 {
                if storage.needed(index, block) {
                    let place = self.table_place(index, block);
                    let from = 128 * usize::from(storage.memory.table[place]);
                    let mut bytes = [0; 128];
                    bytes.copy_from_slice(&storage.memory.pool[from..from + 128]);
                    pages.push(Page {
                        index,
                        block,
                        bytes,
                    });
                }
            }
        }
        pages
    }

    /// Puts a page's bytes at a page of the pool, with the table's entry and the owner.
    pub fn put_page(&mut self, page: &Page, at: u32) {
        let place = self.table_place(page.index, page.block);
        let owner = owner_of(self.storage().frame_at(page.index), page.block);
        let from = 128 * at as usize;
        self.memory.pool.get_mut()[from..from + 128].copy_from_slice(&page.bytes);
        self.memory.table.get_mut()[place] = at as u16;
        self.memory.owners.get_mut()[at as usize] = owner;
    }

    /// Builds the ring anew: these pages in this order, from a random page of the pool on.
    pub fn lay_out(&mut self, pages: &[Page], rng: &Rng) {
        self.state.registers.first = rng.below(self.state.registers.pages);
        self.state.registers.used = pages.len() as u32;
        for (position, page) in pages.iter().enumerate() {
            let at = self.storage().page_at(position as u32);
            self.put_page(page, at);
        }
    }

    /// Makes the pieces long enough for tags of 9 bits, one frame more in the table, and twice the pages.
    pub fn lengthen(&mut self, rng: &Rng) {
        let registers = &self.state.registers;
        let (frames, pages) = (registers.frames as usize, registers.pages as usize);
        let blocks = registers.lines as usize / 8;
        let mut lengths = self.memory.lengths();
        lengths.history = lengths.history.max(260);
        lengths.table = lengths.table.max((frames + 1) * blocks);
        lengths.owners = lengths.owners.max(2 * pages);
        lengths.pool = lengths.pool.max(2 * 128 * pages);
        self.memory = self.memory.resized(lengths, rng);
    }
}
