//! The same algorithm as the proved store in safe Rust, with `&mut self` and nothing proved: written bits in groups of 16 with tags, a rollback
//! history with bounds relative to OMF, a ring of pages with a table and owners, a cache of 16 sets of two ways, an archive and which of its lines
//! were collected. Its answers and its refusals from 7 to 13 are the same; 5 and 6 cannot come.
mod cache;
mod written;

use crate::peer::{Origin, Paged, Peer, Seen};
use crate::workload::Settings;
use cache::{Cache, ARCHIVE};
use vcm::Refusal;
use written::Written;

type Line = [u8; 16];

/// A value of 1, 2 or 4 bytes, most significant byte first.
#[inline]
fn value_of(line: &Line, width: u32, offset: usize) -> u32 {
    match width {
        1 => u32::from(line[offset]),
        2 => u32::from(u16::from_be_bytes([line[offset], line[offset + 1]])),
        _ => u32::from_be_bytes(line[offset..offset + 4].try_into().expect("4 bytes")),
    }
}

#[inline]
fn edit(line: &mut Line, width: u32, offset: usize, value: u32) {
    match width {
        1 => line[offset] = value as u8,
        2 => line[offset..offset + 2].copy_from_slice(&(value as u16).to_be_bytes()),
        _ => line[offset..offset + 4].copy_from_slice(&value.to_be_bytes()),
    }
}

pub struct Chip {
    lines: u32,
    frames: u32,
    pages: u32,
    blocks: u32,
    /// live frames
    live: u32,
    cmf: u32,
    /// the oldest needed page
    first: u32,
    /// how many pages are needed: those from the first on, round the pool, in the order of their frames
    used: u32,
    archive: Vec<Line>,
    /// which lines were copied to the archive
    collected: Vec<bool>,
    pool: Vec<[Line; 8]>,
    table: Vec<u16>,
    /// for each page its frame * 512 + block
    owners: Vec<u32>,
    written: Written,
    cache: Cache,
}

impl Chip {
    fn new(settings: Settings) -> Chip {
        let Settings {
            lines,
            frames,
            pages,
        } = settings;
        let blocks = lines / 8;
        Chip {
            lines,
            frames,
            pages,
            blocks,
            live: 1,
            cmf: 0,
            first: 0,
            used: 0,
            archive: vec![[0; 16]; lines as usize],
            collected: vec![false; lines as usize],
            pool: vec![[[0; 16]; 8]; pages as usize],
            table: vec![0; (blocks * frames) as usize],
            owners: vec![u32::MAX; pages as usize],
            written: Written::new(lines, frames),
            cache: Cache::new(),
        }
    }

    #[inline]
    fn admit(&self, width: u32, address: u32) -> Result<(), Refusal> {
        if !matches!(width, 1 | 2 | 4) {
            Err(Refusal::Width)
        } else if address & (width - 1) != 0 {
            Err(Refusal::Alignment)
        } else if address > 16 * self.lines - width {
            Err(Refusal::Range)
        } else {
            Ok(())
        }
    }

    /// Where the table has the page of a block in a frame.
    #[inline]
    fn place(&self, frame: u32, block: u32) -> usize {
        (frame * self.blocks + block) as usize
    }

    /// The most recent version of a line: its bytes, its frame as the cache has it, its origin.
    #[inline]
    fn newest(&self, line: u32) -> (Line, u16, Origin) {
        match self.written.newest(line, self.live - 1) {
            Some(index) => {
                let frame = self.written.frame_at(index);
                let page = self.table[self.place(frame, line / 8)];
                let bytes = self.pool[usize::from(page)][line as usize % 8];
                (bytes, frame as u16, Origin::Frame(self.live - 1 - index))
            }
            None => (self.archive[line as usize], ARCHIVE, Origin::Archive),
        }
    }

    /// Whether no surviving write has touched a line, by the frame of its most recent version.
    #[inline]
    fn is_empty(&self, line: u32, frame: u16) -> bool {
        frame == ARCHIVE && !self.collected[line as usize]
    }

    #[inline(always)]
    fn read(&mut self, width: u32, address: u32) -> Result<(u32, Origin), Refusal> {
        self.admit(width, address)?;
        let (line, offset) = (address / 16, address as usize % 16);
        if let Some(way) = self.cache.way_of(line) {
            let entry = self.cache.entry(line, way);
            let (value, frame) = (value_of(&entry.bytes, width, offset), entry.frame);
            if self.is_empty(line, frame) {
                return Ok((value, Origin::Empty));
            }
            return Ok((value, Origin::Cache));
        }
        self.load(line, width, offset)
    }

    /// A read of a line that the cache does not hold.
    #[inline]
    fn load(&mut self, line: u32, width: u32, offset: usize) -> Result<(u32, Origin), Refusal> {
        let (bytes, frame, origin) = self.newest(line);
        self.cache.fill(line, frame, bytes);
        let value = value_of(&bytes, width, offset);
        if self.is_empty(line, frame) {
            return Ok((value, Origin::Empty));
        }
        Ok((value, origin))
    }

    #[inline]
    fn write(&mut self, width: u32, address: u32, value: u32) -> Result<(), Refusal> {
        self.admit(width, address)?;
        if width < 4 && value >> (8 * width) != 0 {
            return Err(Refusal::Value);
        }
        let (line, offset) = (address / 16, address as usize % 16);
        let (block, slot) = (line / 8, line as usize % 8);
        let frame = self.cmf as u16;
        let here = self.place(self.cmf, block);
        let hit = self.cache.way_of(line);
        // The line's version of this very frame, in the cache: its page and its written bit are there already.
        if let Some(way) = hit.filter(|way| self.cache.frame_of(line, *way) == frame) {
            let entry = self.cache.entry(line, way);
            edit(&mut entry.bytes, width, offset, value);
            self.pool[usize::from(self.table[here])][slot] = entry.bytes;
            return Ok(());
        }
        let page = self.page_for(block)?;
        let bytes = if let Some(way) = hit {
            let entry = self.cache.entry(line, way);
            edit(&mut entry.bytes, width, offset, value);
            entry.frame = frame;
            entry.bytes
        } else {
            let (mut bytes, _, _) = self.newest(line);
            edit(&mut bytes, width, offset, value);
            self.cache.fill(line, frame, bytes);
            bytes
        };
        self.pool[usize::from(page)][slot] = bytes;
        self.written.set(line, self.live - 1);
        Ok(())
    }

    /// The page of a block in the current frame: its own, and else the next of the ring.
    fn page_for(&mut self, block: u32) -> Result<u16, Refusal> {
        let here = self.place(self.cmf, block);
        let owner = self.cmf * 512 + block;
        if self.is_own(self.table[here], owner) {
            return Ok(self.table[here]);
        }
        if self.used == self.pages {
            return Err(Refusal::Pages);
        }
        let page = self.page_at(self.used);
        self.table[here] = page as u16;
        self.owners[page as usize] = owner;
        self.used += 1;
        Ok(page as u16)
    }

    /// The page at a position of the ring.
    #[inline]
    fn page_at(&self, i: u32) -> u32 {
        let page = self.first + i;
        if page < self.pages {
            page
        } else {
            page - self.pages
        }
    }

    /// Whether a page is needed, and by this owner.
    #[inline]
    fn is_own(&self, page: u16, owner: u32) -> bool {
        let page = u32::from(page);
        let behind = if page < self.first { self.pages } else { 0 };
        page + behind - self.first < self.used && self.owners[page as usize] == owner
    }

    /// The index from OMF of the frame of a page.
    #[inline]
    fn index_at(&self, page: u32) -> u32 {
        self.written.index_of(self.owners[page as usize] / 512)
    }

    /// How many pages of the ring lie in frames with an index below a limit.
    fn pages_below(&self, limit: u32) -> u32 {
        let (mut low, mut high) = (0, self.used);
        while low < high {
            let middle = (low + high) / 2;
            if self.index_at(self.page_at(middle)) < limit {
                low = middle + 1;
            } else {
                high = middle;
            }
        }
        low
    }

    /// COUNTS: the live frames and the pages needed.
    #[inline]
    fn counts(&self) -> (u32, u32) {
        (self.live, self.used)
    }

    fn mark(&mut self) -> Result<(), Refusal> {
        if self.live == self.frames {
            return Err(Refusal::Frames);
        }
        self.live += 1;
        self.cmf = self.written.frame_at(self.live - 1);
        Ok(())
    }

    /// Gives how many entries of the history were compared.
    pub fn rollback(&mut self, k: u32) -> Result<usize, Refusal> {
        if k == 0 || k >= self.live {
            return Err(Refusal::Marks);
        }
        self.live -= k;
        self.cmf = self.written.frame_at(self.live - 1);
        let compared = self.written.rollback(self.live);
        let (written, live) = (&self.written, self.live);
        self.cache.forget(|frame| written.index_of(frame) >= live);
        self.used = self.pages_below(self.live);
        Ok(compared)
    }

    /// The entries of the tags in use.
    pub fn history(&self) -> &[u16] {
        self.written.history()
    }

    /// Copies the lines written in a page to the archive, notes that they were collected, and clears their bits.
    fn fold(&mut self, page: u32) {
        let owner = self.owners[page as usize];
        let (frame, block) = (owner / 512, owner % 512);
        let first = 8 * block as usize;
        let content = &self.pool[page as usize];
        for (slot, line) in self.archive[first..first + 8].iter_mut().enumerate() {
            if self.written.take((first + slot) as u32, frame) {
                *line = content[slot];
                self.collected[first + slot] = true;
            }
        }
    }

    fn advance(&mut self, k: u32) -> Result<(), Refusal> {
        if k == 0 || k >= self.live {
            return Err(Refusal::Marks);
        }
        // Older pages come first, so the newest version of a line is folded last.
        while self.used > 0 && self.index_at(self.first) < k {
            self.fold(self.first);
            self.first = self.page_at(1);
            self.used -= 1;
        }
        let written = &self.written;
        self.cache.collect(|frame| written.index_of(frame) < k);
        self.written.advance(k);
        self.live -= k;
        Ok(())
    }
}

impl Peer for Chip {
    const NAME: &'static str = "chip-rust";

    fn new(settings: Settings) -> Self {
        Chip::new(settings)
    }

    #[inline(always)]
    fn read(&mut self, width: u32, address: u32) -> Seen {
        let (value, origin) = Chip::read(self, width, address).expect("accepted");
        Seen {
            value,
            origin: Some(origin),
        }
    }

    #[inline]
    fn write(&mut self, width: u32, address: u32, value: u32) {
        Chip::write(self, width, address, value).expect("accepted");
    }

    fn mark(&mut self) {
        Chip::mark(self).expect("accepted");
    }

    fn rollback(&mut self, k: u32) {
        Chip::rollback(self, k).expect("accepted");
    }

    fn advance(&mut self, k: u32) {
        Chip::advance(self, k).expect("accepted");
    }

    fn refused_write(&mut self, width: u32, address: u32, value: u32) {
        let answer = Chip::write(self, width, address, value);
        assert_eq!(answer, Err(Refusal::Pages));
    }
}

impl Paged for Chip {
    fn counts(&self) -> (u32, u32) {
        Chip::counts(self)
    }
}
