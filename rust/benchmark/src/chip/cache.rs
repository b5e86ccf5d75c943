//! Figure 3's cache: 16 sets of two ways, write-through.

pub const ARCHIVE: u16 = u16::MAX;
const NONE: u32 = u32::MAX;

#[derive(Clone, Copy)]
pub struct Entry {
    /// the line held, or NONE
    line: u32,
    /// the frame of the line's most recent version, or ARCHIVE
    pub frame: u16,
    pub bytes: [u8; 16],
}

#[derive(Clone, Copy)]
struct Set {
    ways: [Entry; 2],
    last: u8,
}

pub struct Cache {
    sets: [Set; 16],
}

impl Cache {
    pub fn new() -> Cache {
        let entry = Entry {
            line: NONE,
            frame: ARCHIVE,
            bytes: [0; 16],
        };
        let set = Set {
            ways: [entry; 2],
            last: 0,
        };
        Cache { sets: [set; 16] }
    }

    /// The way that holds a line.
    #[inline]
    pub fn way_of(&self, line: u32) -> Option<usize> {
        let set = &self.sets[line as usize % 16];
        set.ways.iter().position(|entry| entry.line == line)
    }

    #[inline]
    pub fn frame_of(&self, line: u32, way: usize) -> u16 {
        self.sets[line as usize % 16].ways[way].frame
    }

    /// The entry of a line's set and way, which becomes the most recently used.
    #[inline]
    pub fn entry(&mut self, line: u32, way: usize) -> &mut Entry {
        let set = &mut self.sets[line as usize % 16];
        set.last = way as u8;
        &mut set.ways[way]
    }

    /// Takes a way for a line that the cache does not hold.
    #[inline]
    pub fn fill(&mut self, line: u32, frame: u16, bytes: [u8; 16]) {
        let set = &mut self.sets[line as usize % 16];
        let free = set.ways.iter().position(|entry| entry.line == NONE);
        let way = free.unwrap_or(usize::from(set.last == 0));
        set.ways[way] = Entry { line, frame, bytes };
        set.last = way as u8;
    }

    fn entries(&mut self) -> impl Iterator<Item = &mut Entry> {
        self.sets.iter_mut().flat_map(|set| set.ways.iter_mut())
    }

    /// Drops the entries whose version lies in a frame that is gone.
    pub fn forget(&mut self, is_gone: impl Fn(u32) -> bool) {
        for entry in self.entries() {
            if entry.frame != ARCHIVE && is_gone(u32::from(entry.frame)) {
                entry.line = NONE;
            }
        }
    }

    /// Counts the lines of collected frames as the archive's.
    pub fn collect(&mut self, is_collected: impl Fn(u32) -> bool) {
        for entry in self.entries() {
            if entry.frame != ARCHIVE && is_collected(u32::from(entry.frame)) {
                entry.frame = ARCHIVE;
            }
        }
    }
}
