//! What WRITE leaves of state and memory, to the last bit, on well-formed storage.
//! Written from document 01 and the definitions (`WroteTo` of `storage`, with those of `written`, `pages` and `cache`), not from the library's
//! code.
use crate::ring::owner_of;
use crate::stored::Stored;
use crate::wellformed::{tag_of, Storage};
use vcm::{Cache, Item};

/// "If the line has no written bit in CMF, its most recent version is copied there first": that version with the value's bytes.
fn content_after(storage: &Storage, item: Item) -> [u8; 16] {
    let (_, recent) = storage.recent(item.address / 16);
    let mut content = [0; 16];
    content.copy_from_slice(recent.expect("well-formed storage has every version"));
    let (width, offset) = (item.width as usize, item.address as usize % 16);
    content[offset..offset + width].copy_from_slice(&item.value.to_be_bytes()[4 - width..]);
    content
}

/// The group of the line in CMF's working area: "stale bits are cleared when read, by the rollback history", the line's own bit is set, and
/// the tag is the current one. Above the tag there is nothing.
fn group_after(storage: &Storage, line: u32) -> u32 {
    let registers = &storage.state.registers;
    let area = registers.cmf / 16 * 16;
    let stands = |frame: &u32| {
        let index = (frame + registers.frames - registers.omf) % registers.frames;
        *frame == registers.cmf || storage.effective(index, line)
    };
    let bits = (area..area + 16).filter(stands);
    bits.fold(registers.tag << 16, |group, frame| {
        group | 1 << (frame - area)
    })
}

/// The way of its set that holds a line.
fn way_of(cache: &Cache, line: u32) -> Option<usize> {
    let home = 2 * (line as usize % 16);
    (0..2).find(|way| cache.valid[home + way] == 1 && cache.held[home + way] == line)
}

/// "A hit moves its way to most recently used. A miss .. takes way 0 if it is invalid, else way 1 if that is invalid, else the less recently
/// used way; the way taken becomes most recently used." It has the line then, with its bytes and CMF as its frame.
fn put_in_cache(cache: &mut Cache, line: u32, frame: u32, content: &[u8; 16]) {
    let set = line as usize % 16;
    let is_free = |way: &usize| cache.valid[2 * set + way] != 1;
    let less_recent = usize::from(cache.last[set] == 0);
    let free = || (0..2).find(is_free).unwrap_or(less_recent);
    let way = way_of(cache, line).unwrap_or_else(free);
    let entry = 2 * set + way;
    cache.held[entry] = line;
    cache.origins[entry] = frame as u16;
    cache.valid[entry] = 1;
    cache.bytes[16 * entry..16 * entry + 16].copy_from_slice(content);
    cache.last[set] = way as u8;
}

/// An accepted WRITE. The page is the place's own where CMF needs it already, else the one behind the segment. It changes of the pool the
/// line's slot in that page, the line's group, the table's entry of the place, the page's owner, and the cache.
pub fn write(stored: &mut Stored, item: Item) {
    let storage = stored.storage();
    let (registers, line) = (stored.state.registers, item.address / 16);
    let owner = owner_of(registers.cmf, line / 8);
    let entry = storage.table_entry(owner);
    let is_needed = storage.has_page(item.address);
    let page = if is_needed {
        storage.memory.table[entry]
    } else {
        storage.page_at(registers.used) as u16
    };
    let slot = 128 * usize::from(page) + 16 * (line as usize % 8);
    let (place, group) = (
        storage.group_place(registers.cmf, line),
        group_after(&storage, line),
    );
    let content = content_after(&storage, item);
    stored.memory.pool.get_mut()[slot..slot + 16].copy_from_slice(&content);
    stored.memory.groups.get_mut()[place] = group;
    stored.memory.table.get_mut()[entry] = page;
    stored.memory.owners.get_mut()[usize::from(page)] = owner;
    stored.state.registers.used += u32::from(!is_needed);
    put_in_cache(&mut stored.state.cache, line, registers.cmf, &content);
}

/// State and memory are just those that are due.
pub fn is_as_due(stored: &Stored, due: &Stored) -> Result<(), String> {
    let (registers, expected) = (&stored.state.registers, &due.state.registers);
    if registers != expected {
        return Err(format!("{registers:?} are left, not {expected:?}"));
    }
    let changed = stored.memory.changed(&due.memory);
    if stored.state.cache != due.state.cache || !changed.is_empty() {
        return Err(format!(
            "the cache or {changed:?} is not what the papers have a WRITE leave"
        ));
    }
    Ok(())
}

/// An accepted WRITE on well-formed storage has left just that.
pub fn wrote_on_well(before: &Stored, after: &Stored, item: Item) -> Result<(), String> {
    let mut due = before.clone();
    write(&mut due, item);
    is_as_due(after, &due)
}

/// How often an accepted WRITE on well-formed storage found its line where: in the cache with CMF as its frame, its group with the current tag and
/// nothing above it, with something above it, or with an older tag; in the cache with another frame; not in the cache.
#[derive(Default)]
pub struct Finds {
    current: u64,
    above: u64,
    older: u64,
    other_frame: u64,
    none: u64,
}

impl Finds {
    /// An accepted WRITE, by the storage before it.
    pub fn add(&mut self, before: &Stored, item: Item) {
        let (storage, line) = (before.storage(), item.address / 16);
        let (registers, cache) = (&before.state.registers, &before.state.cache);
        let group = storage.memory.groups[storage.group_place(registers.cmf, line)];
        let entry = way_of(cache, line).map(|way| 2 * (line as usize % 16) + way);
        let count = match entry.map(|entry| u32::from(cache.origins[entry])) {
            None => &mut self.none,
            Some(frame) if frame != registers.cmf => &mut self.other_frame,
            _ if tag_of(group) as u32 != registers.tag => &mut self.older,
            _ if group >> 24 != 0 => &mut self.above,
            _ => &mut self.current,
        };
        *count += 1;
    }

    /// The counts in words; an error where one is 0.
    pub fn words(&self) -> Result<String, String> {
        let words = format!(
            "writes that found CMF's line in the cache with the current tag: {}, with bits above it: {}, with an older tag: {}; another frame's: {}; none: {}",
            self.current, self.above, self.older, self.other_frame, self.none
        );
        let least = [
            self.current,
            self.above,
            self.older,
            self.other_frame,
            self.none,
        ];
        if least.contains(&0) {
            return Err(format!("too few {words}"));
        }
        Ok(words)
    }
}
