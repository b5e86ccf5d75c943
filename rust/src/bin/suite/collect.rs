//! What ADVANCE leaves of the ring, the archive, the groups, the collected lines' flags and the history, on any storage.
//! Written from the definitions (specs of `storage`, `versions` and `written`), not from the library's code.
use crate::ring::seen;
use crate::stored::Stored;
use crate::wellformed::OPEN;

/// The pages from the oldest on, up to the first whose frame stays, are folded line by line, each where its bit is effective, whose flag is then
/// 1, and their frames' bits in their blocks are cleared. The history's entries go down with OMF.
fn advanced(before: &Stored, k: u32) -> Stored {
    let seen = Stored {
        state: seen(&before.state),
        memory: before.memory.clone(),
    };
    let storage = seen.storage();
    let gone = storage.indexes().iter().take_while(|i| **i < k).count() as u32;
    let mut after = before.clone();
    for position in 0..gone {
        let page = storage.page_at(position) as usize;
        let owner = storage.memory.owners[page];
        let (frame, block) = (owner / 512, owner % 512);
        let is_block = block < seen.state.registers.lines / 8;
        for slot in (0..8).filter(|_| is_block) {
            let line = 8 * block + slot;
            let (to, from) = (16 * line as usize, 128 * page + 16 * slot as usize);
            if storage.effective(storage.owner_index(owner), line) {
                let version = &storage.memory.pool[from..from + 16];
                after.memory.archive.get_mut()[to..to + 16].copy_from_slice(version);
                after.memory.owners.get_mut()[storage.flag_place(line)] = 1;
            }
            after.memory.groups.get_mut()[storage.group_place(frame, line)] &= !(1 << (frame % 16));
        }
    }
    for entry in &mut after.memory.history.get_mut()[..256] {
        if *entry != OPEN {
            *entry = entry.saturating_sub(k as u16);
        }
    }
    after.state.registers.first = storage.page_at(gone);
    after.state.registers.used = seen.state.registers.used - gone;
    after
}

/// An accepted ADVANCE has left just that.
pub fn collected_on_any(before: &Stored, after: &Stored, k: u32) -> Result<(), String> {
    let due = advanced(before, k);
    let ring = |stored: &Stored| (stored.state.registers.first, stored.state.registers.used);
    if ring(after) != ring(&due) {
        let (after, due) = (ring(after), ring(&due));
        return Err(format!("first and used are {after:?}, not {due:?}"));
    }
    let changed = after.memory.changed(&due.memory);
    if !changed.is_empty() {
        return Err(format!("{changed:?} is not what the pages collected leave"));
    }
    Ok(())
}
