//! Damage done to well-formed storage: in what matters, aimed at each clause of well-formedness, and in what does not matter.
use crate::ring::{ends, owner_of};
use crate::rng::Rng;
use crate::stored::{Page, Stored};
use crate::wellformed::{tag_of, ARCHIVE, OPEN};

impl Stored {
    /// Damage where it should not matter.
    pub fn harmless(&mut self, rng: &Rng) {
        let tag = self.state.registers.tag as usize;
        match rng.below(14) {
            0 => self.turn_ring(rng),
            // entries of tags not used yet
            1 => {
                let history = self.memory.history.get_mut();
                for entry in history.iter_mut().skip(tag + 1) {
                    *entry = rng.pick(&[0, 1, OPEN, OPEN - 1, rng.short()]);
                }
            }
            // what lies above the tag of one group, or of all
            2 => {
                let groups = self.memory.groups.get_mut();
                let one = rng.place(groups.len());
                let (from, count) = rng.pick(&[(one, 1), (0, groups.len())]);
                for group in &mut groups[from..from + count] {
                    *group ^= rng.word() & 0xFF00_0000;
                }
            }
            // the tag of a group without bits
            3 => {
                let groups = self.memory.groups.get_mut();
                let at = rng.place(groups.len());
                if groups[at] & 0xFFFF == 0 {
                    groups[at] = rng.word() & 0xFFFF_0000;
                }
            }
            4 => self.stale_bit(rng),
            // a table entry of a place that is not needed
            5 => {
                if let Some((index, block)) = self.place_not_needed(rng) {
                    let at = self.table_place(index, block);
                    let pages = self.state.registers.pages;
                    self.memory.table.get_mut()[at] =
                        rng.pick(&[rng.short(), pages as u16, rng.below(pages) as u16]);
                }
            }
            // the owner of a page outside the segment
            6 => {
                if let Some(page) = self.free_page(rng) {
                    let owner = self.any_owner(rng);
                    let past = owner_of(self.state.registers.frames, 0);
                    self.memory.owners.get_mut()[page as usize] =
                        rng.pick(&[rng.word(), past, owner]);
                }
            }
            // a byte of a collected line in the archive, or of the pool: another history, unless the cache has the line
            7 => {
                let line = rng.below(self.state.registers.lines);
                if self.storage().is_collected(line) {
                    let at = 16 * line as usize + rng.place(16);
                    self.memory.archive.get_mut()[at] ^= 1 << rng.below(8);
                }
            }
            8 => {
                let pool = self.memory.pool.get_mut();
                pool[rng.place(pool.len())] ^= 1 << rng.below(8);
            }
            // an entry that is not valid
            9 => {
                if let Some(entry) = self.entry_of(rng, false) {
                    let cache = &mut self.state.cache;
                    cache.held[entry] = rng.below(2 * self.state.registers.lines);
                    cache.origins[entry] = rng.short();
                    cache.valid[entry] = rng.pick(&[0, 2, 3, 255]);
                    cache.bytes[16 * entry + rng.place(16)] ^= 0xFF;
                }
            }
            10 => self.state.cache.last[rng.place(16)] = rng.pick(&[0, 1, 2, 255]),
            // the flag of a collected line: any number but 0 says so
            11 => {
                let line = rng.below(self.state.registers.lines);
                let at = self.storage().flag_place(line);
                if self.storage().is_collected(line) {
                    self.memory.owners.get_mut()[at] = rng.pick(&[1, 2, 256, rng.word() | 1]);
                }
            }
            // a line that is collected from now on, of zeros or not: another history
            12 => {
                let line = rng.below(self.state.registers.lines);
                let at = self.storage().flag_place(line);
                self.memory.owners.get_mut()[at] = rng.pick(&[1, 65536, u32::MAX]);
            }
            // one more valid entry, in its place and right
            _ => {
                if let (Some(entry), line) = (
                    self.entry_of(rng, false),
                    rng.below(self.state.registers.lines),
                ) {
                    let is_held = (0..32).any(|e| {
                        self.state.cache.valid[e] == 1 && self.state.cache.held[e] == line
                    });
                    let home = 2 * (line as usize % 16) + entry % 2;
                    if !is_held && self.state.cache.valid[home] != 1 {
                        self.fill_entry(home, line);
                    }
                }
            }
        }
    }

    /// Sets a bit that the history masks.
    fn stale_bit(&mut self, rng: &Rng) {
        let storage = self.storage();
        let (index, line) = (
            rng.below(self.state.registers.frames),
            rng.below(self.state.registers.lines),
        );
        let frame = storage.frame_at(index);
        let at = storage.group_place(frame, line);
        let group = storage.memory.groups[at];
        let bound = u32::from(storage.memory.history[tag_of(group)]);
        if index >= bound && (group >> 16 & 0xFF) <= self.state.registers.tag {
            self.memory.groups.get_mut()[at] |= 1 << (frame % 16);
        }
    }

    /// Damage to any one element or field, whatever it means.
    pub fn anywhere(&mut self, rng: &Rng) {
        let live = self.storage().live();
        match rng.below(11) {
            0 => {
                let near = [live, live + 1, live.saturating_sub(1), 0, 1, 65534, 65535];
                let value = rng.pick(&near) as u16;
                let history = self.memory.history.get_mut();
                let at = match rng.below(3) {
                    0 => self.state.registers.tag.min(255) as usize,
                    1 => rng.below(self.state.registers.tag.min(255) + 1) as usize,
                    _ => rng.place(history.len()),
                };
                history[at] = rng.pick(&[value, rng.short(), history[at].wrapping_add(1)]);
            }
            1 => {
                let groups = self.memory.groups.get_mut();
                let at = rng.place(groups.len());
                let old = groups[at];
                let bit = old ^ 1 << rng.below(16);
                let tag = old & 0xFFFF | rng.below(256) << 16;
                groups[at] = rng.pick(&[bit, bit, tag, rng.word(), 0]);
            }
            2 => {
                let pages = self.state.registers.pages;
                let table = self.memory.table.get_mut();
                let at = rng.place(table.len());
                table[at] = rng.pick(&[rng.below(pages) as u16, pages as u16, rng.short()]);
            }
            3 => {
                let owner = self.any_owner(rng);
                let past = owner_of(self.state.registers.frames, 0);
                let owners = self.memory.owners.get_mut();
                let at = rng.place(owners.len());
                owners[at] = rng.pick(&[owner, past, owners[at] ^ 1, rng.word()]);
            }
            4 => {
                let archive = self.memory.archive.get_mut();
                archive[rng.place(archive.len())] = rng.word() as u8;
            }
            5 => {
                let pool = self.memory.pool.get_mut();
                pool[rng.place(pool.len())] = rng.word() as u8;
            }
            6 => {
                let entry = rng.place(32);
                let cache = &mut self.state.cache;
                match rng.below(4) {
                    0 => {
                        cache.held[entry] =
                            rng.pick(&[rng.below(self.state.registers.lines), rng.odd_word()])
                    }
                    1 => {
                        cache.origins[entry] = rng.pick(&[
                            rng.below(self.state.registers.frames) as u16,
                            ARCHIVE,
                            rng.short(),
                        ])
                    }
                    2 => cache.valid[entry] = rng.pick(&[0, 1, 2, 255]),
                    _ => cache.bytes[rng.place(512)] ^= 1 << rng.below(8),
                }
            }
            7 => {
                let frames = self.state.registers.frames;
                let value = rng.pick(&[rng.below(frames), frames, rng.odd_word()]);
                if rng.one_in(2) {
                    self.state.registers.cmf = value;
                } else {
                    self.state.registers.omf = value;
                }
            }
            8 => {
                self.state.registers.tag = rng.pick(&[
                    0,
                    self.state.registers.tag.wrapping_sub(1),
                    self.state.registers.tag + 1,
                    255,
                    256,
                    rng.odd_word(),
                ])
            }
            9 => {
                let registers = &mut self.state.registers;
                let register = if rng.one_in(2) {
                    &mut registers.first
                } else {
                    &mut registers.used
                };
                let near = rng.pick(&[register.wrapping_sub(1), register.wrapping_add(1)]);
                *register = rng.pick(&[near, near, rng.pick(&ends(registers.pages, rng))]);
            }
            _ => {
                let field = rng.pick(&[0, 1, 2]);
                let state = &mut self.state;
                match field {
                    0 => {
                        state.registers.lines = rng.pick(&[
                            8,
                            state.registers.lines - 8,
                            state.registers.lines + 8,
                            state.registers.lines + 1,
                            rng.odd_word(),
                        ])
                    }
                    1 => {
                        state.registers.frames = rng.pick(&[
                            16,
                            state.registers.frames - 16,
                            state.registers.frames + 16,
                            rng.odd_word(),
                        ])
                    }
                    _ => {
                        state.registers.pages = rng.pick(&[
                            1,
                            state.registers.pages - 1,
                            state.registers.pages + 1,
                            rng.odd_word(),
                        ])
                    }
                }
            }
        }
    }

    /// Damage that only one clause of well-formedness notices, where the storage has the place for it.
    pub fn aimed(&mut self, rng: &Rng) {
        let tag = self.state.registers.tag;
        match rng.below(20) {
            0 => {
                // a tag of 9 bits, with an open entry past the need
                self.lengthen(rng);
                let history = self.memory.history.get_mut();
                let top = rng.between(256, history.len() as u32 - 1);
                history[tag as usize + 1..=top as usize].fill(OPEN);
                self.state.registers.tag = top;
            }
            1 => self.tag_ahead(rng),
            2 => self.memory.history.get_mut()[tag as usize] = rng.pick(&[OPEN - 1, 256, 300]),
            3 if tag > 0 => {
                let history = self.memory.history.get_mut();
                let at = rng.below(tag) as usize;
                history[at] = history[at + 1].saturating_add(1);
            }
            4 => self.dead_frame(rng),
            5 => {
                let (entry, line) = (rng.place(32), rng.below(self.state.registers.lines));
                if line as usize % 16 != entry / 2 {
                    self.fill_entry(entry, line);
                }
            }
            6 => {
                let entry = rng.place(32);
                let line = (self.state.registers.lines + 15) / 16 * 16 + (entry / 2) as u32;
                let line = line + 16 * rng.below(3);
                self.fill_entry(entry, rng.pick(&[line, u32::MAX - 15 + (entry / 2) as u32]));
            }
            7 => {
                if let Some(entry) = self.entry_of(rng, true) {
                    self.fill_entry(entry ^ 1, self.state.cache.held[entry]);
                }
            }
            8 => {
                if let Some(entry) = self.entry_of(rng, true) {
                    self.state.cache.bytes[16 * entry + rng.place(16)] ^= 1 << rng.below(8);
                }
            }
            9 => {
                if let Some(entry) = self.entry_of(rng, true) {
                    let frame = rng.below(self.state.registers.frames) as u16;
                    self.state.cache.origins[entry] = rng.pick(&[
                        frame,
                        ARCHIVE,
                        ARCHIVE - 1,
                        self.state.registers.frames as u16,
                    ]);
                }
            }
            10 | 11 => self.spoil_archive(rng),
            _ => self.aimed_at_ring(rng),
        }
    }

    /// A line that was not collected with a byte in the archive that is not 0, by the byte or by the flag; the cache follows.
    fn spoil_archive(&mut self, rng: &Rng) {
        let line = rng.below(self.state.registers.lines);
        let at = self.storage().flag_place(line);
        if self.storage().is_collected(line) {
            self.memory.owners.get_mut()[at] = 0;
        } else {
            let byte = 16 * line as usize + rng.place(16);
            self.memory.archive.get_mut()[byte] = rng.pick(&[1, 128, 255]);
        }
        self.renew_entries();
    }

    /// A group's tag moved above the current one; its bits stay what they are.
    fn tag_ahead(&mut self, rng: &Rng) {
        let groups = self.memory.groups.get();
        let first = rng.place(groups.len());
        let mut places = (0..groups.len()).map(|n| (first + n) % groups.len());
        let at = match places.find(|at| groups[*at] & 0xFFFF != 0) {
            Some(at) => at,
            None => return,
        };
        if self.state.registers.tag < 255 {
            let group = groups[at];
            let ahead = rng.between(self.state.registers.tag + 1, 255);
            let history = self.memory.history.get_mut();
            history[ahead as usize] = history[tag_of(group)];
            self.memory.groups.get_mut()[at] = group & 0xFFFF | ahead << 16;
        }
    }

    /// An effective bit in a frame that is not live, with a page of its own behind all others.
    fn dead_frame(&mut self, rng: &Rng) {
        let (live, frames) = (self.storage().live(), self.state.registers.frames);
        let mut pages = self.needed_pages();
        if live == frames || pages.len() as u32 == self.state.registers.pages {
            return;
        }
        let index = rng.between(live, frames - 1);
        let line = rng.below(self.state.registers.lines);
        let storage = self.storage();
        let frame = storage.frame_at(index);
        let at = storage.group_place(frame, line);
        let group = storage.memory.groups[at];
        let bound = storage.memory.history[tag_of(group)];
        let groups = self.memory.groups.get_mut();
        if u32::from(bound) <= index || group & 0xFFFF == 0 {
            groups[at] = self.state.registers.tag << 16;
        }
        groups[at] |= 1 << (frame % 16);
        // the group may have lost older bits
        let storage = self.storage();
        pages.retain(|page| storage.needed(page.index, page.block));
        pages.push(Page {
            index,
            block: line / 8,
            bytes: [0; 128],
        });
        self.lay_out(&pages, rng);
        self.renew_entries();
    }
}
