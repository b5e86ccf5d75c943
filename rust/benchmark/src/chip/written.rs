//! Written bits in groups of 16 with their tag, and the rollback history. A bit of index i from OMF in a group with tag t stands if it is set
//! and i < history[t].

#[derive(Clone, Copy, Default)]
struct Group {
    bits: u16,
    tag: u8,
}

pub struct Written {
    lines: usize,
    frames: u32,
    omf: u32,
    /// area after area, in each one group for every line
    groups: Vec<Group>,
    history: [u16; 256],
    tag: u8,
}

/// The n lowest bits.
fn low(n: u32) -> u16 {
    ((1u32 << n) - 1) as u16
}

impl Written {
    pub fn new(lines: u32, frames: u32) -> Written {
        Written {
            lines: lines as usize,
            frames,
            omf: 0,
            groups: vec![Group::default(); (lines * frames / 16) as usize],
            history: [u16::MAX; 256],
            tag: 0,
        }
    }

    #[inline]
    pub fn frame_at(&self, index: u32) -> u32 {
        let frame = self.omf + index;
        if frame < self.frames {
            frame
        } else {
            frame - self.frames
        }
    }

    #[inline]
    pub fn index_of(&self, frame: u32) -> u32 {
        if frame < self.omf {
            frame + self.frames - self.omf
        } else {
            frame - self.omf
        }
    }

    #[inline]
    fn bound(&self, group: Group) -> u32 {
        u32::from(self.history[usize::from(group.tag)])
    }

    #[inline]
    fn place(&self, frame: u32, line: u32) -> usize {
        (frame / 16) as usize * self.lines + line as usize
    }

    /// The newest version of a line from an index down, one group for each area.
    #[inline]
    pub fn newest(&self, line: u32, start: u32) -> Option<u32> {
        let mut i = start;
        loop {
            let frame = self.frame_at(i);
            let group = self.groups[self.place(frame, line)];
            let here = frame % 16;
            let down = here.min(i);
            if group.bits != 0 {
                let top = (here + 1).min((self.bound(group) + here).saturating_sub(i));
                let stand = group.bits & low(top) & !low(here - down);
                if stand != 0 {
                    return Some(i + stand.ilog2() - here);
                }
            }
            if i == down {
                return None;
            }
            i -= down + 1;
        }
    }

    /// The bits of an area whose index lies below a bound.
    fn below(&self, area: u32, bound: u32) -> u16 {
        let first = self.index_of(16 * area);
        let ahead = (self.frames - first).min(16);
        let before = low(bound.saturating_sub(first).min(ahead));
        let after = low((ahead + bound).min(16)) & !low(ahead);
        before | after
    }

    #[inline]
    pub fn set(&mut self, line: u32, index: u32) {
        let frame = self.frame_at(index);
        let place = self.place(frame, line);
        let group = self.groups[place];
        let stand = if group.tag == self.tag {
            group.bits
        } else {
            group.bits & self.below(frame / 16, self.bound(group))
        };
        self.groups[place] = Group {
            bits: stand | 1 << (frame % 16),
            tag: self.tag,
        };
    }

    /// The entries of the tags in use, from the oldest to the newest.
    pub fn history(&self) -> &[u16] {
        &self.history[..=usize::from(self.tag)]
    }

    /// Enters a rollback: from the newest used entry of the history on, each that is less deep gets the target, up to the first that is not.
    /// Gives how many were compared, that one included.
    fn enter(&mut self, kept: u16) -> usize {
        let used = &mut self.history[..=usize::from(self.tag)];
        let mut compared = 0;
        for bound in used.iter_mut().rev() {
            compared += 1;
            if *bound <= kept {
                break;
            }
            *bound = kept;
        }
        compared
    }

    /// Gives how many entries of the history were compared.
    pub fn rollback(&mut self, kept: u32) -> usize {
        let compared = self.enter(kept as u16);
        if self.tag == u8::MAX {
            self.sweep();
        }
        self.tag = self.tag.wrapping_add(1);
        self.history[usize::from(self.tag)] = u16::MAX;
        compared
    }

    fn sweep(&mut self) {
        for area in 0..self.frames / 16 {
            let masks = self.history.map(|bound| self.below(area, u32::from(bound)));
            let from = area as usize * self.lines;
            for group in &mut self.groups[from..from + self.lines] {
                group.bits &= masks[usize::from(group.tag)];
                group.tag = 0;
            }
        }
    }

    /// Whether a line is written in a live frame; its bit there is cleared.
    #[inline]
    pub fn take(&mut self, line: u32, frame: u32) -> bool {
        let place = self.place(frame, line);
        let group = self.groups[place];
        let bit = 1 << (frame % 16);
        let stands = group.bits & bit != 0 && self.index_of(frame) < self.bound(group);
        if stands {
            self.groups[place].bits = group.bits & !bit;
        }
        stands
    }

    /// Moves OMF on past k frames whose bits that stand are cleared. What is left of their bits has a bound of 0 then.
    pub fn advance(&mut self, k: u32) {
        for bound in &mut self.history {
            *bound = match *bound {
                u16::MAX => u16::MAX,
                bound => bound.saturating_sub(k as u16),
            };
        }
        self.omf = self.frame_at(k);
    }
}
