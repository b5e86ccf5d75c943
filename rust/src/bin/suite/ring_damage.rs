//! Changes to the ring of pages of well-formed storage: one that keeps it, and for each of its clauses one that no other notices.
use crate::ring::owner_of;
use crate::rng::Rng;
use crate::stored::{Page, Stored};

impl Stored {
    /// Another start, and the pages of each frame in another order.
    pub fn turn_ring(&mut self, rng: &Rng) {
        let mut pages = self.needed_pages();
        pages.sort_by_cached_key(|page| (page.index, rng.word()));
        self.lay_out(&pages, rng);
    }

    /// Damage that one of R1 to R4 alone notices, where the storage has the pages for it.
    pub fn aimed_at_ring(&mut self, rng: &Rng) {
        let pages = self.needed_pages();
        match rng.below(9) {
            0 => self.start_past(rng),
            1 => self.longer_than_pool(&pages, rng),
            2 => self.page_not_needed(pages, rng),
            3 => self.page_of_no_place(&pages, rng),
            4 => self.page_twice(pages, rng),
            5 => self.page_past_pool(pages, rng),
            6 => self.page_outside(pages, rng),
            7 => self.page_shared(pages, rng),
            _ => self.order_broken(pages, rng),
        }
    }

    /// R1: the same start some times further round the pool.
    fn start_past(&mut self, rng: &Rng) {
        let registers = &mut self.state.registers;
        let most = (u32::MAX - registers.first) / registers.pages;
        registers.first += registers.pages * rng.pick(&[1, 1, 2, most]);
    }

    /// R1: all pages needed and of one frame, so that a segment that goes on past its start meets the other clauses.
    fn longer_than_pool(&mut self, pages: &[Page], rng: &Rng) {
        if pages.is_empty() {
            return;
        }
        let index = rng.pick(pages).index;
        let of_frame: Vec<_> = pages.iter().copied().filter(|p| p.index == index).collect();
        for page in pages.iter().filter(|page| page.index != index) {
            self.clear_bits(page);
        }
        let count = of_frame.len() as u32;
        self.state.registers.pages = count;
        self.lay_out(&of_frame, rng);
        self.state.registers.used = rng.pick(&[count + 1, 2 * count, u32::MAX]);
        self.renew_entries();
    }

    /// No line of the page is written in its frame.
    fn clear_bits(&mut self, page: &Page) {
        for line in 8 * page.block..8 * page.block + 8 {
            let storage = self.storage();
            let frame = storage.frame_at(page.index);
            let at = storage.group_place(frame, line);
            self.memory.groups.get_mut()[at] &= !(1 << (frame % 16));
        }
    }

    /// R2: one page more, of a place that is not needed.
    fn page_not_needed(&mut self, mut pages: Vec<Page>, rng: &Rng) {
        let (index, block) = match self.place_not_needed(rng) {
            Some(place) => place,
            None => return,
        };
        if pages.len() as u32 == self.state.registers.pages {
            return;
        }
        let position = pages.partition_point(|page| page.index <= index);
        let page = Page {
            index,
            block,
            bytes: [0; 128],
        };
        pages.insert(position, page);
        self.lay_out(&pages, rng);
    }

    /// R2: one page more, whose owner is of no frame or of no block.
    fn page_of_no_place(&mut self, pages: &[Page], rng: &Rng) {
        let registers = self.state.registers;
        if pages.len() as u32 == registers.pages {
            return;
        }
        self.lengthen(rng);
        self.lay_out(pages, rng);
        let storage = self.storage();
        let blocks = registers.lines / 8;
        let newest = storage.frame_at(pages.last().map_or(0, |page| page.index));
        let owner = rng.pick(&[
            owner_of(registers.frames, rng.below(blocks)),
            owner_of(newest, blocks),
        ]);
        let at = storage.page_at(pages.len() as u32);
        let entry = storage.table_entry(owner);
        self.memory.owners.get_mut()[at as usize] = owner;
        self.memory.table.get_mut()[entry] = at as u16;
        self.state.registers.used += 1;
    }

    /// R2: a place owns two pages next to each other, and the table has one of them.
    fn page_twice(&mut self, mut pages: Vec<Page>, rng: &Rng) {
        if pages.is_empty() || pages.len() as u32 == self.state.registers.pages {
            return;
        }
        let position = rng.place(pages.len());
        let page = pages[position];
        pages.insert(position, page);
        self.lay_out(&pages, rng);
        if rng.one_in(2) {
            let at = self.storage().page_at(position as u32);
            self.put_page(&page, at);
        }
    }

    /// One of the needed pages, and the ring laid out without it; none where there are not so many pages.
    fn taken_out(&mut self, mut pages: Vec<Page>, least: usize, rng: &Rng) -> Option<Page> {
        if pages.len() < least {
            return None;
        }
        let page = pages.remove(rng.place(pages.len()));
        self.lay_out(&pages, rng);
        Some(page)
    }

    /// R3: a page past the pool, with a number P above that of a page of the segment. Its owner stands where lines' flags are, or behind them.
    fn page_past_pool(&mut self, pages: Vec<Page>, rng: &Rng) {
        self.lengthen(rng);
        if let Some(page) = self.taken_out(pages, 2, rng) {
            let registers = self.state.registers;
            let other = self.storage().page_at(rng.below(registers.used));
            self.put_page(&page, registers.pages + other);
        }
    }

    /// R3: a page outside the segment, often next to its end or its start.
    fn page_outside(&mut self, pages: Vec<Page>, rng: &Rng) {
        if let Some(page) = self.taken_out(pages, 1, rng) {
            let (used, last) = (self.state.registers.used, self.state.registers.pages - 1);
            let position = rng.pick(&[used, last, rng.between(used, last)]);
            let at = self.storage().page_at(position);
            self.put_page(&page, at);
        }
    }

    /// R3: two places share a page, whose owner is one of them.
    fn page_shared(&mut self, pages: Vec<Page>, rng: &Rng) {
        if let Some(page) = self.taken_out(pages, 2, rng) {
            let position = rng.below(self.state.registers.used);
            let at = self.storage().page_at(position);
            let place = self.table_place(page.index, page.block);
            self.memory.table.get_mut()[place] = at as u16;
            self.renew_entries();
        }
    }

    /// R4: two pages of different frames have changed places.
    fn order_broken(&mut self, mut pages: Vec<Page>, rng: &Rng) {
        let is_rise = |at: &usize| pages[at - 1].index < pages[*at].index;
        let rises: Vec<_> = (1..pages.len()).filter(is_rise).collect();
        if rises.is_empty() {
            return;
        }
        let at = rng.pick(&rises);
        let later = at + rng.place(pages.len() - at);
        pages.swap(at - 1, rng.pick(&[at, later]));
        self.lay_out(&pages, rng);
    }
}
