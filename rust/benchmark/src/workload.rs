//! The workloads of the report's section VI as lists of calls, made once and played on every store alike.
use crate::random::Random;
use std::collections::VecDeque;

#[derive(Clone, Copy, Debug)]
pub struct Settings {
    pub lines: u32,
    pub frames: u32,
    pub pages: u32,
}

/// A call. A refused one is a write that gets 13.
#[derive(Clone, Copy, Debug)]
pub enum Op {
    Read { width: u8, address: u32 },
    Write { width: u8, address: u32, value: u32 },
    Refused { width: u8, address: u32, value: u32 },
    Mark,
    Rollback(u32),
    Advance(u32),
}

pub struct Workload {
    pub name: &'static str,
    pub settings: Settings,
    /// all calls; those before `warm` fill the store and are not timed
    pub ops: Vec<Op>,
    pub warm: usize,
    /// the most pages ever needed
    pub needed: usize,
    /// where in `ops` a write needs a page that was not needed before
    pub firsts: Vec<usize>,
}

impl Workload {
    /// The warm-up and so many timed calls.
    pub fn prefix(&self, timed: usize) -> &[Op] {
        &self.ops[..self.ops.len().min(self.warm + timed)]
    }

    /// The list with reads behind each run of writes, of what these wrote, so that there is something to compare.
    pub fn with_reads(&self) -> Workload {
        let mut ops = Vec::new();
        let mut run = Vec::new();
        for op in &self.ops {
            if let Op::Write { width, address, .. } = *op {
                run.push(Op::Read { width, address });
            } else {
                ops.append(&mut run);
            }
            ops.push(*op);
        }
        Workload {
            ops,
            warm: 0,
            firsts: Vec::new(),
            ..*self
        }
    }

    /// The list without the writes that get 13, for peers that have no pages.
    pub fn accepted(&self) -> Workload {
        let is_accepted = |op: &Op| !matches!(op, Op::Refused { .. });
        let mut next = 0;
        let place = |op: &Op| {
            let here = next;
            next += usize::from(is_accepted(op));
            here
        };
        let places: Vec<usize> = self.ops.iter().map(place).collect();
        Workload {
            ops: self.ops.iter().copied().filter(is_accepted).collect(),
            warm: places[self.warm],
            firsts: self.firsts.iter().map(|first| places[*first]).collect(),
            ..*self
        }
    }

    /// What the heading tells of the list.
    pub fn heading(&self) -> String {
        let count = |test: fn(&Op) -> bool| self.ops.iter().filter(|op| test(op)).count();
        let Settings {
            lines,
            frames,
            pages,
        } = self.settings;
        format!(
            "# {}: L {lines}, F {frames}, P {pages} ({} needed at most); {} calls of which {} untimed: {} reads, {} writes, {} writes that get 13, {} marks, {} rollbacks, {} advances",
            self.name,
            self.needed,
            self.ops.len(),
            self.warm,
            count(|op| matches!(op, Op::Read { .. })),
            count(|op| matches!(op, Op::Write { .. })),
            count(|op| matches!(op, Op::Refused { .. })),
            count(|op| matches!(op, Op::Mark)),
            count(|op| matches!(op, Op::Rollback(_))),
            count(|op| matches!(op, Op::Advance(_))),
        )
    }
}

/// A list in the making, which knows the live frames and the pages needed, and so which calls are refused.
struct Maker {
    settings: Settings,
    random: Random,
    ops: Vec<Op>,
    /// for each live frame the blocks written in it
    live: VecDeque<Vec<u32>>,
    needed: usize,
    most: usize,
    firsts: Vec<usize>,
    mean: f64,
    deviation: f64,
    marks: u32,
}

impl Maker {
    /// Addresses are normal with this deviation, in lines.
    fn new(settings: Settings, deviation: f64, seed: u64) -> Maker {
        let mut random = Random::new(seed);
        let mean = f64::from(random.below(settings.lines));
        Maker {
            settings,
            random,
            ops: Vec::new(),
            live: VecDeque::from([Vec::new()]),
            needed: 0,
            most: 0,
            firsts: Vec::new(),
            mean,
            deviation,
            marks: 0,
        }
    }

    fn live(&self) -> u32 {
        self.live.len() as u32
    }

    fn line(&mut self) -> u32 {
        loop {
            let line = self.random.normal(self.mean, self.deviation).floor();
            if 0.0 <= line && line < f64::from(self.settings.lines) {
                return line as u32;
            }
        }
    }

    /// A write of one line: mostly a word, now and then a part of one.
    fn write(&mut self, line: u32) {
        let (width, address, value) = self.piece(line);
        let blocks = self.live.back_mut().expect("a frame");
        if !blocks.contains(&(line / 8)) {
            blocks.push(line / 8);
            self.firsts.push(self.ops.len());
            self.needed += 1;
            self.most = self.most.max(self.needed);
            assert!(self.needed <= self.settings.pages as usize, "no page left");
        }
        self.ops.push(Op::Write {
            width,
            address,
            value,
        });
    }

    /// A write that finds all pages needed, and its own not among them.
    fn refused_write(&mut self, line: u32) {
        let blocks = self.live.back().expect("a frame");
        let is_full = self.needed == self.settings.pages as usize;
        assert!(is_full && !blocks.contains(&(line / 8)), "a page left");
        let (width, address, value) = self.piece(line);
        self.ops.push(Op::Refused {
            width,
            address,
            value,
        });
    }

    fn read(&mut self, line: u32) {
        let (width, address) = self.place(line);
        self.ops.push(Op::Read { width, address });
    }

    /// What a write of one line writes.
    fn piece(&mut self, line: u32) -> (u8, u32, u32) {
        let value = self.random.word();
        let (width, address) = self.place(line);
        (width, address, value >> (32 - 8 * u32::from(width)))
    }

    fn place(&mut self, line: u32) -> (u8, u32) {
        let width = [1, 2, 4, 4, 4, 4, 4, 4][self.random.below(8) as usize];
        let inside = self.random.below(16 / u32::from(width)) * u32::from(width);
        (width, 16 * line + inside)
    }

    /// So many reads and writes, four reads a write.
    fn event(&mut self, count: u32) {
        for _ in 0..count {
            let line = self.line();
            if self.random.below(5) == 0 {
                self.write(line);
            } else {
                self.read(line);
            }
        }
    }

    /// A block of writes: four in five to a line that was written in it before, and so in the frame, the others to new ones.
    fn block(&mut self) {
        let mut lines = Vec::new();
        for _ in 0..BLOCK_WRITES {
            let line = if !lines.is_empty() && self.random.below(5) > 0 {
                lines[self.random.below(lines.len() as u32) as usize]
            } else {
                self.new_line(&lines)
            };
            if !lines.contains(&line) {
                lines.push(line);
            }
            self.write(line);
        }
    }

    /// A line that is none of these.
    fn new_line(&mut self, lines: &[u32]) -> u32 {
        loop {
            let line = self.line();
            if !lines.contains(&line) {
                return line;
            }
        }
    }

    /// Writes until so many pages are needed, in frames of 20 each.
    fn fill(&mut self, pages: usize) {
        while self.needed < pages {
            if self.live.back().expect("a frame").len() == 20 {
                self.mark();
            }
            let line = self.line();
            self.write(line);
        }
    }

    /// A mark; every 8 of them the addresses get a new mean.
    fn mark(&mut self) {
        assert!(self.live() < self.settings.frames, "no frame left");
        self.live.push_back(Vec::new());
        self.ops.push(Op::Mark);
        self.marks += 1;
        if self.marks.is_multiple_of(8) {
            self.mean = f64::from(self.random.below(self.settings.lines));
        }
    }

    fn rollback(&mut self, k: u32) {
        for _ in 0..k {
            self.needed -= self.live.pop_back().expect("a mark").len();
        }
        assert!(k > 0 && !self.live.is_empty());
        self.ops.push(Op::Rollback(k));
    }

    /// The report's rollbacks: one in 11.4 marks, of exponential distance with mean 2.2, none past the oldest frame.
    fn maybe_rollback(&mut self) {
        if self.random.chance(1.0 / 11.4) {
            let k = self.random.exponential(2.2).min(self.live() - 1);
            if k > 0 {
                self.rollback(k);
            }
        }
    }

    fn advance(&mut self, k: u32) {
        for _ in 0..k {
            self.needed -= self.live.pop_front().expect("a frame").len();
        }
        assert!(k > 0 && !self.live.is_empty());
        self.ops.push(Op::Advance(k));
    }

    fn advance_above(&mut self, live: u32, k: u32) {
        if self.live() > live {
            self.advance(k);
        }
    }

    fn done(self, name: &'static str, warm: usize) -> Workload {
        Workload {
            name,
            settings: self.settings,
            ops: self.ops,
            warm,
            needed: self.most,
            firsts: self.firsts,
        }
    }
}

/// Ten thousand writes after a mark, then the rollback of them all, so many times, after some rollbacks that leave entries in the history.
pub fn long_rollbacks(settings: Settings, entries: u32, times: u32) -> Workload {
    let mut maker = Maker::new(settings, f64::from(settings.lines), 10_000);
    for _ in 0..entries {
        maker.mark();
        maker.rollback(1);
    }
    let warm = maker.ops.len();
    for _ in 0..times {
        maker.mark();
        for _ in 0..10_000 {
            let line = maker.line();
            maker.write(line);
        }
        maker.rollback(1);
    }
    maker.done("latency", warm)
}

/// The report's own workload: so many reads and writes between marks, ADVANCE(32) when more than 48 frames are live.
pub fn report(name: &'static str, settings: Settings, between: u32, calls: usize) -> Workload {
    let mut maker = Maker::new(settings, 40.0, 1988);
    let warm = 2000 * between as usize / 20;
    while maker.ops.len() < warm + calls {
        maker.event(between);
        maker.mark();
        maker.maybe_rollback();
        maker.advance_above(48, 32);
    }
    maker.done(name, warm)
}

/// How many writes a block of writes has.
const BLOCK_WRITES: u32 = 64;

/// A block of 64 writes between marks, with the report's rollbacks and advances. The frame of a mark gone back to gets one more.
pub fn block(settings: Settings, calls: usize) -> Workload {
    let mut maker = Maker::new(settings, 40.0, 64);
    let mut warm = 0;
    while warm == 0 || maker.ops.len() < warm + calls {
        maker.block();
        maker.mark();
        maker.maybe_rollback();
        maker.advance_above(48, 32);
        if warm == 0 && maker.ops.len() >= 6000 {
            warm = maker.ops.len();
        }
    }
    maker.done("block", warm)
}

/// Some 240 live frames, and lines that are seldom written: addresses spread over all lines, so that few reads find their line in the cache
/// and many search all frames.
pub fn deep(settings: Settings, calls: usize) -> Workload {
    let mut maker = Maker::new(settings, f64::from(settings.lines), 240);
    let mut warm = 0;
    while warm == 0 || maker.ops.len() < warm + calls {
        maker.event(20);
        maker.mark();
        if maker.live() < 240 {
            continue;
        }
        if warm == 0 {
            warm = maker.ops.len();
        }
        maker.maybe_rollback();
        maker.advance_above(248, 16);
    }
    maker.done("deep", warm)
}

/// Plans made and thrown away: one to three marked events, taken back mark by mark, nine writes in ten.
pub fn regenerate(settings: Settings, calls: usize) -> Workload {
    let mut maker = Maker::new(settings, 40.0, 910);
    let (warm, mut taken, mut kept) = (2000, 0, 0);
    while maker.ops.len() < warm + calls {
        if taken < 9 * kept {
            let chain = 1 + maker.random.below(3);
            for _ in 0..chain {
                maker.mark();
                maker.event(20);
            }
            for _ in 0..chain {
                maker.rollback(1);
            }
            taken += chain;
        } else {
            maker.mark();
            maker.event(20);
            kept += 1;
        }
        maker.advance_above(48, 32);
    }
    maker.done("regenerate", warm)
}

/// A pool kept between 93 % and 97 % needed, by an ADVANCE of as few frames as will do.
pub fn full(settings: Settings, calls: usize) -> Workload {
    let mut maker = Maker::new(settings, 40.0, 95);
    let pages = settings.pages as usize;
    let mut warm = 0;
    while warm == 0 || maker.ops.len() < warm + calls {
        maker.event(200);
        maker.mark();
        maker.maybe_rollback();
        if maker.needed > pages * 97 / 100 {
            let (mut k, mut left) = (0, maker.needed);
            while left > pages * 93 / 100 {
                left -= maker.live[k].len();
                k += 1;
            }
            maker.advance(k as u32);
            if warm == 0 {
                warm = maker.ops.len();
            }
        }
    }
    maker.done("full", warm)
}

/// A pool with one page left: a mark, a write that takes it, writes of two other blocks, which get 13, and the rollback of them; every eighth
/// round reads two of the lines then. The needed pages lie across the pool's end.
pub fn tight(settings: Settings, calls: usize) -> Workload {
    let mut maker = Maker::new(settings, f64::from(settings.lines), 13);
    let pages = settings.pages as usize - 1;
    maker.fill(pages);
    maker.advance(maker.live() / 2);
    maker.fill(pages);
    let warm = maker.ops.len();
    while maker.ops.len() < warm + calls {
        let line = maker.line();
        let away = |part| (line + part * settings.lines / 4) % settings.lines;
        maker.mark();
        maker.write(line);
        maker.refused_write(away(1));
        maker.refused_write(away(2));
        maker.rollback(1);
        if maker.marks.is_multiple_of(8) {
            maker.read(line);
            maker.read(away(1));
        }
    }
    maker.done("tight", warm)
}
