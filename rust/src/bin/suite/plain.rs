//! A plain store with whole copies: each mark clones the memory. Written from document 01 and the requests alone; it knows nothing of written bits in
//! groups, tags, tables or owners.
use crate::call::{Answer, Call, Origin};
use crate::memory::Lengths;
use vcm::Item;

#[derive(Clone, Copy, Debug, PartialEq, Eq)]
pub struct Settings {
    pub lines: u32,
    pub frames: u32,
    pub pages: u32,
}

impl Settings {
    /// "L is a multiple of 8 from 8 to 4,096. F is a multiple of 16 from 16 to 256 .. P is 1 to 4,096."
    pub fn within(self) -> bool {
        (8..=4096).contains(&self.lines)
            && self.lines % 8 == 0
            && (16..=256).contains(&self.frames)
            && self.frames % 16 == 0
            && (1..=4096).contains(&self.pages)
    }
}

/// What the refusals from 4 to 12 go by, besides the call's arguments.
#[derive(Clone, Copy, Debug)]
pub struct Facts {
    pub settings: Settings,
    /// the opposite of 5
    pub fits: bool,
    pub live: u32,
    pub lengths: Lengths,
}

/// 5, 6 or 0, by which every call but RESET goes first.
fn unfit(facts: Facts) -> u32 {
    if !facts.fits {
        5
    } else if !facts.lengths.covers(Lengths::of(facts.settings)) {
        6
    } else {
        0
    }
}

/// The refusal of a whole block of writes, or 0: "14, the answer list is shorter than the write list, tested after 6."
pub fn block_refusal(facts: Facts, items: usize, answers: usize) -> u32 {
    match unfit(facts) {
        0 if answers < items => 14,
        first => first,
    }
}

/// The first refusal in order, or 0, but for 13.
pub fn refusal(facts: Facts, call: Call) -> u32 {
    if let Call::Reset {
        lines,
        frames,
        pages,
    } = call
    {
        let asked = Settings {
            lines,
            frames,
            pages,
        };
        return if !asked.within() {
            4
        } else if !facts.lengths.covers(Lengths::of(asked)) {
            6
        } else {
            0
        };
    }
    let first = unfit(facts);
    if first != 0 {
        return first;
    }
    let size = 16 * u64::from(facts.settings.lines);
    let place = |width: u32, address: u32| {
        if !matches!(width, 1 | 2 | 4) {
            7
        } else if address % width != 0 {
            8
        } else if u64::from(address) + u64::from(width) > size {
            9
        } else {
            0
        }
    };
    match call {
        Call::Read { width, address } => place(width, address),
        Call::Write {
            width,
            address,
            value,
        } => match place(width, address) {
            0 if u64::from(value) >= 1 << (8 * width) => 10,
            first => first,
        },
        Call::Line(number) | Call::LineRefusal(number) if number >= facts.settings.lines => 9,
        // "Marked states number one less than the live frames."
        Call::Rollback(k) | Call::Advance(k) if k == 0 || k > facts.live - 1 => 11,
        Call::Mark if facts.live == facts.settings.frames => 12,
        _ => 0,
    }
}

/// One live frame: the whole memory as it stands at the frame's end, and the lines written in it.
#[derive(Clone, Debug, PartialEq, Eq)]
pub struct Frame {
    pub memory: Vec<u8>,
    pub written: Vec<bool>,
    /// blocks of 8 lines with a written one
    pages: u32,
}

impl Frame {
    pub fn over(memory: Vec<u8>) -> Frame {
        let written = vec![false; memory.len() / 16];
        Frame {
            memory,
            written,
            pages: 0,
        }
    }

    fn needs_page(&self, line: usize) -> bool {
        let block = line / 8 * 8;
        self.written[block..block + 8].contains(&true)
    }

    pub fn write(&mut self, address: usize, bytes: &[u8]) {
        let line = address / 16;
        if !self.needs_page(line) {
            self.pages += 1;
        }
        self.written[line] = true;
        self.memory[address..address + bytes.len()].copy_from_slice(bytes);
    }
}

/// One set of the cache: the line in each way, and when each way was used.
#[derive(Clone, Copy, Debug, Default)]
pub struct Set {
    pub ways: [Option<u32>; 2],
    pub used: [u64; 2],
}

#[derive(Clone, Debug)]
pub struct Plain {
    pub settings: Settings,
    pub base: Vec<u8>,
    /// "The base of the surviving history therefore holds, for each line, whether it was ever written."
    pub ever: Vec<bool>,
    /// the live frames, oldest first
    pub frames: Vec<Frame>,
    pub sets: [Set; 16],
    clock: u64,
}

impl Plain {
    /// No store yet: every call but RESET gets 5.
    pub fn blank() -> Plain {
        Plain {
            settings: Settings {
                lines: 0,
                frames: 0,
                pages: 0,
            },
            base: Vec::new(),
            ever: Vec::new(),
            frames: Vec::new(),
            sets: [Set::default(); 16],
            clock: 2,
        }
    }

    /// A store just reset.
    pub fn new(settings: Settings) -> Plain {
        let base = vec![0; 16 * settings.lines as usize];
        Plain {
            settings,
            frames: vec![Frame::over(base.clone())],
            base,
            ever: vec![false; settings.lines as usize],
            ..Plain::blank()
        }
    }

    pub fn live(&self) -> u32 {
        self.frames.len() as u32
    }

    pub fn pages(&self) -> u32 {
        self.frames.iter().map(|frame| frame.pages).sum()
    }

    fn last(&self) -> &Frame {
        &self.frames[self.frames.len() - 1]
    }

    /// How many marks back the last frame lies that wrote the line.
    fn marks_back(&self, line: usize) -> Option<u32> {
        let mut newest_first = self.frames.iter().rev();
        let back = newest_first.position(|frame| frame.written[line]);
        back.map(|back| back as u32)
    }

    fn holds(&self, line: u32) -> bool {
        self.sets[line as usize % 16].ways.contains(&Some(line))
    }

    /// A use of a line, hit or miss.
    fn use_line(&mut self, line: u32) {
        let set = &mut self.sets[line as usize % 16];
        let hit = set.ways.iter().position(|way| *way == Some(line));
        let free = set.ways.iter().position(|way| way.is_none());
        let older = usize::from(set.used[1] < set.used[0]);
        let way = hit.or(free).unwrap_or(older);
        set.ways[way] = Some(line);
        set.used[way] = self.clock;
        self.clock += 1;
    }

    fn facts(&self, lengths: Lengths) -> Facts {
        Facts {
            settings: self.settings,
            fits: self.settings.within(),
            live: self.live(),
            lengths,
        }
    }

    /// "One call takes a list of writes and a list for answers, and does them in order; a refused item is skipped and the later ones still
    /// tried. Answers, state, memory and cache end exactly as if the items had been sent singly .. Answers past the last item are
    /// untouched."
    pub fn block(&mut self, items: &[Item], answers: &mut [u32], lengths: Lengths) -> u32 {
        let refusal = block_refusal(self.facts(lengths), items.len(), answers.len());
        if refusal != 0 {
            return refusal;
        }
        for (item, answer) in items.iter().zip(answers) {
            *answer = self.answer(Call::of(*item), lengths).refusal();
        }
        0
    }

    pub fn answer(&mut self, call: Call, lengths: Lengths) -> Answer {
        let refusal = refusal(self.facts(lengths), call);
        if refusal != 0 {
            return Answer::refused(call, refusal);
        }
        match call {
            Call::Reset {
                lines,
                frames,
                pages,
            } => {
                *self = Plain::new(Settings {
                    lines,
                    frames,
                    pages,
                });
            }
            Call::Write {
                width,
                address,
                value,
            } => {
                let line = address / 16;
                let is_needed = self.last().needs_page(line as usize);
                if !is_needed && self.pages() >= self.settings.pages {
                    return Answer::refused(call, 13);
                }
                let bytes = &value.to_be_bytes()[4 - width as usize..];
                let newest = self.frames.len() - 1;
                self.frames[newest].write(address as usize, bytes);
                self.use_line(line);
            }
            Call::Read { width, address } => {
                let line = address / 16;
                // "a read whose line no surviving write has touched gives value 0 and origin `e`, cached or not; `a` is left for lines that were
                // collected"
                let origin = match self.marks_back(line as usize) {
                    None if !self.ever[line as usize] => Origin::Empty,
                    _ if self.holds(line) => Origin::Cache,
                    None => Origin::Archive,
                    Some(back) => Origin::Frame(back),
                };
                let bytes = &self.last().memory[address as usize..(address + width) as usize];
                let value = bytes.iter().fold(0, |v, byte| v * 256 + u32::from(*byte));
                self.use_line(line);
                return Answer::Reading {
                    refusal: 0,
                    value,
                    origin,
                };
            }
            Call::Line(number) => {
                let from = 16 * number as usize;
                let mut bytes = [0; 16];
                bytes.copy_from_slice(&self.last().memory[from..from + 16]);
                return Answer::Lending { refusal: 0, bytes };
            }
            Call::LineRefusal(_) => {}
            Call::Mark => {
                let memory = self.last().memory.clone();
                self.frames.push(Frame::over(memory));
            }
            Call::Rollback(k) => {
                for set in 0..16 {
                    for way in 0..2 {
                        let line = self.sets[set].ways[way];
                        let back = line.and_then(|line| self.marks_back(line as usize));
                        // "its line's most recent version lay in a dropped frame"
                        if matches!(back, Some(back) if back < k) {
                            self.sets[set].ways[way] = None;
                        }
                    }
                }
                self.frames.truncate(self.frames.len() - k as usize);
            }
            Call::Advance(k) => {
                self.base = self.frames[k as usize - 1].memory.clone();
                for frame in &self.frames[..k as usize] {
                    for (ever, written) in self.ever.iter_mut().zip(&frame.written) {
                        *ever |= written;
                    }
                }
                self.frames.drain(..k as usize);
            }
            Call::Counts => {
                return Answer::Counting {
                    refusal: 0,
                    live: self.live(),
                    pages: self.pages(),
                }
            }
            Call::Check => {
                return Answer::Verdict {
                    refusal: 0,
                    yes: true,
                }
            }
        }
        Answer::Outcome { refusal: 0 }
    }

    /// Whether two stores hold the same history and the same cache, and so answer alike for ever.
    pub fn is_same(&self, other: &Plain) -> bool {
        let sets = self.sets.iter().zip(&other.sets);
        let is_same_cache = sets
            .into_iter()
            .all(|(a, b)| a.ways == b.ways && (a.used[0] < a.used[1]) == (b.used[0] < b.used[1]));
        is_same_cache
            && self.settings == other.settings
            && self.base == other.base
            && self.ever == other.ever
            && self.frames == other.frames
    }
}
