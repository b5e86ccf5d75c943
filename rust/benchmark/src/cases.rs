//! Each call by itself, on a store prepared for it: timed for `--growth`, counted by callgrind for `--calls`, `--full`, `--level` and `--falling`.
use crate::peer::{Paged, Peer};
use crate::workload::Settings;
use std::hint::black_box;
use std::time::Instant;

/// A store of 128 lines or more in which live frames have written lines; those of the upper half are never written to stay.
struct Prepared<P> {
    peer: P,
    settings: Settings,
    live: u32,
    /// since the last sweep
    rollbacks: u32,
    /// the next frame's line
    turn: u32,
}

/// What a case took: nanoseconds and calls.
pub type Took = (f64, u32);

// The loops that are measured, each a function by name for callgrind. Arguments are hidden from the compiler, so that it moves nothing out.

#[inline(never)]
fn call_read_hit<P: Peer>(peer: &mut P, n: u32) {
    for _ in 0..n {
        black_box(peer.read(4, black_box(0)));
    }
}

#[inline(never)]
fn call_read_miss<P: Peer>(peer: &mut P, n: u32, line: u32) {
    for i in 0..n {
        black_box(peer.read(4, black_box(16 * (line + 16 * (i % 3)))));
    }
}

#[inline(never)]
fn call_write<P: Peer>(peer: &mut P, n: u32) {
    for i in 0..n {
        peer.write(4, black_box(0), i);
    }
}

#[inline(never)]
fn call_first_write<P: Peer>(peer: &mut P, n: u32) {
    for i in 0..n {
        peer.write(4, black_box(128 * i), i);
    }
}

#[inline(never)]
fn call_mark<P: Peer>(peer: &mut P, n: u32) {
    for _ in 0..n {
        black_box(&mut *peer).mark();
    }
}

#[inline(never)]
fn call_rollback<P: Peer>(peer: &mut P, n: u32) {
    for _ in 0..n {
        peer.rollback(black_box(1));
    }
}

#[inline(never)]
fn call_sweep<P: Peer>(peer: &mut P) {
    peer.rollback(1);
}

#[inline(never)]
fn call_advance<P: Peer>(peer: &mut P, k: u32) {
    peer.advance(k);
}

#[inline(never)]
fn call_counts<P: Paged>(peer: &P, n: u32) {
    for _ in 0..n {
        black_box(black_box(peer).counts());
    }
}

#[inline(never)]
fn call_refused_write<P: Peer>(peer: &mut P, n: u32, line: u32) {
    for i in 0..n {
        peer.refused_write(4, black_box(16 * line), i);
    }
}

#[inline(never)]
fn call_write_again<P: Peer>(peer: &mut P, line: u32) {
    peer.write(4, 16 * line, 0);
}

fn timed(n: u32, run: impl FnOnce()) -> Took {
    let start = Instant::now();
    run();
    (start.elapsed().as_secs_f64() * 1e9, n)
}

impl<P: Peer> Prepared<P> {
    fn empty(settings: Settings) -> Self {
        Prepared {
            peer: P::new(settings),
            settings,
            live: 1,
            rollbacks: 0,
            turn: 0,
        }
    }

    /// Every live frame has one written line.
    fn new(settings: Settings, live: u32) -> Self {
        let mut this = Self::empty(settings);
        this.write_turn();
        this.grow(live - 1);
        this
    }

    /// All pages are needed: one, in the upper half, by the newest frame, the others by the older frames alike.
    fn full(settings: Settings, live: u32) -> Self {
        let mut this = Self::empty(settings);
        let (pages, older) = (settings.pages - 1, live - 1);
        for frame in 0..older {
            let count = pages * (frame + 1) / older - pages * frame / older;
            for block in 0..count {
                this.peer.write(4, 128 * block, frame);
            }
            this.peer.mark();
        }
        this.live = live;
        this.peer.write(4, 16 * this.upper(), 0);
        this
    }

    /// The first line of the upper half.
    fn upper(&self) -> u32 {
        self.settings.lines / 2
    }

    fn write_turn(&mut self) {
        let line = 8 * (self.turn % (self.settings.lines / 16));
        self.turn += 1;
        self.peer.write(4, 16 * line, self.turn);
    }

    fn grow(&mut self, frames: u32) {
        for _ in 0..frames {
            self.peer.mark();
            self.live += 1;
            self.write_turn();
        }
    }

    /// Marks and rollbacks that lead nowhere.
    fn turns(&mut self, n: u32) {
        for _ in 0..n {
            self.peer.mark();
            self.peer.rollback(1);
            self.rollbacks = (self.rollbacks + 1) % 256;
        }
    }

    /// So many rollbacks to come without a sweep.
    fn room(&mut self, n: u32) {
        if self.rollbacks + n > 255 {
            self.turns(256 - self.rollbacks);
        }
    }

    fn spare_frames(&self) -> u32 {
        (self.settings.frames - self.live).min(16)
    }

    fn read_hit(&mut self, n: u32) -> Took {
        black_box(self.peer.read(4, 0));
        timed(n, || call_read_hit(&mut self.peer, n))
    }

    /// Lines of one set in turn, none in the cache when its turn comes, none written in any live frame: the longest search.
    fn read_miss(&mut self, n: u32) -> Took {
        let line = self.upper() + 8;
        timed(n, || call_read_miss(&mut self.peer, n, line))
    }

    fn write(&mut self, n: u32) -> Took {
        self.peer.mark();
        self.peer.write(4, 0, 0);
        let took = timed(n, || call_write(&mut self.peer, n));
        self.taken_back(1);
        took
    }

    fn first_write(&mut self) -> Took {
        let n = (self.settings.lines / 8)
            .min(self.settings.pages - self.live)
            .min(64);
        self.peer.mark();
        let took = timed(n, || call_first_write(&mut self.peer, n));
        self.taken_back(1);
        took
    }

    fn mark(&mut self) -> Took {
        let n = self.spare_frames();
        let took = timed(n, || call_mark(&mut self.peer, n));
        self.taken_back(n);
        took
    }

    fn taken_back(&mut self, k: u32) {
        self.peer.rollback(k);
        self.rollbacks = (self.rollbacks + 1) % 256;
    }

    fn rollback(&mut self) -> Took {
        let n = self.spare_frames();
        self.room(n);
        for _ in 0..n {
            self.peer.mark();
        }
        self.rollbacks += n;
        timed(n, || call_rollback(&mut self.peer, n))
    }

    fn sweep(&mut self) -> Took {
        self.turns(255 - self.rollbacks);
        self.peer.mark();
        self.rollbacks = 0;
        timed(1, || call_sweep(&mut self.peer))
    }

    /// So many tags in use, by marks and rollbacks at one level since the last sweep.
    fn use_tags(&mut self, tags: u32) {
        self.turns((tags + 255 - self.rollbacks) % 256);
    }

    /// One more mark and rollback at that level.
    fn level(&mut self, tags: u32) -> Took {
        self.use_tags(tags);
        self.peer.mark();
        self.rollbacks = tags;
        timed(1, || call_rollback(&mut self.peer, 1))
    }

    /// A rollback without a mark between, to one frame less than every rollback since the last sweep.
    fn falling(&mut self, tags: u32) -> Took {
        self.use_tags(tags);
        self.rollbacks = tags;
        let took = timed(1, || call_rollback(&mut self.peer, 1));
        self.live -= 1;
        self.grow(1);
        took
    }

    fn advance(&mut self) -> Took {
        let k = 4.min(self.live - 1);
        let took = timed(1, || call_advance(&mut self.peer, k));
        self.live -= k;
        self.grow(k);
        took
    }
}

impl<P: Paged> Prepared<P> {
    fn counts(&self, n: u32) -> Took {
        let all = (self.live, self.settings.pages);
        assert_eq!(self.peer.counts(), all);
        timed(n, || call_counts(&self.peer, n))
    }

    /// The newest frame has no page of this line.
    fn refused_write(&mut self, n: u32) -> Took {
        let line = self.upper() + 8;
        timed(n, || call_refused_write(&mut self.peer, n, line))
    }

    /// The newest frame is dropped and opened again, and its only page written anew.
    fn write_again(&mut self) -> Took {
        self.taken_back(1);
        self.peer.mark();
        let line = self.upper();
        timed(1, || call_write_again(&mut self.peer, line))
    }
}

/// Every case with its name, on one store of these settings with so many live frames, fewer than all; `sink` gets what each turn of it took.
pub fn all<P: Peer>(
    settings: Settings,
    live: u32,
    turns: u32,
    mut sink: impl FnMut(&'static str, Took),
) {
    let mut store = Prepared::<P>::new(settings, live);
    for _ in 0..turns {
        sink("read_hit", store.read_hit(300));
        sink("read_miss", store.read_miss(300));
        sink("write", store.write(300));
        sink("first_write", store.first_write());
        sink("mark", store.mark());
        sink("rollback", store.rollback());
        if live > 1 {
            sink("advance", store.advance());
        }
    }
    for _ in 0..turns {
        sink("sweep", store.sweep());
    }
}

/// Where a rollback goes after rollbacks at one level.
#[derive(Clone, Copy)]
pub enum Target {
    /// there again
    Level,
    /// one frame below it
    Falling,
}

/// A rollback with so many tags in use, fewer than all; `sink` gets what each turn took.
pub fn with_tags<P: Peer>(
    settings: Settings,
    live: u32,
    turns: u32,
    target: Target,
    tags: u32,
    mut sink: impl FnMut(&'static str, Took),
) {
    assert!((1..=255).contains(&tags), "tags in use, fewer than all");
    let mut store = Prepared::<P>::new(settings, live);
    for _ in 0..turns {
        let took = match target {
            Target::Level => store.level(tags),
            Target::Falling => store.falling(tags),
        };
        sink("rollback", took);
    }
}

/// The cases of a full pool, as `all` has its own. A turn has as many rollbacks as one of `all`, for what a rollback costs depends on the entries
/// that those before it left in the history.
pub fn full<P: Paged>(
    settings: Settings,
    live: u32,
    turns: u32,
    mut sink: impl FnMut(&'static str, Took),
) {
    let mut store = Prepared::<P>::full(settings, live);
    for _ in 0..turns {
        sink("counts", store.counts(300));
        sink("refused_write", store.refused_write(300));
        for _ in 0..3 {
            sink("write_again", store.write_again());
        }
        sink("rollback", store.rollback());
    }
}
