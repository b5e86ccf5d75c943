//! Lent memory between guards: each piece lies inside a larger buffer.
use crate::plain::Settings;
use crate::rng::Rng;
use vcm::calls::{Lent, Shown};

/// Elements before and behind each piece: an odd number, so that bytes are lent at an odd address; or none, so that valgrind sees an
/// access just outside the piece.
const GUARDS: [usize; 2] = [7, 0];

/// The lengths of the pieces, in elements.
#[derive(Clone, Copy, Debug, PartialEq, Eq)]
pub struct Lengths {
    pub archive: usize,
    pub pool: usize,
    pub groups: usize,
    pub table: usize,
    pub owners: usize,
    pub history: usize,
}

impl Lengths {
    pub fn of(settings: Settings) -> Lengths {
        let lines = settings.lines as usize;
        let frames = settings.frames as usize;
        let pages = settings.pages as usize;
        Lengths {
            archive: 16 * lines,
            pool: 128 * pages,
            groups: frames / 16 * lines,
            table: frames * (lines / 8),
            owners: pages + lines,
            history: 256,
        }
    }

    pub fn covers(self, need: Lengths) -> bool {
        need.archive <= self.archive
            && need.pool <= self.pool
            && need.groups <= self.groups
            && need.table <= self.table
            && need.owners <= self.owners
            && need.history <= self.history
    }

    /// The larger of two needs, piece by piece.
    pub fn most(self, other: Lengths) -> Lengths {
        Lengths {
            archive: self.archive.max(other.archive),
            pool: self.pool.max(other.pool),
            groups: self.groups.max(other.groups),
            table: self.table.max(other.table),
            owners: self.owners.max(other.owners),
            history: self.history.max(other.history),
        }
    }

    /// The length of one of the six pieces.
    pub fn piece(&mut self, number: u32) -> &mut usize {
        match number {
            0 => &mut self.archive,
            1 => &mut self.pool,
            2 => &mut self.groups,
            3 => &mut self.table,
            4 => &mut self.owners,
            _ => &mut self.history,
        }
    }

    /// Other lengths: one piece shorter by one, or empty, or a little or much longer, or all a little longer.
    pub fn changed(mut self, rng: &Rng) -> Lengths {
        let piece = self.piece(rng.below(6));
        match rng.below(5) {
            0 => *piece = piece.saturating_sub(1),
            1 => *piece = 0,
            2 => *piece += 1 + rng.place(5),
            3 => *piece = rng.place(2 * *piece + 1),
            _ => return self.longer(rng),
        }
        self
    }

    pub fn longer(mut self, rng: &Rng) -> Lengths {
        for number in 0..6 {
            *self.piece(number) += rng.place(5);
        }
        self.pool += 128 * rng.place(3);
        self
    }
}

#[derive(Clone, Debug, PartialEq, Eq)]
pub struct Piece<T> {
    buffer: Vec<T>,
    guard: usize,
    len: usize,
}

impl<T: Copy + PartialEq> Piece<T> {
    /// A piece with guards or without.
    pub fn guarded(len: usize, rng: &Rng, fill: impl FnMut() -> T) -> Piece<T> {
        Piece::new(len, rng.pick(&GUARDS), fill)
    }

    fn new(len: usize, guard: usize, fill: impl FnMut() -> T) -> Piece<T> {
        // of exactly this size, with nothing behind it
        let mut buffer = Vec::with_capacity(len + 2 * guard);
        buffer.resize_with(len + 2 * guard, fill);
        Piece { buffer, guard, len }
    }

    pub fn get(&self) -> &[T] {
        &self.buffer[self.guard..self.guard + self.len]
    }

    pub fn get_mut(&mut self) -> &mut [T] {
        &mut self.buffer[self.guard..self.guard + self.len]
    }

    /// Lends only so much from now on, at most what there is.
    fn lend(&mut self, len: usize) {
        self.len = len.min(self.buffer.len() - 2 * self.guard);
    }

    /// Whether everything but the first so many elements lent is as it was.
    fn is_kept_past(&self, before: &Piece<T>, need: usize) -> bool {
        let past = self.guard + need.min(self.len);
        self.len == before.len
            && self.buffer[..self.guard] == before.buffer[..self.guard]
            && self.buffer[past..] == before.buffer[past..]
    }

    /// A piece of another length with the same beginning and the same guards.
    fn resized(&self, len: usize, fill: impl FnMut() -> T) -> Piece<T> {
        let mut piece = Piece::new(len, self.guard, fill);
        let common = len.min(self.len);
        piece.get_mut()[..common].copy_from_slice(&self.get()[..common]);
        piece
    }
}

/// The six pieces.
#[derive(Clone, Debug, PartialEq, Eq)]
pub struct Memory {
    pub archive: Piece<u8>,
    pub pool: Piece<u8>,
    pub groups: Piece<u32>,
    pub table: Piece<u16>,
    pub owners: Piece<u32>,
    pub history: Piece<u16>,
}

impl Memory {
    /// Memory with arbitrary contents.
    pub fn new(lengths: Lengths, rng: &Rng) -> Memory {
        let guard = rng.pick(&GUARDS);
        Memory {
            archive: Piece::new(lengths.archive, guard, || rng.word() as u8),
            pool: Piece::new(lengths.pool, guard, || rng.word() as u8),
            groups: Piece::new(lengths.groups, guard, || rng.word()),
            table: Piece::new(lengths.table, guard, || rng.word() as u16),
            owners: Piece::new(lengths.owners, guard, || rng.word()),
            history: Piece::new(lengths.history, guard, || rng.word() as u16),
        }
    }

    /// The same contents in pieces of other lengths, arbitrary where they are longer.
    pub fn resized(&self, lengths: Lengths, rng: &Rng) -> Memory {
        Memory {
            archive: self.archive.resized(lengths.archive, || rng.word() as u8),
            pool: self.pool.resized(lengths.pool, || rng.word() as u8),
            groups: self.groups.resized(lengths.groups, || rng.word()),
            table: self.table.resized(lengths.table, || rng.word() as u16),
            owners: self.owners.resized(lengths.owners, || rng.word()),
            history: self.history.resized(lengths.history, || rng.word() as u16),
        }
    }

    pub fn lent(&mut self) -> Lent<'_> {
        Lent {
            archive: self.archive.get_mut(),
            pool: self.pool.get_mut(),
            groups: self.groups.get_mut(),
            table: self.table.get_mut(),
            owners: self.owners.get_mut(),
            history: self.history.get_mut(),
        }
    }

    pub fn shown(&self) -> Shown<'_> {
        Shown {
            archive: self.archive.get(),
            pool: self.pool.get(),
            groups: self.groups.get(),
            table: self.table.get(),
            owners: self.owners.get(),
            history: self.history.get(),
        }
    }

    pub fn lengths(&self) -> Lengths {
        Lengths {
            archive: self.archive.len,
            pool: self.pool.len,
            groups: self.groups.len,
            table: self.table.len,
            owners: self.owners.len,
            history: self.history.len,
        }
    }

    /// Lends only so much of each piece from now on, at most what the buffers have.
    pub fn lend(&mut self, lengths: Lengths) {
        self.archive.lend(lengths.archive);
        self.pool.lend(lengths.pool);
        self.groups.lend(lengths.groups);
        self.table.lend(lengths.table);
        self.owners.lend(lengths.owners);
        self.history.lend(lengths.history);
    }

    /// The pieces in which something changed that lies past the need, guards included.
    pub fn touched_past(&self, before: &Memory, need: Lengths) -> Vec<&'static str> {
        let kept = [
            self.archive.is_kept_past(&before.archive, need.archive),
            self.pool.is_kept_past(&before.pool, need.pool),
            self.groups.is_kept_past(&before.groups, need.groups),
            self.table.is_kept_past(&before.table, need.table),
            self.owners.is_kept_past(&before.owners, need.owners),
            self.history.is_kept_past(&before.history, need.history),
        ];
        names_where(kept, false)
    }

    /// The pieces that are not as they were.
    pub fn changed(&self, before: &Memory) -> Vec<&'static str> {
        let same = [
            self.archive == before.archive,
            self.pool == before.pool,
            self.groups == before.groups,
            self.table == before.table,
            self.owners == before.owners,
            self.history == before.history,
        ];
        names_where(same, false)
    }
}

fn names_where(facts: [bool; 6], wanted: bool) -> Vec<&'static str> {
    let names = ["archive", "pool", "groups", "table", "owners", "history"];
    let chosen = names.iter().zip(facts).filter(|(_, fact)| *fact == wanted);
    chosen.map(|(name, _)| *name).collect()
}
