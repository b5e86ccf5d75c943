//! The plain peers: a whole copy at each mark, an undo log, a journal of lines; and one that does nothing, for the cost of the replay itself.
use crate::peer::{Peer, Seen};
use crate::workload::Settings;
use std::collections::VecDeque;

/// A value of 1, 2 or 4 bytes, most significant byte first.
#[inline]
fn get(memory: &[u8], width: u32, address: u32) -> u32 {
    let at = address as usize;
    match width {
        1 => u32::from(memory[at]),
        2 => u32::from(u16::from_be_bytes([memory[at], memory[at + 1]])),
        _ => u32::from_be_bytes(memory[at..at + 4].try_into().expect("4 bytes")),
    }
}

#[inline]
fn put(memory: &mut [u8], width: u32, address: u32, value: u32) {
    let at = address as usize;
    match width {
        1 => memory[at] = value as u8,
        2 => memory[at..at + 2].copy_from_slice(&(value as u16).to_be_bytes()),
        _ => memory[at..at + 4].copy_from_slice(&value.to_be_bytes()),
    }
}

fn seen(value: u32) -> Seen {
    Seen {
        value,
        origin: None,
    }
}

/// A copy of the whole memory at each mark. Dropped copies are used again, so that a mark is one memcpy and no allocation.
pub struct WholeCopy {
    memory: Vec<u8>,
    marked: VecDeque<Vec<u8>>,
    spare: Vec<Vec<u8>>,
}

impl Peer for WholeCopy {
    const NAME: &'static str = "whole-copy";

    fn new(settings: Settings) -> Self {
        let size = 16 * settings.lines as usize;
        // Pages touched once, so that the first copies do not pay for the system's first page faults.
        let spare = (0..settings.frames).map(|_| vec![1; size]).collect();
        WholeCopy {
            memory: vec![0; size],
            marked: VecDeque::with_capacity(settings.frames as usize),
            spare,
        }
    }

    #[inline]
    fn read(&mut self, width: u32, address: u32) -> Seen {
        seen(get(&self.memory, width, address))
    }

    #[inline]
    fn write(&mut self, width: u32, address: u32, value: u32) {
        put(&mut self.memory, width, address, value);
    }

    fn mark(&mut self) {
        let mut copy = self.spare.pop().expect("a copy for each frame");
        copy.copy_from_slice(&self.memory);
        self.marked.push_back(copy);
    }

    fn rollback(&mut self, k: u32) {
        for _ in 0..k {
            let copy = self.marked.pop_back().expect("a mark");
            self.spare.push(std::mem::replace(&mut self.memory, copy));
        }
    }

    fn advance(&mut self, k: u32) {
        self.spare.extend(self.marked.drain(..k as usize));
    }
}

/// What was replaced, oldest first, and where the entries of each frame but the oldest start.
struct Journal<T> {
    entries: Vec<T>,
    /// positions counted from the first entry ever made
    marks: VecDeque<usize>,
    dropped: usize,
}

impl<T> Journal<T> {
    fn new(frames: u32) -> Self {
        Journal {
            entries: Vec::with_capacity(1 << 15),
            marks: VecDeque::with_capacity(frames as usize),
            dropped: 0,
        }
    }

    fn mark(&mut self) {
        self.marks.push_back(self.dropped + self.entries.len());
    }

    /// Takes the entries of the k newest frames out, newest first.
    fn taken_back(&mut self, k: u32) -> impl Iterator<Item = T> + '_ {
        let kept = self.marks.len() - k as usize;
        let from = self.marks[kept] - self.dropped;
        self.marks.truncate(kept);
        self.entries.drain(from..).rev()
    }

    fn advance(&mut self, k: u32) {
        // The marks of the k oldest frames' ends go; what was written before the first mark left can no longer be taken back.
        self.marks.drain(..k as usize);
        let first = self.marks.front().copied();
        let until = first.unwrap_or(self.dropped + self.entries.len()) - self.dropped;
        self.entries.drain(..until);
        self.dropped += until;
    }
}

/// What a write replaced: the aligned word around it.
struct Replaced {
    word: u32,
    bytes: [u8; 4],
}

/// A flat memory and a journal of what writes replaced.
pub struct UndoLog {
    memory: Vec<u8>,
    journal: Journal<Replaced>,
}

impl Peer for UndoLog {
    const NAME: &'static str = "undo-log";

    fn new(settings: Settings) -> Self {
        UndoLog {
            memory: vec![0; 16 * settings.lines as usize],
            journal: Journal::new(settings.frames),
        }
    }

    #[inline]
    fn read(&mut self, width: u32, address: u32) -> Seen {
        seen(get(&self.memory, width, address))
    }

    #[inline]
    fn write(&mut self, width: u32, address: u32, value: u32) {
        let word = address & !3;
        let at = word as usize;
        let bytes = self.memory[at..at + 4].try_into().expect("4 bytes");
        self.journal.entries.push(Replaced { word, bytes });
        put(&mut self.memory, width, address, value);
    }

    fn mark(&mut self) {
        self.journal.mark();
    }

    fn rollback(&mut self, k: u32) {
        for replaced in self.journal.taken_back(k) {
            let at = replaced.word as usize;
            self.memory[at..at + 4].copy_from_slice(&replaced.bytes);
        }
    }

    fn advance(&mut self, k: u32) {
        self.journal.advance(k);
    }
}

/// A line as it was before its first write since the last mark or rollback.
struct Saved {
    line: u32,
    bytes: [u8; 16],
}

/// A flat memory and a journal of lines, each saved once since the last mark or rollback. A line saved again after a rollback has an older
/// entry in its frame, which is played back after it.
pub struct LineJournal {
    memory: Vec<u8>,
    journal: Journal<Saved>,
    /// for each line the stamp at which it was saved last
    stamps: Vec<u32>,
    /// one more with each mark and rollback
    stamp: u32,
}

impl Peer for LineJournal {
    const NAME: &'static str = "line-journal";

    fn new(settings: Settings) -> Self {
        LineJournal {
            memory: vec![0; 16 * settings.lines as usize],
            journal: Journal::new(settings.frames),
            stamps: vec![0; settings.lines as usize],
            stamp: 0,
        }
    }

    #[inline]
    fn read(&mut self, width: u32, address: u32) -> Seen {
        seen(get(&self.memory, width, address))
    }

    #[inline]
    fn write(&mut self, width: u32, address: u32, value: u32) {
        let line = address / 16;
        let stamp = &mut self.stamps[line as usize];
        if *stamp != self.stamp {
            *stamp = self.stamp;
            let at = 16 * line as usize;
            let bytes = self.memory[at..at + 16].try_into().expect("16 bytes");
            self.journal.entries.push(Saved { line, bytes });
        }
        put(&mut self.memory, width, address, value);
    }

    fn mark(&mut self) {
        self.journal.mark();
        self.stamp += 1;
    }

    fn rollback(&mut self, k: u32) {
        for saved in self.journal.taken_back(k) {
            let at = 16 * saved.line as usize;
            self.memory[at..at + 16].copy_from_slice(&saved.bytes);
        }
        self.stamp += 1;
    }

    fn advance(&mut self, k: u32) {
        self.journal.advance(k);
    }
}

/// Takes every call and does nothing.
pub struct Idle(u32);

impl Peer for Idle {
    const NAME: &'static str = "idle";

    fn new(settings: Settings) -> Self {
        Idle(settings.lines)
    }

    #[inline]
    fn read(&mut self, _: u32, address: u32) -> Seen {
        seen(address)
    }

    #[inline]
    fn write(&mut self, _: u32, address: u32, value: u32) {
        self.0 ^= address ^ value;
    }

    fn mark(&mut self) {}

    fn rollback(&mut self, k: u32) {
        self.0 ^= k;
    }

    fn advance(&mut self, k: u32) {
        self.0 ^= k;
    }
}
