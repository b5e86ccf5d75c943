//! What every store in the benchmark does, and the replay of a list of calls on it.
use crate::workload::{Op, Settings};
use std::hint::black_box;
use std::time::Instant;
pub use vcm::Origin;
use vcm::Refusal;

/// A read's answer. Only ours and `chip-rust` tell the origin.
#[derive(Clone, Copy, Debug, PartialEq, Eq)]
pub struct Seen {
    pub value: u32,
    pub origin: Option<Origin>,
}

/// A store that can be marked and taken back. A replay is compiled for each of them: nobody pays for dynamic calls. But for writes that get
/// 13, lists never hold a call that our store refuses, so a peer may end the program where it refuses one.
pub trait Peer {
    const NAME: &'static str;
    fn new(settings: Settings) -> Self;
    fn read(&mut self, width: u32, address: u32) -> Seen;
    fn write(&mut self, width: u32, address: u32, value: u32);
    fn mark(&mut self);
    fn rollback(&mut self, k: u32);
    fn advance(&mut self, k: u32);

    /// A write that gets 13. A peer without pages is given lists without it.
    fn refused_write(&mut self, _width: u32, _address: u32, _value: u32) {
        unreachable!("{} has no pages", Self::NAME);
    }

    #[inline(always)]
    fn step(&mut self, op: Op) -> Option<Seen> {
        match op {
            Op::Read { width, address } => return Some(self.read(u32::from(width), address)),
            Op::Write {
                width,
                address,
                value,
            } => self.write(u32::from(width), address, value),
            Op::Refused {
                width,
                address,
                value,
            } => self.refused_write(u32::from(width), address, value),
            Op::Mark => self.mark(),
            Op::Rollback(k) => self.rollback(k),
            Op::Advance(k) => self.advance(k),
        }
        None
    }
}

/// A store with a pool of pages, which it counts and of which it can run out: ours and `chip-rust`.
pub trait Paged: Peer {
    /// COUNTS: the live frames and the pages needed.
    fn counts(&self) -> (u32, u32);
}

impl Peer for vcm::Store {
    const NAME: &'static str = "ours";

    fn new(settings: Settings) -> Self {
        let settings = vcm::Settings {
            lines: settings.lines,
            frames: settings.frames,
            pages: settings.pages,
        };
        vcm::Store::new(settings).expect("good settings")
    }

    #[inline]
    fn read(&mut self, width: u32, address: u32) -> Seen {
        let reading = vcm::Store::read(self, width, address).expect("accepted");
        Seen {
            value: reading.value,
            origin: Some(reading.origin),
        }
    }

    #[inline]
    fn write(&mut self, width: u32, address: u32, value: u32) {
        vcm::Store::write(self, width, address, value).expect("accepted");
    }

    #[inline]
    fn mark(&mut self) {
        vcm::Store::mark(self).expect("accepted");
    }

    #[inline]
    fn rollback(&mut self, k: u32) {
        vcm::Store::rollback(self, k).expect("accepted");
    }

    #[inline]
    fn advance(&mut self, k: u32) {
        vcm::Store::advance(self, k).expect("accepted");
    }

    #[inline]
    fn refused_write(&mut self, width: u32, address: u32, value: u32) {
        let answer = vcm::Store::write(self, width, address, value);
        assert_eq!(answer, Err(Refusal::Pages));
    }
}

impl Paged for vcm::Store {
    #[inline]
    fn counts(&self) -> (u32, u32) {
        let counts = vcm::Store::counts(self).expect("accepted");
        (counts.live, counts.pages)
    }
}

/// A fresh store with the first calls of a list behind it.
pub fn warmed<P: Peer>(settings: Settings, ops: &[Op]) -> P {
    let mut peer = P::new(settings);
    for op in ops {
        black_box(peer.step(*op));
    }
    peer
}

/// Calls that are timed together.
const SLICE: usize = 1000;

/// The nanoseconds that a list takes after the first `warm` calls, slice by slice, on a fresh store.
pub fn timed<P: Peer>(settings: Settings, ops: &[Op], warm: usize) -> Vec<f64> {
    let mut peer = warmed::<P>(settings, &ops[..warm]);
    let slices = ops[warm..].chunks(SLICE).map(|slice| {
        let start = Instant::now();
        replay(&mut peer, slice);
        start.elapsed().as_secs_f64() * 1e9
    });
    slices.collect()
}

#[inline(never)]
pub fn replay<P: Peer>(peer: &mut P, ops: &[Op]) {
    for op in ops {
        if let Some(seen) = peer.step(*op) {
            black_box(seen);
        }
    }
}

/// The answers of all reads of a list.
pub fn answers<P: Peer>(settings: Settings, ops: &[Op]) -> Vec<Seen> {
    let mut peer = P::new(settings);
    ops.iter().filter_map(|op| peer.step(*op)).collect()
}

/// Compares a peer's answers with ours: every value, and every origin where the peer tells it.
pub fn compare<P: Peer>(settings: Settings, ops: &[Op], ours: &[Seen]) -> Result<(), String> {
    let theirs = answers::<P>(settings, ops);
    let pairs = theirs.iter().zip(ours);
    let differs = |(peer, our): &(&Seen, &Seen)| {
        peer.value != our.value || peer.origin.is_some_and(|_| peer.origin != our.origin)
    };
    match pairs.enumerate().find(|(_, pair)| differs(pair)) {
        Some((place, (peer, our))) => Err(format!(
            "read {place} differs: ours {our:?}, {} {peer:?}",
            P::NAME
        )),
        None if theirs.len() != ours.len() => {
            Err(format!("{} answers {} reads", P::NAME, theirs.len()))
        }
        None => Ok(()),
    }
}
