//! The single slowest call of each kind.
//!
//! The same list is replayed several times on fresh stores, and of each call in it the least time is kept: the calls are the same each time, so
//! what the scheduler or an interrupt adds to some replay does not count, while what the call itself needs does. Of these times the greatest is
//! told. The clock's own cost is in each.
use crate::peer::{warmed, Peer};
use crate::workload::{Op, Workload};
use std::hint::black_box;
use std::time::Instant;

#[derive(Clone, Copy, PartialEq, Eq)]
enum Kind {
    Mark,
    Rollback,
    Sweep,
    Advance,
    First,
}

/// The slowest of each kind in nanoseconds, 0 for a kind that the list has not, and the mean of all rollbacks with their sweeps.
#[derive(Clone, Copy, Default)]
pub struct Slowest {
    pub mark: f64,
    pub rollback: f64,
    pub sweep: f64,
    pub amortised: f64,
    pub advance: f64,
    pub first: f64,
}

/// What the clock itself takes.
pub fn clock() -> f64 {
    let pause = || Instant::now().elapsed().as_nanos();
    (0..10_000).map(|_| pause()).min().unwrap_or(0) as f64
}

/// The kind of each call. Tags run out at each 256th rollback.
fn kinds(list: &Workload) -> Vec<Option<Kind>> {
    let mut rollbacks = 0;
    let kind = |op: &Op| match op {
        Op::Mark => Some(Kind::Mark),
        Op::Advance(_) => Some(Kind::Advance),
        Op::Rollback(_) => {
            rollbacks += 1;
            let is_last = rollbacks % 256 == 0;
            Some(if is_last { Kind::Sweep } else { Kind::Rollback })
        }
        _ => None,
    };
    let mut kinds: Vec<_> = list.ops.iter().map(kind).collect();
    for place in &list.firsts {
        kinds[*place] = Some(Kind::First);
    }
    kinds.drain(..list.warm);
    kinds
}

pub fn slowest<P: Peer>(list: &Workload, replays: u32) -> Slowest {
    let kinds = kinds(list);
    let mut least = vec![f64::INFINITY; kinds.len()];
    for _ in 0..replays {
        let mut peer = warmed::<P>(list.settings, &list.ops[..list.warm]);
        for (place, op) in list.ops[list.warm..].iter().enumerate() {
            if kinds[place].is_none() {
                black_box(peer.step(*op));
                continue;
            }
            let start = Instant::now();
            black_box(peer.step(*op));
            let took = start.elapsed().as_nanos() as f64;
            least[place] = least[place].min(took);
        }
    }
    let of = |kind: Kind| {
        let times = kinds.iter().zip(&least);
        times.filter_map(move |(this, time)| (*this == Some(kind)).then_some(*time))
    };
    let most = |kind| of(kind).fold(0.0, f64::max);
    let (sum, count) = of(Kind::Rollback)
        .chain(of(Kind::Sweep))
        .fold((0.0, 0), |(sum, count), time| (sum + time, count + 1));
    Slowest {
        mark: most(Kind::Mark),
        rollback: most(Kind::Rollback),
        sweep: most(Kind::Sweep),
        amortised: sum / f64::from(count.max(1)),
        advance: most(Kind::Advance),
        first: most(Kind::First),
    }
}
