//! The list `block` on ours by the call for a block of writes, the block call: each run of writes in the list is one. Beside it ours by single
//! WRITEs, and peers by their own writes, all on the same list.
use crate::cases::Took;
use crate::peer::{self, Peer, Seen};
use crate::workload::{Op, Workload};
use std::hint::black_box;
use std::time::Instant;
use vcm::{Item, Store};

/// A call, or a block of writes.
enum Turn {
    Call(Op),
    Block(Vec<Item>),
}

/// The calls with each run of writes as one block.
fn turns(ops: &[Op]) -> Vec<Turn> {
    let mut turns = Vec::new();
    for op in ops {
        let item = match *op {
            Op::Write {
                width,
                address,
                value,
            } => Item {
                width: u32::from(width),
                address,
                value,
            },
            _ => {
                turns.push(Turn::Call(*op));
                continue;
            }
        };
        match turns.last_mut() {
            Some(Turn::Block(items)) => items.push(item),
            _ => turns.push(Turn::Block(vec![item])),
        }
    }
    turns
}

/// The answer of a read; the other calls have none, and are accepted.
fn play(store: &mut Store, turn: &Turn) -> Option<Seen> {
    match turn {
        Turn::Call(op) => store.step(*op),
        Turn::Block(items) => {
            store.write_all(items).expect("accepted");
            None
        }
    }
}

fn warmed(list: &Workload) -> Store {
    peer::warmed(list.settings, &list.ops[..list.warm])
}

/// Turns that are timed together: some thousand calls.
const SLICE: usize = 32;

/// The nanoseconds that the list takes by the block call, slice by slice, as `peer::timed` has them of single writes.
pub fn timed(list: &Workload) -> Vec<f64> {
    let mut store = warmed(list);
    let turns = turns(&list.ops[list.warm..]);
    let slices = turns.chunks(SLICE).map(|slice| {
        let start = Instant::now();
        for turn in slice {
            if let Some(seen) = play(&mut store, turn) {
                black_box(seen);
            }
        }
        start.elapsed().as_secs_f64() * 1e9
    });
    slices.collect()
}

/// Compares the block call with single WRITEs: every read's value and origin.
pub fn compare(list: &Workload, singly: &[Seen]) -> Result<(), String> {
    let mut store = <Store as Peer>::new(list.settings);
    let turns = turns(&list.ops);
    let reads = turns.iter().filter_map(|turn| play(&mut store, turn));
    if reads.eq(singly.iter().copied()) {
        return Ok(());
    }
    Err("a read differs after a block and after single writes".to_string())
}

// What callgrind counts: the writes of one block, by each way.

#[inline(never)]
fn call_block(store: &mut Store, items: &[Item]) {
    store.write_all(black_box(items)).expect("accepted");
}

#[inline(never)]
fn call_single(store: &mut Store, items: &[Item]) {
    for item in black_box(items) {
        Peer::write(store, item.width, item.address, item.value);
    }
}

/// The list with its blocks written one way; how many writes they have.
fn by(list: &Workload, way: fn(&mut Store, &[Item])) -> Took {
    let mut store = warmed(list);
    let mut writes = 0;
    for turn in turns(&list.ops[list.warm..]) {
        match turn {
            Turn::Call(op) => _ = black_box(store.step(op)),
            Turn::Block(items) => {
                way(&mut store, &items);
                writes += items.len() as u32;
            }
        }
    }
    (0.0, writes)
}

/// The list by the block call and by single WRITEs; `sink` gets how many writes each had.
pub fn counted(list: &Workload, sink: &mut dyn FnMut(&'static str, Took)) {
    sink("block", by(list, call_block));
    sink("single", by(list, call_single));
}
