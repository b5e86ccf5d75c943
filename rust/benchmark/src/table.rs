//! The table of the benchmark: every workload on ours and on each peer, the slowest calls, and the bars.
use crate::block;
use crate::chip::Chip;
use crate::history;
use crate::latency::{self, Slowest};
use crate::peer::{answers, compare, timed, Peer, Seen};
use crate::plain::{Idle, LineJournal, UndoLog, WholeCopy};
use crate::workload::{self, Settings, Workload};
use crate::{BLOCK, FINE, TIGHT};
use std::hint::black_box;
use std::time::Instant;
use vcm::{Refusal, Store};

const REPEATS: usize = 15;
/// What ours is measured beside.
const PEERS: [&str; 5] = [
    Chip::NAME,
    UndoLog::NAME,
    LineJournal::NAME,
    WholeCopy::NAME,
    "sqlite",
];
/// Calls of a list that are timed beside SQLite, which is slow.
#[cfg(sqlite)]
const FEW: usize = 10_000;

/// A workload on ours and on a peer.
struct Line {
    workload: String,
    peer: &'static str,
    ours: f64,
    theirs: f64,
}

impl Line {
    fn ratio(&self) -> f64 {
        self.ours / self.theirs
    }
}

/// The lines as they were measured.
#[derive(Default)]
struct Table(Vec<Line>);

impl Table {
    fn line(&mut self, workload: &str, peer: &'static str, ours: f64, theirs: f64) {
        let line = Line {
            workload: workload.to_string(),
            peer,
            ours,
            theirs,
        };
        let ratio = line.ratio();
        println!("bench {workload} {peer} {ours:.1} {theirs:.1} {ratio:.4}");
        self.0.push(line);
    }

    fn of<'a>(&'a self, peer: &'a str) -> impl Iterator<Item = &'a Line> {
        self.0.iter().filter(move |line| line.peer == peer)
    }

    /// The greatest ratio of a peer over the workloads asked for, if it was measured.
    fn worst(&self, peer: &str, is_asked: impl Fn(&str) -> bool) -> Option<f64> {
        let asked = self.of(peer).filter(|line| is_asked(&line.workload));
        asked.map(Line::ratio).reduce(f64::max)
    }
}

/// For each slice of the list the median of its replays; their sum, for each call. A pause of the scheduler spoils a slice of one replay only.
fn per_call(replays: &[Vec<f64>], calls: usize) -> f64 {
    let slices = (0..replays[0].len()).map(|slice| {
        let mut times: Vec<f64> = replays.iter().map(|replay| replay[slice]).collect();
        times.sort_by(f64::total_cmp);
        times[times.len() / 2]
    });
    slices.sum::<f64>() / calls as f64
}

/// The times of a call of ours and of a peer's, replayed in turns, so that a busy spell of the machine meets both.
fn pair<P: Peer>(list: &Workload, calls: usize) -> (f64, f64) {
    let ops = list.prefix(calls);
    let (mut ours, mut theirs) = (Vec::new(), Vec::new());
    for _ in 0..REPEATS {
        ours.push(timed::<Store>(list.settings, ops, list.warm));
        theirs.push(timed::<P>(list.settings, ops, list.warm));
    }
    let calls = ops.len() - list.warm;
    (per_call(&ours, calls), per_call(&theirs, calls))
}

/// A call of ours on one list over a call on another, replayed in turns too.
fn over(list: &Workload, other: &Workload) -> f64 {
    let replay = |list: &Workload| timed::<Store>(list.settings, &list.ops, list.warm);
    let (mut above, mut below) = (Vec::new(), Vec::new());
    for _ in 0..REPEATS {
        above.push(replay(list));
        below.push(replay(other));
    }
    let calls = |list: &Workload| list.ops.len() - list.warm;
    per_call(&above, calls(list)) / per_call(&below, calls(other))
}

fn beside<P: Peer>(table: &mut Table, list: &Workload) {
    let (ours, theirs) = pair::<P>(list, usize::MAX / 2);
    table.line(list.name, P::NAME, ours, theirs);
}

fn workloads() -> Vec<Workload> {
    let fine = |pages| Settings { pages, ..FINE };
    let small = Settings { lines: 512, ..FINE };
    let deep = Settings {
        frames: 256,
        pages: 2048,
        ..FINE
    };
    let full = Settings {
        frames: 128,
        pages: 2048,
        ..FINE
    };
    vec![
        workload::report("fine", FINE, 20, 200_000),
        workload::report("coarse", fine(2048), 200, 200_000),
        workload::report("small", small, 20, 200_000),
        workload::deep(deep, 100_000),
        workload::regenerate(fine(512), 200_000),
        workload::full(full, 100_000),
        workload::tight(TIGHT, 100_000),
    ]
}

/// Compares every peer's answers with ours. Those without pages are not given the writes that get 13, which therefore must have changed nothing.
fn compare_all(list: &Workload) -> Result<(), String> {
    let told = |error| format!("{}: {error}", list.name);
    let ours = answers::<Store>(list.settings, &list.ops);
    compare::<Chip>(list.settings, &list.ops, &ours).map_err(told)?;
    let list = &list.accepted();
    compare::<UndoLog>(list.settings, &list.ops, &ours).map_err(told)?;
    compare::<LineJournal>(list.settings, &list.ops, &ours).map_err(told)?;
    compare::<WholeCopy>(list.settings, &list.ops, &ours).map_err(told)?;
    compare_sqlite(list, &ours).map_err(told)
}

/// The same of `block`, with reads put in: ours by the block call and by single WRITEs, and the peers that it is timed beside.
fn compare_blocks(list: &Workload) -> Result<(), String> {
    let list = &list.with_reads();
    let told = |words: String| format!("{}: {words}", list.name);
    let ours = answers::<Store>(list.settings, &list.ops);
    block::compare(list, &ours).map_err(told)?;
    compare::<Chip>(list.settings, &list.ops, &ours).map_err(told)?;
    compare::<UndoLog>(list.settings, &list.ops, &ours).map_err(told)
}

/// Compares the rollback history of ours and of `chip-rust` after every rollback, and tells how many entries a rollback compares.
fn same_histories(list: &Workload) -> Result<(), String> {
    let walks = history::walks(list).map_err(|words| format!("{}: {words}", list.name))?;
    println!(
        "# {}: a rollback compares {:.2} entries of the history on average and {} at most",
        list.name,
        walks.compared as f64 / walks.rollbacks as f64,
        walks.most
    );
    Ok(())
}

#[cfg(sqlite)]
fn compare_sqlite(list: &Workload, ours: &[Seen]) -> Result<(), String> {
    let ops = list.prefix(FEW);
    let reads = answers::<UndoLog>(list.settings, ops).len();
    compare::<crate::sqlite::Sqlite>(list.settings, ops, &ours[..reads])
}

#[cfg(sqlite)]
fn beside_sqlite(table: &mut Table, list: &Workload) {
    let (ours, theirs) = pair::<crate::sqlite::Sqlite>(list, FEW);
    table.line(list.name, "sqlite", ours, theirs);
}

#[cfg(sqlite)]
fn head_sqlite() {
    println!(
        "# sqlite {}: the first {FEW} timed calls of each list, ours on the same",
        crate::sqlite::version()
    );
}

#[cfg(not(sqlite))]
fn compare_sqlite(_: &Workload, _: &[Seen]) -> Result<(), String> {
    Ok(())
}

#[cfg(not(sqlite))]
fn beside_sqlite(_: &mut Table, _: &Workload) {}

#[cfg(not(sqlite))]
fn head_sqlite() {
    println!("# sqlite is missing: its library was not there when this was built");
}

fn slow_lines<P: Peer>(table: &mut Table, list: &Workload, ours: Slowest) {
    let theirs = latency::slowest::<P>(list, REPEATS as u32);
    let mut line = |call: &str, ours, theirs| {
        table.line(&format!("latency/{call}"), P::NAME, ours, theirs);
    };
    line("mark", ours.mark, theirs.mark);
    line("rollback", ours.rollback, theirs.rollback);
    line("rollback-that-sweeps", ours.sweep, theirs.sweep);
    line(
        "rollback-with-sweeps-mean",
        ours.amortised,
        theirs.amortised,
    );
    line("advance", ours.advance, theirs.advance);
    line("first-write", ours.first, theirs.first);
}

/// The slowest calls of `fine`, and rollbacks of 10,000 writes.
fn latencies(table: &mut Table, fine: &Workload, long: &Workload) {
    let replays = REPEATS as u32;
    let ours = latency::slowest::<Store>(fine, replays);
    slow_lines::<Chip>(table, fine, ours);
    slow_lines::<UndoLog>(table, fine, ours);
    slow_lines::<LineJournal>(table, fine, ours);
    slow_lines::<WholeCopy>(table, fine, ours);
    let slowest = latency::slowest::<Store>(long, replays).rollback;
    let slowest = slowest.max(ours.rollback);
    let theirs = latency::slowest::<UndoLog>(long, replays).rollback;
    table.line(LONG, UndoLog::NAME, slowest, theirs);
    let theirs = latency::slowest::<LineJournal>(long, replays).rollback;
    table.line(LONG, LineJournal::NAME, slowest, theirs);
}

/// Our slowest rollback without sweep of all, beside the journals' slowest after 10,000 writes.
const LONG: &str = "latency/rollback-of-10000-writes";

/// Ours by the block call beside ours by single WRITEs and beside peers, all in turns. Gives the first two over the undo log.
fn blocks(table: &mut Table, list: &Workload) -> [f64; 2] {
    let (mut blocks, mut singly) = (Vec::new(), Vec::new());
    let (mut chip, mut log) = (Vec::new(), Vec::new());
    for _ in 0..REPEATS {
        blocks.push(block::timed(list));
        singly.push(timed::<Store>(list.settings, &list.ops, list.warm));
        chip.push(timed::<Chip>(list.settings, &list.ops, list.warm));
        log.push(timed::<UndoLog>(list.settings, &list.ops, list.warm));
    }
    let calls = list.ops.len() - list.warm;
    let ours = per_call(&blocks, calls);
    let [singly, chip, log] = [singly, chip, log].map(|times| per_call(&times, calls));
    table.line(list.name, "ours-single", ours, singly);
    table.line(list.name, Chip::NAME, ours, chip);
    table.line(list.name, UndoLog::NAME, ours, log);
    [ours / log, singly / log]
}

/// What a read of ours takes that is refused for its width: the border, and the tests of state, lent lengths and width.
fn refused() -> f64 {
    let mut store = <Store as Peer>::new(FINE);
    let mut round = || {
        let start = Instant::now();
        for _ in 0..1000 {
            let answer = Store::read(&mut store, black_box(3), black_box(0));
            assert_eq!(black_box(answer), Err(Refusal::Width));
        }
        start.elapsed().as_secs_f64() * 1e9 / 1000.0
    };
    let mut times: Vec<f64> = (0..10 * REPEATS).map(|_| round()).collect();
    times.sort_by(f64::total_cmp);
    times[times.len() / 2]
}

fn bars(table: &Table, tight_over_fine: f64) {
    let told = |name: &str, ratio: f64, most: f64| {
        let verdict = if ratio <= most { "ok" } else { "MISSED" };
        println!("bar {name} at most {most}: {ratio:.4} {verdict}");
    };
    let bar = |peer: &str, workload: &str, most: f64| {
        // all lists; the slowest single calls, whose names have a stroke, are no list
        let is_asked = |name: &str| name == workload || (workload == "all" && !name.contains('/'));
        if let Some(ratio) = table.worst(peer, is_asked) {
            told(&format!("{workload}/{peer}"), ratio, most);
        }
    };
    bar("chip-rust", "all", 1.6);
    bar("whole-copy", "fine", 0.25);
    bar("sqlite", "all", 0.02);
    bar("undo-log", LONG, 0.1);
    told("tight over fine, both on ours,", tight_over_fine, 3.0);
    let aim = |peer: &str, most: f64| {
        if let Some(ratio) = table.worst(peer, |name| name == "fine") {
            println!("# aim fine/{peer} at most {most}: {ratio:.4}");
        }
    };
    aim("undo-log", 5.0);
    aim("whole-copy", 0.3);
}

/// A peer without a line in the table is an error.
fn all_measured(table: &Table) -> Result<(), String> {
    let missing = PEERS
        .into_iter()
        .find(|peer| table.of(peer).next().is_none());
    match missing {
        Some(peer) => Err(format!("the peer {peer} is missing, and was not measured")),
        None => Ok(()),
    }
}

pub fn run() -> Result<(), String> {
    let lists = workloads();
    let long = workload::long_rollbacks(
        Settings {
            pages: 1024,
            ..FINE
        },
        210,
        40,
    );
    for list in &lists {
        println!("{}", list.heading());
        compare_all(list)?;
        same_histories(list)?;
    }
    compare_all(&long)?;
    same_histories(&long)?;
    let in_blocks = workload::block(BLOCK, 200_000);
    println!("{}", in_blocks.heading());
    compare_blocks(&in_blocks)?;
    same_histories(&in_blocks)?;
    println!(
        "# every value read is the same on ours and on each peer, and on chip-rust every origin; on sqlite, those of the calls timed beside it"
    );
    println!(
        "# after every rollback the used entries of the history are the same on ours and on chip-rust, which counted those it compared"
    );
    println!(
        "# beside a peer that has no pages ours too plays the list without the writes that get 13"
    );
    head_sqlite();
    println!("# bench: nanoseconds for each call of the list, medians of {REPEATS} replays in turns, taken for every thousand calls; ratio: ours over the peer's");
    println!(
        "# latency: the slowest single call, each call's time being the least of {REPEATS} replays, with {} ns of the clock's own",
        latency::clock()
    );
    println!(
        "# the replay itself, on a peer that does nothing: {:.1} ns a call of fine, part of every time below",
        pair::<Idle>(&lists[0], usize::MAX / 2).1
    );
    println!(
        "# a read of ours that is refused for its width, which is the border and the first tests alone: {:.1} ns",
        refused()
    );
    let mut table = Table::default();
    for list in &lists {
        beside::<Chip>(&mut table, list);
        let list = &list.accepted();
        beside::<UndoLog>(&mut table, list);
        beside::<LineJournal>(&mut table, list);
        beside::<WholeCopy>(&mut table, list);
        beside_sqlite(&mut table, list);
    }
    let (fine, tight) = (&lists[0], &lists[lists.len() - 1]);
    let [in_a_block, singly] = blocks(&mut table, &in_blocks);
    latencies(&mut table, fine, &long);
    bars(&table, over(tight, fine));
    println!(
        "# block beside undo-log: {in_a_block:.2} by the block call, {singly:.2} by single WRITEs"
    );
    all_measured(&table)
}
