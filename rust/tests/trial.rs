//! The guard of a trial: exactly back to its mark when dropped, and nothing undone when kept. The suite has random trials.
use std::mem;
use std::panic::{catch_unwind, AssertUnwindSafe};
use vcm::{Counts, Refusal, Settings, Store};

fn store() -> Store {
    let mut store = Store::new(Settings {
        lines: 32,
        frames: 16,
        pages: 16,
    })
    .unwrap();
    for line in 0..32 {
        let is_written = store.write(1, 16 * line, line);
        assert_eq!(is_written, Ok(()));
    }
    store
}

/// All that a store has to say but for the cache: every line, and the counts.
fn seen(store: &Store) -> (Vec<[u8; 16]>, Counts) {
    let lines = (0..store.settings().lines).map(|line| store.line(line).unwrap());
    (lines.collect(), store.counts().unwrap())
}

/// Going back over every mark gives the same on both.
fn has_the_same_past(one: &Store, other: &Store) {
    let (mut one, mut other) = (one.clone(), other.clone());
    loop {
        assert_eq!(seen(&one), seen(&other));
        assert_eq!(one.check(), Ok(true));
        let (back, also) = (one.rollback(1), other.rollback(1));
        assert_eq!(back, also);
        if back.is_err() {
            return;
        }
    }
}

#[test]
fn dropped_is_taken_back() {
    let mut store = store();
    store.mark().unwrap();
    store.write_u8(5, 5).unwrap();
    let before = store.clone();
    {
        let mut trial = store.trial().unwrap();
        assert_eq!(trial.counts(), Ok(Counts { live: 3, pages: 5 }));
        assert_eq!(trial.write(2, 0, 0x0102), Ok(()));
        assert_eq!(trial.write_u8(16, 3), Ok(()));
        assert_eq!(trial.write_u16(18, 4), Ok(()));
        assert_eq!(trial.write_u32(20, 5), Ok(()));
        assert_eq!(trial.read(2, 0).unwrap().value, 0x0102);
        assert_eq!(trial.read_u8(16), Ok(3));
        assert_eq!(trial.read_u16(18), Ok(4));
        assert_eq!(trial.read_u32(20), Ok(5));
        assert_eq!(trial.line(1).unwrap()[..8], [3, 0, 0, 4, 0, 0, 0, 5]);
        assert_eq!(trial.write_u32(2, 5), Err(Refusal::Alignment));
        assert_eq!(trial.counts(), Ok(Counts { live: 3, pages: 6 }));
    }
    has_the_same_past(&store, &before);
}

#[test]
fn kept_stays_with_its_mark() {
    let mut store = store();
    let before = store.clone();
    let mut trial = store.trial().unwrap();
    trial.write_u8(0, 9).unwrap();
    trial.keep();
    assert_eq!(store.read_u8(0), Ok(9));
    assert_eq!(store.counts(), Ok(Counts { live: 2, pages: 5 }));
    let mut back = store.clone();
    assert_eq!(back.rollback(1), Ok(()));
    has_the_same_past(&back, &before);
    // the frame is in use until ADVANCE
    assert_eq!(store.advance(1), Ok(()));
    assert_eq!(store.counts(), Ok(Counts { live: 1, pages: 1 }));
    assert_eq!(store.read_u8(0), Ok(9));
}

/// Inner trials kept, dropped and leaked, three deep: the outer one goes back over all of them.
#[test]
fn an_outer_trial_takes_back_what_inner_ones_kept() {
    for depth in 1..=3 {
        for leak in [false, true] {
            let mut store = store();
            store.mark().unwrap();
            let before = store.clone();
            let mut outer = store.trial().unwrap();
            outer.write_u8(0, 100).unwrap();
            let mut inner = outer.trial().unwrap();
            inner.write_u8(0, 101).unwrap();
            for number in 1..depth {
                let mut inmost = inner.trial().unwrap();
                inmost.write_u8(32 * u32::from(number), number).unwrap();
                inmost.keep();
                // one that is dropped between
                inner.trial().unwrap().write_u8(0, 255).unwrap();
            }
            assert_eq!(inner.counts().unwrap().live, 3 + u32::from(depth));
            if leak {
                mem::forget(inner);
            } else {
                inner.keep();
            }
            assert_eq!(outer.read_u8(0), Ok(101));
            assert_eq!(outer.counts().unwrap().live, 3 + u32::from(depth));
            drop(outer);
            has_the_same_past(&store, &before);
        }
    }
}

/// The circle wraps round, and all its frames are used inside a trial.
#[test]
fn a_full_circle_is_taken_back() {
    let mut store = store();
    for turn in 0..20 {
        store.mark().unwrap();
        store.advance(1).unwrap();
        let before = store.clone();
        let mut trial = store.trial().unwrap();
        for _ in 0..14 {
            trial.trial().unwrap().keep();
        }
        trial.write_u8(0, turn).unwrap();
        assert_eq!(trial.counts().unwrap().live, 16);
        assert_eq!(trial.trial().err(), Some(Refusal::Frames));
        assert_eq!(trial.counts().unwrap().live, 16);
        drop(trial);
        has_the_same_past(&store, &before);
    }
}

/// MARK refused: no guard, and nothing is rolled back.
#[test]
fn refused_there_is_no_trial() {
    let mut store = store();
    for _ in 0..15 {
        store.mark().unwrap();
    }
    store.write_u8(0, 7).unwrap();
    let before = store.clone();
    assert_eq!(store.trial().err(), Some(Refusal::Frames));
    has_the_same_past(&store, &before);
}

fn tries_in_vain(store: &mut Store) -> Result<(), Refusal> {
    let mut trial = store.trial()?;
    trial.write_u8(0, 8)?;
    trial.write_u8(1 << 20, 8)?;
    trial.keep();
    Ok(())
}

#[test]
fn an_early_return_and_a_panic_take_back() {
    let mut store = store();
    let before = store.clone();
    assert_eq!(tries_in_vain(&mut store), Err(Refusal::Range));
    has_the_same_past(&store, &before);
    let outcome = catch_unwind(AssertUnwindSafe(|| {
        let mut trial = store.trial().unwrap();
        trial.write_u8(0, 8).unwrap();
        trial.trial().unwrap().keep();
        // without the message of a panic, which would look like a failed test
        std::panic::resume_unwind(Box::new(()));
    }));
    assert!(outcome.is_err());
    has_the_same_past(&store, &before);
}

#[test]
fn leaked_leaves_its_frame_live() {
    let mut store = store();
    let mut trial = store.trial().unwrap();
    trial.write_u8(0, 9).unwrap();
    mem::forget(trial);
    assert_eq!(store.read_u8(0), Ok(9));
    assert_eq!(store.counts().unwrap().live, 2);
    assert_eq!(store.rollback(1), Ok(()));
    assert_eq!(store.read_u8(0), Ok(0));
}
