//! Where the suite is, so that a panic can say it too.
use std::sync::atomic::{AtomicU64, Ordering::Relaxed};

static SEED: AtomicU64 = AtomicU64::new(0);
static STEP: AtomicU64 = AtomicU64::new(0);

pub fn seed(seed: u64) {
    SEED.store(seed, Relaxed);
    STEP.store(0, Relaxed);
}

/// A call is made.
pub fn step() {
    STEP.fetch_add(1, Relaxed);
}

pub fn words() -> String {
    let (seed, step) = (SEED.load(Relaxed), STEP.load(Relaxed));
    format!("seed {seed:#x}, call {step} of it")
}
