//! How the cost of each call grows: one setting at a time is changed, the others stay.
use crate::cases;
use crate::workload::Settings;
use std::collections::BTreeMap;
use vcm::Store;

const BASE: (Settings, u32) = (
    Settings {
        lines: 1024,
        frames: 64,
        pages: 512,
    },
    32,
);

/// The settings and live frames of a row: what is changed, and its values.
fn rows() -> Vec<(&'static str, Settings, u32)> {
    let (base, live) = BASE;
    let mut rows = Vec::new();
    for lines in [128, 256, 512, 1024, 2048, 4096] {
        rows.push(("L", Settings { lines, ..base }, live));
    }
    for frames in [48, 64, 96, 128, 192, 256] {
        rows.push(("F", Settings { frames, ..base }, live));
    }
    for pages in [64, 128, 256, 512, 1024, 2048, 4096] {
        rows.push(("P", Settings { pages, ..base }, live));
    }
    for live in [2, 4, 8, 16, 32, 64, 128, 240] {
        rows.push((
            "live",
            Settings {
                frames: 256,
                ..base
            },
            live,
        ));
    }
    rows
}

/// The median time of a call, for each case.
fn medians(settings: Settings, live: u32) -> BTreeMap<&'static str, f64> {
    let mut times = BTreeMap::<_, Vec<f64>>::new();
    cases::all::<Store>(settings, live, 41, |name, (took, n)| {
        times.entry(name).or_default().push(took / f64::from(n));
    });
    let median = |mut times: Vec<f64>| {
        times.sort_by(f64::total_cmp);
        times[times.len() / 2]
    };
    times
        .into_iter()
        .map(|(name, times)| (name, median(times)))
        .collect()
}

pub fn run() {
    println!("changed\tL\tF\tP\tlive\tcall\tns");
    for (changed, settings, live) in rows() {
        let Settings {
            lines,
            frames,
            pages,
        } = settings;
        for (call, ns) in medians(settings, live) {
            println!("{changed}\t{lines}\t{frames}\t{pages}\t{live}\t{call}\t{ns:.1}");
        }
    }
}
