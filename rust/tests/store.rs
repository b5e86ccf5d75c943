//! The wrapper: its types, its memory and its errors. What the calls answer is the suite's.
use vcm::{Counts, Origin, Reading, Refusal, Settings, Store};

fn reading(value: u32, origin: Origin) -> Result<Reading, Refusal> {
    Ok(Reading { value, origin })
}

fn settings(lines: u32, frames: u32, pages: u32) -> Settings {
    Settings {
        lines,
        frames,
        pages,
    }
}

/// Document 01's session, call by call.
#[test]
fn session() {
    let mut store = Store::new(settings(8, 16, 2)).unwrap();
    assert_eq!(store.write(4, 0, 305_419_896), Ok(()));
    assert_eq!(store.mark(), Ok(()));
    assert_eq!(store.write(1, 1, 255), Ok(()));
    assert_eq!(store.read(4, 0), reading(318_723_704, Origin::Cache));
    assert_eq!(store.mark(), Ok(()));
    assert_eq!(store.write(1, 2, 1), Err(Refusal::Pages));
    assert_eq!(store.rollback(2), Ok(()));
    assert_eq!(store.read(4, 0), reading(305_419_896, Origin::Frame(0)));
    assert_eq!(store.read(1, 16), reading(0, Origin::Empty));
    assert_eq!(store.rollback(1), Err(Refusal::Marks));
    assert_eq!(store.read(2, 1), Err(Refusal::Alignment));
    assert_eq!(store.counts(), Ok(Counts { live: 1, pages: 1 }));
    assert_eq!(store.check(), Ok(true));
}

#[test]
fn each_refusal() {
    assert_eq!(
        Store::new(settings(7, 16, 1)).err(),
        Some(Refusal::Settings)
    );
    assert_eq!(
        Store::new(settings(8, 17, 1)).err(),
        Some(Refusal::Settings)
    );
    assert_eq!(
        Store::new(settings(8, 16, 0)).err(),
        Some(Refusal::Settings)
    );
    let mut store = Store::new(settings(8, 16, 1)).unwrap();
    assert_eq!(store.read(3, 1), Err(Refusal::Width));
    assert_eq!(store.read(2, 127), Err(Refusal::Alignment));
    assert_eq!(store.read(4, 128), Err(Refusal::Range));
    assert_eq!(store.read(1, u32::MAX), Err(Refusal::Range));
    assert_eq!(store.line(8), Err(Refusal::Range));
    assert_eq!(store.write(1, 0, 256), Err(Refusal::Value));
    assert_eq!(store.advance(1), Err(Refusal::Marks));
    for _ in 0..15 {
        assert_eq!(store.mark(), Ok(()));
    }
    assert_eq!(store.mark(), Err(Refusal::Frames));
    assert_eq!(store.advance(1), Ok(()));
    assert_eq!(store.mark(), Ok(()));
}

/// The largest settings, the smallest after them, and back.
#[test]
fn reset_takes_memory_of_the_right_size() {
    let mut store = Store::new(settings(8, 16, 1)).unwrap();
    store.write(1, 0, 7).unwrap();
    store.reset(settings(4096, 256, 4096)).unwrap();
    assert_eq!(store.settings(), settings(4096, 256, 4096));
    assert_eq!(store.read(1, 0), reading(0, Origin::Empty));
    assert_eq!(store.write(4, 16 * 4096 - 4, u32::MAX), Ok(()));
    store.reset(settings(8, 16, 1)).unwrap();
    assert_eq!(store.counts(), Ok(Counts { live: 1, pages: 0 }));
    assert_eq!(store.read(4, 16 * 4096 - 4), Err(Refusal::Range));
    // the same settings again: the same memory, all zero
    store.write(1, 0, 7).unwrap();
    store.reset(settings(8, 16, 1)).unwrap();
    assert_eq!(store.read(1, 0), reading(0, Origin::Empty));
}

#[test]
fn refused_reset_leaves_the_store() {
    let mut store = Store::new(settings(8, 16, 1)).unwrap();
    store.write(1, 0, 7).unwrap();
    for (lines, frames, pages) in [
        (0, 16, 1),
        (8, 272, 1),
        (8, 16, 4097),
        (u32::MAX, u32::MAX, u32::MAX),
    ] {
        assert_eq!(
            store.reset(settings(lines, frames, pages)),
            Err(Refusal::Settings)
        );
    }
    assert_eq!(store.settings(), settings(8, 16, 1));
    assert_eq!(store.read(1, 0), reading(7, Origin::Cache));
}

/// LINE changes nothing: the line is not in the cache afterwards.
#[test]
fn line_is_not_a_use() {
    let mut store = Store::new(settings(8, 16, 2)).unwrap();
    store.write(1, 48, 7).unwrap();
    store.mark().unwrap();
    store.write(1, 48, 8).unwrap();
    store.rollback(1).unwrap();
    assert_eq!(store.line(3).unwrap()[0], 7);
    assert_eq!(store.read(1, 48), reading(7, Origin::Frame(0)));
    assert_eq!(store.read(1, 48), reading(7, Origin::Cache));
}

/// A line is empty, in the cache or not, until a write to it survives; once that is collected, until RESET it never is again.
#[test]
fn a_line_is_empty_until_a_write_survives() {
    let mut store = Store::new(settings(8, 16, 2)).unwrap();
    for _ in 0..2 {
        assert_eq!(store.read(1, 48), reading(0, Origin::Empty));
    }
    store.mark().unwrap();
    store.write(1, 48, 0).unwrap();
    assert_eq!(store.read(1, 63), reading(0, Origin::Cache));
    store.rollback(1).unwrap();
    assert_eq!(store.read(1, 48), reading(0, Origin::Empty));
    // collected with the oldest frame; the newest version, which the cache holds, is taken back
    store.write(1, 48, 0).unwrap();
    store.mark().unwrap();
    store.mark().unwrap();
    store.write(1, 48, 9).unwrap();
    store.advance(1).unwrap();
    store.rollback(1).unwrap();
    assert_eq!(store.read(1, 48), reading(0, Origin::Archive));
    assert_eq!(store.read(1, 48), reading(0, Origin::Cache));
    assert_eq!(store.read(1, 64), reading(0, Origin::Empty));
    store.reset(settings(8, 16, 2)).unwrap();
    assert_eq!(store.read(1, 48), reading(0, Origin::Empty));
}

#[test]
fn a_clone_goes_its_own_way() {
    let mut one = Store::new(settings(8, 16, 1)).unwrap();
    let mut other = one.clone();
    one.write(1, 0, 1).unwrap();
    other.write(1, 0, 2).unwrap();
    assert_eq!(one.read(1, 0), reading(1, Origin::Cache));
    assert_eq!(other.read(1, 0), reading(2, Origin::Cache));
}

/// The typed reads and writes are READ and WRITE of their width.
#[test]
fn typed_reads_and_writes() {
    let mut store = Store::new(settings(8, 16, 1)).unwrap();
    assert_eq!(store.write_u32(4, 0x8182_8384), Ok(()));
    assert_eq!(store.write_u16(8, 0xFFFE), Ok(()));
    assert_eq!(store.write_u8(10, 0xFD), Ok(()));
    assert_eq!(
        store.line(0).unwrap()[..12],
        [0, 0, 0, 0, 0x81, 0x82, 0x83, 0x84, 0xFF, 0xFE, 0xFD, 0]
    );
    assert_eq!(store.read_u32(4), Ok(0x8182_8384));
    assert_eq!(store.read_u32(8), Ok(0xFFFE_FD00));
    assert_eq!(store.read_u16(6), Ok(0x8384));
    assert_eq!(store.read_u8(7), Ok(0x84));
    for (address, value) in [(0, u32::MAX), (4, 0), (124, 1 << 31)] {
        assert_eq!(store.write_u32(address, value), Ok(()));
        assert_eq!(store.read_u32(address), Ok(value));
        assert_eq!(store.read_u16(address), Ok((value >> 16) as u16));
        assert_eq!(store.read_u16(address + 2), Ok(value as u16));
        assert_eq!(store.read_u8(address), Ok((value >> 24) as u8));
        assert_eq!(store.read_u8(address + 3), Ok(value as u8));
    }
    assert_eq!(store.write_u32(2, 0), Err(Refusal::Alignment));
    assert_eq!(store.read_u32(2), Err(Refusal::Alignment));
    assert_eq!(store.write_u16(1, 0), Err(Refusal::Alignment));
    assert_eq!(store.read_u16(1), Err(Refusal::Alignment));
    assert_eq!(store.write_u32(128, 0), Err(Refusal::Range));
    assert_eq!(store.read_u32(128), Err(Refusal::Range));
    assert_eq!(store.write_u16(128, 0), Err(Refusal::Range));
    assert_eq!(store.read_u16(128), Err(Refusal::Range));
    assert_eq!(store.write_u8(128, 0), Err(Refusal::Range));
    assert_eq!(store.read_u8(128), Err(Refusal::Range));
    store.mark().unwrap();
    assert_eq!(store.write_u32(0, 0), Err(Refusal::Pages));
    assert_eq!(store.write_u16(0, 0), Err(Refusal::Pages));
    assert_eq!(store.write_u8(0, 0), Err(Refusal::Pages));
    assert_eq!(store.read_u8(0), Ok(0xFF));
}

#[test]
fn refusals_have_their_numbers_and_words() {
    for number in 0..100 {
        let refusal = Refusal::from_number(number);
        assert_eq!(refusal.number(), number);
        let is_known = (4..=14).contains(&number);
        assert_eq!(matches!(refusal, Refusal::Unknown(_)), !is_known);
        assert!(refusal.words().len() > 20);
        let words = refusal.to_string();
        assert_eq!(words, format!("{number}: {}", refusal.words()));
        // what a `main` that returns it prints
        let printed = format!("{refusal:?}");
        assert!(printed.ends_with(&format!(" ({words})")), "{printed}");
    }
    assert_eq!(
        format!("{:?}", Refusal::Frames),
        "Frames (12: no frame is left: advance, or roll back)"
    );
    let error: Box<dyn std::error::Error> = Box::new(Refusal::Pages);
    assert_eq!(
        error.to_string(),
        "13: no page is left: advance, or roll back"
    );
}

#[test]
fn a_store_can_go_to_another_thread() {
    fn may_go<T: Send + Sync>(value: T) -> T {
        value
    }
    let mut store = may_go(Store::new(settings(8, 16, 1)).unwrap());
    let there = std::thread::spawn(move || store.read(1, 0)).join();
    assert_eq!(there.unwrap(), reading(0, Origin::Empty));
    let shown = format!("{:?}", Store::new(settings(8, 16, 1)).unwrap());
    assert!(shown.contains("lines: 8") && shown.len() < 100);
}
