//! A store as bytes: the same store back, and nothing but a store. The suite saves and loads between random calls.
use vcm::{LoadError, Refusal, Settings, Store};

fn settings(lines: u32, frames: u32, pages: u32) -> Settings {
    Settings {
        lines,
        frames,
        pages,
    }
}

/// Random numbers from a seed (xorshift): the same run every time.
struct Random(u64);

impl Random {
    fn below(&mut self, n: u32) -> u32 {
        self.0 ^= self.0 << 13;
        self.0 ^= self.0 >> 7;
        self.0 ^= self.0 << 17;
        ((self.0 >> 32) % u64::from(n)) as u32
    }
}

/// A random call, and its answer in words.
fn call(store: &mut Store, random: &mut Random) -> String {
    let size = 16 * store.settings().lines;
    let width = [1, 2, 4][random.below(3) as usize];
    let address = random.below(size / width) * width;
    let value = random.below(256);
    let k = 1 + random.below(2);
    match random.below(20) {
        0..=7 => format!("{:?}", store.write(width, address, value)),
        8..=12 => format!("{:?}", store.read(width, address)),
        13..=15 => format!("{:?}", store.mark()),
        16 | 17 => format!("{:?}", store.rollback(k)),
        18 => format!("{:?}", store.advance(k)),
        _ => format!("{:?} {:?}", store.counts(), store.line(address / 16)),
    }
}

fn used(settings: Settings, seed: u64, calls: u32) -> Store {
    let mut store = Store::new(settings).unwrap();
    let mut random = Random(seed);
    for _ in 0..calls {
        call(&mut store, &mut random);
    }
    store
}

const SOME: [(u32, u32, u32); 5] = [
    (8, 16, 1),
    (8, 16, 20),
    (64, 16, 32),
    (40, 48, 100),
    (4096, 256, 4096),
];

#[test]
fn a_loaded_store_answers_alike() {
    for (lines, frames, pages) in SOME {
        for seed in 1..=10 {
            let mut store = used(settings(lines, frames, pages), seed, 300);
            let bytes = store.save();
            let mut other = Store::load(&bytes).unwrap();
            assert_eq!(other.save(), bytes);
            assert_eq!(other.settings(), store.settings());
            let (mut random, mut also) = (Random(seed + 99), Random(seed + 99));
            for _ in 0..300 {
                assert_eq!(call(&mut store, &mut random), call(&mut other, &mut also));
            }
            assert_eq!(other.save(), store.save());
        }
    }
}

/// Where each field and each piece stands: what is saved today must be loaded tomorrow.
#[test]
fn the_format_is_fixed() {
    let mut store = Store::new(settings(24, 32, 3)).unwrap();
    store.write_u8(1, 7).unwrap();
    store.mark().unwrap();
    store.advance(1).unwrap();
    store.write_u8(0, 1).unwrap();
    store.mark().unwrap();
    store.write_u32(148, 0x0102_0304).unwrap();
    store.read_u8(256).unwrap();
    store.mark().unwrap();
    store.rollback(1).unwrap();
    let saved = store.save();
    let cache = 36;
    let archive = cache + 752;
    let pool = archive + 384;
    let groups = pool + 384;
    let table = groups + 192;
    let owners = table + 192;
    let flags = owners + 12;
    let history = flags + 4 * 24;
    let places: [(usize, &[u8]); 23] = [
        (0, &[2, 0, 0, 0]),
        (4, &[24, 0, 0, 0, 32, 0, 0, 0, 3, 0, 0, 0]),
        // CMF, OMF, tag, first, used
        (16, &[2, 0, 0, 0, 1, 0, 0, 0, 1, 0, 0, 0]),
        (28, &[1, 0, 0, 0, 2, 0, 0, 0]),
        // lines 0 and 16 in set 0, the latter used last and of the archive; line 9 in set 9
        (cache, &[0, 0, 0, 0, 16, 0, 0, 0]),
        (cache + 4 * 18, &[9, 0, 0, 0]),
        (cache + 128, &[1, 0, 255, 255]),
        (cache + 128 + 2 * 18, &[2, 0]),
        (cache + 192, &[1, 1, 0]),
        (cache + 192 + 18, &[1, 0]),
        (cache + 224, &[1, 7, 0]),
        (cache + 224 + 16 * 18, &[0, 0, 0, 0, 1, 2, 3, 4, 0]),
        (cache + 736, &[1, 0]),
        (archive, &[0, 7, 0]),
        // page 0 as it was left, page 1 of frame 1 and block 0, page 2 of frame 2 and block 1
        (pool, &[0, 7, 0]),
        (pool + 128, &[1, 7, 0]),
        (pool + 256 + 20, &[1, 2, 3, 4, 0]),
        (groups, &[2, 0, 0, 0]),
        (groups + 8 * 4 + 4, &[4, 0, 0, 0]),
        (table + 2 * 3, &[1, 0]),
        (table + 2 * 7, &[2, 0]),
        (owners + 4, &[0, 2, 0, 0, 1, 4, 0, 0]),
        // line 0 was collected, line 1 was not
        (flags, &[1, 0, 0, 0, 0, 0, 0, 0]),
    ];
    for (at, bytes) in places {
        assert_eq!(saved[at..at + bytes.len()], *bytes, "at {at}");
    }
    // tag 0 holds below the third frame, tag 1 without bound
    assert_eq!(saved[history..history + 4], [2, 0, 255, 255]);
    assert_eq!(saved.len(), history + 512);
    assert_eq!(Store::FORMAT, 2);
}

#[test]
fn another_format_is_refused() {
    let bytes = used(settings(8, 16, 2), 5, 100).save();
    for number in [0, 1, 3, 255, 256, 1 << 24, u32::MAX] {
        let mut other = bytes.clone();
        other[..4].copy_from_slice(&number.to_le_bytes());
        assert_eq!(Store::load(&other).err(), Some(LoadError::Format(number)));
    }
    // the number comes first: bytes of another format need not be long
    assert_eq!(Store::load(&[1, 0, 0, 0]).err(), Some(LoadError::Format(1)));
}

#[test]
fn every_other_length_is_refused() {
    for (lines, frames, pages) in [(8, 16, 1), (64, 16, 32)] {
        let bytes = used(settings(lines, frames, pages), 7, 200).save();
        for length in 0..bytes.len() {
            let error = Store::load(&bytes[..length]).err();
            assert_eq!(error, Some(LoadError::Length), "{length} bytes");
        }
        let mut more = bytes;
        for _ in 0..9 {
            more.push(0);
            assert_eq!(Store::load(&more).err(), Some(LoadError::Length));
        }
    }
}

#[test]
fn settings_outside_their_limits_are_refused() {
    let bytes = used(settings(8, 16, 1), 7, 50).save();
    for (at, number) in [
        (4, 0),
        (4, 12),
        (4, 4104),
        (8, 0),
        (8, 17),
        (8, 272),
        (12, 0),
        (12, 4097),
        (12, u32::MAX),
    ] {
        let mut other = bytes.clone();
        other[at..at + 4].copy_from_slice(&u32::to_le_bytes(number));
        let error = Store::load(&other).err();
        assert_eq!(error, Some(LoadError::Refused(Refusal::Settings)));
    }
    // a CMF and an OMF that are no frame
    for at in [16, 20] {
        let mut other = bytes.clone();
        other[at] = 16;
        let error = Store::load(&other).err();
        assert_eq!(error, Some(LoadError::Refused(Refusal::State)));
    }
}

/// Each byte changed to each other value: turned down, or a store that CHECK has said yes to and that keeps saying so.
#[test]
fn one_damaged_byte_is_refused_or_a_store() {
    let mut store = used(settings(8, 16, 3), 11, 200);
    store.mark().unwrap();
    let bytes = store.save();
    let (mut refused, mut not_well_formed, mut accepted) = (0, 0, 0);
    for at in 0..bytes.len() {
        let mut damaged = bytes.clone();
        for change in [1, 2, 4, 8, 16, 32, 64, 128, 255] {
            damaged[at] = bytes[at] ^ change;
            match Store::load(&damaged) {
                Ok(mut other) => {
                    accepted += 1;
                    assert_eq!(other.check(), Ok(true));
                    assert_eq!(other.save(), damaged);
                    let mut random = Random(at as u64 + 1);
                    for _ in 0..5 {
                        call(&mut other, &mut random);
                    }
                    assert_eq!(other.check(), Ok(true));
                }
                Err(LoadError::NotWellFormed) => not_well_formed += 1,
                Err(_) => refused += 1,
            }
        }
    }
    assert!(refused > 0 && not_well_formed > 0 && accepted > 0);
}

/// What CHECK rejects: a cache that holds other bytes than the newest version, and an owner that owns nothing.
#[test]
fn what_check_rejects_is_refused() {
    let mut store = Store::new(settings(8, 16, 2)).unwrap();
    store.write_u8(0, 1).unwrap();
    let bytes = store.save();
    let mut other = bytes.clone();
    other[36 + 224] ^= 1;
    assert_eq!(Store::load(&other).err(), Some(LoadError::NotWellFormed));
    let mut other = bytes;
    other[32] = 2; // two pages used, of which the second is no frame's
    assert_eq!(Store::load(&other).err(), Some(LoadError::NotWellFormed));
}

#[test]
fn arbitrary_bytes_are_safe() {
    let mut random = Random(2024);
    let mut accepted = 0;
    for round in 0..3000 {
        let honest = used(settings(8, 16, 1 + round % 3), 3, 60).save();
        let length = match round % 4 {
            0 => random.below(1700) as usize,
            _ => honest.len(),
        };
        let mut bytes: Vec<u8> = (0..length).map(|_| random.below(256) as u8).collect();
        // often with a right head, and with more or less of the rest right too
        let right = match round % 5 {
            0 => 0,
            1 => 4,
            2 => 16,
            3 => 36,
            _ => random.below(honest.len() as u32) as usize,
        };
        let right = right.min(length);
        bytes[..right].copy_from_slice(&honest[..right]);
        if let Ok(mut store) = Store::load(&bytes) {
            accepted += 1;
            call(&mut store, &mut random);
        }
    }
    assert!(accepted < 3000);
}

#[test]
fn errors_have_their_words() {
    for (error, words) in [
        (LoadError::Format(7), "format 7"),
        (LoadError::Length, "fewer or more bytes"),
        (LoadError::Refused(Refusal::State), "5: the state"),
        (LoadError::NotWellFormed, "damaged"),
    ] {
        let shown = error.to_string();
        assert!(shown.contains(words), "{shown}");
        assert!(format!("{error:?}").ends_with(&format!("({shown})")));
        let _: Box<dyn std::error::Error> = Box::new(error);
    }
}
