//! The proved library's C border, as it stands in its source: an array as a pointer, a slice as pointer and length in elements, a struct by
//! value. The registers of a state are lent as the array of their eight numbers, where they lie; RESET and CHECK take the state by value.
//!
//! Nothing checks these declarations against the library. The assertions below fix the layout that both sides rely on; the suite
//! compares every answer.
use core::mem::{align_of, size_of};

/// The cache: 16 sets of two ways, part of the [`State`]. The entry of a set's way is `2 * set + way`.
///
/// Any contents are safe: the library tests what it reads.
#[repr(C)]
#[derive(Clone, Copy, Debug, PartialEq, Eq)]
pub struct Cache {
    /// The line that each entry holds.
    pub held: [u32; 32],
    /// The frame of that line's most recent version, or 65535 for the archive.
    pub origins: [u16; 32],
    /// 1 for a valid entry.
    pub valid: [u8; 32],
    /// 16 bytes for each entry.
    pub bytes: [u8; 512],
    /// For each set, the way used last: 0, or any other number for way 1.
    pub last: [u8; 16],
}

/// The settings and the registers of a store, part of the [`State`].
#[repr(C)]
#[derive(Clone, Copy, Debug, PartialEq, Eq)]
pub struct Registers {
    /// L, the lines of 16 bytes.
    pub lines: u32,
    /// F, the frames of the circle.
    pub frames: u32,
    /// P, the data pages of 128 bytes.
    pub pages: u32,
    /// CMF, the current mark frame.
    pub cmf: u32,
    /// OMF, the oldest mark frame.
    pub omf: u32,
    /// The tag of the written bits that are set now.
    pub tag: u32,
    /// The page where the needed ones start.
    pub first: u32,
    /// How many pages are needed from there on, round the pool.
    pub used: u32,
}

/// The state of a store.
///
/// Any contents are safe: a call on a state that holds no store is refused.
#[repr(C)]
#[derive(Clone, Copy, Debug, PartialEq, Eq)]
pub struct State {
    /// The settings and the registers.
    pub registers: Registers,
    /// The cache.
    pub cache: Cache,
}

/// One WRITE of a block of writes, as [`Store::write_block`](crate::Store::write_block),
/// [`Store::write_all`](crate::Store::write_all) and [`calls::write_block`](crate::calls::write_block) take them.
///
/// ```
/// use vcm::Item;
///
/// let item = Item { width: 2, address: 16, value: 7 };
/// assert_eq!(item, Item::u16(16, 7));
/// ```
#[repr(C)]
#[derive(Clone, Copy, Debug, PartialEq, Eq, Hash)]
pub struct Item {
    /// 1, 2 or 4 bytes.
    pub width: u32,
    /// A multiple of the width.
    pub address: u32,
    /// The value, written most significant byte first.
    pub value: u32,
}

impl Item {
    /// A WRITE of 1 byte.
    #[must_use]
    pub const fn u8(address: u32, value: u8) -> Item {
        Item {
            width: 1,
            address,
            value: value as u32,
        }
    }

    /// A WRITE of 2 bytes.
    #[must_use]
    pub const fn u16(address: u32, value: u16) -> Item {
        Item {
            width: 2,
            address,
            value: value as u32,
        }
    }

    /// A WRITE of 4 bytes.
    #[must_use]
    pub const fn u32(address: u32, value: u32) -> Item {
        Item {
            width: 4,
            address,
            value,
        }
    }
}

/// How many bytes of each piece of memory a store needs. Where `refusal` is not 0, every size is 0.
#[repr(C)]
#[derive(Clone, Copy, Debug, PartialEq, Eq)]
pub struct Need {
    /// 4, or 0.
    pub refusal: u32,
    /// 16 for each line.
    pub archive: usize,
    /// 128 for each page.
    pub pool: usize,
    /// Groups of 16 written bits with their tag, 4 bytes each.
    pub groups: usize,
    /// The page of each frame and block of 8 lines, 2 bytes each.
    pub table: usize,
    /// The owner of each page, and behind them a flag for each line, 4 bytes each.
    pub owners: usize,
    /// The rollback history, 2 bytes for each tag.
    pub history: usize,
}

/// The state after RESET, and its refusal or 0.
#[repr(C)]
#[derive(Clone, Copy)]
pub struct Outcome {
    /// The state after the call; refused, the very state given.
    pub state: State,
    /// The refusal, or 0.
    pub refusal: u32,
}

/// A read's answer in numbers.
#[repr(C)]
#[derive(Clone, Copy, Debug, PartialEq, Eq)]
pub struct Reading {
    /// The refusal, or 0.
    pub refusal: u32,
    /// The value; refused, 0.
    pub value: u32,
    /// 0 the archive, 1 a frame, 2 the cache, 3 empty: no surviving write has touched the line; refused, 0.
    pub origin: u32,
    /// How many marks back the frame lies; 0 where the origin is no frame.
    pub marks_back: u32,
}

/// The answer of COUNTS in numbers.
#[repr(C)]
#[derive(Clone, Copy, Debug, PartialEq, Eq)]
pub struct Counted {
    /// The refusal, or 0.
    pub refusal: u32,
    /// The live frames; refused, 0.
    pub live: u32,
    /// The pages needed; refused, 0.
    pub pages: u32,
}

/// The answer of CHECK in numbers.
#[repr(C)]
#[derive(Clone, Copy, Debug, PartialEq, Eq)]
pub struct Verdict {
    /// The refusal, or 0.
    pub refusal: u32,
    /// 1 for yes, 0 for no; refused, 0.
    pub yes: u32,
}

// The layout that the library was compiled for: x86-64, no hidden gaps in the state.
const _: () = {
    assert!(size_of::<usize>() == 8);
    assert!(size_of::<Cache>() == 752 && align_of::<Cache>() == 4);
    assert!(size_of::<Registers>() == 32 && align_of::<Registers>() == 4);
    assert!(size_of::<State>() == 784 && align_of::<State>() == 4);
    assert!(size_of::<Item>() == 12 && align_of::<Item>() == 4);
    assert!(size_of::<Need>() == 56 && align_of::<Need>() == 8);
    assert!(size_of::<Outcome>() == 788 && align_of::<Outcome>() == 4);
    assert!(size_of::<Reading>() == 16 && align_of::<Reading>() == 4);
    assert!(size_of::<Counted>() == 12 && align_of::<Counted>() == 4);
    assert!(size_of::<Verdict>() == 8 && align_of::<Verdict>() == 4);
};

// Where each field stands: each has a value of its own, which is looked for at its offset. (`offset_of` does it in one word, and wants
// a compiler that is younger than the oldest that the crate is for.)
const _: () = {
    /// The four bytes at an offset of a value, as a number.
    #[allow(unsafe_code)]
    const fn at<T: Copy>(value: &T, offset: usize) -> u32 {
        assert!(offset % 4 == 0 && offset + 4 <= size_of::<T>() && align_of::<T>() >= 4);
        let start: *const T = value;
        // SAFETY: aligned and inside the value, by the line above. It is asked when compiling only, and the compiler turns down a gap.
        unsafe { *start.cast::<u8>().add(offset).cast::<u32>() }
    }

    // eight numbers without a gap, in the order of the array that the library is lent
    let registers = Registers {
        lines: 1,
        frames: 2,
        pages: 3,
        cmf: 4,
        omf: 5,
        tag: 6,
        first: 7,
        used: 8,
    };
    assert!(at(&registers, 0) == 1);
    assert!(at(&registers, 4) == 2);
    assert!(at(&registers, 8) == 3);
    assert!(at(&registers, 12) == 4);
    assert!(at(&registers, 16) == 5);
    assert!(at(&registers, 20) == 6);
    assert!(at(&registers, 24) == 7);
    assert!(at(&registers, 28) == 8);

    let cache = Cache {
        held: [0x0909_0909; 32],
        origins: [0x0A0A; 32],
        valid: [0x0B; 32],
        bytes: [0x0C; 512],
        last: [0x0D; 16],
    };
    assert!(at(&cache, 0) == 0x0909_0909 && at(&cache, 124) == 0x0909_0909);
    assert!(at(&cache, 128) == 0x0A0A_0A0A && at(&cache, 188) == 0x0A0A_0A0A);
    assert!(at(&cache, 192) == 0x0B0B_0B0B && at(&cache, 220) == 0x0B0B_0B0B);
    assert!(at(&cache, 224) == 0x0C0C_0C0C && at(&cache, 732) == 0x0C0C_0C0C);
    assert!(at(&cache, 736) == 0x0D0D_0D0D && at(&cache, 748) == 0x0D0D_0D0D);

    let state = State { registers, cache };
    assert!(at(&state, 0) == 1 && at(&state, 28) == 8);
    assert!(at(&state, 32) == 0x0909_0909 && at(&state, 780) == 0x0D0D_0D0D);
    let outcome = Outcome { state, refusal: 14 };
    assert!(at(&outcome, 0) == 1 && at(&outcome, 784) == 14);

    let item = Item {
        width: 1,
        address: 2,
        value: 3,
    };
    assert!(at(&item, 0) == 1 && at(&item, 4) == 2 && at(&item, 8) == 3);

    let need = Need {
        refusal: 1,
        archive: 2,
        pool: 3,
        groups: 4,
        table: 5,
        owners: 6,
        history: 7,
    };
    assert!(at(&need, 0) == 1);
    assert!(at(&need, 8) == 2);
    assert!(at(&need, 16) == 3);
    assert!(at(&need, 24) == 4);
    assert!(at(&need, 32) == 5);
    assert!(at(&need, 40) == 6);
    assert!(at(&need, 48) == 7);

    let reading = Reading {
        refusal: 1,
        value: 2,
        origin: 3,
        marks_back: 4,
    };
    assert!(at(&reading, 0) == 1);
    assert!(at(&reading, 4) == 2);
    assert!(at(&reading, 8) == 3);
    assert!(at(&reading, 12) == 4);
    let counted = Counted {
        refusal: 1,
        live: 2,
        pages: 3,
    };
    assert!(at(&counted, 0) == 1 && at(&counted, 4) == 2 && at(&counted, 8) == 3);
    let verdict = Verdict { refusal: 1, yes: 2 };
    assert!(at(&verdict, 0) == 1 && at(&verdict, 4) == 2);
};

extern "C" {
    pub fn vcm_sizes(lines: u32, frames: u32, pages: u32) -> Need;

    pub fn vcm_blank() -> State;

    pub fn vcm_raw_reset(
        state: State,
        archive: *mut u8,
        archive_len: usize,
        pool: *const u8,
        pool_len: usize,
        groups: *mut u32,
        groups_len: usize,
        table: *const u16,
        table_len: usize,
        owners: *mut u32,
        owners_len: usize,
        history: *mut u16,
        history_len: usize,
        lines: u32,
        frames: u32,
        pages: u32,
    ) -> Outcome;

    pub fn vcm_raw_write(
        registers: *mut [u32; 8],
        held: *mut [u32; 32],
        origins: *mut [u16; 32],
        valid: *mut [u8; 32],
        bytes: *mut [u8; 512],
        last: *mut [u8; 16],
        archive: *const u8,
        archive_len: usize,
        pool: *mut u8,
        pool_len: usize,
        groups: *mut u32,
        groups_len: usize,
        table: *mut u16,
        table_len: usize,
        owners: *mut u32,
        owners_len: usize,
        history: *const u16,
        history_len: usize,
        width: u32,
        address: u32,
        value: u32,
    ) -> u32;

    /// The items as numbers, three each: their count is a third of `items_len`.
    pub fn vcm_raw_write_block(
        registers: *mut [u32; 8],
        held: *mut [u32; 32],
        origins: *mut [u16; 32],
        valid: *mut [u8; 32],
        bytes: *mut [u8; 512],
        last: *mut [u8; 16],
        archive: *const u8,
        archive_len: usize,
        pool: *mut u8,
        pool_len: usize,
        groups: *mut u32,
        groups_len: usize,
        table: *mut u16,
        table_len: usize,
        owners: *mut u32,
        owners_len: usize,
        history: *const u16,
        history_len: usize,
        items: *const u32,
        items_len: usize,
        answers: *mut u32,
        answers_len: usize,
    ) -> u32;

    pub fn vcm_raw_read(
        registers: *const [u32; 8],
        held: *mut [u32; 32],
        origins: *mut [u16; 32],
        valid: *mut [u8; 32],
        bytes: *mut [u8; 512],
        last: *mut [u8; 16],
        archive: *const u8,
        archive_len: usize,
        pool: *const u8,
        pool_len: usize,
        groups: *const u32,
        groups_len: usize,
        table: *const u16,
        table_len: usize,
        owners: *const u32,
        owners_len: usize,
        history: *const u16,
        history_len: usize,
        width: u32,
        address: u32,
    ) -> Reading;

    pub fn vcm_raw_line(
        registers: *const [u32; 8],
        archive: *const u8,
        archive_len: usize,
        pool: *const u8,
        pool_len: usize,
        groups: *const u32,
        groups_len: usize,
        table: *const u16,
        table_len: usize,
        owners: *const u32,
        owners_len: usize,
        history: *const u16,
        history_len: usize,
        line: u32,
        bytes: *mut [u8; 16],
    ) -> u32;

    pub fn vcm_raw_line_refusal(
        registers: *const [u32; 8],
        archive: *const u8,
        archive_len: usize,
        pool: *const u8,
        pool_len: usize,
        groups: *const u32,
        groups_len: usize,
        table: *const u16,
        table_len: usize,
        owners: *const u32,
        owners_len: usize,
        history: *const u16,
        history_len: usize,
        line: u32,
    ) -> u32;

    pub fn vcm_raw_mark(
        registers: *mut [u32; 8],
        archive: *const u8,
        archive_len: usize,
        pool: *const u8,
        pool_len: usize,
        groups: *const u32,
        groups_len: usize,
        table: *const u16,
        table_len: usize,
        owners: *const u32,
        owners_len: usize,
        history: *const u16,
        history_len: usize,
    ) -> u32;

    pub fn vcm_raw_rollback(
        registers: *mut [u32; 8],
        origins: *const [u16; 32],
        valid: *mut [u8; 32],
        archive: *const u8,
        archive_len: usize,
        pool: *const u8,
        pool_len: usize,
        groups: *mut u32,
        groups_len: usize,
        table: *const u16,
        table_len: usize,
        owners: *const u32,
        owners_len: usize,
        history: *mut u16,
        history_len: usize,
        k: u32,
    ) -> u32;

    pub fn vcm_raw_advance(
        registers: *mut [u32; 8],
        origins: *mut [u16; 32],
        archive: *mut u8,
        archive_len: usize,
        pool: *const u8,
        pool_len: usize,
        groups: *mut u32,
        groups_len: usize,
        table: *const u16,
        table_len: usize,
        owners: *mut u32,
        owners_len: usize,
        history: *mut u16,
        history_len: usize,
        k: u32,
    ) -> u32;

    pub fn vcm_raw_counts(
        registers: *const [u32; 8],
        archive: *const u8,
        archive_len: usize,
        pool: *const u8,
        pool_len: usize,
        groups: *const u32,
        groups_len: usize,
        table: *const u16,
        table_len: usize,
        owners: *const u32,
        owners_len: usize,
        history: *const u16,
        history_len: usize,
    ) -> Counted;

    pub fn vcm_raw_check(
        state: State,
        archive: *const u8,
        archive_len: usize,
        pool: *const u8,
        pool_len: usize,
        groups: *const u32,
        groups_len: usize,
        table: *const u16,
        table_len: usize,
        owners: *const u32,
        owners_len: usize,
        history: *const u16,
        history_len: usize,
    ) -> Verdict;
}
