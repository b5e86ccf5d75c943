//! The library's calls over a [`State`] and lent memory, for a caller who keeps the memory himself.
//!
//! Every call is safe on any state and on memory of any contents and any length: the library has no precondition. A call whose
//! answer is not fixed, because the storage is not well-formed, still stays inside the memory lent. A refused call leaves state and
//! memory untouched. Answers are the library's own numbers, of which [`accepted`] makes an error; [`Store`](crate::Store) has them as
//! Rust types.
//!
//! Nothing here owns memory or needs `std`: with `default-features = false` this module, [`Settings`](crate::Settings) and
//! [`Refusal`] are what is left, without `alloc`.
//!
//! ```
//! use vcm::calls::{self, accepted, Lent};
//! use vcm::{Refusal, Settings};
//!
//! const SETTINGS: Settings = Settings { lines: 8, frames: 16, pages: 2 };
//! let need = SETTINGS.need()?; // in bytes
//! let (mut archive, mut pool) = ([0u8; 128], [0u8; 256]);
//! let (mut groups, mut table) = ([0u32; 8], [0u16; 16]);
//! let (mut owners, mut history) = ([0u32; 2 + 8], [0u16; 256]);
//! assert!(need.groups == 4 * groups.len() && need.table == 2 * table.len());
//!
//! let mut lent = Lent {
//!     archive: &mut archive,
//!     pool: &mut pool,
//!     groups: &mut groups,
//!     table: &mut table,
//!     owners: &mut owners,
//!     history: &mut history,
//! };
//! let mut state = calls::blank();
//! let Settings { lines, frames, pages } = SETTINGS;
//! accepted(calls::reset(&mut state, &mut lent, lines, frames, pages))?;
//! accepted(calls::write(&mut state, &mut lent, 4, 0, 1988))?;
//! let reading = calls::read(&mut state, lent.shown(), 4, 0);
//! accepted(reading.refusal)?;
//! assert_eq!(reading.value, 1988);
//! # Ok::<(), Refusal>(())
//! ```
use crate::border::{self, Counted, Item, Need, Reading, Registers, State, Verdict};
use crate::Refusal;

/// The memory lent to a call that may write it. A piece may be longer than the need; what lies past the need is not touched.
#[derive(Debug)]
pub struct Lent<'a> {
    /// The archive frame, 16 bytes a line.
    pub archive: &'a mut [u8],
    /// The data pages, 128 bytes each.
    pub pool: &'a mut [u8],
    /// Groups of 16 written bits with their tag.
    pub groups: &'a mut [u32],
    /// The page of each frame and block of 8 lines.
    pub table: &'a mut [u16],
    /// The owner of each page, and behind them a flag for each line.
    pub owners: &'a mut [u32],
    /// The rollback history.
    pub history: &'a mut [u16],
}

/// The memory lent to a call that only reads it.
#[derive(Clone, Copy, Debug)]
pub struct Shown<'a> {
    /// The archive frame, 16 bytes a line.
    pub archive: &'a [u8],
    /// The data pages, 128 bytes each.
    pub pool: &'a [u8],
    /// Groups of 16 written bits with their tag.
    pub groups: &'a [u32],
    /// The page of each frame and block of 8 lines.
    pub table: &'a [u16],
    /// The owner of each page, and behind them a flag for each line.
    pub owners: &'a [u32],
    /// The rollback history.
    pub history: &'a [u16],
}

impl Lent<'_> {
    /// The same memory, to read only.
    #[must_use]
    pub fn shown(&self) -> Shown<'_> {
        Shown {
            archive: self.archive,
            pool: self.pool,
            groups: self.groups,
            table: self.table,
            owners: self.owners,
            history: self.history,
        }
    }
}

/// Calls the library with a lent memory's six slices, each as its pointer and its length, between the first and the last arguments.
///
/// A slice's pointer is aligned and not null also where it is empty. `as_ptr` is for calls that write none of them; `as_mut_ptr` needs a
/// [`Lent`], whose slices are exclusive and do not overlap. The library keeps no pointer after the call.
macro_rules! call {
    ($function:ident($($first:expr),*), $memory:expr, $pointer:ident $(, $last:expr)*) => {
        border::$function(
            $($first,)*
            $memory.archive.$pointer(),
            $memory.archive.len(),
            $memory.pool.$pointer(),
            $memory.pool.len(),
            $memory.groups.$pointer(),
            $memory.groups.len(),
            $memory.table.$pointer(),
            $memory.table.len(),
            $memory.owners.$pointer(),
            $memory.owners.len(),
            $memory.history.$pointer(),
            $memory.history.len(),
            $($last,)*
        )
    };
}

// The registers and the cache's arrays are parts of a state that is borrowed for the call, exclusively where they are passed as `*mut`.

/// Nothing for 0, and for any other number its refusal as an error.
///
/// # Errors
/// The refusal of a number other than 0.
#[inline]
pub fn accepted(number: u32) -> Result<(), Refusal> {
    match number {
        0 => Ok(()),
        other => Err(Refusal::from_number(other)),
    }
}

/// The sizing call: the need of each piece in bytes, or refusal 4.
#[must_use]
pub fn sizes(lines: u32, frames: u32, pages: u32) -> Need {
    // SAFETY: numbers only.
    unsafe { border::vcm_sizes(lines, frames, pages) }
}

/// The blank state, which holds no store: every call but RESET refuses it with 5.
#[must_use]
pub fn blank() -> State {
    // SAFETY: no argument.
    unsafe { border::vcm_blank() }
}

/// The registers as the array that the library is lent, where they lie, for a call that may write them. `Registers` is eight `u32` without
/// a gap, which `border` asserts: it has the size and the alignment of the array, and any contents are a value of both.
#[inline]
fn lent_registers(registers: &mut Registers) -> *mut [u32; 8] {
    let registers: *mut Registers = registers;
    registers.cast()
}

/// The same, for a call that only reads them.
#[inline]
fn shown_registers(registers: &Registers) -> *const [u32; 8] {
    let registers: *const Registers = registers;
    registers.cast()
}

/// RESET: an empty store with these settings, whatever the state and the memory held. It writes archive, groups, the
/// collected lines' flags behind the owners, and history, and gives the refusal or 0.
#[must_use]
pub fn reset(state: &mut State, lent: &mut Lent, lines: u32, frames: u32, pages: u32) -> u32 {
    // SAFETY: any state and any memory is allowed; only exclusive slices are passed as `*mut`.
    let outcome = unsafe {
        call!(
            vcm_raw_reset(*state),
            lent,
            as_mut_ptr,
            lines,
            frames,
            pages
        )
    };
    *state = outcome.state;
    outcome.refusal
}

/// WRITE: a value of 1, 2 or 4 bytes, most significant byte first. It writes the cache, pool, groups, table and owners, and gives the
/// refusal or 0.
#[inline]
#[must_use]
pub fn write(state: &mut State, lent: &mut Lent, width: u32, address: u32, value: u32) -> u32 {
    let c = &mut state.cache;
    // SAFETY: any state and any memory is allowed; only exclusive slices are passed as `*mut`.
    unsafe {
        call!(
            vcm_raw_write(
                lent_registers(&mut state.registers),
                &mut c.held,
                &mut c.origins,
                &mut c.valid,
                &mut c.bytes,
                &mut c.last
            ),
            lent,
            as_mut_ptr,
            width,
            address,
            value
        )
    }
}

/// A block of writes: the items in order, each just as a [`write()`] of its own, and the refusal or 0 of each in its place of `answers`. A
/// refused item changes nothing, and the later ones are still tried. It writes what [`write()`] writes and the answers, of which those past
/// the last item stay as they are, and gives the refusal of the whole block or 0: 5, 6, and 14 where there are fewer answers than items.
/// Refused, it writes nothing.
///
/// ```
/// # use vcm::calls::{self, accepted, Lent};
/// # use vcm::{Item, Refusal};
/// # let mut lent = Lent {
/// #     archive: &mut [0; 256],
/// #     pool: &mut [0; 128],
/// #     groups: &mut [0; 16],
/// #     table: &mut [0; 32],
/// #     owners: &mut [0; 17],
/// #     history: &mut [0; 256],
/// # };
/// # let mut state = calls::blank();
/// # accepted(calls::reset(&mut state, &mut lent, 16, 16, 1))?; // one page
/// let items = [Item::u32(0, 1988), Item::u32(128, 7), Item::u8(127, 255)];
/// let mut answers = [0; 3];
/// accepted(calls::write_block(&mut state, &mut lent, &items, &mut answers))?;
/// assert_eq!(answers, [0, 13, 0]);
/// assert_eq!(calls::write_block(&mut state, &mut lent, &items, &mut answers[1..]), 14);
/// # Ok::<(), Refusal>(())
/// ```
#[inline]
#[must_use]
pub fn write_block(state: &mut State, lent: &mut Lent, items: &[Item], answers: &mut [u32]) -> u32 {
    let c = &mut state.cache;
    // SAFETY: any state and any memory is allowed; only exclusive slices are passed as `*mut`. An item is three numbers without a gap, and
    // a slice has at most isize::MAX bytes, so that the count of the numbers is right.
    unsafe {
        call!(
            vcm_raw_write_block(
                lent_registers(&mut state.registers),
                &mut c.held,
                &mut c.origins,
                &mut c.valid,
                &mut c.bytes,
                &mut c.last
            ),
            lent,
            as_mut_ptr,
            items.as_ptr().cast::<u32>(),
            3 * items.len(),
            answers.as_mut_ptr(),
            answers.len()
        )
    }
}

/// READ: the value and its origin. It writes the cache.
#[inline]
#[must_use]
pub fn read(state: &mut State, lent: Shown, width: u32, address: u32) -> Reading {
    let c = &mut state.cache;
    // SAFETY: any state and any memory is allowed; no slice is passed as `*mut`.
    unsafe {
        call!(
            vcm_raw_read(
                shown_registers(&state.registers),
                &mut c.held,
                &mut c.origins,
                &mut c.valid,
                &mut c.bytes,
                &mut c.last
            ),
            lent,
            as_ptr,
            width,
            address
        )
    }
}

/// LINE: the 16 bytes of the line's most recent version, and the refusal or 0. Refused, the bytes stay as they are.
#[must_use]
pub fn line(state: &State, lent: Shown, line: u32, bytes: &mut [u8; 16]) -> u32 {
    // SAFETY: any state and any memory is allowed; `bytes` is exclusive and has room for the 16 bytes.
    unsafe {
        call!(
            vcm_raw_line(shown_registers(&state.registers)),
            lent,
            as_ptr,
            line,
            bytes
        )
    }
}

/// LINE's companion: the refusal of [`line()`] on the same arguments, or 0.
#[must_use]
pub fn line_refusal(state: &State, lent: Shown, line: u32) -> u32 {
    // SAFETY: any state and any memory is allowed; nothing is passed as `*mut`.
    unsafe {
        call!(
            vcm_raw_line_refusal(shown_registers(&state.registers)),
            lent,
            as_ptr,
            line
        )
    }
}

/// MARK: opens the next frame, and gives the refusal or 0.
#[inline]
#[must_use]
pub fn mark(state: &mut State, lent: Shown) -> u32 {
    // SAFETY: any state and any memory is allowed; no slice is passed as `*mut`.
    unsafe {
        call!(
            vcm_raw_mark(lent_registers(&mut state.registers)),
            lent,
            as_ptr
        )
    }
}

/// ROLLBACK: drops the `k` newest frames. It writes the cache's valid flags, groups and history, and gives the refusal or 0.
#[must_use]
pub fn rollback(state: &mut State, lent: &mut Lent, k: u32) -> u32 {
    let c = &mut state.cache;
    // SAFETY: any state and any memory is allowed; only exclusive slices are passed as `*mut`.
    unsafe {
        call!(
            vcm_raw_rollback(
                lent_registers(&mut state.registers),
                &c.origins,
                &mut c.valid
            ),
            lent,
            as_mut_ptr,
            k
        )
    }
}

/// ADVANCE: folds the `k` oldest frames into the archive. It writes the frames of the cache's entries, archive, groups,
/// the collected lines' flags behind the owners, and history, and gives the refusal or 0.
#[must_use]
pub fn advance(state: &mut State, lent: &mut Lent, k: u32) -> u32 {
    let c = &mut state.cache;
    // SAFETY: any state and any memory is allowed; only exclusive slices are passed as `*mut`.
    unsafe {
        call!(
            vcm_raw_advance(lent_registers(&mut state.registers), &mut c.origins),
            lent,
            as_mut_ptr,
            k
        )
    }
}

/// COUNTS: the live frames and the pages needed.
#[must_use]
pub fn counts(state: &State, lent: Shown) -> Counted {
    // SAFETY: any state and any memory is allowed; nothing is passed as `*mut`.
    unsafe {
        call!(
            vcm_raw_counts(shown_registers(&state.registers)),
            lent,
            as_ptr
        )
    }
}

/// CHECK: yes exactly if the storage is well-formed.
#[must_use]
pub fn check(state: &State, lent: Shown) -> Verdict {
    // SAFETY: any state and any memory is allowed; nothing is passed as `*mut`.
    unsafe { call!(vcm_raw_check(*state), lent, as_ptr) }
}
