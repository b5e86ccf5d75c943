//! A store that owns its memory.
use crate::calls::{self, accepted, Lent, Shown};
use crate::numbers::Need;
use crate::{Counts, Origin, Reading, Refusal, Settings, State};
use alloc::vec;
use alloc::vec::Vec;
use core::fmt;

/// A store with memory of its own, of exactly the sizes that the library needs.
///
/// ```
/// use vcm::{Origin, Refusal, Settings, Store};
///
/// let mut store = Store::new(Settings { lines: 64, frames: 16, pages: 32 })?;
/// store.write(4, 0, 1988)?;
/// store.mark()?;
/// store.write(4, 0, 2024)?;
/// store.rollback(1)?; // what was written since the mark is gone
/// let reading = store.read(4, 0)?;
/// assert_eq!((reading.value, reading.origin), (1988, Origin::Frame(0)));
/// assert_eq!(store.rollback(1), Err(Refusal::Marks)); // the mark is used up
/// # Ok::<(), Refusal>(())
/// ```
#[derive(Clone)]
pub struct Store {
    pub(crate) state: State,
    pub(crate) memory: Memory,
}

#[derive(Clone)]
pub(crate) struct Memory {
    pub(crate) archive: Vec<u8>,
    pub(crate) pool: Vec<u8>,
    pub(crate) groups: Vec<u32>,
    pub(crate) table: Vec<u16>,
    pub(crate) owners: Vec<u32>,
    pub(crate) history: Vec<u16>,
}

impl Memory {
    fn new(need: &Need) -> Memory {
        Memory {
            archive: vec![0; need.archive],
            pool: vec![0; need.pool],
            groups: vec![0; need.groups / 4],
            table: vec![0; need.table / 2],
            owners: vec![0; need.owners / 4],
            history: vec![0; need.history / 2],
        }
    }

    #[inline]
    pub(crate) fn lent(&mut self) -> Lent<'_> {
        Lent {
            archive: &mut self.archive,
            pool: &mut self.pool,
            groups: &mut self.groups,
            table: &mut self.table,
            owners: &mut self.owners,
            history: &mut self.history,
        }
    }

    #[inline]
    pub(crate) fn shown(&self) -> Shown<'_> {
        Shown {
            archive: &self.archive,
            pool: &self.pool,
            groups: &self.groups,
            table: &self.table,
            owners: &self.owners,
            history: &self.history,
        }
    }
}

impl Store {
    /// An empty store with these settings.
    ///
    /// # Errors
    /// [`Refusal::Settings`] where a number is outside its limits; nothing is allocated then.
    pub fn new(settings: Settings) -> Result<Store, Refusal> {
        let mut store = Store {
            state: calls::blank(),
            memory: Memory::new(&settings.need()?),
        };
        store.clear(settings)?;
        Ok(store)
    }

    /// RESET in the memory that is there.
    fn clear(&mut self, settings: Settings) -> Result<(), Refusal> {
        accepted(calls::reset(
            &mut self.state,
            &mut self.memory.lent(),
            settings.lines,
            settings.frames,
            settings.pages,
        ))
    }

    /// RESET: an empty store with these settings, in new memory of the right size where they differ.
    ///
    /// ```
    /// # use vcm::{Refusal, Settings, Store};
    /// # let mut store = Store::new(Settings { lines: 64, frames: 16, pages: 32 })?;
    /// let more = Settings { pages: 64, ..store.settings() };
    /// store.reset(more)?;
    /// assert_eq!(store.settings().pages, 64);
    /// # Ok::<(), Refusal>(())
    /// ```
    ///
    /// # Errors
    /// [`Refusal::Settings`] where a number is outside its limits; the store is as it was and nothing is allocated.
    pub fn reset(&mut self, settings: Settings) -> Result<(), Refusal> {
        if settings != self.settings() {
            *self = Store::new(settings)?;
            return Ok(());
        }
        self.clear(settings)
    }

    /// The settings.
    ///
    /// ```
    /// # use vcm::{Refusal, Settings, Store};
    /// # let store = Store::new(Settings { lines: 64, frames: 16, pages: 32 })?;
    /// let Settings { lines, frames, pages } = store.settings();
    /// assert_eq!((lines, frames, pages), (64, 16, 32));
    /// # Ok::<(), Refusal>(())
    /// ```
    #[must_use]
    pub fn settings(&self) -> Settings {
        let registers = &self.state.registers;
        Settings {
            lines: registers.lines,
            frames: registers.frames,
            pages: registers.pages,
        }
    }

    /// WRITE: a value of `width` bytes, most significant byte first, to the current frame.
    ///
    /// # Errors
    /// [`Refusal::Width`], [`Refusal::Alignment`], [`Refusal::Range`], [`Refusal::Value`] or [`Refusal::Pages`].
    #[inline]
    pub fn write(&mut self, width: u32, address: u32, value: u32) -> Result<(), Refusal> {
        accepted(calls::write(
            &mut self.state,
            &mut self.memory.lent(),
            width,
            address,
            value,
        ))
    }

    /// READ: the value of `width` bytes at an address and where it was found, or that no surviving write has touched the line. The cache has
    /// the line afterwards.
    ///
    /// # Errors
    /// [`Refusal::Width`], [`Refusal::Alignment`] or [`Refusal::Range`].
    #[inline]
    pub fn read(&mut self, width: u32, address: u32) -> Result<Reading, Refusal> {
        let reading = calls::read(&mut self.state, self.memory.shown(), width, address);
        accepted(reading.refusal)?;
        let origin = match reading.origin {
            0 => Origin::Archive,
            1 => Origin::Frame(reading.marks_back),
            2 => Origin::Cache,
            3 => Origin::Empty,
            other => return Err(Refusal::Unknown(other)),
        };
        Ok(Reading {
            value: reading.value,
            origin,
        })
    }

    /// WRITE of 1 byte.
    ///
    /// ```
    /// # use vcm::{Refusal, Settings, Store};
    /// # let mut store = Store::new(Settings { lines: 64, frames: 16, pages: 32 })?;
    /// store.write_u8(3, 255)?;
    /// assert_eq!(store.line(0)?[..4], [0, 0, 0, 255]);
    /// # Ok::<(), Refusal>(())
    /// ```
    ///
    /// # Errors
    /// [`Refusal::Range`] or [`Refusal::Pages`].
    #[inline]
    pub fn write_u8(&mut self, address: u32, value: u8) -> Result<(), Refusal> {
        self.write(1, address, u32::from(value))
    }

    /// WRITE of 2 bytes, most significant byte first.
    ///
    /// ```
    /// # use vcm::{Refusal, Settings, Store};
    /// # let mut store = Store::new(Settings { lines: 64, frames: 16, pages: 32 })?;
    /// store.write_u16(2, 0x0102)?;
    /// assert_eq!(store.line(0)?[..4], [0, 0, 1, 2]);
    /// # Ok::<(), Refusal>(())
    /// ```
    ///
    /// # Errors
    /// [`Refusal::Alignment`], [`Refusal::Range`] or [`Refusal::Pages`].
    #[inline]
    pub fn write_u16(&mut self, address: u32, value: u16) -> Result<(), Refusal> {
        self.write(2, address, u32::from(value))
    }

    /// WRITE of 4 bytes, most significant byte first.
    ///
    /// ```
    /// # use vcm::{Refusal, Settings, Store};
    /// # let mut store = Store::new(Settings { lines: 64, frames: 16, pages: 32 })?;
    /// store.write_u32(0, 0x0102_0304)?;
    /// assert_eq!(store.line(0)?[..4], [1, 2, 3, 4]);
    /// assert_eq!(store.write_u32(2, 0), Err(Refusal::Alignment));
    /// # Ok::<(), Refusal>(())
    /// ```
    ///
    /// # Errors
    /// [`Refusal::Alignment`], [`Refusal::Range`] or [`Refusal::Pages`].
    #[inline]
    pub fn write_u32(&mut self, address: u32, value: u32) -> Result<(), Refusal> {
        self.write(4, address, value)
    }

    /// READ of 1 byte.
    ///
    /// ```
    /// # use vcm::{Refusal, Settings, Store};
    /// # let mut store = Store::new(Settings { lines: 64, frames: 16, pages: 32 })?;
    /// store.write_u16(2, 0x0102)?;
    /// assert_eq!(store.read_u8(3)?, 2);
    /// # Ok::<(), Refusal>(())
    /// ```
    ///
    /// # Errors
    /// [`Refusal::Range`].
    #[inline]
    pub fn read_u8(&mut self, address: u32) -> Result<u8, Refusal> {
        // a value read is below 256 to the width's power
        Ok(self.read(1, address)?.value as u8)
    }

    /// READ of 2 bytes, most significant byte first.
    ///
    /// ```
    /// # use vcm::{Refusal, Settings, Store};
    /// # let mut store = Store::new(Settings { lines: 64, frames: 16, pages: 32 })?;
    /// store.write_u8(3, 255)?;
    /// assert_eq!(store.read_u16(2)?, 255);
    /// # Ok::<(), Refusal>(())
    /// ```
    ///
    /// # Errors
    /// [`Refusal::Alignment`] or [`Refusal::Range`].
    #[inline]
    pub fn read_u16(&mut self, address: u32) -> Result<u16, Refusal> {
        Ok(self.read(2, address)?.value as u16)
    }

    /// READ of 4 bytes, most significant byte first. [`Store::read`] also tells where the value was found and
    /// whether its line is empty.
    ///
    /// ```
    /// # use vcm::{Refusal, Settings, Store};
    /// # let mut store = Store::new(Settings { lines: 64, frames: 16, pages: 32 })?;
    /// store.write_u32(0, 0x0102_0304)?;
    /// assert_eq!(store.read_u32(0)?, 0x0102_0304);
    /// assert_eq!(store.read_u32(1024), Err(Refusal::Range)); // 64 lines are 1,024 bytes
    /// # Ok::<(), Refusal>(())
    /// ```
    ///
    /// # Errors
    /// [`Refusal::Alignment`] or [`Refusal::Range`].
    #[inline]
    pub fn read_u32(&mut self, address: u32) -> Result<u32, Refusal> {
        Ok(self.read(4, address)?.value)
    }

    /// LINE: the 16 bytes of a line's most recent version. It changes nothing, the cache included.
    ///
    /// # Errors
    /// [`Refusal::Range`] where the number is not below the count of lines.
    pub fn line(&self, number: u32) -> Result<[u8; 16], Refusal> {
        let mut bytes = [0; 16];
        accepted(calls::line(
            &self.state,
            self.memory.shown(),
            number,
            &mut bytes,
        ))?;
        Ok(bytes)
    }

    /// MARK: opens the next frame. Nothing is copied.
    ///
    /// # Errors
    /// [`Refusal::Frames`] where all frames are live.
    #[inline]
    pub fn mark(&mut self) -> Result<(), Refusal> {
        accepted(calls::mark(&mut self.state, self.memory.shown()))
    }

    /// ROLLBACK: drops the `k` newest frames with all that was written in them. The marks gone back over are used up.
    ///
    /// # Errors
    /// [`Refusal::Marks`] where `k` is 0 or more than there are marks.
    pub fn rollback(&mut self, k: u32) -> Result<(), Refusal> {
        accepted(calls::rollback(&mut self.state, &mut self.memory.lent(), k))
    }

    /// ADVANCE: folds the `k` oldest frames into the archive and frees them. Their marks can no longer be gone back to.
    ///
    /// # Errors
    /// [`Refusal::Marks`] where `k` is 0 or more than there are marks.
    pub fn advance(&mut self, k: u32) -> Result<(), Refusal> {
        accepted(calls::advance(&mut self.state, &mut self.memory.lent(), k))
    }

    /// COUNTS: the live frames and the pages needed.
    ///
    /// # Errors
    /// None that a store of this type can give.
    pub fn counts(&self) -> Result<Counts, Refusal> {
        let counted = calls::counts(&self.state, self.memory.shown());
        accepted(counted.refusal)?;
        Ok(Counts {
            live: counted.live,
            pages: counted.pages,
        })
    }

    /// CHECK: whether the storage is well-formed, which that of a store always is. It looks at all of it.
    ///
    /// # Errors
    /// None that a store of this type can give.
    pub fn check(&self) -> Result<bool, Refusal> {
        let verdict = calls::check(&self.state, self.memory.shown());
        accepted(verdict.refusal)?;
        Ok(verdict.yes == 1)
    }
}

impl fmt::Debug for Store {
    fn fmt(&self, f: &mut fmt::Formatter<'_>) -> fmt::Result {
        f.debug_struct("Store")
            .field("lines", &self.state.registers.lines)
            .field("frames", &self.state.registers.frames)
            .field("pages", &self.state.registers.pages)
            .field("cmf", &self.state.registers.cmf)
            .field("omf", &self.state.registers.omf)
            .finish_non_exhaustive()
    }
}
