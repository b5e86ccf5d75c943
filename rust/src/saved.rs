//! A whole store as bytes, and back.
use crate::calls::{self, accepted};
use crate::store::Memory;
use crate::{Cache, Refusal, Registers, Settings, State, Store};
use alloc::vec::Vec;
use core::fmt;

/// The number of the format that is written and read.
const FORMAT: u32 = 2;

/// The bytes of the number and the settings, which tell how many more there must be.
const HEAD: usize = 16;

/// The bytes before the memory's six pieces: the number, and the fields of a state one after another.
const FIXED: usize = 4 + 784;

impl Store {
    /// The format that [`Store::save`] writes and [`Store::load`] reads: 2, which came with the collected lines' flags behind the owners. A later
    /// version that adds or changes anything in it raises the number.
    pub const FORMAT: u32 = FORMAT;

    /// The whole store as bytes: its settings, its marks, every version that can be gone back to, and the cache, so that [`Store::load`]
    /// makes of them a store that answers every further call as this one.
    ///
    /// First the number of the format, [`Store::FORMAT`]; then the registers and the cache field by field, in the order in which
    /// [`State`] declares them; then archive, pool, groups, table, owners and history, whose lengths [`Settings::need`] says. Each
    /// number has its least significant byte first, whatever the machine; nothing stands between, and nothing follows.
    ///
    /// Pages that were dropped by a rollback are saved with what they still hold: the bytes may have values that no read gives any more.
    ///
    /// ```
    /// use vcm::{Refusal, Settings, Store};
    ///
    /// let mut store = Store::new(Settings { lines: 64, frames: 16, pages: 32 })?;
    /// store.write_u32(0, 1988)?;
    /// store.mark()?;
    /// store.write_u32(0, 2024)?;
    /// let bytes = store.save();
    ///
    /// let mut other = Store::load(&bytes).expect("just saved");
    /// assert_eq!(other.read_u32(0)?, 2024);
    /// other.rollback(1)?;
    /// assert_eq!(other.read_u32(0)?, 1988);
    /// # Ok::<(), Refusal>(())
    /// ```
    #[must_use]
    pub fn save(&self) -> Vec<u8> {
        let memory = &self.memory;
        let length = FIXED
            + memory.archive.len()
            + memory.pool.len()
            + 4 * memory.groups.len()
            + 2 * memory.table.len()
            + 4 * memory.owners.len()
            + 2 * memory.history.len();
        let mut bytes = Vec::with_capacity(length);
        let registers = &self.state.registers;
        put_u32s(&mut bytes, &[FORMAT]);
        put_u32s(
            &mut bytes,
            &[
                registers.lines,
                registers.frames,
                registers.pages,
                registers.cmf,
                registers.omf,
                registers.tag,
                registers.first,
                registers.used,
            ],
        );
        let cache = &self.state.cache;
        put_u32s(&mut bytes, &cache.held);
        put_u16s(&mut bytes, &cache.origins);
        bytes.extend_from_slice(&cache.valid);
        bytes.extend_from_slice(&cache.bytes);
        bytes.extend_from_slice(&cache.last);
        bytes.extend_from_slice(&memory.archive);
        bytes.extend_from_slice(&memory.pool);
        put_u32s(&mut bytes, &memory.groups);
        put_u16s(&mut bytes, &memory.table);
        put_u32s(&mut bytes, &memory.owners);
        put_u16s(&mut bytes, &memory.history);
        debug_assert_eq!(bytes.len(), length);
        bytes
    }

    /// The store that was saved as these bytes. Any bytes are safe: what is not a store is turned down.
    ///
    /// Bytes that CHECK says yes to are a store that answers as some calls would have left it, but need not be the one that was saved: bytes
    /// that may be damaged on their way want a checksum of their own.
    ///
    /// ```
    /// use vcm::{LoadError, Refusal, Settings, Store};
    ///
    /// let bytes = Store::new(Settings { lines: 8, frames: 16, pages: 1 })?.save();
    /// assert!(Store::load(&bytes).is_ok());
    /// assert_eq!(Store::load(&bytes[1..]).err(), Some(LoadError::Format(0x0800_0000)));
    /// assert_eq!(Store::load(&bytes[..bytes.len() - 1]).err(), Some(LoadError::Length));
    ///
    /// let mut damaged = bytes;
    /// damaged[32] = 1; // one page in use, which no frame has
    /// assert_eq!(Store::load(&damaged).err(), Some(LoadError::NotWellFormed));
    /// # Ok::<(), Refusal>(())
    /// ```
    ///
    /// # Errors
    /// The first that holds of [`LoadError::Format`] for another number than [`Store::FORMAT`], [`LoadError::Refused`] for settings outside
    /// their limits, [`LoadError::Length`] for fewer or more bytes than they need, [`LoadError::Refused`] again for a CMF or OMF that is
    /// no frame, and [`LoadError::NotWellFormed`] for whatever else CHECK rejects. Nothing is allocated before the length is
    /// known to be right.
    pub fn load(bytes: &[u8]) -> Result<Store, LoadError> {
        let number = bytes.get(..4).ok_or(LoadError::Length)?;
        let number = Bytes(number).u32();
        if number != FORMAT {
            return Err(LoadError::Format(number));
        }
        let mut head = Bytes(bytes.get(4..HEAD).ok_or(LoadError::Length)?);
        let settings = Settings {
            lines: head.u32(),
            frames: head.u32(),
            pages: head.u32(),
        };
        let need = settings.need().map_err(LoadError::Refused)?;
        let pieces =
            need.archive + need.pool + need.groups + need.table + need.owners + need.history;
        if bytes.len() != FIXED + pieces {
            return Err(LoadError::Length);
        }
        let mut rest = Bytes(&bytes[4..]);
        let store = Store {
            state: State {
                registers: Registers {
                    lines: rest.u32(),
                    frames: rest.u32(),
                    pages: rest.u32(),
                    cmf: rest.u32(),
                    omf: rest.u32(),
                    tag: rest.u32(),
                    first: rest.u32(),
                    used: rest.u32(),
                },
                cache: Cache {
                    held: rest.u32s(),
                    origins: rest.u16s(),
                    valid: rest.u8s(),
                    bytes: rest.u8s(),
                    last: rest.u8s(),
                },
            },
            memory: Memory {
                archive: rest.take(need.archive).to_vec(),
                pool: rest.take(need.pool).to_vec(),
                groups: rest.u32_list(need.groups),
                table: rest.u16_list(need.table),
                owners: rest.u32_list(need.owners),
                history: rest.u16_list(need.history),
            },
        };
        debug_assert!(rest.0.is_empty());
        let verdict = calls::check(&store.state, store.memory.shown());
        accepted(verdict.refusal).map_err(LoadError::Refused)?;
        if verdict.yes != 1 {
            return Err(LoadError::NotWellFormed);
        }
        Ok(store)
    }
}

fn put_u32s(bytes: &mut Vec<u8>, numbers: &[u32]) {
    bytes.extend(numbers.iter().flat_map(|number| number.to_le_bytes()));
}

fn put_u16s(bytes: &mut Vec<u8>, numbers: &[u16]) {
    bytes.extend(numbers.iter().flat_map(|number| number.to_le_bytes()));
}

/// The bytes not read yet, of which as many are left as are asked for: [`Store::load`] sees to it before.
struct Bytes<'a>(&'a [u8]);

impl<'a> Bytes<'a> {
    fn take(&mut self, length: usize) -> &'a [u8] {
        let (first, rest) = self.0.split_at(length);
        self.0 = rest;
        first
    }

    fn u8s<const N: usize>(&mut self) -> [u8; N] {
        let mut all = [0; N];
        all.copy_from_slice(self.take(N));
        all
    }

    fn u32(&mut self) -> u32 {
        u32::from_le_bytes(self.u8s())
    }

    fn u16(&mut self) -> u16 {
        u16::from_le_bytes(self.u8s())
    }

    fn u32s<const N: usize>(&mut self) -> [u32; N] {
        let mut all = [0; N];
        for number in &mut all {
            *number = self.u32();
        }
        all
    }

    fn u16s<const N: usize>(&mut self) -> [u16; N] {
        let mut all = [0; N];
        for number in &mut all {
            *number = self.u16();
        }
        all
    }

    fn u32_list(&mut self, length: usize) -> Vec<u32> {
        let mut list = Bytes(self.take(length));
        (0..length / 4).map(|_| list.u32()).collect()
    }

    fn u16_list(&mut self, length: usize) -> Vec<u16> {
        let mut list = Bytes(self.take(length));
        (0..length / 2).map(|_| list.u16()).collect()
    }
}

/// Why [`Store::load`] turned bytes down. Like [`Refusal`] it has its words in both ways to print it.
///
/// ```
/// use vcm::{LoadError, Store};
///
/// let error = Store::load(&[9, 0, 0, 0]).unwrap_err();
/// assert_eq!(error, LoadError::Format(9));
/// assert_eq!(error.to_string(), "the bytes are of format 9: this version reads format 2 only");
/// ```
#[derive(Clone, Copy, PartialEq, Eq, Hash)]
#[non_exhaustive]
pub enum LoadError {
    /// The number of the format is another than [`Store::FORMAT`]: another version saved the bytes, or they are no store.
    Format(u32),
    /// There are fewer or more bytes than the settings need: the end was lost, or something follows.
    Length,
    /// The settings, or the state that they are part of, are outside their limits: [`Refusal::Settings`] or [`Refusal::State`].
    Refused(Refusal),
    /// CHECK says no: no calls lead to such a store.
    NotWellFormed,
}

impl LoadError {
    fn name(self) -> &'static str {
        match self {
            LoadError::Format(_) => "Format",
            LoadError::Length => "Length",
            LoadError::Refused(_) => "Refused",
            LoadError::NotWellFormed => "NotWellFormed",
        }
    }
}

impl fmt::Display for LoadError {
    fn fmt(&self, f: &mut fmt::Formatter<'_>) -> fmt::Result {
        match self {
            LoadError::Format(number) => write!(
                f,
                "the bytes are of format {number}: this version reads format {FORMAT} only"
            ),
            LoadError::Length => f.write_str(
                "there are fewer or more bytes than the settings in them need: give all that was saved, and nothing else",
            ),
            LoadError::Refused(refusal) => {
                write!(f, "the bytes are no store that was saved: {refusal}")
            }
            LoadError::NotWellFormed => f.write_str(
                "the bytes are no store that was saved, or were damaged since: load another copy",
            ),
        }
    }
}

// By hand, since this is what a program shows whose `main` returns the error.
impl fmt::Debug for LoadError {
    fn fmt(&self, f: &mut fmt::Formatter<'_>) -> fmt::Result {
        write!(f, "{} ({self})", self.name())
    }
}

#[cfg(feature = "std")]
impl std::error::Error for LoadError {}
