//! A mark that rolls itself back.
use crate::{Counts, FirstRefusal, Item, Reading, Refusal, Store};
use core::mem;

/// A mark of a store, set by [`Store::trial`], that is rolled back when this guard is dropped, unless it is kept.
///
/// Dropped, also by an early return with `?` or by a panic, it takes the store back to the mark: every value, the live frames and the pages
/// needed are what they were before it, whatever was written and kept inside. Only the cache may hold other lines, which
/// [`Store::read`] shows as the origin.
///
/// ```
/// use vcm::{Refusal, Settings, Store};
///
/// let mut store = Store::new(Settings { lines: 64, frames: 16, pages: 32 })?;
/// store.write_u32(0, 1988)?;
///
/// let mut trial = store.trial()?;
/// trial.write_u32(0, 2024)?;
/// assert_eq!(trial.read_u32(0)?, 2024);
/// drop(trial); // taken back
/// assert_eq!(store.read_u32(0)?, 1988);
///
/// let mut trial = store.trial()?;
/// trial.write_u32(0, 2025)?;
/// trial.keep();
/// assert_eq!(store.read_u32(0)?, 2025);
/// # Ok::<(), Refusal>(())
/// ```
///
/// Trials nest. An outer one takes back what inner ones kept:
///
/// ```
/// # use vcm::{Refusal, Settings, Store};
/// # let mut store = Store::new(Settings { lines: 64, frames: 16, pages: 32 })?;
/// let mut week = store.trial()?;
/// week.write_u8(0, 1)?;
/// let mut day = week.trial()?;
/// day.write_u8(1, 2)?;
/// day.keep();
/// assert_eq!(week.counts()?.live, 3);
/// drop(week);
/// assert_eq!(store.counts()?.live, 1);
/// assert_eq!(store.read_u16(0)?, 0);
/// # Ok::<(), Refusal>(())
/// ```
///
/// While a trial lives, the store is out of reach but for the calls that it lends: nothing can mark, roll back, advance or reset under
/// it.
///
/// ```compile_fail,E0499
/// # use vcm::{Refusal, Settings, Store};
/// # let mut store = Store::new(Settings { lines: 64, frames: 16, pages: 32 })?;
/// let trial = store.trial()?;
/// store.rollback(1)?; // does not compile: the trial has borrowed the store
/// drop(trial);
/// # Ok::<(), Refusal>(())
/// ```
///
/// A trial that is leaked, as by [`mem::forget`](core::mem::forget), is not rolled back: its frame stays live, as if it had been kept.
#[derive(Debug)]
#[must_use = "a trial that is not held is rolled back at once"]
pub struct Trial<'a> {
    store: &'a mut Store,
    /// The live frames before the mark.
    before: u32,
}

impl Store {
    /// MARK, with a guard that rolls back to it when it is dropped, unless [`Trial::keep`] is called. Refused, there is no guard and the
    /// store is as it was.
    ///
    /// ```
    /// use vcm::{Refusal, Settings, Store};
    ///
    /// /// Both bytes or none.
    /// fn place(store: &mut Store, one: u32, other: u32) -> Result<(), Refusal> {
    ///     let mut trial = store.trial()?;
    ///     trial.write_u8(one, 1)?;
    ///     trial.write_u8(other, 1)?;
    ///     trial.keep();
    ///     Ok(())
    /// }
    ///
    /// let mut store = Store::new(Settings { lines: 64, frames: 16, pages: 32 })?;
    /// assert_eq!(place(&mut store, 0, 1024), Err(Refusal::Range));
    /// assert_eq!(store.read_u8(0)?, 0); // taken back
    /// # Ok::<(), Refusal>(())
    /// ```
    ///
    /// # Errors
    /// [`Refusal::Frames`] where all frames are live.
    pub fn trial(&mut self) -> Result<Trial<'_>, Refusal> {
        let before = self.counts()?.live;
        self.mark()?;
        Ok(Trial {
            store: self,
            before,
        })
    }
}

impl Trial<'_> {
    /// Ends the trial without going back: what was written stays, and so does the mark, to which [`Store::rollback`] can go back.
    ///
    /// The trial's frame, with the frames of inner trials that were kept and the pages of all, stays in use until [`Store::advance`] folds
    /// the older frames into the archive, or a rollback, as of an outer trial, drops it. A program that keeps trial after trial and never
    /// advances gets [`Refusal::Frames`] when all frames are live:
    ///
    /// ```
    /// # use vcm::{Refusal, Settings, Store};
    /// # let mut store = Store::new(Settings { lines: 64, frames: 16, pages: 32 })?;
    /// for number in 0..15 {
    ///     let mut trial = store.trial()?;
    ///     trial.write_u8(number, 1)?;
    ///     trial.keep();
    /// }
    /// assert_eq!(store.counts()?.live, 16);
    /// assert_eq!(store.trial().err(), Some(Refusal::Frames));
    ///
    /// store.advance(15)?; // all is settled: only the last frame stays live
    /// assert_eq!(store.counts()?.live, 1);
    /// store.trial()?.keep();
    /// # Ok::<(), Refusal>(())
    /// ```
    pub fn keep(self) {
        mem::forget(self);
    }

    /// A trial inside this one, which has the same calls. It ends before this one is used again.
    ///
    /// # Errors
    /// [`Refusal::Frames`] where all frames are live.
    pub fn trial(&mut self) -> Result<Trial<'_>, Refusal> {
        self.store.trial()
    }

    /// [`Store::write`].
    ///
    /// # Errors
    /// Those of [`Store::write`].
    #[inline]
    pub fn write(&mut self, width: u32, address: u32, value: u32) -> Result<(), Refusal> {
        self.store.write(width, address, value)
    }

    /// [`Store::write_block`].
    ///
    /// # Errors
    /// Those of [`Store::write_block`].
    pub fn write_block(
        &mut self,
        items: &[Item],
        answers: &mut [Result<(), Refusal>],
    ) -> Result<(), Refusal> {
        self.store.write_block(items, answers)
    }

    /// [`Store::write_all`]. Writes that are to be there all or not at all:
    ///
    /// ```
    /// use vcm::{Item, Refusal, Settings, Store};
    ///
    /// fn place(store: &mut Store, day: &[Item]) -> Result<(), Refusal> {
    ///     let mut trial = store.trial()?;
    ///     trial.write_all(day)?;
    ///     trial.keep();
    ///     Ok(())
    /// }
    ///
    /// let mut store = Store::new(Settings { lines: 64, frames: 16, pages: 32 })?;
    /// assert_eq!(place(&mut store, &[Item::u8(0, 1), Item::u8(1024, 1)]), Err(Refusal::Range));
    /// assert_eq!(store.read_u8(0)?, 0); // taken back
    /// # Ok::<(), Refusal>(())
    /// ```
    ///
    /// # Errors
    /// Those of [`Store::write_all`].
    pub fn write_all(&mut self, items: &[Item]) -> Result<(), FirstRefusal> {
        self.store.write_all(items)
    }

    /// [`Store::read`].
    ///
    /// # Errors
    /// Those of [`Store::read`].
    #[inline]
    pub fn read(&mut self, width: u32, address: u32) -> Result<Reading, Refusal> {
        self.store.read(width, address)
    }

    /// [`Store::write_u8`].
    ///
    /// # Errors
    /// Those of [`Store::write_u8`].
    #[inline]
    pub fn write_u8(&mut self, address: u32, value: u8) -> Result<(), Refusal> {
        self.store.write_u8(address, value)
    }

    /// [`Store::write_u16`].
    ///
    /// # Errors
    /// Those of [`Store::write_u16`].
    #[inline]
    pub fn write_u16(&mut self, address: u32, value: u16) -> Result<(), Refusal> {
        self.store.write_u16(address, value)
    }

    /// [`Store::write_u32`].
    ///
    /// # Errors
    /// Those of [`Store::write_u32`].
    #[inline]
    pub fn write_u32(&mut self, address: u32, value: u32) -> Result<(), Refusal> {
        self.store.write_u32(address, value)
    }

    /// [`Store::read_u8`].
    ///
    /// # Errors
    /// Those of [`Store::read_u8`].
    #[inline]
    pub fn read_u8(&mut self, address: u32) -> Result<u8, Refusal> {
        self.store.read_u8(address)
    }

    /// [`Store::read_u16`].
    ///
    /// # Errors
    /// Those of [`Store::read_u16`].
    #[inline]
    pub fn read_u16(&mut self, address: u32) -> Result<u16, Refusal> {
        self.store.read_u16(address)
    }

    /// [`Store::read_u32`].
    ///
    /// # Errors
    /// Those of [`Store::read_u32`].
    #[inline]
    pub fn read_u32(&mut self, address: u32) -> Result<u32, Refusal> {
        self.store.read_u32(address)
    }

    /// [`Store::line`].
    ///
    /// # Errors
    /// Those of [`Store::line`].
    pub fn line(&self, number: u32) -> Result<[u8; 16], Refusal> {
        self.store.line(number)
    }

    /// [`Store::counts`], in which the trial's own frame is counted.
    ///
    /// # Errors
    /// None that a trial can give.
    pub fn counts(&self) -> Result<Counts, Refusal> {
        self.store.counts()
    }
}

impl Drop for Trial<'_> {
    /// Inner trials that were kept left frames of their own: all that came since go. No call inside a trial lowers the live frames, so
    /// that there is at least one, and no refusal.
    fn drop(&mut self) {
        let back = self
            .store
            .counts()
            .and_then(|counts| self.store.rollback(counts.live - self.before));
        debug_assert_eq!(back, Ok(()));
    }
}

/// What a trial has, and what it must not have: each of the latter would break the guard.
#[cfg(doctest)]
mod reach {
    macro_rules! programs {
        ($($name:ident $kind:literal $call:literal)*) => {
            $(
                #[doc = concat!("```", $kind)]
                /// # use vcm::{Refusal, Settings, Store};
                /// # let settings = Settings { lines: 64, frames: 16, pages: 32 };
                /// # let mut store = Store::new(settings)?;
                /// let mut trial = store.trial()?;
                #[doc = $call]
                /// # Ok::<(), Refusal>(())
                /// ```
                pub struct $name;
            )*
        };
    }

    programs! {
        Trial "" "trial.trial()?.keep();"
        Counts "" "trial.counts()?;"
        Mark "compile_fail,E0599" "trial.mark()?;"
        Rollback "compile_fail,E0599" "trial.rollback(1)?;"
        Advance "compile_fail,E0599" "trial.advance(1)?;"
        Reset "compile_fail,E0599" "trial.reset(settings)?;"
        Load "compile_fail,E0616" "*trial.store = Store::new(settings)?;"
        Outlived "compile_fail,E0505" "drop(store); trial.counts()?;"
        Twice "compile_fail,E0499" "let inner = trial.trial()?; trial.write_u8(0, 1)?; drop(inner);"
    }
}
