//! The settings of a store.
use crate::calls;
use crate::numbers::Need;
use crate::Refusal;

/// The settings of a store: L, F and P by their names.
///
/// ```
/// use vcm::{Refusal, Settings};
///
/// let settings = Settings { lines: 64, frames: 16, pages: 32 };
/// let need = settings.need()?;
/// assert_eq!((need.archive, need.pool), (1024, 4096));
///
/// let odd = Settings { lines: 65, ..settings };
/// assert_eq!(odd.need(), Err(Refusal::Settings));
/// # Ok::<(), Refusal>(())
/// ```
#[derive(Clone, Copy, Debug, PartialEq, Eq, Hash)]
pub struct Settings {
    /// L, the lines of 16 bytes: a multiple of 8 from 8 to 4,096.
    pub lines: u32,
    /// F, the frames: a multiple of 16 from 16 to 256. One less is how many marks there can be to go back to.
    pub frames: u32,
    /// P, the data pages of 128 bytes, 8 lines each: 1 to 4,096. Each block of 8 lines takes one in every live frame that wrote to it.
    pub pages: u32,
}

impl Settings {
    /// How many bytes of each piece of memory a store with these settings needs.
    ///
    /// # Errors
    /// [`Refusal::Settings`] where a number is outside its limits.
    pub fn need(self) -> Result<Need, Refusal> {
        let need = calls::sizes(self.lines, self.frames, self.pages);
        calls::accepted(need.refusal)?;
        Ok(need)
    }
}
