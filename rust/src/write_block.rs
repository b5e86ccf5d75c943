//! A block of writes: many WRITEs in one call.
use crate::calls::{self, accepted};
use crate::{Item, Refusal, Store};
use core::fmt;

/// How many items go to the library at once, with room for their numbers on the stack. A block is the same as its parts one after the
/// other, so that a longer one goes in parts.
const PART: usize = 64;

impl Store {
    /// A block of writes, with an answer for each item: the items in order, each just as a [`Store::write`] of its own, whose answer it gets
    /// in its place of `answers`. A refused item changes nothing, and the later ones are still tried. Answers past the last item stay as
    /// they are. `Ok` says that all were tried; the answers say which were accepted.
    ///
    /// ```
    /// use vcm::{Item, Refusal, Settings, Store};
    ///
    /// let mut store = Store::new(Settings { lines: 16, frames: 16, pages: 1 })?;
    /// let items = [Item::u8(0, 1), Item::u8(128, 2), Item::u8(1, 3)];
    /// let mut answers = [Ok(()); 3];
    /// store.write_block(&items, &mut answers)?;
    /// // the first 8 lines have the only page
    /// assert_eq!(answers, [Ok(()), Err(Refusal::Pages), Ok(())]);
    /// assert_eq!(store.read_u16(0)?, 0x0103);
    /// # Ok::<(), Refusal>(())
    /// ```
    ///
    /// # Errors
    /// [`Refusal::Answers`] where there are fewer answers than items: nothing is written, and the answers stay.
    pub fn write_block(
        &mut self,
        items: &[Item],
        answers: &mut [Result<(), Refusal>],
    ) -> Result<(), Refusal> {
        if answers.len() < items.len() {
            return Err(Refusal::Answers);
        }
        let mut room = [0; PART];
        for (part, answers) in items.chunks(PART).zip(answers.chunks_mut(PART)) {
            let numbers = &mut room[..part.len()];
            self.write_part(part, numbers)?;
            for (answer, number) in answers.iter_mut().zip(numbers) {
                *answer = accepted(*number);
            }
        }
        Ok(())
    }

    /// A block of writes, of which only the first refusal is told: the items in order, each just as a [`Store::write`] of its own. A refused
    /// item changes nothing, and **the later ones are still tried**: what is to be there whole or not at all wants a
    /// [`trial`](Store::trial).
    ///
    /// ```
    /// use vcm::{Item, Refusal, Settings, Store};
    ///
    /// let mut store = Store::new(Settings { lines: 16, frames: 16, pages: 1 })?;
    /// store.write_all(&[Item::u8(0, 1), Item::u8(1, 2)])?;
    ///
    /// let first = store.write_all(&[Item::u8(2, 3), Item::u8(128, 4), Item::u8(3, 5)]).unwrap_err();
    /// assert_eq!((first.place, first.refusal), (1, Refusal::Pages));
    /// assert_eq!(store.read_u32(0)?, 0x0102_0305);
    /// # Ok::<(), Refusal>(())
    /// ```
    ///
    /// # Errors
    /// The first refusal and its place, where an item was refused: [`Refusal::Width`], [`Refusal::Alignment`], [`Refusal::Range`],
    /// [`Refusal::Value`] or [`Refusal::Pages`].
    pub fn write_all(&mut self, items: &[Item]) -> Result<(), FirstRefusal> {
        let mut room = [0; PART];
        let mut first = None;
        for (turn, part) in items.chunks(PART).enumerate() {
            let numbers = &mut room[..part.len()];
            let refused = match self.write_part(part, numbers) {
                Ok(()) => first_of(numbers),
                // refused as a whole, which no part of a store's is: so is each of its items
                Err(refusal) => Some((0, refusal)),
            };
            let here = |(place, refusal)| FirstRefusal {
                place: turn * PART + place,
                refusal,
            };
            first = first.or_else(|| refused.map(here));
        }
        first.map_or(Ok(()), Err)
    }

    /// A part of a block, and the number of each of its items.
    fn write_part(&mut self, part: &[Item], numbers: &mut [u32]) -> Result<(), Refusal> {
        let lent = &mut self.memory.lent();
        accepted(calls::write_block(&mut self.state, lent, part, numbers))
    }
}

/// The first number that is a refusal, and its place.
fn first_of(numbers: &[u32]) -> Option<(usize, Refusal)> {
    let place = numbers.iter().position(|number| *number != 0)?;
    Some((place, Refusal::from_number(numbers[place])))
}

/// The first item of a block of writes that was refused, by [`Store::write_all`]. Like [`Refusal`], which `?` makes of it, it has its words in both
/// ways to print it.
///
/// ```
/// use vcm::{Item, Refusal, Settings, Store};
///
/// fn place(store: &mut Store) -> Result<(), Refusal> {
///     store.write_all(&[Item::u8(0, 1), Item::u32(2, 1)])?;
///     Ok(())
/// }
///
/// let mut store = Store::new(Settings { lines: 8, frames: 16, pages: 1 })?;
/// assert_eq!(place(&mut store), Err(Refusal::Alignment));
/// let first = store.write_all(&[Item { width: 3, address: 0, value: 0 }]).unwrap_err();
/// assert_eq!(first.to_string(), "items[0]: 7: the width is not 1, 2 or 4 bytes: use one of these");
/// # Ok::<(), Refusal>(())
/// ```
#[derive(Clone, Copy, PartialEq, Eq, Hash)]
pub struct FirstRefusal {
    /// Where the item stands in the list, counted from 0.
    pub place: usize,
    /// Why it was refused.
    pub refusal: Refusal,
}

impl From<FirstRefusal> for Refusal {
    fn from(first: FirstRefusal) -> Refusal {
        first.refusal
    }
}

impl fmt::Display for FirstRefusal {
    fn fmt(&self, f: &mut fmt::Formatter<'_>) -> fmt::Result {
        write!(f, "items[{}]: {}", self.place, self.refusal)
    }
}

// By hand, since this is what a program shows whose `main` returns it.
impl fmt::Debug for FirstRefusal {
    fn fmt(&self, f: &mut fmt::Formatter<'_>) -> fmt::Result {
        write!(f, "items[{}]: {:?}", self.place, self.refusal)
    }
}

#[cfg(feature = "std")]
impl std::error::Error for FirstRefusal {}
