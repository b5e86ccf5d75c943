//! Why a call is turned down.
use core::fmt;

/// Why a call was turned down. A refused call changes nothing.
///
/// Where several reasons hold, the one with the lowest number is given. Both ways to print it say its number, the reason and what would
/// help; `{:?}`, which is what a `main` that returns it prints, has its name as well.
///
/// ```
/// use vcm::Refusal;
///
/// let refusal = Refusal::Pages;
/// assert_eq!(refusal.number(), 13);
/// assert_eq!(refusal.to_string(), "13: no page is left: advance, or roll back");
/// assert_eq!(format!("{refusal:?}"), "Pages (13: no page is left: advance, or roll back)");
/// ```
///
/// ```should_panic
/// # use vcm::{Refusal, Settings};
/// fn main() -> Result<(), Refusal> {
///     Settings { lines: 7, frames: 16, pages: 1 }.need()?; // Error: Settings (4: ..)
///     Ok(())
/// }
/// ```
#[derive(Clone, Copy, PartialEq, Eq, Hash)]
#[non_exhaustive]
pub enum Refusal {
    /// 4: L, F or P is outside its limits. L is a multiple of 8 from 8 to 4,096, F a multiple of 16 from 16 to 256, P 1 to 4,096.
    Settings,
    /// 5: the state given holds settings outside their limits, or a CMF or OMF outside 0 to F − 1. A [`Store`](crate::Store)
    /// never holds such a state.
    State,
    /// 6: a lent memory is shorter than the sizing call says. A [`Store`](crate::Store) never lends such memory.
    Memory,
    /// 7: the width is not 1, 2 or 4.
    Width,
    /// 8: the address is not a multiple of the width.
    Alignment,
    /// 9: the address plus the width passes 16 × L, or the line number is not below L.
    Range,
    /// 10: the value needs more bytes than the width.
    Value,
    /// 11: k is 0 or more than the marked states, of which there is one less than live frames.
    Marks,
    /// 12: MARK finds all F frames live. ADVANCE or ROLLBACK frees some.
    Frames,
    /// 13: WRITE's page in the current frame is not needed yet and P pages are needed already. ADVANCE or ROLLBACK may free some; where a
    /// single frame is live, MARK comes first.
    Pages,
    /// 14: the answer list of a block of writes is shorter than its list of items.
    Answers,
    /// A number that this crate does not know: the library linked is not the one that the crate was written for.
    Unknown(u32),
}

impl Refusal {
    /// The refusal of a number other than 0.
    #[must_use]
    pub fn from_number(number: u32) -> Refusal {
        match number {
            4 => Refusal::Settings,
            5 => Refusal::State,
            6 => Refusal::Memory,
            7 => Refusal::Width,
            8 => Refusal::Alignment,
            9 => Refusal::Range,
            10 => Refusal::Value,
            11 => Refusal::Marks,
            12 => Refusal::Frames,
            13 => Refusal::Pages,
            14 => Refusal::Answers,
            other => Refusal::Unknown(other),
        }
    }

    /// The refusal's number.
    #[must_use]
    pub fn number(self) -> u32 {
        match self {
            Refusal::Settings => 4,
            Refusal::State => 5,
            Refusal::Memory => 6,
            Refusal::Width => 7,
            Refusal::Alignment => 8,
            Refusal::Range => 9,
            Refusal::Value => 10,
            Refusal::Marks => 11,
            Refusal::Frames => 12,
            Refusal::Pages => 13,
            Refusal::Answers => 14,
            Refusal::Unknown(number) => number,
        }
    }

    /// The reason and what would help, without the number: the words of C's `vcm_refusal_text`.
    #[must_use]
    pub fn words(self) -> &'static str {
        match self {
            Refusal::Settings => "L, F or P is outside its limits: L is a multiple of 8 from 8 to 4096, F a multiple of 16 from 16 to 256, P 1 to 4096",
            Refusal::State => "the state holds no store, its settings, CMF or OMF being outside their limits: reset it first",
            Refusal::Memory => "a lent piece of memory is shorter than the sizing call says: lend more, or reset with smaller settings",
            Refusal::Width => "the width is not 1, 2 or 4 bytes: use one of these",
            Refusal::Alignment => {
                "the address is not a multiple of the width: use one that is, or a smaller width"
            }
            Refusal::Range => "the address or the line lies past the end: there are L lines, 16 x L bytes",
            Refusal::Value => "the value needs more bytes than the width: write it with a greater width",
            Refusal::Marks => "k is 0 or more than the marks there are, which are one less than the live frames: ask COUNTS",
            Refusal::Frames => "no frame is left: advance, or roll back",
            Refusal::Pages => "no page is left: advance, or roll back",
            Refusal::Answers => "the answer list is shorter than the write list: lend an answer for each write",
            Refusal::Unknown(_) => "a number that this crate does not know: link the library that it came with",
        }
    }

    fn name(self) -> &'static str {
        match self {
            Refusal::Settings => "Settings",
            Refusal::State => "State",
            Refusal::Memory => "Memory",
            Refusal::Width => "Width",
            Refusal::Alignment => "Alignment",
            Refusal::Range => "Range",
            Refusal::Value => "Value",
            Refusal::Marks => "Marks",
            Refusal::Frames => "Frames",
            Refusal::Pages => "Pages",
            Refusal::Answers => "Answers",
            Refusal::Unknown(_) => "Unknown",
        }
    }
}

impl fmt::Display for Refusal {
    fn fmt(&self, f: &mut fmt::Formatter<'_>) -> fmt::Result {
        write!(f, "{}: {}", self.number(), self.words())
    }
}

// By hand, since this is what a program shows whose `main` returns the refusal.
impl fmt::Debug for Refusal {
    fn fmt(&self, f: &mut fmt::Formatter<'_>) -> fmt::Result {
        write!(f, "{} ({self})", self.name())
    }
}

#[cfg(feature = "std")]
impl std::error::Error for Refusal {}
