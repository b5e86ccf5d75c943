//! What the calls of a store answer.
use core::fmt;

/// Where a read found its value.
#[derive(Clone, Copy, Debug, PartialEq, Eq, Hash)]
pub enum Origin {
    /// No live frame has a version of the line, and a write to it was collected.
    Archive,
    /// The line's most recent version lies in a live frame, so many marks back; 0 is the current frame.
    Frame(u32),
    /// The cache held the line.
    Cache,
    /// No surviving write has touched the line: its value is 0, in the cache or not.
    Empty,
}

/// In words.
///
/// ```
/// use vcm::Origin;
///
/// assert_eq!(Origin::Frame(2).to_string(), "the frame 2 marks back");
/// assert_eq!(Origin::Empty.to_string(), "nowhere: no surviving write has touched the line");
/// ```
impl fmt::Display for Origin {
    fn fmt(&self, f: &mut fmt::Formatter<'_>) -> fmt::Result {
        match self {
            Origin::Cache => f.write_str("the cache"),
            Origin::Frame(0) => f.write_str("the current frame"),
            Origin::Frame(1) => f.write_str("the frame 1 mark back"),
            Origin::Frame(back) => write!(f, "the frame {back} marks back"),
            Origin::Archive => f.write_str("the archive"),
            Origin::Empty => f.write_str("nowhere: no surviving write has touched the line"),
        }
    }
}

/// The value of a read and where it was found.
#[derive(Clone, Copy, Debug, PartialEq, Eq, Hash)]
pub struct Reading {
    /// The value, most significant byte first.
    pub value: u32,
    /// Where it was found.
    pub origin: Origin,
}

/// The live frames and the pages needed.
#[derive(Clone, Copy, Debug, PartialEq, Eq, Hash)]
pub struct Counts {
    /// The live frames, from the oldest to the current one: one more than there are marks to go back to.
    pub live: u32,
    /// The pages of live frames in which a line is written.
    pub pages: u32,
}
