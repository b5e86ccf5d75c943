//! The calls of document 01 as values, their answers, and the library's own answer to a call.
use crate::memory::Memory;
use crate::tally::Tally;
use vcm::calls;
use vcm::{Item, State};

#[derive(Clone, Copy, Debug, PartialEq, Eq)]
pub enum Call {
    Reset {
        lines: u32,
        frames: u32,
        pages: u32,
    },
    Write {
        width: u32,
        address: u32,
        value: u32,
    },
    Read {
        width: u32,
        address: u32,
    },
    Line(u32),
    LineRefusal(u32),
    Mark,
    Rollback(u32),
    Advance(u32),
    Counts,
    Check,
}

impl Call {
    /// An item of a block of writes as a call of its own.
    pub fn of(item: Item) -> Call {
        Call::Write {
            width: item.width,
            address: item.address,
            value: item.value,
        }
    }

    /// A WRITE as an item.
    pub fn item(self) -> Option<Item> {
        match self {
            Call::Write {
                width,
                address,
                value,
            } => Some(Item {
                width,
                address,
                value,
            }),
            _ => None,
        }
    }
}

#[derive(Clone, Copy, Debug, PartialEq, Eq)]
pub enum Origin {
    Archive,
    Frame(u32),
    Cache,
    Empty,
}

/// All that a call answers. A refused LINE leaves the bytes as they were before, `UNTOUCHED`.
#[derive(Clone, Copy, Debug, PartialEq, Eq)]
pub enum Answer {
    Outcome {
        refusal: u32,
    },
    Reading {
        refusal: u32,
        value: u32,
        origin: Origin,
    },
    Lending {
        refusal: u32,
        bytes: [u8; 16],
    },
    Counting {
        refusal: u32,
        live: u32,
        pages: u32,
    },
    Verdict {
        refusal: u32,
        yes: bool,
    },
}

pub const UNTOUCHED: [u8; 16] = [0xA5; 16];

impl Answer {
    pub fn refusal(&self) -> u32 {
        match *self {
            Answer::Outcome { refusal }
            | Answer::Reading { refusal, .. }
            | Answer::Lending { refusal, .. }
            | Answer::Counting { refusal, .. }
            | Answer::Verdict { refusal, .. } => refusal,
        }
    }

    /// The answer of a refused call: "A refused READ names the archive as origin, and a refused CHECK says no."
    pub fn refused(call: Call, refusal: u32) -> Answer {
        match call {
            Call::Read { .. } => Answer::Reading {
                refusal,
                value: 0,
                origin: Origin::Archive,
            },
            Call::Line(_) => Answer::Lending {
                refusal,
                bytes: UNTOUCHED,
            },
            Call::Counts => Answer::Counting {
                refusal,
                live: 0,
                pages: 0,
            },
            Call::Check => Answer::Verdict {
                refusal,
                yes: false,
            },
            _ => Answer::Outcome { refusal },
        }
    }
}

/// The library's refusal of a block of writes, or 0. State, memory and answers become those that the call leaves.
pub fn ask_block(
    state: &mut State,
    memory: &mut Memory,
    items: &[Item],
    answers: &mut [u32],
    tally: &mut Tally,
) -> u32 {
    let refusal = calls::write_block(state, &mut memory.lent(), items, answers);
    tally.count_block(refusal, items.len(), answers);
    refusal
}

/// The library's answer. The state and the memory become those that the call leaves.
pub fn ask(state: &mut State, memory: &mut Memory, call: Call, tally: &mut Tally) -> Answer {
    let answer = match call {
        Call::Reset {
            lines,
            frames,
            pages,
        } => Answer::Outcome {
            refusal: calls::reset(state, &mut memory.lent(), lines, frames, pages),
        },
        Call::Write {
            width,
            address,
            value,
        } => Answer::Outcome {
            refusal: calls::write(state, &mut memory.lent(), width, address, value),
        },
        Call::Read { width, address } => {
            let reading = calls::read(state, memory.shown(), width, address);
            Answer::Reading {
                refusal: reading.refusal,
                value: reading.value,
                origin: match (reading.origin, reading.marks_back) {
                    (0, 0) => Origin::Archive,
                    (1, back) => Origin::Frame(back),
                    (2, 0) => Origin::Cache,
                    (3, 0) => Origin::Empty,
                    // no origin of the border: u32::MAX marks back is no answer of any store
                    _ => Origin::Frame(u32::MAX),
                },
            }
        }
        Call::Line(number) => {
            // between guards, as the lent memory is
            let mut room = [UNTOUCHED; 3];
            let refusal = calls::line(state, memory.shown(), number, &mut room[1]);
            assert_eq!([room[0], room[2]], [UNTOUCHED; 2], "LINE left its 16 bytes");
            Answer::Lending {
                refusal,
                bytes: room[1],
            }
        }
        Call::LineRefusal(number) => Answer::Outcome {
            refusal: calls::line_refusal(state, memory.shown(), number),
        },
        Call::Mark => Answer::Outcome {
            refusal: calls::mark(state, memory.shown()),
        },
        Call::Rollback(k) => Answer::Outcome {
            refusal: calls::rollback(state, &mut memory.lent(), k),
        },
        Call::Advance(k) => Answer::Outcome {
            refusal: calls::advance(state, &mut memory.lent(), k),
        },
        Call::Counts => {
            let counted = calls::counts(state, memory.shown());
            Answer::Counting {
                refusal: counted.refusal,
                live: counted.live,
                pages: counted.pages,
            }
        }
        Call::Check => {
            let verdict = calls::check(state, memory.shown());
            Answer::Verdict {
                refusal: verdict.refusal,
                yes: verdict.yes == 1,
            }
        }
    };
    tally.count(call, &answer);
    // the tags start afresh with a sweep
    if matches!(call, Call::Rollback(_)) && answer.refusal() == 0 && state.registers.tag == 0 {
        tally.sweeps += 1;
    }
    answer
}
