//! A caller without `std` and without an allocator, on memory of its own. It would not link if the crate `vcm` needed either: two panic
//! handlers, or no allocator.
#![no_std]

use core::fmt::Write;
use core::panic::PanicInfo;
use vcm::calls::{self, accepted, Lent};
use vcm::{Item, Refusal, Settings};

#[panic_handler]
fn panic(_: &PanicInfo) -> ! {
    loop {}
}

const SETTINGS: Settings = Settings {
    lines: 16,
    frames: 16,
    pages: 2,
};

/// The value read back after a rollback, and the refusal of the write of a block that has no page.
fn tries() -> Result<(u32, Refusal), Refusal> {
    let need = SETTINGS.need()?;
    let (mut archive, mut pool) = ([0; 256], [0; 256]);
    let (mut groups, mut table) = ([0; 16], [0; 32]);
    let (mut owners, mut history) = ([0; 18], [0; 256]);
    if (need.groups, need.table) != (4 * groups.len(), 2 * table.len()) {
        return Err(Refusal::Memory);
    }
    let mut lent = Lent {
        archive: &mut archive,
        pool: &mut pool,
        groups: &mut groups,
        table: &mut table,
        owners: &mut owners,
        history: &mut history,
    };
    let mut state = calls::blank();
    let Settings {
        lines,
        frames,
        pages,
    } = SETTINGS;
    accepted(calls::reset(&mut state, &mut lent, lines, frames, pages))?;
    accepted(calls::write(&mut state, &mut lent, 4, 0, 1988))?;
    accepted(calls::mark(&mut state, lent.shown()))?;
    let items = [Item::u32(0, 2024), Item::u32(128, 7)];
    let mut answers = [0; 2];
    accepted(calls::write_block(
        &mut state,
        &mut lent,
        &items,
        &mut answers,
    ))?;
    accepted(answers[0])?;
    accepted(calls::rollback(&mut state, &mut lent, 1))?;
    let reading = calls::read(&mut state, lent.shown(), 4, 0);
    accepted(reading.refusal)?;
    Ok((reading.value, Refusal::from_number(answers[1])))
}

/// Text put into bytes as far as there is room.
struct Text<'a> {
    bytes: &'a mut [u8],
    used: usize,
}

impl Write for Text<'_> {
    fn write_str(&mut self, text: &str) -> core::fmt::Result {
        for byte in text.bytes() {
            *self.bytes.get_mut(self.used).ok_or(core::fmt::Error)? = byte;
            self.used += 1;
        }
        Ok(())
    }
}

/// The value read back and the words of the refusal, as text that a 0 ends.
#[no_mangle]
pub extern "C" fn bare_text(text: &mut [u8; 256]) {
    *text = [0; 256];
    let mut text = Text {
        bytes: &mut text[..255],
        used: 0,
    };
    // too long a text is cut off
    let _ = match tries() {
        Ok((value, refusal)) => write!(text, "{value}, and {refusal}"),
        Err(refusal) => write!(text, "refused: {refusal:?}"),
    };
}
