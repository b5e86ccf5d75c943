//! A program whose `main` returns a refusal: it ends with status 1, and standard error says what was refused and what would help.
use vcm::{Refusal, Settings, Store};

fn main() -> Result<(), Refusal> {
    let mut store = Store::new(Settings {
        lines: 16,
        frames: 16,
        pages: 1,
    })?;
    store.write_u32(0, 1988)?;
    println!("the first block of 8 lines has the only page");
    store.write_u32(128, 2024)?;
    println!("this is not reached");
    Ok(())
}
