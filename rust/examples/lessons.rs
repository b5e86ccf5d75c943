//! A timetable on trial. A room is a line of the store and an hour two bytes of it, which hold the number of the lesson placed there
//! or 0. Lessons are placed, others are tried, and what was tried and taken back is not read again.
use vcm::{Origin, Refusal, Settings, Store};

fn place(store: &mut Store, room: u32, hour: u32, lesson: u32) -> Result<(), Refusal> {
    store.write(2, 16 * room + 2 * hour, lesson)?;
    println!("place lesson {lesson} in room {room} at hour {hour}");
    Ok(())
}

fn show(store: &mut Store, room: u32, hour: u32) -> Result<(), Refusal> {
    let reading = store.read(2, 16 * room + 2 * hour)?;
    print!("room {room} at hour {hour}: ");
    match reading.origin {
        Origin::Cache => println!("lesson {}, from the cache", reading.value),
        Origin::Frame(back) => println!("lesson {}, from {back} marks back", reading.value),
        Origin::Archive => println!("lesson {}, from the archive", reading.value),
        Origin::Empty => println!("no lesson is left in this room"),
    }
    Ok(())
}

fn main() -> Result<(), Refusal> {
    let mut store = Store::new(Settings {
        lines: 8,
        frames: 16,
        pages: 4,
    })?;
    place(&mut store, 1, 0, 101)?;
    place(&mut store, 1, 1, 102)?;
    place(&mut store, 2, 0, 201)?;

    println!("mark, and try two lessons");
    store.mark()?;
    place(&mut store, 1, 1, 305)?;
    place(&mut store, 3, 2, 306)?;
    show(&mut store, 1, 1)?;
    show(&mut store, 3, 2)?;

    println!("take them back");
    store.rollback(1)?;
    show(&mut store, 1, 1)?;
    show(&mut store, 3, 2)?;

    println!("mark, try another, and keep it");
    store.mark()?;
    place(&mut store, 3, 2, 307)?;
    store.mark()?;
    store.advance(2)?;
    show(&mut store, 3, 2)?;
    if let Err(refusal) = store.rollback(1) {
        println!("no mark is left: refusal {}", refusal.number());
    }
    let counts = store.counts()?;
    println!("live frames {}, pages {}", counts.live, counts.pages);
    println!("room 1: {:?}", store.line(1)?);
    if let Err(refusal) = store.line(8) {
        println!("there is no room 8: refusal {}", refusal.number());
    }
    println!("well-formed: {}", if store.check()? { "yes" } else { "no" });
    Ok(())
}
