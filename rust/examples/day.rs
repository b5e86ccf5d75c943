//! A plan placed a day at a time: a list of lessons goes to the store in one call, a block of writes, and each lesson gets its answer. A
//! period is a line of the store and a room a byte of it, which holds the number of the lesson placed there or 0; the 8 periods of a day
//! lie in one page.
use vcm::{FirstRefusal, Item, Refusal, Settings, Store};

const PERIODS: u32 = 8;
const DAYS: [&str; 5] = ["Monday", "Tuesday", "Wednesday", "Thursday", "Friday"];

struct Lesson {
    day: u32,
    period: u32,
    room: u32,
    number: u32,
}

const fn lesson(day: u32, period: u32, room: u32, number: u32) -> Lesson {
    Lesson {
        day,
        period,
        room,
        number,
    }
}

const MONDAY: [Lesson; 4] = [
    lesson(0, 0, 1, 11),
    lesson(0, 0, 2, 12),
    lesson(0, 1, 1, 13),
    lesson(0, 2, 1, 14),
];
const TUESDAY: [Lesson; 3] = [
    lesson(1, 0, 1, 21),
    lesson(1, 1, 2, 300),
    lesson(1, 1, 1, 23),
];
const WEDNESDAY: [Lesson; 4] = [
    lesson(2, 0, 1, 31),
    lesson(0, 2, 1, 0),
    lesson(3, 2, 1, 14),
    lesson(2, 1, 1, 32),
];
const FRIDAY: [Lesson; 3] = [
    lesson(4, 7, 1, 51),
    lesson(4, 8, 1, 52),
    lesson(4, 6, 1, 53),
];

fn address(day: u32, period: u32, room: u32) -> u32 {
    16 * (PERIODS * day + period) + room
}

fn items(lessons: &[Lesson]) -> Vec<Item> {
    let item = |lesson: &Lesson| Item {
        width: 1,
        address: address(lesson.day, lesson.period, lesson.room),
        value: lesson.number,
    };
    lessons.iter().map(item).collect()
}

fn tell(lesson: &Lesson, refusal: Refusal) {
    let day = DAYS[lesson.day as usize];
    let (number, period) = (lesson.number, lesson.period);
    println!("  lesson {number} on {day} at period {period}: {refusal}");
}

/// Places what can be placed of a list, and tells of the rest.
fn place(store: &mut Store, name: &str, lessons: &[Lesson]) -> Result<(), Refusal> {
    let mut answers = vec![Ok(()); lessons.len()];
    store.write_block(&items(lessons), &mut answers)?;
    let placed = answers.iter().filter(|answer| answer.is_ok()).count();
    println!("{name}: {placed} of {} lessons placed", lessons.len());
    for (lesson, answer) in lessons.iter().zip(answers) {
        if let Err(refusal) = answer {
            tell(lesson, refusal);
        }
    }
    Ok(())
}

/// Places a list whole or not at all: a trial that is dropped without `keep` is taken back.
fn place_whole(store: &mut Store, name: &str, lessons: &[Lesson]) -> Result<(), Refusal> {
    let mut trial = store.trial()?;
    match trial.write_all(&items(lessons)) {
        Ok(()) => {
            trial.keep();
            println!("{name}: placed");
        }
        Err(FirstRefusal { place, refusal }) => {
            println!("{name}: not placed");
            tell(&lessons[place], refusal);
        }
    }
    Ok(())
}

fn show(store: &mut Store, day: u32, period: u32, room: u32) -> Result<(), Refusal> {
    let number = store.read_u8(address(day, period, room))?;
    let day = DAYS[day as usize];
    println!("room {room} on {day} at period {period}: lesson {number}");
    Ok(())
}

fn main() -> Result<(), Refusal> {
    let mut store = Store::new(Settings {
        lines: 5 * PERIODS,
        frames: 16,
        pages: 4,
    })?;
    place(&mut store, "Monday", &MONDAY)?;
    place(&mut store, "Tuesday", &TUESDAY)?;

    println!("mark, and try Wednesday, for which lesson 14 goes from Monday to Thursday");
    store.mark()?;
    place(&mut store, "Wednesday", &WEDNESDAY)?;
    show(&mut store, 2, 1, 1)?;

    println!("take it back");
    store.rollback(1)?;
    show(&mut store, 2, 1, 1)?;
    show(&mut store, 0, 2, 1)?;

    println!("fold what stands into the archive, which frees its pages, and place Wednesday again");
    store.mark()?;
    store.advance(1)?;
    place(&mut store, "Wednesday", &WEDNESDAY)?;
    show(&mut store, 3, 2, 1)?;

    println!("Friday whole or not at all");
    place_whole(&mut store, "Friday", &FRIDAY)?;
    show(&mut store, 4, 7, 1)?;
    place_whole(&mut store, "its first lesson alone", &FRIDAY[..1])?;
    show(&mut store, 4, 7, 1)?;

    println!("a list with one answer too few");
    if let Err(refusal) = store.write_block(&items(&MONDAY), &mut [Ok(()); 3]) {
        println!("  {refusal}");
    }
    let counts = store.counts()?;
    println!("live frames {}, pages {}", counts.live, counts.pages);
    println!("well-formed: {}", if store.check()? { "yes" } else { "no" });
    Ok(())
}
