//! A block of writes: its two forms, beside the single writes that it stands for. The suite has random blocks and what the calls answer.
use vcm::calls::{self, Lent};
use vcm::{FirstRefusal, Item, Refusal, Settings, Store};

const SETTINGS: Settings = Settings {
    lines: 24,
    frames: 16,
    pages: 2,
};

/// What stands in an answer list before the call: no block gives it.
const BEFORE: Result<(), Refusal> = Err(Refusal::Unknown(77));

fn store() -> Store {
    Store::new(SETTINGS).unwrap()
}

fn item(width: u32, address: u32, value: u32) -> Item {
    Item {
        width,
        address,
        value,
    }
}

/// Seven kinds of items in turn: accepted, refused with each number that there is for them, and accepted in a page that is there already.
fn items(count: u32) -> Vec<Item> {
    let kind = |number: u32| match number % 7 {
        0 => Item::u8(number % 128, 1),
        1 => Item::u16(128 + number % 64 * 2, 0x0203),
        2 => item(3, 0, 0),
        3 => item(4, 2, 0),
        4 => item(1, 384, 0),
        5 => item(2, 0, 65536),
        _ => Item::u32(256, number),
    };
    (0..count).map(kind).collect()
}

fn singly(store: &mut Store, items: &[Item]) -> Vec<Result<(), Refusal>> {
    let one = |item: &Item| store.write(item.width, item.address, item.value);
    items.iter().map(one).collect()
}

/// Every length round the parts in which a block goes to the library.
const LENGTHS: [u32; 11] = [0, 1, 2, 7, 63, 64, 65, 127, 128, 129, 1000];

#[test]
fn each_item_is_answered_as_a_single_write() {
    for count in LENGTHS {
        let items = items(count);
        let mut other = store();
        let expected = singly(&mut other, &items);
        for more in [0, 1, 100] {
            let mut one = store();
            let mut answers = vec![BEFORE; items.len() + more];
            assert_eq!(one.write_block(&items, &mut answers), Ok(()));
            assert_eq!(answers[..items.len()], expected);
            assert_eq!(answers[items.len()..], vec![BEFORE; more]);
            assert_eq!(one.save(), other.save());
        }
    }
}

#[test]
fn the_first_refusal_is_told_and_every_item_tried() {
    for count in LENGTHS {
        // from the first refused item on, and from later ones on
        for from in [0, 2, 6] {
            let items: Vec<Item> = items(count).into_iter().skip(from).collect();
            let (mut one, mut other) = (store(), store());
            let expected = singly(&mut other, &items);
            let place = expected.iter().position(Result::is_err);
            let first = place.map(|place| FirstRefusal {
                place,
                refusal: expected[place].unwrap_err(),
            });
            assert_eq!(one.write_all(&items).err(), first);
            assert_eq!(one.save(), other.save());
        }
    }
    // one that is refused, in each place
    let mut all = vec![Item::u8(0, 1); 200];
    for place in 0..200 {
        all[place] = item(3, 0, 0);
        let refusal = Refusal::Width;
        assert_eq!(
            store().write_all(&all),
            Err(FirstRefusal { place, refusal })
        );
        all[place] = Item::u8(0, 1);
    }
    assert_eq!(store().write_all(&all), Ok(()));
}

/// 13 is decided anew for each item.
#[test]
fn a_page_that_is_there_serves_behind_13() {
    let mut store = store();
    let items = [
        Item::u8(0, 1),
        Item::u8(128, 2),
        Item::u8(16, 3),
        Item::u8(256, 4),
        Item::u8(144, 5),
    ];
    let mut answers = [BEFORE; 5];
    assert_eq!(store.write_block(&items, &mut answers), Ok(()));
    let full = Err(Refusal::Pages);
    assert_eq!(answers, [Ok(()), Ok(()), Ok(()), full, Ok(())]);
    assert_eq!(store.read_u8(144), Ok(5));
    assert_eq!(store.read_u8(256), Ok(0));
    assert_eq!(store.counts().unwrap().pages, 2);
}

#[test]
fn too_few_answers_refuse_the_whole_block() {
    for count in [1, 2, 64, 65, 200] {
        let items = items(count);
        for room in [0, items.len() / 2, items.len() - 1] {
            let mut store = store();
            let before = store.save();
            let mut answers = vec![BEFORE; room];
            let refused = store.write_block(&items, &mut answers);
            assert_eq!(refused, Err(Refusal::Answers));
            assert_eq!(answers, vec![BEFORE; room]);
            assert_eq!(store.save(), before);
        }
    }
}

/// 5 comes before 6 and 6 before 14, and none touches anything; the numbers past the last item stay.
#[test]
fn the_call_over_lent_memory() {
    let (mut archive, mut pool) = ([9; 128], [9; 128]);
    let (mut groups, mut table) = ([9; 8], [9; 16]);
    let (mut owners, mut history) = ([9; 9], [9; 256]);
    let mut lent = Lent {
        archive: &mut archive,
        pool: &mut pool,
        groups: &mut groups,
        table: &mut table,
        owners: &mut owners,
        history: &mut history,
    };
    let items = [Item::u32(0, 1988), Item::u32(128, 7), Item::u8(127, 255)];
    let mut answers = [77; 4];
    let mut state = calls::blank();
    for room in [0, 2, 3] {
        let list = &mut answers[..room];
        assert_eq!(calls::write_block(&mut state, &mut lent, &items, list), 5);
    }
    assert_eq!(calls::reset(&mut state, &mut lent, 8, 16, 1), 0);
    let fresh = state;
    let whole = std::mem::take(&mut lent.owners);
    for room in [0, 2, 3] {
        let list = &mut answers[..room];
        assert_eq!(calls::write_block(&mut state, &mut lent, &items, list), 6);
    }
    lent.owners = whole;
    for room in [0, 2] {
        let list = &mut answers[..room];
        assert_eq!(calls::write_block(&mut state, &mut lent, &items, list), 14);
    }
    assert_eq!((state, answers), (fresh, [77; 4]));
    assert_eq!(calls::write_block(&mut state, &mut lent, &[], &mut []), 0);
    assert_eq!(state, fresh);
    let given = calls::write_block(&mut state, &mut lent, &items, &mut answers);
    assert_eq!((given, answers), (0, [0, 9, 0, 77]));
    assert_eq!(lent.pool[..4], [0, 0, 7, 196]);
    assert_eq!(lent.pool[127], 255);
}

#[test]
fn a_trial_has_both_forms() {
    let mut store = store();
    store.write_u8(0, 9).unwrap();
    let mut trial = store.trial().unwrap();
    let mut answers = [BEFORE; 2];
    let items = [Item::u8(0, 1), Item::u8(128, 2)];
    assert_eq!(trial.write_block(&items, &mut answers), Ok(()));
    assert_eq!(answers, [Ok(()), Err(Refusal::Pages)]);
    let short = trial.write_block(&items, &mut answers[1..]);
    assert_eq!(short, Err(Refusal::Answers));
    let first = trial.write_all(&items).unwrap_err();
    assert_eq!((first.place, first.refusal), (1, Refusal::Pages));
    assert_eq!(trial.write_all(&items[..1]), Ok(()));
    assert_eq!(trial.read_u8(0), Ok(1));
    drop(trial);
    assert_eq!(store.read_u8(0), Ok(9));
}

#[test]
fn items_by_their_type() {
    assert_eq!(Item::u8(7, 255), item(1, 7, 255));
    assert_eq!(Item::u16(6, 65535), item(2, 6, 65535));
    assert_eq!(Item::u32(4, u32::MAX), item(4, 4, u32::MAX));
}

#[test]
fn a_first_refusal_has_its_words() {
    let first = FirstRefusal {
        place: 3,
        refusal: Refusal::Pages,
    };
    let words = "13: no page is left: advance, or roll back";
    assert_eq!(first.to_string(), format!("items[3]: {words}"));
    assert_eq!(format!("{first:?}"), format!("items[3]: Pages ({words})"));
    assert_eq!(Refusal::from(first), Refusal::Pages);
    let error: Box<dyn std::error::Error> = Box::new(first);
    assert_eq!(error.to_string(), first.to_string());
}
