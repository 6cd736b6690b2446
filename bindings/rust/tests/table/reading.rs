//! The image, and what is read from it.

use crate::{bars, empty, first_edit, from, lengths, place, three};
use njimbaros::{LogStatus, Table, WrongLength, IMAGE_BYTES};

/// With 0.0 run and 0.1 a null slot.
fn table() -> Table {
    let mut table = empty();
    table.commit_notice(from(1, place(0, 0), 5), &first_edit()).expect("within the bounds");
    table.exp_prepare(from(1, place(0, 1), 0)).expect("within the bounds");
    let logged = table.logged(place(0, 0), LogStatus::Committed).expect("the slot is in the table");
    assert_eq!(logged.ran, [place(0, 0)]);
    table
}

pub(crate) fn image_and_back() {
    let table = table();
    assert_eq!(table.image().len(), IMAGE_BYTES);
    let back = Table::from_image(table.image()).expect("the length is an image's");
    assert_eq!(back, table);
    assert_eq!((back.config(), lengths(&back), bars(&back)), (three(), [2, 0, 0], [1, 0, 0]));
    assert_eq!(back.slot(place(0, 0)), table.slot(place(0, 0)));
    assert_ne!(back, empty());
    let mut copy = table.clone();
    copy.lead(place(0, 0)).expect("the slot is in the table");
    assert_ne!(copy, table);
}

pub(crate) fn wrong_length() {
    let image = empty().image().to_vec();
    for length in [0, IMAGE_BYTES - 1] {
        assert_eq!(Table::from_image(&image[..length]), Err(WrongLength(length)));
    }
    let longer = [&image[..], &[0]].concat();
    assert_eq!(Table::from_image(&longer), Err(WrongLength(IMAGE_BYTES + 1)));
    assert_eq!(WrongLength(7).to_string(), "a table's image has 33618 bytes, and these are 7");
}

/// Reading says of such a slot that there is none.
pub(crate) fn spoiled_slots() {
    let sound = table();
    assert!(sound.slot(place(0, 0)).is_some());
    let slot = 1_810;
    for (at, byte) in [(slot, 5), (slot + 2, 2), (slot + 9, 2), (slot + 33, 5), (slot + 34 + 16, 3)] {
        let mut image = sound.image().to_vec();
        image[at] = byte;
        let spoiled = Table::from_image(&image).expect("the length is an image's");
        assert_eq!(spoiled.slot(place(0, 0)), None, "byte {at}");
    }
}

/// Also where a spoiled image says that its rows are longer than they can be.
pub(crate) fn rows_that_there_are_not() {
    let mut image = table().image().to_vec();
    image[4..18].fill(255);
    let spoiled = Table::from_image(&image).expect("the length is an image's");
    assert_eq!((spoiled.row_len(6), spoiled.bar(6)), (255, 255));
    for row in [7, 256, u64::MAX] {
        assert_eq!((spoiled.row_len(row), spoiled.bar(row), spoiled.slot(place(row, 0))), (0, 0, None));
    }
    for column in [32, 254, 255, u64::MAX] {
        assert_eq!(spoiled.slot(place(6, column)), None);
    }
    assert!(spoiled.slot(place(6, 31)).is_some());
}

pub(crate) fn debug_is_short() {
    let said = format!("{:?}", table());
    let config = "config: Config { n: 3, own: 0, simple: 2, sup: 3 }";
    let rows = "lengths: [2, 0, 0, 0, 0, 0, 0], bars: [1, 0, 0, 0, 0, 0, 0]";
    assert_eq!(said, format!("Table {{ {config}, {rows} }}"));
}
