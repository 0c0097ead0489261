//! Buffers of every shortness, and every single damaged byte: tried one by one.

use usm::{Form, Origin, Refusal, Sheet, Tables};
use usm_kit::accounts::{in_group, paid, placed, times};
use usm_kit::block::BLOCK_BYTES;
use usm_kit::both::BOTH;

use crate::sheets::claims_of;
use crate::{compare, files};

/// A file of each form.
const FORMS: [Origin; 2] = [Origin::OLD, Origin { form: Form::New, account: u64::MAX }];

/// Three groups with 2, 4 and 3 strikes, and a lone long.
fn three_groups() -> Tables {
    let placement = [
        times(2, "L60c"),
        times(2, "S50c"),
        in_group(2, times(2, "L50p")),
        in_group(2, times(2, "S60p")),
        in_group(2, times(2, "S65c")),
        in_group(2, times(2, "L70c")),
        in_group(3, times(2, "L50c")),
        in_group(3, times(4, "S60c")),
        in_group(3, times(2, "L70c")),
        paid(times(2, "L90c")),
    ];
    Sheet { claims: claims_of(&placement), ..placed(&placement, &[]) }.tables()
}

#[test]
fn every_room_for_margins_and_worksheets() {
    let tables = three_groups();
    for room in 0..=6 {
        for n in 0..=3 {
            let wanted = if room < n { 17 } else { 0 };
            assert_eq!(compare::margins(&"rooms", &tables.placement, n as u64, room), wanted);
        }
        // There is no group 4, and 6 comes before 17.
        assert_eq!(compare::margins(&"rooms", &tables.placement, 4, room), 6);
    }
    for (g, strikes) in [(1, 2), (2, 4), (3, 3)] {
        for strikes_room in 0..=6 {
            for nets_room in 0..=6 {
                let wanted = if strikes_room < strikes || nets_room < strikes { 17 } else { 0 };
                assert_eq!(
                    compare::worksheet(&"rooms", &tables.placement, g, strikes_room, nets_room),
                    wanted
                );
            }
        }
    }
}

#[test]
fn every_room_for_a_file() {
    let tables = three_groups();
    let needed = 3 * BLOCK_BYTES;
    let [old, new] = FORMS.map(|origin| files::of(&tables, origin));
    for room in 0..=needed + 40 {
        let wanted = if room < needed { 17 } else { 0 };
        for origin in FORMS {
            let numbers = [origin.form.number(), origin.account];
            assert_eq!(compare::write_file(&"rooms", &tables, numbers, room), wanted, "room {room}");
        }
        assert_eq!(compare::move_to_new(&"rooms", &old, 7, room), wanted, "room {room}");
        assert_eq!(compare::move_to_old(&"rooms", &new, room), wanted, "room {room}");
    }
}

#[test]
fn every_room_for_the_tables_of_a_file() {
    let tables = three_groups();
    let file = files::of(&tables, Origin::new(7));
    let needed = tables.in_order().map(|(_, table)| table.len());
    for (short, enough) in needed.into_iter().enumerate() {
        for room in 0..=enough + 33 {
            let mut rooms = needed;
            rooms[short] = room;
            let wanted = if room < enough { 17 } else { 0 };
            assert_eq!(compare::read_file(&"rooms", &file, rooms), wanted, "rooms {rooms:?}");
        }
    }
    assert_eq!(compare::read_file(&"rooms", &file, [0, 0, 0]), 17);
}

#[test]
fn every_damaged_byte_is_refused_at_its_block() {
    for file in FORMS.map(|origin| files::of(&three_groups(), origin)) {
        for at in 0..file.len() {
            for change in [1, 0x80, 0xFF] {
                let mut damaged = file.clone();
                damaged[at] ^= change;
                let refused = Err(Refusal::new(2, 0, (at / BLOCK_BYTES) as u64));
                for calls in &BOTH {
                    let name = calls.name;
                    assert_eq!(
                        (calls.check_file)(&damaged),
                        refused,
                        "{name}: byte {at} changed by {change}"
                    );
                }
            }
        }
    }
}

#[test]
fn every_length_of_a_file() {
    let file = files::of(&three_groups(), Origin::new(7));
    for length in 0..=file.len() {
        let wanted = if length == 0 || length % BLOCK_BYTES != 0 {
            1
        } else if length < file.len() {
            3
        } else {
            0
        };
        assert_eq!(compare::check_file(&"lengths", &file[..length]), wanted, "length {length}");
    }
}
