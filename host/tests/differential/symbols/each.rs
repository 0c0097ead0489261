//! Every cause of a refusal, every byte, every room: tried one by one.

use std::collections::BTreeSet;

use usm::{Leg, Refusal, Root, Settlement, Style, LONGEST_LIST, MOST_LINES, RECORD_BYTES, ROOT_BYTES};
use usm_kit::accounts::{in_group, leg, root, times};
use usm_kit::fields::{put, records, MARKET, PAID, SETTLEMENT, STYLE, UNDERLYING, UNIT_SIZE};
use usm_kit::model;

use super::damage::{with_part, IN_A_LINE, IN_A_ROOT};
use super::World;
use crate::values::BAD_IN_LEGS;
use crate::{compare, laws};

/// Three roots, and five lines of which the last two are alike.
fn small() -> World {
    let other = Root { style: Style::European, settlement: Settlement::Cash, ..root("ABC123") };
    let roots = [root("A"), other, Root { unit_size: 10, ..root("AB") }];
    let cash = Leg { style: Style::European, settlement: Settlement::Cash, ..times(120, "S50p") };
    let mini = Leg { unit_size: 10, strike: 1, ..times(100_000, "L60c") };
    let legs = [leg("L60c"), cash, mini, times(7, "S70c"), times(7, "S70c")];
    World::of(&roots, &legs.map(|leg| in_group(0, leg)))
}

/// Both calls on a world are answered alike, and this is the answer of import.
#[track_caller]
fn assert_import(world: &World, expected: Result<usize, Refusal>) {
    let found = model::import(&world.roots, &world.list, &mut vec![0; 8_192]);
    let list = String::from_utf8_lossy(&world.list);
    assert_eq!(found, expected, "{list}");
    let number = expected.map_or_else(|refusal| refusal.number, |_| 0);
    assert_eq!(compare::import(&list, &world.roots, &world.list, 8_192), number);
    laws::lists_go_round(&list, &world.roots, &world.list);
}

/// The same of export.
#[track_caller]
fn assert_export(world: &World, expected: Result<usize, Refusal>) {
    let found = model::export(&world.roots, &world.holdings, &mut vec![0; LONGEST_LIST]);
    assert_eq!(found, expected, "{:?}", world.holdings);
    let number = expected.map_or_else(|refusal| refusal.number, |_| 0);
    assert_eq!(compare::export(&"each", &world.roots, &world.holdings, LONGEST_LIST), number);
    laws::holdings_go_round(&"each", &world.roots, &world.holdings);
}

fn refused(number: u64, table: u64, place: usize) -> Result<usize, Refusal> {
    Err(Refusal::new(number, table, place as u64))
}

#[test]
fn each_cause_in_a_line_is_met_in_each_line() {
    let good = small();
    assert_import(&good, Ok(5));
    for (part, text, number) in IN_A_LINE {
        for place in 0..5 {
            let world = World { list: with_part(&good.list, place, part, text), ..good.clone() };
            assert_import(&world, if number == 0 { Ok(5) } else { refused(number, 6, place) });
        }
    }
    for length in 0..=good.list.len() {
        let world = World { list: good.list[..length].to_vec(), ..good.clone() };
        let lines = world.list.iter().filter(|byte| **byte == b'\n').count();
        let whole = world.list.last().map_or(true, |byte| *byte == b'\n');
        assert_import(&world, if whole { Ok(lines) } else { refused(22, 6, lines) });
    }
    for lines in [256, 257, 258, 512] {
        let list = good.list.split_inclusive(|byte| *byte == b'\n').cycle().take(lines).collect::<Vec<_>>();
        let mut world = World { list: list.concat(), ..good.clone() };
        assert_import(&world, if lines <= MOST_LINES { Ok(lines) } else { refused(1, 0, 0) });
        world.list.push(b'A');
        assert_import(&world, refused(22, 6, lines));
    }
}

#[test]
fn each_cause_in_a_root_is_met_in_each_root() {
    let good = small();
    let assert_roots = |roots: Vec<u8>, place: usize| {
        let world = World { roots, list: vec![b'?'; 40], holdings: vec![9; 33] };
        assert_import(&world, refused(23, 5, place));
        assert_export(&world, refused(23, 5, place));
    };
    for place in 0..3 {
        for (at, bytes) in IN_A_ROOT {
            let mut roots = good.roots.clone();
            roots[place * ROOT_BYTES + at..][..bytes.len()].copy_from_slice(bytes);
            assert_roots(roots, place);
        }
        for earlier in 0..place {
            for part in [0..6, 6..ROOT_BYTES] {
                let mut roots = good.roots.clone();
                let from = earlier * ROOT_BYTES + part.start..earlier * ROOT_BYTES + part.end;
                roots.copy_within(from, place * ROOT_BYTES + part.start);
                assert_roots(roots, place);
            }
        }
    }
    for length in (0..3 * ROOT_BYTES).filter(|length| *length == 0 || length % ROOT_BYTES != 0) {
        assert_roots(good.roots[..length].to_vec(), 0);
    }
    assert_roots(vec![b'A'; 257 * ROOT_BYTES], 0);
}

#[test]
fn each_cause_in_a_record_is_met_in_each_record() {
    let good = small();
    assert_export(&good, Ok(good.list.len()));
    let unknown = [(STYLE, 2), (MARKET, 2), (UNIT_SIZE, 11), (SETTLEMENT, 2), (UNDERLYING, 8)];
    let bad = BAD_IN_LEGS.into_iter().chain([(PAID, 1)]).map(|(field, value)| (field, value, 4));
    for (field, value, number) in bad.chain(unknown.map(|(field, value)| (field, value, 24))) {
        for place in 0..records(&good.holdings) {
            let mut world = good.clone();
            put(&mut world.holdings, place, field, value);
            // The second record is European already.
            if world.holdings != good.holdings {
                assert_export(&world, refused(number, 1, place));
            }
        }
    }
    for length in (0..good.holdings.len()).filter(|length| length % RECORD_BYTES != 0) {
        assert_export(
            &World { holdings: good.holdings[..length].to_vec(), ..good.clone() },
            refused(1, 0, 0),
        );
    }
    for count in [256, 257] {
        let record = good.holdings[..RECORD_BYTES].to_vec();
        let line = good.list.iter().position(|byte| *byte == b'\n').expect("a line") + 1;
        let world = World { holdings: record.repeat(count), ..good.clone() };
        assert_export(&world, if count == 256 { Ok(256 * line) } else { refused(1, 0, 0) });
    }
}

/// The numbers that come up when each byte in turn has each value.
fn with_each_byte(bytes: &[u8], answer: impl Fn(&[u8]) -> u64) -> BTreeSet<u64> {
    let mut numbers = BTreeSet::new();
    for at in 0..bytes.len() {
        let mut changed = bytes.to_vec();
        for value in 0..=255 {
            changed[at] = value;
            numbers.insert(answer(&changed));
        }
    }
    numbers
}

#[test]
fn every_byte_of_a_list_of_roots_and_of_holdings() {
    let World { roots, list, holdings } = small();
    let of_list = with_each_byte(&list, |list| compare::import(&"bytes", &roots, list, 200));
    assert_eq!(of_list, BTreeSet::from([0, 4, 22, 24]));
    let of_holdings = with_each_byte(&holdings, |holdings| compare::export(&"bytes", &roots, holdings, 200));
    assert_eq!(of_holdings, BTreeSet::from([0, 4, 24]));
    // Some other root is good, and its name or its terms are missed.
    let of_roots = with_each_byte(&roots, |roots| compare::import(&"bytes", roots, &list, 200));
    assert_eq!(of_roots, BTreeSet::from([0, 23, 24]));
    let of_roots = with_each_byte(&roots, |roots| compare::export(&"bytes", roots, &holdings, 200));
    assert_eq!(of_roots, BTreeSet::from([0, 23, 24]));
}

#[test]
fn every_room_for_a_list_and_for_its_holdings() {
    let World { roots, list, holdings } = small();
    for room in 0..=holdings.len() + 40 {
        let wanted = if room < holdings.len() { 17 } else { 0 };
        assert_eq!(compare::import(&"rooms", &roots, &list, room), wanted, "room {room}");
    }
    for room in 0..=list.len() + 40 {
        let wanted = if room < list.len() { 17 } else { 0 };
        assert_eq!(compare::export(&"rooms", &roots, &holdings, room), wanted, "room {room}");
    }
}
