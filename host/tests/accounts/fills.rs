//! Holdings built from a day's fills (document 02, [4]), worked by hand.

use usm::Action::{Close, Open};
use usm::{fill_table, leg_table, Action, Fill, Leg, Refusal, Side, RECORD_BYTES};
use usm_kit::accounts::{in_group, leg, times};
use usm_kit::both::{Calls, BOTH};
use usm_kit::fields::{put, ACTION, CONTRACTS, GROUP, PAID, SETTLEMENT, SIDE};

use crate::refusal;

/// What a call leaves: the records, and of each refused fill index and number.
type Day = Result<(Vec<Leg>, Vec<(u32, u8)>), Refusal>;

fn held(leg: Leg) -> Leg {
    in_group(0, leg)
}

fn fill(action: Action, leg: Leg) -> Fill {
    Fill { action, leg: held(leg) }
}

/// Plays tables in buffers of just the length that is asked for.
fn play(calls: &Calls, holdings: &[u8], fills: &[u8]) -> Day {
    let count = fills.len() / RECORD_BYTES;
    let (mut result, mut indices, mut numbers) = (vec![0xA5; 8_192], vec![7; count], vec![9; count]);
    let counts = (calls.play_fills)(holdings, fills, &mut result, &mut indices, &mut numbers)?;
    let (records, rest) = result.split_at(counts.records * RECORD_BYTES);
    assert!(rest.iter().all(|byte| *byte == 0xA5), "{}: bytes past the records stay", calls.name);
    assert!(indices[counts.refused..].iter().all(|index| *index == 7), "{}", calls.name);
    assert!(numbers[counts.refused..].iter().all(|number| *number == 9), "{}", calls.name);
    let legs = records.chunks_exact(RECORD_BYTES).map(|record| {
        let leg = Leg::from_bytes(record.try_into().expect("a record")).expect("a good record");
        assert_eq!(leg.group, 0);
        leg
    });
    Ok((legs.collect(), indices.into_iter().zip(numbers).take(counts.refused).collect()))
}

/// These fills over these holdings leave just that, by library and model.
#[track_caller]
fn assert_day(holdings: &[Leg], fills: &[Fill], left: &[Leg], refused: &[(u32, u8)]) {
    let start: Vec<Leg> = holdings.iter().map(|leg| held(*leg)).collect();
    let left: Vec<Leg> = left.iter().map(|leg| held(*leg)).collect();
    for calls in &BOTH {
        let day = play(calls, &leg_table(&start), &fill_table(fills));
        assert_eq!(day, Ok((left.clone(), refused.to_vec())), "{}", calls.name);
    }
}

/// The whole is refused, by library and model.
#[track_caller]
fn assert_refused(holdings: &[u8], fills: &[u8], expected: (u64, u64, u64)) {
    for calls in &BOTH {
        let (number, table, place) = expected;
        assert_eq!(play(calls, holdings, fills), refusal(number, table, place), "{}", calls.name);
    }
}

#[test]
fn opens_add_and_closes_take_away() {
    let start = [times(3, "L60c"), times(2, "S50c")];
    assert_day(&start, &[fill(Open, times(4, "L60c"))], &[times(7, "L60c"), times(2, "S50c")], &[]);
    assert_day(&start, &[fill(Close, times(2, "L60c"))], &[leg("L60c"), times(2, "S50c")], &[]);
    let new = fill(Open, leg("L70p"));
    assert_day(&start, &[new], &[times(3, "L60c"), times(2, "S50c"), leg("L70p")], &[]);
    assert_day(&[], &[new, new], &[times(2, "L70p")], &[]);
    assert_day(&start, &[], &start, &[]);
    assert_day(&[], &[], &[], &[]);
}

#[test]
fn one_at_zero_leaves_and_comes_back_at_the_end() {
    let start = [times(3, "L60c"), times(2, "S50c"), leg("L70p")];
    assert_day(&start, &[fill(Close, times(3, "L60c"))], &[times(2, "S50c"), leg("L70p")], &[]);
    let day = [fill(Close, times(2, "S50c")), fill(Open, times(9, "S50c"))];
    assert_day(&start, &day, &[times(3, "L60c"), leg("L70p"), times(9, "S50c")], &[]);
    let all = [fill(Close, leg("L70p")), fill(Close, times(3, "L60c")), fill(Close, times(2, "S50c"))];
    assert_day(&start, &all, &[], &[]);
}

#[test]
fn sides_are_not_netted() {
    let day = [fill(Open, times(3, "S60c")), fill(Close, times(2, "L60c"))];
    assert_day(&[times(2, "L60c")], &day, &[times(3, "S60c")], &[]);
    // A short is not closed by a long's close.
    assert_day(&[times(2, "S60c")], &[fill(Close, leg("L60c"))], &[times(2, "S60c")], &[(0, 18)]);
}

#[test]
fn a_close_of_more_than_is_held_is_18_and_changes_nothing() {
    let start = [times(3, "L60c")];
    assert_day(&start, &[fill(Close, times(4, "L60c"))], &start, &[(0, 18)]);
    assert_day(&start, &[fill(Close, leg("L70c"))], &start, &[(0, 18)]);
    // Each field of a line makes another lot.
    for other in [
        Leg { unit_size: 10, ..leg("L60c") },
        Leg { underlying: 8, ..leg("L60c") },
        Leg { expiry: 20110618, ..leg("L60c") },
        Leg { style: usm::Style::European, ..leg("L60c") },
        Leg { market: usm::Market::Otc, ..leg("L60c") },
        Leg { settlement: usm::Settlement::Cash, ..leg("L60c") },
    ] {
        assert_day(&start, &[fill(Close, other)], &start, &[(0, 18)]);
    }
    // Play goes on, and what was refused is listed in order.
    let day = [
        fill(Close, times(4, "L60c")),
        fill(Open, leg("L60c")),
        fill(Close, times(4, "L60c")),
        fill(Close, leg("L60c")),
        fill(Open, leg("S50c")),
    ];
    assert_day(&start, &day, &[leg("S50c")], &[(0, 18), (3, 18)]);
}

#[test]
fn more_than_100_000_of_one_is_19_and_changes_nothing() {
    let start = [times(99_999, "L60c")];
    assert_day(&start, &[fill(Open, leg("L60c"))], &[times(100_000, "L60c")], &[]);
    assert_day(&start, &[fill(Open, times(2, "L60c"))], &start, &[(0, 19)]);
    let day = [fill(Open, times(100_000, "L60c")), fill(Open, leg("L60c")), fill(Open, leg("L60c"))];
    assert_day(&start, &day, &[times(100_000, "L60c")], &[(0, 19), (2, 19)]);
    // The other side is another lot.
    assert_day(&start, &[fill(Open, times(100_000, "S60c"))], &[start[0], times(100_000, "S60c")], &[]);
}

/// A long at a strike of so many mills.
fn at(strike: u32) -> Leg {
    Leg { strike, ..leg("L60c") }
}

#[test]
fn the_257th_line_and_side_is_19_and_room_is_used_again() {
    let full: Vec<Leg> = (1..=256).map(at).collect();
    assert_day(&full, &[fill(Open, at(257))], &full, &[(0, 19)]);
    let short = Leg { side: Side::Short, ..at(1) };
    assert_day(&full, &[fill(Open, short)], &full, &[(0, 19)]);
    // More of one that is held needs no room.
    let mut more = full.clone();
    more[255].contracts = 2;
    assert_day(&full, &[fill(Open, at(256))], &more, &[]);
    // One leaves, and its room is used again, at the end.
    let day = [fill(Open, at(300)), fill(Close, at(1)), fill(Open, at(300)), fill(Open, at(301))];
    let mut left = full[1..].to_vec();
    left.push(at(300));
    assert_day(&full, &day, &left, &[(0, 19), (3, 19)]);
    // Repeats stand in one record, so that 256 records may leave room.
    let mut repeated = full[..255].to_vec();
    repeated.push(at(1));
    let mut left = full[..255].to_vec();
    left[0].contracts = 2;
    left.push(at(257));
    assert_day(&repeated, &[fill(Open, at(257)), fill(Open, at(258))], &left, &[(1, 19)]);
}

#[test]
fn repeats_are_added_into_the_first_such_record() {
    let start = [times(3, "L60c"), times(2, "S50c"), times(4, "L60c"), leg("L70p"), times(5, "S50c")];
    let merged = [times(7, "L60c"), times(7, "S50c"), leg("L70p")];
    assert_day(&start, &[], &merged, &[]);
    assert_day(&merged, &[], &merged, &[]);
    // They are one lot to a close.
    assert_day(&start, &[fill(Close, times(7, "L60c"))], &merged[1..], &[]);
    // 100,000 in two records is one full lot.
    assert_day(&[times(60_000, "L60c"), times(40_000, "L60c")], &[], &[times(100_000, "L60c")], &[]);
}

#[test]
fn what_comes_out_has_no_mark_touched_or_not() {
    let marked = |leg: Leg| Leg { paid: true, ..leg };
    let start = [marked(times(3, "L60c")), times(2, "S50c"), marked(leg("S50c")), marked(leg("L70p"))];
    // Two marks of a line and side are one lot.
    assert_day(&start, &[], &[times(3, "L60c"), times(3, "S50c"), leg("L70p")], &[]);
    let day = [fill(Close, leg("L60c")), fill(Close, times(3, "S50c")), fill(Open, leg("L90c"))];
    assert_day(&start, &day, &[times(2, "L60c"), leg("L70p"), leg("L90c")], &[]);
}

#[test]
fn a_start_past_100_000_of_one_is_19_at_the_record_that_passes_it() {
    let start = [times(60_000, "L60c"), leg("S50c"), times(40_000, "L60c"), leg("L60c"), leg("L60c")];
    assert_refused(&leg_table(&start.map(held)), &[], (19, 1, 3));
    // Long and short are two lots.
    assert_day(
        &[times(60_000, "L60c"), times(60_000, "S60c")],
        &[],
        &[times(60_000, "L60c"), times(60_000, "S60c")],
        &[],
    );
}

#[test]
fn a_bad_field_of_a_fill_is_4_for_that_fill() {
    let good = fill(Open, leg("L60c"));
    let table = fill_table(&[good; 10]);
    for (field, value) in [
        (GROUP, 1),
        (SIDE, 3),
        (CONTRACTS, 0),
        (CONTRACTS, 100_001),
        (ACTION, 0),
        (ACTION, 3),
        (SETTLEMENT, 3),
        (PAID, 1),
        (PAID, 2),
        ((27, 1), 1),
        ((31, 1), 255),
    ] {
        let mut fills = table.clone();
        put(&mut fills, 3, field, value);
        for calls in &BOTH {
            let day = play(calls, &[], &fills);
            assert_eq!(day, Ok((vec![held(times(9, "L60c"))], vec![(3, 4)])), "{}: {value}", calls.name);
        }
    }
    // 4 comes before 18 and 19.
    let mut fills = fill_table(&[fill(Close, leg("L60c"))]);
    put(&mut fills, 0, GROUP, 1);
    for calls in &BOTH {
        assert_eq!(play(calls, &[], &fills), Ok((vec![], vec![(0, 4)])), "{}", calls.name);
    }
}

#[test]
fn the_whole_is_refused_in_order() {
    let good = leg_table(&[held(leg("L60c"))]);
    let over = leg_table(&vec![held(leg("L60c")); 257]);
    let mut bad = leg_table(&[held(times(100_000, "L60c")), held(leg("L60c")), held(leg("L60c"))]);
    let past = bad.clone();
    put(&mut bad, 2, GROUP, 1);
    let fills = fill_table(&[fill(Open, leg("L60c")); 3]);
    let many = fill_table(&vec![fill(Close, leg("L70c")); 1_025]);
    // 1 for either table, before anything else.
    assert_refused(&over, &fills, (1, 0, 0));
    assert_refused(&good[1..], &fills, (1, 0, 0));
    assert_refused(&bad, &many, (1, 0, 0));
    assert_refused(&bad, &fills[1..], (1, 0, 0));
    // A starting record that is a fill has a filler that is not zero.
    assert_refused(&fills, &[], (4, 1, 0));
    // 4 anywhere before 19 anywhere.
    assert_refused(&bad, &fills, (4, 1, 2));
    assert_refused(&past, &fills, (19, 1, 1));
    for calls in &BOTH {
        let tried = |start: &[u8], rooms: [usize; 3]| {
            let (mut result, mut indices, mut numbers) =
                (vec![1; rooms[0]], vec![1; rooms[1]], vec![1; rooms[2]]);
            (calls.play_fills)(start, &fills, &mut result, &mut indices, &mut numbers)
        };
        assert_eq!(tried(&past, [0, 0, 0]), refusal(19, 1, 1), "{}", calls.name);
        // 8,192 bytes are asked for, however few come out; and as many entries as there are fills.
        assert_eq!(tried(&good, [8_191, 0, 0]), refusal(17, 1, 8_192), "{}", calls.name);
        assert_eq!(tried(&good, [8_192, 2, 3]), refusal(17, 4, 3), "{}", calls.name);
        assert_eq!(tried(&good, [8_192, 3, 2]), refusal(17, 4, 3), "{}", calls.name);
        assert!(tried(&good, [8_192, 3, 3]).is_ok(), "{}", calls.name);
    }
}

#[test]
fn a_full_day_has_1_024_fills() {
    let fills = fill_table(&vec![fill(Close, leg("L70c")); 1_024]);
    for calls in &BOTH {
        let (left, refused) = play(calls, &[], &fills).expect("a day");
        assert_eq!(
            (left.len(), refused.len(), refused.last()),
            (0, 1_024, Some(&(1_023, 18))),
            "{}",
            calls.name
        );
    }
}
