//! Values just inside and just outside the limits, and the readings of open points.

use usm::{leg_table, Accepted, Leg, Origin, Refusal, Sheet, Side, Table};
use usm_kit::accounts::{fullest, in_group, leg, paid, placed};
use usm_kit::block::LONGEST_FILE;
use usm_kit::both::BOTH;

use crate::{assert_line, assert_margin, assert_verdict, refusal};

const FREE: Accepted = Accepted { groups: 0, total: 0, work: 0 };

/// The verdict on a sheet of this one long, not placed and paid.
#[track_caller]
fn assert_lone(long: Leg, expected: Result<Accepted, Refusal>) {
    assert_verdict(&placed(&[paid(long)], &[]), expected);
}

#[test]
fn dates_must_be_real() {
    for expiry in [20120229, 20000229, 20000101, 20991231] {
        assert_lone(Leg { expiry, ..leg("L50p") }, Ok(FREE));
    }
    for expiry in [20110229, 19991231, 21000101, 20110431, 20111301, 20110500] {
        assert_lone(Leg { expiry, ..leg("L50p") }, refusal(4, 1, 0));
    }
}

#[test]
fn contracts_end_at_100_000() {
    assert_lone(Leg { contracts: 100_000, ..leg("L50p") }, Ok(FREE));
    assert_lone(Leg { contracts: 100_001, ..leg("L50p") }, refusal(4, 1, 0));
    assert_lone(Leg { contracts: 0, ..leg("L50p") }, refusal(4, 1, 0));
}

#[test]
fn a_table_ends_at_256_records() {
    let table = |records| leg_table(&vec![paid(leg("L50p")); records]);
    let (full, over) = (table(256), table(257));
    for calls in &BOTH {
        for which in [Table::Holdings, Table::Placement] {
            assert_eq!((calls.check_table)(which, &full), Ok(256), "{}", calls.name);
            assert_eq!((calls.check_table)(which, &over), refusal(1, 0, 0), "{}", calls.name);
        }
        let verdict = |holdings: &[u8], placement: &[u8]| (calls.check_sheet)(holdings, placement, &[]);
        assert_eq!(verdict(&full, &full), Ok(FREE), "{}", calls.name);
        assert_eq!(verdict(&over, &over), refusal(1, 0, 0), "{}", calls.name);
        assert_eq!(verdict(&full, &full[1..]), refusal(1, 0, 0), "{}", calls.name);
    }
}

#[test]
fn groups_are_1_to_32() {
    let table = leg_table(&[leg("L60c"), leg("S50c"), in_group(0, leg("L90c"))]);
    let bad_field = leg_table(&[leg("L60c"), Leg { strike: 0, ..leg("S50c") }]);
    for calls in &BOTH {
        assert_eq!((calls.margin)(&table, 1), Ok(1_000_000), "{}", calls.name);
        for g in [0, 2, 32, 33, 65_537, u64::MAX] {
            assert_eq!((calls.margin)(&table, g), refusal(6, 2, g), "{}", calls.name);
        }
        // 1 and 4 come first, whatever the group.
        assert_eq!((calls.margin)(&table[1..], 0), refusal(1, 0, 0), "{}", calls.name);
        assert_eq!((calls.margin)(&bad_field, 0), refusal(4, 2, 1), "{}", calls.name);
    }
}

#[test]
fn empty_tables_are_a_sheet_but_no_file() {
    assert_verdict(&Sheet::default(), Ok(FREE));
    for calls in &BOTH {
        let written = (calls.write_file)(&[], &[], &[], Origin::OLD, &mut [0; 512]);
        assert_eq!(written, refusal(1, 0, 0), "{}", calls.name);
        assert_eq!((calls.file_line)(&[]), "REFUSE 1 0 0\n", "{}", calls.name);
        assert_eq!((calls.file_line)(&[0; 19_969]), "REFUSE 1 0 0\n", "{}", calls.name);
    }
}

#[test]
fn a_full_sheet_fills_39_blocks() {
    let sheet = fullest();
    assert_line(&sheet, "ACCEPT 32 12800");
    assert_eq!(sheet.to_file().expect("a file").len(), LONGEST_FILE);
}

#[test]
fn units_are_summed_beyond_32_bits() {
    // 42 legs of 100,000,000 units and two more make 2 to the 32nd.
    let long = |contracts, unit_size| Leg { contracts, unit_size, ..leg("L60c") };
    let mut longs = vec![long(100_000, 1_000); 42];
    longs.extend([long(100_000, 512), long(85_483, 512)]);
    assert_eq!(longs.iter().map(Leg::units).sum::<i64>(), 1 << 32);
    let short = |long: &Leg| Leg { side: Side::Short, strike: 50_000, ..*long };
    let shorts: Vec<Leg> = longs.iter().map(short).collect();
    let unequal = [&[leg("L60c"), leg("S50c")], &longs[..]].concat();
    assert_margin(&unequal, refusal(11, 2, 1));
    let equal = [unequal, shorts].concat();
    assert_margin(&equal, Ok(((1 << 32) + 100) * 10_000));
}
