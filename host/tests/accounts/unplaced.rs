//! The paid mark of unplaced longs, and the pass that sets it (document 02, [8]).

use usm::{leg_table, Accepted, Leg, Sheet, Side, Table};
use usm_kit::accounts::{in_group, leg, paid, placed, times};
use usm_kit::both::BOTH;

use crate::{assert_margin, assert_verdict, refusal};

/// A vertical in group 1, and these beside it in no group.
fn beside(unplaced: &[Leg]) -> Sheet {
    placed(&[&[leg("L60c"), leg("S50c")][..], unplaced].concat(), &[1_000_000])
}

const ACCEPTED: Accepted = Accepted { groups: 1, total: 1_000_000, work: 4 };

fn unpaid(notation: &str) -> Leg {
    in_group(0, leg(notation))
}

#[test]
fn an_unplaced_long_needs_the_mark() {
    assert_verdict(&beside(&[paid(leg("L90c"))]), Ok(ACCEPTED));
    assert_verdict(&beside(&[unpaid("L90c")]), refusal(15, 2, 2));
    assert_verdict(&beside(&[paid(leg("L90c")), paid(leg("L90p")), unpaid("L80p")]), refusal(15, 2, 4));
}

#[test]
fn fifteen_is_at_the_first_record_of_either_sort() {
    assert_verdict(&beside(&[unpaid("L90c"), unpaid("S90p")]), refusal(15, 2, 2));
    assert_verdict(&beside(&[unpaid("S90p"), unpaid("L90c")]), refusal(15, 2, 2));
    assert_verdict(&beside(&[paid(leg("L90c")), unpaid("S90p"), unpaid("L80c")]), refusal(15, 2, 3));
    // The mark is no help to a short.
    assert_verdict(&beside(&[paid(leg("L90c")), paid(leg("S90p"))]), refusal(15, 2, 3));
    // 14 comes before, 16 behind.
    let mut uneven = beside(&[unpaid("L90c")]);
    uneven.holdings[2].contracts = 2;
    assert_verdict(&uneven, refusal(14, 1, 2));
    let mut misclaimed = beside(&[unpaid("L90c")]);
    misclaimed.claims[0].margin = 0;
    assert_verdict(&misclaimed, refusal(15, 2, 2));
}

#[test]
fn it_is_the_placement_record_s_own_mark_that_counts() {
    let mut sheet = beside(&[paid(leg("L90c"))]);
    sheet.holdings[2].paid = false;
    assert_verdict(&sheet, Ok(ACCEPTED));
    sheet.holdings[2].paid = true;
    sheet.placement[2].paid = false;
    assert_verdict(&sheet, refusal(15, 2, 2));
    // In holdings and in a group marks are free, of shorts too.
    let mut marked = beside(&[paid(leg("L90c"))]);
    for leg in marked.holdings.iter_mut().chain(&mut marked.placement) {
        leg.paid = true;
    }
    assert_verdict(&marked, Ok(ACCEPTED));
}

#[test]
fn the_mark_is_no_part_of_line_or_series() {
    // Five held in one record, two placed, one of three unplaced ones in a record of its own.
    let placement = [times(2, "L60c"), times(2, "S50c"), paid(times(2, "L60c")), paid(leg("L60c"))];
    let holdings = [times(5, "L60c"), times(2, "S50c")].map(|leg| in_group(0, leg));
    let sheet = Sheet { holdings: holdings.to_vec(), ..placed(&placement, &[2_000_000]) };
    assert_verdict(&sheet, Ok(Accepted { groups: 1, total: 2_000_000, work: 4 }));
    // A doubled series stays one though one side is marked.
    assert_margin(&[Leg { paid: true, ..leg("L50c") }, leg("S50c")], refusal(10, 2, 1));
}

#[test]
fn the_mark_is_0_or_1() {
    for calls in &BOTH {
        for which in [Table::Holdings, Table::Placement] {
            for (byte, good) in [(0, true), (1, true), (2, false), (255, false)] {
                let mut table = leg_table(&[unpaid("L60c")]);
                table[25] = byte;
                let expected = if good { Ok(1) } else { refusal(4, which.number(), 0) };
                assert_eq!((calls.check_table)(which, &table), expected, "{}: {byte}", calls.name);
            }
        }
    }
}

#[test]
fn the_pass_marks_every_unplaced_long_and_nothing_else() {
    let legs = [
        unpaid("L90c"),
        leg("L60c"),
        unpaid("S90p"),
        leg("S50c"),
        paid(leg("L80c")),
        unpaid("L90c"),
        Leg { group: 32, ..leg("L60p") },
    ];
    let expected = [paid(legs[0]), legs[1], legs[2], legs[3], legs[4], paid(legs[5]), legs[6]];
    for calls in &BOTH {
        let mut table = leg_table(&legs);
        assert_eq!((calls.mark_paid)(&mut table), Ok(2), "{}", calls.name);
        assert_eq!(table, leg_table(&expected), "{}", calls.name);
        // Applied twice it changes nothing more.
        assert_eq!((calls.mark_paid)(&mut table), Ok(0), "{}", calls.name);
        assert_eq!(table, leg_table(&expected), "{}", calls.name);
        assert_eq!((calls.mark_paid)(&mut []), Ok(0), "{}", calls.name);
    }
}

#[test]
fn the_pass_gives_1_and_4_and_then_changes_nothing() {
    let mut table = leg_table(&[unpaid("L90c"), unpaid("L80c"), Leg { strike: 0, ..unpaid("L90c") }]);
    let over = leg_table(&vec![unpaid("L90c"); 257]);
    for calls in &BOTH {
        let before = table.clone();
        assert_eq!((calls.mark_paid)(&mut table), refusal(4, 2, 2), "{}", calls.name);
        assert_eq!(table, before, "{}", calls.name);
        assert_eq!((calls.mark_paid)(&mut table[1..]), refusal(1, 0, 0), "{}", calls.name);
        assert_eq!(table, before, "{}", calls.name);
        assert_eq!((calls.mark_paid)(&mut over.clone()), refusal(1, 0, 0), "{}", calls.name);
    }
}

#[test]
fn an_old_sheet_is_accepted_after_the_pass() {
    let mut sheet = beside(&[unpaid("L90c"), unpaid("L80p")]);
    assert_verdict(&sheet, refusal(15, 2, 2));
    assert_eq!(sheet.mark_paid(), Ok(2));
    assert_verdict(&sheet, Ok(ACCEPTED));
    assert!(sheet.holdings.iter().all(|leg| !leg.paid), "the holdings stay");
    assert!(sheet.placement.iter().all(|leg| leg.paid == (leg.group == 0 && leg.side == Side::Long)));
    // An unplaced short is none the better for it.
    let mut short = beside(&[unpaid("L90c"), unpaid("S80p")]);
    assert_eq!(short.mark_paid(), Ok(1));
    assert_verdict(&short, refusal(15, 2, 3));
}
