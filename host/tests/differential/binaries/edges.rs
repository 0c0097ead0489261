//! Every edge of the circular's rows and columns, from each side.

use usm::is_expiry;

use super::margin;

/// Every date of the century, in order.
fn days() -> Vec<u64> {
    (20000101..=20991231).filter(|date| is_expiry(*date)).map(u64::from).collect()
}

/// The place of the last day that is not after this date, of one that may not be real.
fn last_until(days: &[u64], date: u64) -> usize {
    days.partition_point(|day| *day <= date) - 1
}

#[test]
fn every_day_is_valued_and_every_end_of_a_year_is_met_from_both_sides() {
    let days = days();
    let mut answers = [0; 26];
    for (place, &valuation) in days.iter().enumerate() {
        let mut places = vec![place];
        places.extend(place.checked_sub(1));
        for years in [1, 3, 7] {
            let end = last_until(&days, valuation + years * 10_000);
            places.extend([end - 1, end, end + 1].iter().filter(|near| (place..days.len()).contains(near)));
        }
        for expiry in places.iter().map(|near| days[*near]) {
            answers[margin(&valuation, [1, 0, valuation, expiry, 1]) as usize] += 1;
        }
    }
    // All days but the first have a day before them.
    assert_eq!((answers[4], answers[25]), (0, days.len() - 1));
    assert!(answers[0] > 9 * days.len(), "{answers:?}");
}

#[test]
fn every_spread_up_to_past_the_last_edge_is_tried_in_every_column() {
    for side in [1, 2] {
        for spread in (0..=800).chain(99_990..=100_000) {
            for expiry in [20110315, 20120315, 20120316, 20140315, 20140316, 20180315, 20180316] {
                assert_eq!(margin(&"edges", [side, spread, 20110315, expiry, 1]), 0);
            }
        }
        assert_eq!(margin(&"edges", [side, 100_001, 20110315, 20110315, 1]), 4);
    }
}

/// Each number in turn has bits that no 32 hold, and nothing of it is left out.
#[test]
fn numbers_past_32_bits_are_4() {
    let good = [2, 250, 20110315, 20160620, 10];
    assert_eq!(margin(&"good", good), 0);
    for at in 0..good.len() {
        for high in [1 << 32, 1 << 33, 1 << 63, u64::MAX << 32] {
            let mut past = good;
            past[at] |= high;
            assert_eq!(margin(&"past 32 bits", past), 4, "{past:?}");
        }
    }
}
