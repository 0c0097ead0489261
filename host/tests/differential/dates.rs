//! Every day of the century, and days that there are none of: months as a member recites them.

use usm::{is_expiry, leg_table, Leg, Table};
use usm_kit::accounts::{in_group, leg};

use crate::compare;

/// Document 02, [5]: 30 and the remainder by 2 of the month and its eighth part; February by leap year.
fn recited(year: u32, month: u32) -> u32 {
    match month {
        2 if year % 4 == 0 => 29,
        2 => 28,
        _ => 30 + (month + month / 8) % 2,
    }
}

#[test]
fn every_day_from_2000_to_2099_and_no_other_is_an_expiry() {
    let kind = Table::Holdings.number();
    let mut days = 0;
    for year in 1999..=2100 {
        for month in 0..=13 {
            for day in 0..=32 {
                let expiry = year * 10_000 + month * 100 + day;
                let real = (2000..=2099).contains(&year)
                    && (1..=12).contains(&month)
                    && (1..=recited(year, month)).contains(&day);
                let table = leg_table(&[in_group(0, Leg { expiry, ..leg("L50p") })]);
                let wanted = if real { 0 } else { 4 };
                assert_eq!(compare::check_table(&expiry, kind, &table), wanted, "{expiry}");
                assert_eq!(is_expiry(expiry), real, "{expiry}");
                days += u32::from(real);
            }
        }
    }
    // A hundred years, of which every fourth has a day more.
    assert_eq!(days, 36_525);
}
