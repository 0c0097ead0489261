//! Expiries.

/// Whether the number is a real date YYYYMMDD from 20000101 to 20991231.
pub fn is_expiry(date: u32) -> bool {
    const MONTH_LENGTHS: [u32; 12] = [31, 28, 31, 30, 31, 30, 31, 31, 30, 31, 30, 31];
    let (year, month, day) = (date / 10_000, date / 100 % 100, date % 100);
    if !(2000..=2099).contains(&year) || !(1..=12).contains(&month) {
        return false;
    }
    // From 2000 to 2099 every fourth year is a leap year, 2000 among them.
    let leap_day = u32::from(month == 2 && year % 4 == 0);
    (1..=MONTH_LENGTHS[month as usize - 1] + leap_day).contains(&day)
}

#[cfg(test)]
mod tests {
    use super::*;

    #[test]
    fn dates_are_real_ones_of_this_century() {
        for good in [20000101, 20000229, 20120229, 20110531, 20110430, 20991231] {
            assert!(is_expiry(good), "{good}");
        }
        for bad in
            [0, 19991231, 20000100, 20110229, 20110431, 20111301, 20110001, 20110532, 21000101, u32::MAX]
        {
            assert!(!is_expiry(bad), "{bad}");
        }
    }
}
