//! One record as its words: padded, as a text shows it, and not, as a sentence quotes it.

use super::names::{name_of, ACTIONS, MARKETS, SETTLEMENTS, SIDES, STYLES, TYPES};
use usm_values::fields::{
    get, Field, CONTRACTS, EXPIRY, GROUP, MARKET, PAID, SETTLEMENT, SIDE, STRIKE, STYLE, TYPE, UNDERLYING,
    UNIT_SIZE,
};
use usm_values::{Fill, Leg, Market, Settlement, Side, Style, RECORD_BYTES};

/// The words of a leg one by one: side, contracts, type, strike, expiry, unit size, underlying, style, market, and its
/// settlement, which is empty where it is not stated.
pub fn words_of(leg: &Leg) -> [String; 10] {
    [
        String::from(name_of(leg.side, SIDES)),
        leg.contracts.to_string(),
        String::from(name_of(leg.option_type, TYPES)),
        strike_text(leg.strike),
        date_text(leg.expiry),
        leg.unit_size.to_string(),
        leg.underlying.to_string(),
        String::from(name_of(leg.style, STYLES)),
        String::from(name_of(leg.market, MARKETS)),
        String::from(settlement_word(leg.settlement)),
    ]
}

/// The words of a leg, padded so that those of one table stand in columns.
pub fn leg_words(leg: &Leg) -> String {
    let [side, contracts, option_type, strike, expiry, unit, underlying, style, market, settlement] =
        words_of(leg);
    let (settlement, paid) = (behind_blank(&settlement), if leg.paid { " paid" } else { "" });
    format!(
        "{side:<5} {contracts} {option_type:<4} {strike} {expiry} unit {unit} underlying {underlying} \
         {style} {market}{settlement}{paid}"
    )
}

/// A settlement that is not stated has no word.
pub fn settlement_word(settlement: Settlement) -> &'static str {
    match settlement {
        Settlement::NotStated => "",
        settlement => name_of(settlement, SETTLEMENTS),
    }
}

/// A word that need not be there, behind a blank.
pub fn behind_blank(word: &str) -> String {
    match word {
        "" => String::new(),
        word => format!(" {word}"),
    }
}

/// A leg as it stands in the holdings.
pub fn leg_text(leg: &Leg) -> String {
    let words = leg_words(leg);
    words.split_whitespace().collect::<Vec<&str>>().join(" ")
}

/// A leg as it stands in the placement.
pub fn placed_text(leg: &Leg) -> String {
    format!("{} {}", place_text(leg.group), leg_text(leg))
}

/// A fill as it stands among the fills.
pub fn fill_text(fill: &Fill) -> String {
    format!("{} {}", name_of(fill.action, ACTIONS), leg_text(&fill.leg))
}

/// Where a leg is placed.
pub fn place_text(group: u16) -> String {
    match group {
        0 => String::from("unplaced"),
        group => format!("group {group}"),
    }
}

/// Type, strike, expiry and unit size.
pub fn series_text(leg: &Leg) -> String {
    let (strike, expiry) = (strike_text(leg.strike), date_text(leg.expiry));
    format!("{} {strike} {expiry} unit {}", name_of(leg.option_type, TYPES), leg.unit_size)
}

/// A strike of so many mills, in dollars.
pub fn strike_text(mills: u32) -> String {
    format!("{}.{:03}", mills / 1_000, mills % 1_000)
}

/// The number YYYYMMDD as YYYY-MM-DD.
pub fn date_text(date: u32) -> String {
    format!("{:04}-{:02}-{:02}", date / 10_000, date / 100 % 100, date % 100)
}

pub fn side_name(side: Side) -> &'static str {
    name_of(side, SIDES)
}

pub fn style_name(style: Style) -> &'static str {
    name_of(style, STYLES)
}

pub fn market_name(market: Market) -> &'static str {
    name_of(market, MARKETS)
}

/// The words of a leg record whose fields need not be in range: a term that has no word is given by its
/// number, and a group only where it is not 0.
pub fn raw_text(record: &[u8; RECORD_BYTES]) -> String {
    let number = |field: Field| get(record, 0, field);
    let term = |what: &str, field: Field, names: [&str; 2]| match number(field) {
        value @ 1..=2 => String::from(names[value as usize - 1]),
        value => format!("{what} {value}"),
    };
    let place = match number(GROUP) {
        0 => String::new(),
        group => format!("group {group} "),
    };
    let settlement = match number(SETTLEMENT) {
        0 => String::new(),
        _ => format!(" {}", term("settlement", SETTLEMENT, SETTLEMENTS.map(|(name, _)| name))),
    };
    let paid = match number(PAID) {
        0 => String::new(),
        1 => String::from(" paid"),
        mark => format!(" paid mark {mark}"),
    };
    format!(
        "{place}{} {} {} {} {} unit {} underlying {} {} {}{settlement}{paid}",
        term("side", SIDE, SIDES.map(|(name, _)| name)),
        number(CONTRACTS),
        term("type", TYPE, TYPES.map(|(name, _)| name)),
        strike_text(number(STRIKE) as u32),
        date_text(number(EXPIRY) as u32),
        number(UNIT_SIZE),
        number(UNDERLYING),
        term("style", STYLE, STYLES.map(|(name, _)| name)),
        term("market", MARKET, MARKETS.map(|(name, _)| name)),
    )
}

#[cfg(test)]
mod tests {
    use super::*;
    use usm_kit::accounts::{in_group, leg};

    #[test]
    fn a_record_in_range_has_one_text() {
        let leg = leg("S50p");
        assert_eq!(leg_text(&leg), "short 1 put 50.000 2011-05-21 unit 100 underlying 7 american listed");
        assert_eq!(placed_text(&leg), format!("group 1 {}", leg_text(&leg)));
        assert_eq!(placed_text(&in_group(0, leg)), format!("unplaced {}", leg_text(&leg)));
        assert_eq!(raw_text(&leg.to_bytes()), placed_text(&leg));
        let cash = Leg { settlement: Settlement::Cash, ..leg };
        assert_eq!(leg_text(&cash), format!("{} cash", leg_text(&leg)));
        assert_eq!(raw_text(&cash.to_bytes()), placed_text(&cash));
        let paid = Leg { paid: true, ..cash };
        assert_eq!(leg_text(&paid), format!("{} cash paid", leg_text(&leg)));
        assert_eq!(raw_text(&paid.to_bytes()), placed_text(&paid));
        assert_eq!(series_text(&leg), "put 50.000 2011-05-21 unit 100");
    }

    #[test]
    fn a_term_without_a_word_is_given_by_its_number() {
        assert_eq!(
            raw_text(&[0xFF; RECORD_BYTES]),
            "group 65535 side 255 4294967295 type 255 4294967.295 429496-72-95 unit 65535 \
             underlying 4294967295 style 255 market 255 settlement 255 paid mark 255"
        );
    }
}
