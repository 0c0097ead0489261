//! The words for the terms of a leg, for both ways.

use usm_values::{Action, Market, OptionType, Settlement, Side, Style};

/// The words for a term with two values.
pub type Names<T> = [(&'static str, T); 2];

pub const SIDES: Names<Side> = [("long", Side::Long), ("short", Side::Short)];
pub const TYPES: Names<OptionType> = [("call", OptionType::Call), ("put", OptionType::Put)];
pub const STYLES: Names<Style> = [("american", Style::American), ("european", Style::European)];
pub const ACTIONS: Names<Action> = [("open", Action::Open), ("close", Action::Close)];
pub const MARKETS: Names<Market> = [("listed", Market::Listed), ("otc", Market::Otc)];

/// Settlement that is not stated has no word.
pub const SETTLEMENTS: Names<Settlement> = [("cash", Settlement::Cash), ("physical", Settlement::Physical)];

/// The word for one of the two values.
pub fn name_of<T: PartialEq>(value: T, names: Names<T>) -> &'static str {
    let [(first, its_value), (second, _)] = names;
    if value == its_value {
        first
    } else {
        second
    }
}
