//! The sentence of a refusal by itself, where neither file nor sheet is at hand.

use crate::numbers::ordinal;
use crate::reason::Reason;
use crate::records::{FILLS_TABLE, LIST_TABLE, ROOTS_TABLE};

pub fn sentence(reason: Reason, table: u64, place: u64) -> String {
    let (name, nth) = (table_name(table), ordinal(place));
    let record = match table {
        FILLS_TABLE => format!("the {nth} fill"),
        ROOTS_TABLE => format!("the {nth} root"),
        LIST_TABLE => format!("the {nth} line of the list"),
        _ => format!("the {nth} record of the {name}"),
    };
    match reason {
        Reason::WrongSize => String::from(
            "wrong size: a table must be whole 32-byte records (at most 256 legs, 32 claims, 1,024 fills), \
             a list at most 256 lines, a file 1 to 39 whole 512-byte blocks, and a written sheet needs a record",
        ),
        Reason::ChecksDiffer => format!("the {nth} block is damaged: a check sum does not fit its bytes"),
        Reason::BlockOutOfForm => format!(
            "the {nth} block is out of form: its header, its unused bytes, its place among \
             the kinds, or a table that grows past its limit"
        ),
        // Of all that have fields only credit event binaries stand in no table.
        Reason::FieldOutOfRange if table == 0 => of_binary(reason, place),
        Reason::ExpiryBeforeValuation => of_binary(reason, place),
        Reason::FieldOutOfRange => format!("{record} has a field out of range"),
        Reason::GroupsMisnumbered if table == 3 => {
            format!("the {nth} claim is not for group {}", place.saturating_add(1))
        }
        Reason::GroupsMisnumbered => format!("{record} names a group that has no claim"),
        Reason::UnderlyingsDiffer => format!("{record} has another underlying than its group's first leg"),
        Reason::StylesDiffer => format!("{record} has another style than its group's first leg"),
        Reason::MarketsDiffer => format!("{record} has another market than its group's first leg"),
        Reason::SeriesLongAndShort => format!(
            "{record} is of a series (type, strike, expiry and unit size) that its group already has on the \
             other side"
        ),
        Reason::ShortOutlivesLong => format!(
            "{record} is a short that expires after a long of its group, or a long that expires before a short of it"
        ),
        Reason::ContractsDiffer => {
            format!("{record}: holdings and placement differ in the contracts of its line and side")
        }
        Reason::NotPlaced => {
            format!("{record} is a short, or a long without the paid mark, that is not placed")
        }
        Reason::NoRoom if table == 0 => {
            format!("no room: {} bytes or entries are needed", place)
        }
        Reason::NoRoom if table == FILLS_TABLE => {
            format!("no room to list refused fills: {} entries are needed", place)
        }
        Reason::NoRoom => format!("no room for the {name}: {} bytes are needed", place),
        Reason::WrongAccount => format!(
            "the {nth} block's account is zero or not that of the first block; or the account supplied is zero"
        ),
        Reason::MoreClosedThanHeld => format!("{record} closes more contracts than are held"),
        Reason::TooMuchHeld if table == FILLS_TABLE => {
            format!("{record} is of a 257th line and side, or makes more than 100,000 contracts of one")
        }
        Reason::TooMuchHeld => format!("{record} makes more than 100,000 contracts of its line and side"),
        Reason::LineMalformed => format!("{record} is malformed, or ends without a newline"),
        Reason::RootsIllFormed => ill_formed(&record, place),
        Reason::NotInRoots if table == LIST_TABLE => {
            format!("{record} has a root that is not in the table of roots")
        }
        Reason::NotInRoots => format!(
            "{record} has terms (style, market, unit size, settlement and underlying) that no root stands for"
        ),
        _ => of_group(reason, place),
    }
}

/// The two reasons of a credit event binary: the place tells the long, or the only one, from the short of a pair.
fn of_binary(reason: Reason, place: u64) -> String {
    let name = match place {
        0 => "the option, or the long of a pair,",
        _ => "the short of the pair",
    };
    match reason {
        Reason::ExpiryBeforeValuation => format!("{name} expires before the valuation date"),
        _ => format!("{name} has a field or a date out of range"),
    }
}

/// The place 0 is that of the first root, and of the table as a whole.
fn ill_formed(root: &str, place: u64) -> String {
    let size = match place {
        0 => "; or the table is not 1 to 256 whole 16-byte roots",
        _ => "",
    };
    format!("{root} is ill formed, out of range, or repeats an earlier one's name or terms{size}")
}

/// The reasons whose place is a group.
fn of_group(reason: Reason, group: u64) -> String {
    let wrong = match reason {
        Reason::NoLeg => "has no leg, or is not a group from 1 to 32",
        Reason::CallUnitsUnequal => "has unequal long and short call units",
        Reason::PutUnitsUnequal => "has unequal long and short put units",
        Reason::ClaimNotMargin => "claims what is not its margin",
        Reason::NotFitForCash => {
            "is not fit for a cash account: all its legs must be European, stated as cash, and of one expiry"
        }
        _ => "is refused",
    };
    format!("group {group} {wrong}")
}

fn table_name(table: u64) -> &'static str {
    match table {
        1 => "holdings",
        2 => "placement",
        3 => "claims",
        FILLS_TABLE => "fills",
        ROOTS_TABLE => "roots",
        LIST_TABLE => "list",
        _ => "no table",
    }
}
