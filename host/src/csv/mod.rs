//! Holdings, placement and fills as CSV, as a spreadsheet saves it and opens it again: one table a file.

mod cells;
mod columns;
mod errors;
mod fills;
mod holdings;
mod leg;
mod placement;

pub use errors::{CellError, CellErrors};
pub use fills::{parse_fills, show_fills};
pub use holdings::{parse_holdings, show_holdings};
pub use placement::{parse_placement, show_placement};

/// The format, as the help of `usm_sheet` prints it.
pub const FORMAT: &str = "\
A CSV has one table, as a spreadsheet saves it: a row with the names of the columns, in any
order and in small or capital letters, and a row for each record:

  side,contracts,type,strike,expiry,unit,underlying,style,market,settlement,paid
  long,10,call,60.000,2011-05-21,100,7,american,listed,,
  short,10,call,65.000,2011-05-21,100,7,american,listed,,

The cells have the words of a text. The columns `settlement` and `paid` may be left out or
empty; `paid` is `yes` where a record is marked so. A placement also has the column `group`,
with a number or `unplaced`; fills have `action`, `open` or `close`, and no `paid`. Commas or
semicolons part the cells, the same in every row. A number has no separators between
thousands; where semicolons part the cells a comma in a strike is its decimal comma, however
many digits follow: `1,060` is $1.060, and $1,060 is written `1060`. Empty rows do not count.
";
