//! Lists of option symbols, as Rust values (document 02, [9]).

use crate::calls;
use crate::sheet::{leg_table, records};
use usm_values::{Leg, Refusal, Root, Table, LONGEST_LIST, ROOT_BYTES};

/// The holdings that a list of option symbols says, one for each line, without paid marks. It is refused for
/// the roots (23), for a line (22, 4, 24), and for more than [`crate::MOST_LINES`] of them (1).
///
/// ```
/// use usm::{holdings_of_list, list_of_holdings, padded_root, Market, Reason, Root, Settlement, Side, Style};
///
/// let roots = [Root {
///     name: padded_root("SPX").unwrap(),
///     style: Style::European,
///     market: Market::Listed,
///     unit_size: 100,
///     settlement: Settlement::Cash,
///     underlying: 7,
/// }];
/// let list = b"SPX   110521C01250000 L 5\nSPX   110521C01300000 S 5\n";
/// let holdings = holdings_of_list(&roots, list)?;
/// assert_eq!((holdings[1].side, holdings[1].strike), (Side::Short, 1_300_000));
/// assert_eq!(list_of_holdings(&roots, &holdings)?, list);
///
/// let refusal = holdings_of_list(&roots, b"SPY   110521C01250000 L 5\n").unwrap_err();
/// assert_eq!(refusal.reason(), Some(Reason::NotInRoots));
/// # Ok::<(), usm::Refusal>(())
/// ```
pub fn holdings_of_list(roots: &[Root], list: &[u8]) -> Result<Vec<Leg>, Refusal> {
    let mut holdings = vec![0; Table::Holdings.most_bytes()];
    let count = calls::import(&root_table(roots), list, &mut holdings)?;
    Ok(records(&holdings, count, Leg::from_bytes))
}

/// The list that says these holdings, a line for each. It is refused for the roots (23), for more than
/// [`crate::MOST_LEGS`] holdings (1), and for a record that is out of range or marked as paid (4) or whose
/// terms no root stands for (24).
pub fn list_of_holdings(roots: &[Root], holdings: &[Leg]) -> Result<Vec<u8>, Refusal> {
    let mut list = vec![0; LONGEST_LIST];
    let length = calls::export(&root_table(roots), &leg_table(holdings), &mut list)?;
    list.truncate(length);
    Ok(list)
}

/// The bytes of a table of roots.
pub fn root_table(roots: &[Root]) -> Vec<u8> {
    let bytes: Vec<[u8; ROOT_BYTES]> = roots.iter().map(Root::to_bytes).collect();
    bytes.concat()
}
