//! A day's fills played over holdings, as Rust values.

use crate::calls;
use crate::sheet::{leg_table, records};
use usm_values::{Fill, Leg, Refusal, Table, FILLS_TABLE, RECORD_BYTES};

/// What fills make of holdings.
#[derive(Clone, Debug, PartialEq, Eq)]
pub struct Played {
    /// One record for each line and side that is held, without a paid mark.
    pub holdings: Vec<Leg>,
    /// The fills that were refused, in order: each with its number, [`FILLS_TABLE`], and its index as place.
    pub refused: Vec<Refusal>,
}

/// Plays fills over holdings: each opens or closes contracts of its line and side, and a refused one (4, 18
/// or 19) changes nothing. The whole is refused (1, 4, 19) for what is wrong with the holdings themselves, and
/// for more fills than [`crate::MOST_FILLS`].
///
/// ```
/// use usm::{play, Action, Fill, Leg, Market, OptionType, Reason, Settlement, Side, Style};
///
/// let held = Leg {
///     group: 0,
///     side: Side::Long,
///     option_type: OptionType::Call,
///     style: Style::American,
///     market: Market::Listed,
///     unit_size: 100,
///     underlying: 7,
///     strike: 60_000,
///     expiry: 20110521,
///     contracts: 5,
///     settlement: Settlement::NotStated,
///     paid: false,
/// };
/// let close = |contracts| Fill { action: Action::Close, leg: Leg { contracts, ..held } };
/// let day = play(&[held], &[close(2), close(4), close(1)])?;
/// assert_eq!(day.holdings, [Leg { contracts: 2, ..held }]);
/// assert_eq!(day.refused[0].reason(), Some(Reason::MoreClosedThanHeld));
/// assert_eq!(day.refused[0].place, 1);
/// # Ok::<(), usm::Refusal>(())
/// ```
pub fn play(holdings: &[Leg], fills: &[Fill]) -> Result<Played, Refusal> {
    let mut result = vec![0; Table::Holdings.most_bytes()];
    let (mut indices, mut numbers) = (vec![0; fills.len()], vec![0; fills.len()]);
    let (start, fills) = (leg_table(holdings), fill_table(fills));
    let counts = calls::play_fills(&start, &fills, &mut result, &mut indices, &mut numbers)?;
    let listed = numbers.iter().zip(&indices).take(counts.refused);
    Ok(Played {
        holdings: records(&result, counts.records, Leg::from_bytes),
        refused: listed
            .map(|(&number, &index)| Refusal::new(number.into(), FILLS_TABLE, index.into()))
            .collect(),
    })
}

/// The bytes of a table of fills.
pub fn fill_table(fills: &[Fill]) -> Vec<u8> {
    let bytes: Vec<[u8; RECORD_BYTES]> = fills.iter().map(Fill::to_bytes).collect();
    bytes.concat()
}
