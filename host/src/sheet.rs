//! A sheet as Rust values: legs and claims instead of bytes.

use crate::calls;
use usm_values::block::LONGEST_FILE;
use usm_values::{Accepted, Claim, Leg, Origin, Refusal, Table, RECORD_BYTES};

/// An account's holdings, how a member places them in groups, and the margins claimed.
///
/// A vertical of document 01's bench (P1), long the 60 call and short the 50:
///
/// ```
/// use usm::{Accepted, Claim, Leg, Market, OptionType, Reason, Settlement, Sheet, Side, Style};
///
/// let long = Leg {
///     group: 1,
///     side: Side::Long,
///     option_type: OptionType::Call,
///     style: Style::American,
///     market: Market::Listed,
///     unit_size: 100,
///     underlying: 7,
///     strike: 60_000,
///     expiry: 20110521,
///     contracts: 1,
///     settlement: Settlement::NotStated,
///     paid: false,
/// };
/// let short = Leg { side: Side::Short, strike: 50_000, ..long };
/// let mut sheet = Sheet {
///     account: 0,
///     holdings: vec![Leg { group: 0, ..long }, Leg { group: 0, ..short }],
///     placement: vec![long, short],
///     claims: vec![Claim { group: 1, margin: 1_000_000 }],
/// };
/// assert_eq!(sheet.check(), Ok(Accepted { groups: 1, total: 1_000_000, work: 4 }));
/// assert_eq!(sheet.worksheet(1), Ok(vec![(50_000, 0), (60_000, -1_000_000)]));
/// assert_eq!(Sheet::from_file(&sheet.to_file()?), Ok(sheet.clone()));
///
/// sheet.claims[0].margin -= 1;
/// let refusal = sheet.check().unwrap_err();
/// assert_eq!(refusal.reason(), Some(Reason::ClaimNotMargin));
/// assert_eq!(
///     usm::sentences::of_sheet(&sheet, &refusal),
///     "group 1 claims $999.999 (999999 mills); its margin is $1,000.000 (1000000 mills)"
/// );
/// # Ok::<(), usm::Refusal>(())
/// ```
#[derive(Clone, Debug, Default, PartialEq, Eq)]
pub struct Sheet {
    /// The account's number; 0 if the file does not say it, as those of the old form.
    pub account: u64,
    /// What the account holds; every group is 0.
    pub holdings: Vec<Leg>,
    /// The same contracts, each leg in its group or in none.
    pub placement: Vec<Leg>,
    /// The margins claimed for groups 1, 2 and so on.
    pub claims: Vec<Claim>,
}

/// The three tables of a sheet as the bytes that the calls take.
#[derive(Clone, Debug)]
pub struct Tables {
    /// The records of the holdings.
    pub holdings: Vec<u8>,
    /// The records of the placement.
    pub placement: Vec<u8>,
    /// The claims.
    pub claims: Vec<u8>,
}

impl Tables {
    /// All three, in the order in which they stand in a file.
    pub fn in_order(&self) -> [(Table, &[u8]); 3] {
        let Tables { holdings, placement, claims } = self;
        [(Table::Holdings, holdings), (Table::Placement, placement), (Table::Claims, claims)]
    }
}

impl Sheet {
    /// The sheet as tables.
    pub fn tables(&self) -> Tables {
        Tables {
            holdings: leg_table(&self.holdings),
            placement: leg_table(&self.placement),
            claims: claim_table(&self.claims),
        }
    }

    /// The verdict on this sheet.
    pub fn check(&self) -> Result<Accepted, Refusal> {
        let Tables { holdings, placement, claims } = self.tables();
        calls::check_sheet(&holdings, &placement, &claims)
    }

    /// Marks every unplaced long of the placement as paid; answers how many were not. Sheets from before the
    /// mark was asked for go through it.
    pub fn mark_paid(&mut self) -> Result<usize, Refusal> {
        let mut placement = leg_table(&self.placement);
        let marks = calls::mark_paid(&mut placement)?;
        self.placement = records(&placement, self.placement.len(), Leg::from_bytes);
        Ok(marks)
    }

    /// The margin of group `g`, in mills.
    pub fn margin(&self, g: u64) -> Result<i64, Refusal> {
        calls::margin(&leg_table(&self.placement), g)
    }

    /// The cash that group `g` requires in a cash account, in mills.
    pub fn cash(&self, g: u64) -> Result<i64, Refusal> {
        calls::cash(&leg_table(&self.placement), g)
    }

    /// The distinct strikes of group `g`, ascending, each with the net at it.
    pub fn worksheet(&self, g: u64) -> Result<Vec<(u32, i64)>, Refusal> {
        let most_strikes = self.placement.len();
        let (mut strikes, mut nets) = (vec![0; most_strikes], vec![0; most_strikes]);
        let rows = calls::worksheet(&leg_table(&self.placement), g, &mut strikes, &mut nets)?;
        Ok(strikes.into_iter().zip(nets).take(rows).collect())
    }

    /// The sheet as a file: of the new form if it has an account, and of the old form otherwise.
    pub fn to_file(&self) -> Result<Vec<u8>, Refusal> {
        let Tables { holdings, placement, claims } = self.tables();
        let mut file = vec![0; LONGEST_FILE];
        let origin = Origin::of_account(self.account);
        let length = calls::write_file(&holdings, &placement, &claims, origin, &mut file)?;
        file.truncate(length);
        Ok(file)
    }

    /// The sheet in a file of either form, judged only as far as the reader does (1 to 4, 20).
    pub fn from_file(file: &[u8]) -> Result<Sheet, Refusal> {
        Sheet::with_origin(file).map(|(sheet, _)| sheet)
    }

    /// The same, with the form of the file and its account, as the reader answers them.
    pub fn with_origin(file: &[u8]) -> Result<(Sheet, Origin), Refusal> {
        let [mut holdings, mut placement, mut claims] = Table::ALL.map(|table| vec![0; table.most_bytes()]);
        let (counts, origin) = calls::read_file(file, &mut holdings, &mut placement, &mut claims)?;
        let sheet = Sheet {
            account: origin.account,
            holdings: records(&holdings, counts.holdings, Leg::from_bytes),
            placement: records(&placement, counts.placement, Leg::from_bytes),
            claims: records(&claims, counts.claims, Claim::from_bytes),
        };
        Ok((sheet, origin))
    }
}

/// The bytes of a holdings or placement table.
pub fn leg_table(legs: &[Leg]) -> Vec<u8> {
    legs.iter().flat_map(Leg::to_bytes).collect()
}

/// The bytes of a claims table.
pub fn claim_table(claims: &[Claim]) -> Vec<u8> {
    claims.iter().flat_map(Claim::to_bytes).collect()
}

/// The first `count` records of a table that a call has filled: it let only good ones pass.
pub(crate) fn records<T>(
    table: &[u8],
    count: usize,
    from_bytes: impl Fn(&[u8; RECORD_BYTES]) -> Option<T>,
) -> Vec<T> {
    table
        .chunks_exact(RECORD_BYTES)
        .take(count)
        .map(|record| {
            let record = record.try_into().expect("a chunk is one record");
            from_bytes(record).expect("fields out of range are refused")
        })
        .collect()
}
