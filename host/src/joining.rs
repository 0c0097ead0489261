//! Two groups of a sheet joined, and claims restated (document 02, [13]).

use crate::calls;
use crate::sheet::{leg_table, Sheet};
use usm_values::{Claim, Refusal};

impl Sheet {
    /// The sheet with the legs of groups `g` and `k` in one group, that of the lower number. The groups above the
    /// higher one move down by one, so that no number is left out; records keep their places. The claims stay as
    /// they are: [`Sheet::claim_margins`] restates them. A group joined with itself stays what it is.
    ///
    /// Refused as [`Sheet::margin`] refuses `g`, or else `k`; whether both together are a spread is not asked.
    pub fn joined(&self, g: u64, k: u64) -> Result<Sheet, Refusal> {
        for group in [g, k] {
            self.margin(group)?;
        }
        let mut joined = self.clone();
        // Both are groups of the placement, so they fit its numbers.
        let (lower, higher) = (g.min(k) as u16, g.max(k) as u16);
        for leg in joined.placement.iter_mut().filter(|leg| lower < higher && leg.group >= higher) {
            leg.group = if leg.group == higher { lower } else { leg.group - 1 };
        }
        Ok(joined)
    }

    /// Claims for groups 1, 2 and so on, up to the highest that is placed, the margins that they have.
    ///
    /// Refused as [`crate::margins`] refuses; then the claims stay.
    pub fn claim_margins(&mut self) -> Result<(), Refusal> {
        let groups = self.placement.iter().map(|leg| leg.group).max().unwrap_or(0);
        let mut margins = vec![0; groups.into()];
        calls::margins(&leg_table(&self.placement), groups.into(), &mut margins)?;
        self.claims = (1..).zip(margins).map(|(group, margin)| Claim { group, margin }).collect();
        Ok(())
    }
}
