//! What a call answers: acceptance, counts, or the first refusal in the order of documents 01 and 02.

mod short;

use std::error::Error;
use std::fmt;

use crate::reason::Reason;

/// An accepted sheet: claims 1 to `groups`, the sum of their margins, and the work that these were.
#[derive(Clone, Copy, Debug, PartialEq, Eq)]
pub struct Accepted {
    /// How many groups there are.
    pub groups: u64,
    /// The sum of their margins, in mills.
    pub total: i64,
    /// How many intrinsic values were worked out for them: one for each leg of a group and each distinct strike of
    /// that group.
    pub work: u64,
}

/// How many records of each kind a file holds.
#[derive(Clone, Copy, Debug, PartialEq, Eq)]
pub struct RecordCounts {
    /// Records of the holdings.
    pub holdings: usize,
    /// Records of the placement.
    pub placement: usize,
    /// Claims.
    pub claims: usize,
}

/// What became of a day's fills.
#[derive(Clone, Copy, Debug, PartialEq, Eq)]
pub struct PlayCounts {
    /// Records of the holdings that came out.
    pub records: usize,
    /// Fills that were refused, each of which changed nothing.
    pub refused: usize,
}

/// What became of a damaged file.
#[derive(Clone, Copy, Debug, PartialEq, Eq)]
pub struct SalvageCounts {
    /// Bytes of the sound file that came out.
    pub bytes: usize,
    /// Entries of the list: blocks that were dropped, a torn last one included.
    pub dropped: usize,
}

/// A refusal: the first that applies in the order of documents 01 and 02.
///
/// Its `Display` is a sentence for people, in which blocks and records count as people count, from the
/// 1st; the module `sentences` of the wrapper says more where the file or the sheet is at hand. [`Refusal::line`] is what
/// `usm_check` prints.
#[derive(Clone, Copy, Debug, PartialEq, Eq)]
pub struct Refusal {
    /// 1 to 25.
    pub number: u64,
    /// 0 none, 1 holdings, 2 placement, 3 claims, 4 fills, 5 roots, 6 list.
    pub table: u64,
    /// A block, a record, a line, a root, a group or a count, by the number.
    pub place: u64,
}

impl Refusal {
    /// The refusal of these three numbers.
    pub fn new(number: u64, table: u64, place: u64) -> Refusal {
        Refusal { number, table, place }
    }

    /// The name of its number; none if documents 01 and 02 have no such number.
    pub fn reason(&self) -> Option<Reason> {
        Reason::of_number(self.number)
    }

    /// The line `REFUSE number table place` with its newline.
    pub fn line(&self) -> String {
        format!("REFUSE {} {} {}\n", self.number, self.table, self.place)
    }
}

impl Accepted {
    /// The line `ACCEPT groups total` with its newline; it does not tell the work.
    pub fn line(&self) -> String {
        format!("ACCEPT {} {}\n", self.groups, self.total)
    }
}

impl fmt::Display for Refusal {
    fn fmt(&self, f: &mut fmt::Formatter<'_>) -> fmt::Result {
        match self.reason() {
            Some(reason) => write!(f, "{}", short::sentence(reason, self.table, self.place)),
            None => write!(f, "refusal {}, table {}, place {}", self.number, self.table, self.place),
        }
    }
}

impl Error for Refusal {}

#[cfg(test)]
mod tests {
    use super::*;

    #[test]
    fn lines_are_those_of_document_01() {
        assert_eq!(Refusal::new(16, 3, 2).line(), "REFUSE 16 3 2\n");
        assert_eq!(Accepted { groups: 2, total: 1_500_000, work: 8 }.line(), "ACCEPT 2 1500000\n");
        assert_eq!(Refusal::new(99, 1, 2).to_string(), "refusal 99, table 1, place 2");
    }
}
