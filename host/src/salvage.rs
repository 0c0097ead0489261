//! What is whole in a damaged file, as Rust values.

use crate::calls;
use usm_values::block::{LONGEST_FILE, MOST_BLOCKS};
use usm_values::{Reason, Refusal};

/// What could be kept of a damaged file.
#[derive(Clone, Debug, PartialEq, Eq)]
pub struct Salvaged {
    /// A sound file, of the form and account of the first block that was kept.
    pub file: Vec<u8>,
    /// The blocks that were dropped, in file order.
    pub dropped: Vec<Dropped>,
}

/// A block that was dropped.
#[derive(Clone, Copy, Debug, PartialEq, Eq)]
pub struct Dropped {
    /// Its place in the damaged file, from 0.
    pub index: usize,
    /// Why: 2, 3, 4, 20, or 1 for a torn last block.
    pub reason: Reason,
}

/// Keeps each block of a damaged file that is sound by itself, and makes a file of their records by kind. A file
/// that is not damaged comes out the same. Refused are 0 and more than [`LONGEST_FILE`] bytes (1), a file in which
/// no block is sound (2), and blocks that have more records of a kind together than a table takes (3).
///
/// ```
/// use usm::{salvage_file, Claim, Dropped, Reason, Sheet};
///
/// let claims: Vec<Claim> = (1..=20).map(|group| Claim { group, margin: 0 }).collect();
/// let mut file = Sheet { claims: claims.clone(), ..Sheet::default() }.to_file()?;
/// file[20] ^= 1;
/// let salvaged = salvage_file(&file)?;
/// assert_eq!(salvaged.dropped, [Dropped { index: 0, reason: Reason::ChecksDiffer }]);
/// assert_eq!(Sheet::from_file(&salvaged.file)?.claims, claims[15..]);
/// # Ok::<(), usm::Refusal>(())
/// ```
pub fn salvage_file(bytes: &[u8]) -> Result<Salvaged, Refusal> {
    let mut file = vec![0; LONGEST_FILE];
    let (mut indices, mut numbers) = ([0; MOST_BLOCKS], [0; MOST_BLOCKS]);
    let counts = calls::salvage(bytes, &mut file, &mut indices, &mut numbers)?;
    file.truncate(counts.bytes);
    let listed = indices.iter().zip(numbers).take(counts.dropped);
    let dropped = listed.map(|(&index, number)| Dropped {
        index: index as usize,
        reason: Reason::of_number(number.into()).expect("the list has refusal numbers"),
    });
    Ok(Salvaged { file, dropped: dropped.collect() })
}
