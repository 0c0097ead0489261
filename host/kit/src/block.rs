//! Ways to change a block by hand, with its measures.

pub use usm_values::block::*;

/// Makes checks A and B of one block fit its bytes.
pub fn seal(block: &mut [u8]) {
    let (mut a, mut b) = (0u16, 0u16);
    for &byte in &block[..CHECKS_AT] {
        a = a.wrapping_add(u16::from(byte));
        b = b.wrapping_add(a); // byte i is counted 508 - i times
    }
    block[CHECKS_AT..CHECKS_AT + 2].copy_from_slice(&a.to_le_bytes());
    block[CHECKS_AT + 2..BLOCK_BYTES].copy_from_slice(&b.to_le_bytes());
}

/// Makes every block's number, the count of blocks and the checks fit.
pub fn renumber(file: &mut [u8]) {
    let blocks = (file.len() / BLOCK_BYTES) as u16;
    for (number, block) in file.chunks_exact_mut(BLOCK_BYTES).enumerate() {
        block[6..8].copy_from_slice(&(number as u16).to_le_bytes());
        block[8..10].copy_from_slice(&blocks.to_le_bytes());
        seal(block);
    }
}
