//! Refusal 1 of a file, by case.

use usm_values::block::{BLOCK_BYTES, LONGEST_FILE, MOST_BLOCKS};
use usm_values::numbers::{count, grouped};

/// What is wrong with the file's size, if anything is.
pub fn sentence(file: &[u8]) -> Option<String> {
    let (blocks, rest) = (file.len() / BLOCK_BYTES, file.len() % BLOCK_BYTES);
    let most = format!("{MOST_BLOCKS} blocks of {BLOCK_BYTES} bytes");
    if file.is_empty() {
        return Some(format!("the file is empty; a sheet file has 1 to {most}"));
    }
    if file.len() > LONGEST_FILE {
        let longest = grouped(LONGEST_FILE);
        return Some(format!(
            "the file is longer than {longest} bytes, the most that a sheet file has ({most})"
        ));
    }
    (rest > 0).then(|| {
        format!(
            "the file has {}, which is not whole blocks of {BLOCK_BYTES} ({} and {}); \
             part of it may be lost",
            count(file.len() as u64, "byte"),
            count(blocks as u64, "block"),
            count(rest as u64, "byte"),
        )
    })
}
