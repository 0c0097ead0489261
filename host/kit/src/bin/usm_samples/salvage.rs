//! A file with one bad block, and what is salvaged of it.

use usm::{salvage_file, sentences, Leg, Salvaged};
use usm_kit::accounts::{leg, placed};
use usm_kit::block::{BLOCK_BYTES, RECORDS_AT};
use usm_kit::fields::STRIKE;

/// Ten times the vertical: 20 holdings in blocks 0 and 1, 20 placed legs in 2 and 3, and a claim in block 4. On
/// its way a strike in block 3 changes.
fn damaged() -> Result<Vec<u8>, String> {
    let pair = [leg("L60c"), leg("S50c")];
    let legs: Vec<Leg> = pair.iter().cycle().take(20).copied().collect();
    let mut file = placed(&legs, &[10_000_000]).to_file().map_err(|refusal| refusal.to_string())?;
    file[3 * BLOCK_BYTES + RECORDS_AT + STRIKE.0] ^= 1;
    Ok(file)
}

/// The names and the bytes of the samples: the damaged file, the sound one, and what is said of the dropped block.
pub fn files() -> Result<[(&'static str, Vec<u8>); 3], String> {
    let damaged = damaged()?;
    let Salvaged { file, dropped } = salvage_file(&damaged).map_err(|refusal| refusal.to_string())?;
    let sentences = sentences::of_dropped(&damaged, &dropped);
    let told = sentences.into_iter().chain(sentences::of_left_out(&damaged, &dropped));
    let told: String = told.map(|sentence| sentence + "\n").collect();
    Ok([("one-bad-block.usm", damaged), ("salvaged.usm", file), ("dropped.txt", told.into_bytes())])
}
