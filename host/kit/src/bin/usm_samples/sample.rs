//! What a sample is, and what several of them are made of.

use usm::{Leg, Sheet};
use usm_kit::accounts::{in_group, leg, placed};

/// How a sample's file comes from its sheet.
pub enum Making {
    /// Written as it is; the text beside it, which starts with what it shows, makes the same
    /// file.
    FromText { about: &'static str },
    /// Written, then changed in a way no text can ask for.
    Changed(fn(Vec<u8>) -> Vec<u8>),
}

pub struct Sample {
    pub name: &'static str,
    pub sheet: Sheet,
    pub making: Making,
}

pub fn sample(name: &'static str, about: &'static str, sheet: Sheet) -> Sample {
    Sample { name, sheet, making: Making::FromText { about } }
}

/// The account of the samples that are of the new form.
pub const ACCOUNT: u64 = 20_120_827;

pub fn changed(name: &'static str, change: fn(Vec<u8>) -> Vec<u8>) -> Sample {
    let sheet = placed(&iron_condor(2), &[1_000_000, 500_000]);
    Sample { name, sheet, making: Making::Changed(change) }
}

/// P4's legs, puts in group 1 and calls in the given one.
pub fn iron_condor(call_group: u16) -> [Leg; 4] {
    [leg("L50p"), leg("S60p"), in_group(call_group, leg("S65c")), in_group(call_group, leg("L70c"))]
}
