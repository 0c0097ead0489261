//! Files to be salvaged.

use usm::{Claim, Leg, Origin, Sheet, Tables};
use usm_kit::accounts::{in_group, leg, placed};
use usm_kit::block::{seal, BLOCK_BYTES};

use crate::random::Random;
use crate::{faults, files, sheets};

/// Forms and accounts that blocks are joined of. In the last one the account is zero, which no file has.
pub fn origins() -> [Origin; 4] {
    [Origin::OLD, Origin::new(7), Origin::new(u64::MAX), Origin::new(0)]
}

/// 16 holdings in blocks 0 and 1, 3 placed legs in block 2, 2 claims in block 3; no two records are alike.
pub fn four_blocks() -> Tables {
    let at = |strike: u32| Leg { strike, ..leg("L60c") };
    let claims = [1, 2].map(|group| Claim { group, margin: 1_000 * i64::from(group) });
    Sheet {
        holdings: (1..=16).map(|strike| in_group(0, at(strike))).collect(),
        claims: claims.into(),
        ..placed(&[at(1), at(2), at(3)], &[])
    }
    .tables()
}

/// A file of each form.
pub fn files_of_four_blocks() -> [Vec<u8>; 2] {
    [Origin::OLD, Origin::new(7)].map(|origin| files::of(&four_blocks(), origin))
}

/// One block of a file, to be changed.
pub fn block(file: &mut [u8], index: usize) -> &mut [u8] {
    &mut file[index * BLOCK_BYTES..][..BLOCK_BYTES]
}

/// The file with one block changed, its sums made to fit.
pub fn changed(file: &[u8], index: usize, change: impl FnOnce(&mut [u8])) -> Vec<u8> {
    let mut file = file.to_vec();
    let block = block(&mut file, index);
    change(block);
    seal(block);
    file
}

/// What the mail and tools may make of a sheet's file: one to a few kinds of damage, often none.
pub fn any(random: &mut Random, mut tables: Tables) -> Vec<u8> {
    if random.one_in(3) {
        faults::one(random, &mut tables);
    }
    let mut file = match random.below(3) {
        0 => files::joined(random, &tables),
        _ => files::of(&tables, files::origin(random)),
    };
    match random.below(6) {
        0 | 1 => shuffle_blocks(random, &mut file),
        2 => repeat_blocks(random, &mut file),
        3 => {
            let other = files::of(&sheets::valid(random).tables(), files::origin(random));
            file.extend_from_slice(&other);
        }
        _ => {}
    }
    for _ in 0..random.below(4) {
        files::damage(random, &mut file);
    }
    if random.one_in(40) {
        file = (0..random.below(3 * BLOCK_BYTES)).map(|_| random.next() as u8).collect();
    }
    file
}

/// Blocks in any order, and so kinds, with their old numbers.
fn shuffle_blocks(random: &mut Random, file: &mut Vec<u8>) {
    let mut blocks: Vec<&[u8]> = file.chunks(BLOCK_BYTES).collect();
    random.shuffle(&mut blocks);
    *file = blocks.concat();
}

/// Some blocks once more, until nearly as many stand there as may.
fn repeat_blocks(random: &mut Random, file: &mut Vec<u8>) {
    let blocks: Vec<Vec<u8>> = file.chunks(BLOCK_BYTES).map(<[u8]>::to_vec).collect();
    for _ in 0..random.pick(&[1, 2, 3, 30, 38]) {
        if let Some(block) = blocks.get(random.below(blocks.len())) {
            file.extend_from_slice(block);
        }
    }
}
