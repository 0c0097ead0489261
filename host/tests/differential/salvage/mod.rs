//! Damaged files salvaged: every way to damage a block, one by one, and damage of all kinds at random.

mod compare;
mod inputs;
mod laws;
mod one_block;
mod whole_file;

use compare::{listed, salvage, salvage_into, wrapper, Found, Rooms};
use inputs::{any, changed, files_of_four_blocks};
use usm::{Refusal, BLOCK_BYTES};
use usm_kit::block::{ACCOUNT_AT, ACCOUNT_END, RECORDS_AT};

use crate::cases::run;
use crate::{files, sheets};

/// What is counted are the answers of the call and the numbers that it lists.
#[test]
fn salvaged_files() {
    run("salvaged_files", 6, &[0, 1, 2, 3, 4, 17, 20], |case, random, tally| {
        let tables = sheets::valid(random).tables();
        let sound = files::of(&tables, files::origin(random));
        if !sound.is_empty() {
            laws::undamaged_stays(case, &sound);
        }
        let file = any(random, tables);
        let (needed, list) = match salvage(case, &file) {
            Ok(Found { bytes, list }) => {
                tally.count(0);
                list.iter().for_each(|(_, number)| tally.count(u64::from(*number)));
                (bytes, list.len())
            }
            Err(refusal) => {
                tally.count(refusal.number);
                (BLOCK_BYTES, 2)
            }
        };
        laws::hold(case, &file);
        let rooms = Rooms { file: random.room(needed), list: [random.room(list), random.room(list)] };
        if let Err(refusal) = salvage_into(case, &file, rooms) {
            tally.count(refusal.number);
        }
        if case.index % 16 == 0 {
            wrapper(case, &file, rooms);
        }
    });
}

/// Each refusal of the call, and each number that its list can have.
#[test]
fn every_refusal_and_every_number_of_the_list_is_met() {
    let [old, new] = files_of_four_blocks();
    let mut damaged = old.clone();
    damaged[20] ^= 1;
    let claims = old[3 * BLOCK_BYTES..].repeat(17);
    let refused = [
        salvage(&"no byte", &[]),
        salvage(&"less than a block", &old[..100]),
        salvage(&"34 claims", &claims),
        salvage_into(&"a byte short", &old, Rooms { file: old.len() - 1, list: [0, 0] }),
        salvage_into(&"no list", &damaged, Rooms { file: old.len(), list: [0, 0] }),
    ];
    let refusals = [(1, 0), (2, 0), (3, 0), (17, 2_048), (17, 1)];
    assert_eq!(refused, refusals.map(|(number, place)| Err(Refusal::new(number, 0, place))));

    let tried = [
        old[..600].to_vec(),
        damaged,
        changed(&old, 1, |block| block[15] = 1),
        changed(&old, 1, |block| block[RECORDS_AT + 2] = 3),
        changed(&new, 0, |block| block[ACCOUNT_AT..ACCOUNT_END].fill(0)),
        [&new[..], &old[..BLOCK_BYTES]].concat(),
    ];
    let lists = tried.map(|bytes| listed(&bytes));
    assert_eq!(lists, [[(1, 1)], [(0, 2)], [(1, 3)], [(1, 4)], [(0, 20)], [(4, 20)]]);
}
