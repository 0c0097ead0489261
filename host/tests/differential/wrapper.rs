//! The safe wrapper against the model: what it answers, and what it leaves in what it is lent.

use std::fmt::Display;

use usm::{Accepted, Origin, PlayCounts, RecordCounts, Refusal, Table, Tables, MOST_CLAIMS};
use usm_kit::block::LONGEST_FILE;
use usm_kit::both::{Calls, LIBRARY, MODEL};

use crate::fills::Day;
use crate::symbols::World;

/// What a file holds and where it comes from, with the three lent tables.
type Read = (Result<(RecordCounts, Origin), Refusal>, [[u8; 200]; 3]);

/// The answers of every call, each with its lent buffers.
#[derive(Debug, PartialEq)]
struct Answers {
    check_table: Result<usize, Refusal>,
    margin: Result<i64, Refusal>,
    cash: Result<i64, Refusal>,
    mark_paid: (Result<usize, Refusal>, Vec<u8>),
    margins: (Result<usize, Refusal>, [i64; MOST_CLAIMS]),
    worksheet: (Result<usize, Refusal>, [u32; 8], [i64; 8]),
    check_sheet: Result<Accepted, Refusal>,
    check_file: Result<Accepted, Refusal>,
    read_file: Read,
    write_file: (Result<usize, Refusal>, Vec<u8>),
    move_to_new: (Result<usize, Refusal>, Vec<u8>),
    move_to_old: (Result<usize, Refusal>, Vec<u8>),
    file_line: String,
    file_table: String,
}

fn answers(calls: Calls, tables: &Tables, file: &[u8], g: u64) -> Answers {
    let Tables { holdings, placement, claims } = tables;
    let mut margins = [-1; MOST_CLAIMS];
    let (mut strikes, mut nets) = ([1; 8], [-1; 8]);
    let [mut held, mut placed, mut claimed] = [[1; 200]; 3];
    let [mut out, mut new, mut old] = [vec![1; LONGEST_FILE], vec![1; LONGEST_FILE], vec![1; LONGEST_FILE]];
    let origin = Origin::of_account(g);
    let mut marked = placement.clone();
    Answers {
        check_table: (calls.check_table)(Table::Placement, placement),
        margin: (calls.margin)(placement, g),
        cash: (calls.cash)(placement, g),
        mark_paid: ((calls.mark_paid)(&mut marked), marked),
        margins: ((calls.margins)(placement, g, &mut margins), margins),
        worksheet: ((calls.worksheet)(placement, g, &mut strikes, &mut nets), strikes, nets),
        check_sheet: (calls.check_sheet)(holdings, placement, claims),
        check_file: (calls.check_file)(file),
        read_file: ((calls.read_file)(file, &mut held, &mut placed, &mut claimed), [held, placed, claimed]),
        write_file: ((calls.write_file)(holdings, placement, claims, origin, &mut out), out),
        move_to_new: ((calls.move_to_new)(file, g, &mut new), new),
        move_to_old: ((calls.move_to_old)(file, &mut old), old),
        file_line: (calls.file_line)(file),
        file_table: (calls.file_table)(file),
    }
}

/// What fills make of holdings, with the lent buffers.
type Played = (Result<PlayCounts, Refusal>, Vec<u8>, Vec<u32>, Vec<u8>);

pub fn plays_alike(case: &dyn Display, day: &Day) {
    let played = |calls: Calls| -> Played {
        let mut result = vec![1; day.result_room];
        let (mut indices, mut numbers) = (vec![1; day.list_rooms[0]], vec![1; day.list_rooms[1]]);
        let counts = (calls.play_fills)(&day.holdings, &day.fills, &mut result, &mut indices, &mut numbers);
        (counts, result, indices, numbers)
    };
    assert!(played(LIBRARY) == played(MODEL), "{case}: wrapper and model differ in a day of fills");
}

/// Both calls on a world, in buffers that its list and its holdings fill.
pub fn lists_alike(case: &dyn Display, world: &World) {
    let both = |calls: Calls| {
        let (mut holdings, mut list) = (vec![1; world.holdings.len()], vec![1; world.list.len()]);
        let imported = (calls.import)(&world.roots, &world.list, &mut holdings);
        let exported = (calls.export)(&world.roots, &world.holdings, &mut list);
        (imported, holdings, exported, list)
    };
    assert!(both(LIBRARY) == both(MODEL), "{case}: wrapper and model differ in a list");
}

pub fn answers_alike(case: &dyn Display, tables: &Tables, file: &[u8], g: u64) {
    let [library, model] = [LIBRARY, MODEL].map(|calls| answers(calls, tables, file, g));
    assert!(library == model, "{case}: group {g}: wrapper and model differ\n{library:?}\n{model:?}");
}
