//! A case tried: every call on its tables and on its file.

use std::collections::BTreeSet;

use usm::{Form, Tables};
use usm_kit::fields::{get, records, GROUP, STRIKE};

use crate::cases::{Case, Tally};
use crate::random::Random;
use crate::{compare, files, wrapper};

/// All calls that take tables, then those on the file they make.
pub fn try_tables(case: &Case, random: &mut Random, tables: &Tables, tally: &mut Tally) {
    let claims = records(&tables.claims);
    for (which, table) in tables.in_order() {
        tally.count(compare::check_table(case, which.number(), table));
    }
    let odd_kind = random.pick(&[0, 1, 2, 3, 4, 257, u64::MAX]);
    compare::check_table(case, odd_kind, &tables.holdings);

    let strange = [0, 33, 256, 1 << 32, u64::MAX];
    let g = if random.one_in(6) { random.pick(&strange) } else { 1 + random.below(claims.max(1)) as u64 };
    tally.count(compare::margin(case, &tables.placement, g));
    tally.count(compare::cash(case, &tables.placement, g));
    let n = if random.one_in(6) { random.pick(&strange) } else { claims as u64 };
    tally.count(compare::margins(case, &tables.placement, n, random.room(claims)));
    let strikes = strikes_of(&tables.placement, g);
    let (strikes_room, nets_room) = (random.room(strikes), random.room(strikes));
    tally.count(compare::worksheet(case, &tables.placement, g, strikes_room, nets_room));

    tally.count(compare::mark_paid(case, &tables.placement));
    tally.count(compare::check_sheet(case, tables));
    let origin = files::origin(random);
    let file = files::of(tables, origin);
    let as_numbers = match random.below(24) {
        0 => [random.pick(&[0, 3, 257, 1 << 32, u64::MAX]), origin.account],
        1 => [Form::New.number(), 0],
        2 => [Form::Old.number(), random.next()],
        _ => [origin.form.number(), origin.account],
    };
    tally.count(compare::write_file(case, tables, as_numbers, random.room(file.len())));
    try_file(case, random, &file, tables, tally);
    if case.index % 16 == 0 {
        wrapper::answers_alike(case, tables, &file, g);
    }
}

/// All calls that take a file; `tables` only tells how much room is of interest.
pub fn try_file(case: &Case, random: &mut Random, file: &[u8], tables: &Tables, tally: &mut Tally) {
    tally.count(compare::check_file(case, file));
    let needed = tables.in_order().map(|(_, table)| table.len());
    let rooms = if random.one_in(2) {
        needed.map(|length| length + 9)
    } else {
        needed.map(|length| random.room(length))
    };
    tally.count(compare::read_file(case, file, rooms));
    compare::file_line(case, file);
    compare::file_table(case, file);
    let account = if random.one_in(6) { 0 } else { random.next() >> random.below(64) };
    tally.count(compare::move_to_new(case, file, account, random.room(file.len())));
    tally.count(compare::move_to_old(case, file, random.room(file.len())));
}

/// How many distinct strikes a group has, for the choice of room only.
fn strikes_of(placement: &[u8], g: u64) -> usize {
    let legs = (0..records(placement)).filter(|&record| get(placement, record, GROUP) == g);
    let strikes: BTreeSet<u64> = legs.map(|record| get(placement, record, STRIKE)).collect();
    strikes.len()
}
