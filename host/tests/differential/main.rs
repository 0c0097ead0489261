//! The library against the independent model, on random input of every kind.
//!
//! `USM_CASES` sets how many cases are tried in all (100,000 unless said), `USM_SEED` the
//! seed (1 unless said). A failure names both, the family and the case; `USM_ONLY` tries a
//! single case again.

#![forbid(unsafe_code)]

mod binaries;
mod boxes;
mod cases;
mod cash;
mod compare;
mod dates;
mod faults;
mod files;
mod fills;
mod joining;
mod laws;
mod pointing;
mod random;
mod salvage;
mod sheets;
mod shortness;
mod spreads;
mod symbols;
mod tries;
mod values;
mod worlds;
mod wrapper;

use cases::{run, Tally};
use tries::{try_file, try_tables};
use usm::{leg_table, Side, MOST_LEGS};
use usm_kit::fields::{get, SIDE};
use usm_kit::model;

/// Every answer but 2, which tables cannot bring about: their files are sealed.
const ALL_BUT_DAMAGE: [usize; 19] = [0, 1, 3, 4, 5, 6, 7, 8, 9, 10, 11, 12, 13, 14, 15, 16, 17, 20, 21];

#[test]
fn valid_sheets() {
    run("valid_sheets", 10, &[0, 3, 6, 17, 20], |case, random, tally| {
        let sheet = sheets::valid(random);
        let tables = sheet.tables();
        assert_eq!(compare::check_sheet(case, &tables), 0, "{case}: a sheet that should be accepted");
        laws::margins_cover_every_price(case, random, &sheet);
        laws::margins_are_reached(case, &sheet);
        laws::work_is_within_its_limit(case, &sheet);
        laws::moves_go_round(case, &tables, files::origin(random));
        laws::the_pass_takes_old_sheets(case, random, &sheet);
        if sheet.claims.len() > 1 {
            joining::never_costs_more(case, random, &sheet);
        }
        try_tables(case, random, &tables, tally);
    });
}

#[test]
fn one_fault() {
    run("one_fault", 12, &ALL_BUT_DAMAGE, |case, random, tally| {
        let mut tables = sheets::valid(random).tables();
        faults::one(random, &mut tables);
        try_tables(case, random, &tables, tally);
    });
}

#[test]
fn two_or_more_faults() {
    run("two_or_more_faults", 11, &ALL_BUT_DAMAGE, |case, random, tally| {
        let mut tables = sheets::valid(random).tables();
        for _ in 0..2 + random.below(2) {
            faults::one(random, &mut tables);
        }
        try_tables(case, random, &tables, tally);
    });
}

#[test]
fn garbage_tables() {
    run("garbage_tables", 4, &[0, 1, 4], |case, random, tally| {
        let tables = worlds::garbage(random);
        try_tables(case, random, &tables, tally);
    });
}

#[test]
fn tiny_worlds() {
    run("tiny_worlds", 8, &[0, 5, 6, 7, 8, 9, 10, 11, 12, 13, 14, 15, 16, 17], |case, random, tally| {
        let tables = worlds::tiny_world(random);
        try_tables(case, random, &tables, tally);
    });
}

/// European long boxes and what is nearly one: only the margin tells them apart.
#[test]
fn near_boxes() {
    run("near_boxes", 6, &[0, 8, 10, 11, 12, 13, 16], |case, random, tally| {
        let sheet = boxes::sheet(random);
        if sheet.check().is_ok() {
            laws::margins_cover_every_price(case, random, &sheet);
            laws::margins_are_reached(case, &sheet);
        }
        try_tables(case, random, &sheet.tables(), tally);
    });
}

/// Groups that may be joined, or nearly, and two of them in one. What is counted is what becomes of the join.
#[test]
fn joined_groups() {
    run("joined_groups", 4, &[0, 7, 8, 9, 10, 13], |case, random, tally| {
        let sheet = joining::sheet(random);
        tally.count(joining::never_costs_more(case, random, &sheet));
    });
}

/// Groups that are fit for a cash account, or nearly.
#[test]
fn cash_groups() {
    run("cash_groups", 5, &[0, 10, 11, 12, 13, 21], |case, random, tally| {
        let sheet = cash::sheet(random);
        for claim in &sheet.claims {
            let group = u64::from(claim.group);
            tally.count(compare::cash(case, &leg_table(&sheet.placement), group));
            laws::cash_is_the_worst_loss(case, &sheet, group);
        }
        try_tables(case, random, &sheet.tables(), tally);
    });
}

/// Groups that break 7, 8, 9, 10 or 13 on purpose. What is counted are these refusals where they point at a leg of
/// this side, and at a record that is not the group's number.
fn pointed_legs(family: &'static str, side: Side) {
    run(family, 4, &pointing::NUMBERS.map(|number| number as usize), |case, random, tally| {
        let (sheet, group) = pointing::sheet(random);
        let (mut tables, group) = (sheet.tables(), u64::from(group));
        if random.one_in(8) {
            faults::one(random, &mut tables);
        }
        compare::margin(case, &tables.placement, group);
        compare::cash(case, &tables.placement, group);
        compare::worksheet(case, &tables.placement, group, MOST_LEGS, MOST_LEGS);
        try_tables(case, random, &tables, &mut Tally::default());
        let refusal = model::margin(&tables.placement, group).err();
        if let Some(refusal) = refusal.filter(|refusal| pointing::NUMBERS.contains(&refusal.number)) {
            laws::the_leg_breaks_it(case, &tables.placement, group, &refusal);
            let pointed = get(&tables.placement, refusal.place as usize, SIDE);
            if pointed == side as u64 && refusal.place != group {
                tally.count(refusal.number);
            }
        }
    });
}

#[test]
fn pointed_longs() {
    pointed_legs("pointed_longs", Side::Long);
}

#[test]
fn pointed_shorts() {
    pointed_legs("pointed_shorts", Side::Short);
}

/// Days of fills. What is counted are the answers of the call and the numbers that it lists.
#[test]
fn days_of_fills() {
    run("days_of_fills", 9, &[0, 1, 4, 17, 18, 19], |case, random, tally| {
        let day = fills::day(random);
        let answer = compare::play_fills(case, &day, |listed| tally.count(listed));
        tally.count(answer);
        laws::a_day_of_no_fills_changes_nothing(case, &day);
        if case.index % 16 == 0 {
            wrapper::plays_alike(case, &day);
        }
    });
}

/// Lists of option symbols, good ones and damaged ones, made into holdings.
#[test]
fn lists_in() {
    run("lists_in", 7, &[0, 1, 4, 17, 22, 23, 24], |case, random, tally| {
        let mut world = symbols::world(random);
        let needed = world.holdings.len();
        if random.one_in(2) {
            symbols::damage::some(random, &mut world);
        }
        tally.count(compare::import(case, &world.roots, &world.list, random.room(needed)));
        laws::lists_go_round(case, &world.roots, &world.list);
        if case.index % 16 == 0 {
            wrapper::lists_alike(case, &world);
        }
    });
}

/// Holdings, good ones and damaged ones, written as lists.
#[test]
fn lists_out() {
    run("lists_out", 6, &[0, 1, 4, 17, 23, 24], |case, random, tally| {
        let mut world = symbols::world(random);
        let needed = world.list.len();
        if random.one_in(2) {
            symbols::damage::some(random, &mut world);
        }
        tally.count(compare::export(case, &world.roots, &world.holdings, random.room(needed)));
        laws::holdings_go_round(case, &world.roots, &world.holdings);
    });
}

/// Credit event binaries, one and in pairs.
#[test]
fn credit_event_binaries() {
    run("credit_event_binaries", 20, &[0, 4, 25], |case, random, tally| {
        let given = binaries::any(random);
        let long = given.long;
        let numbers = [given.side, long.spread, given.valuation, long.expiry, long.contracts];
        tally.count(binaries::margin(case, numbers));
        tally.count(binaries::pair(case, &given));
        binaries::answers_alike(case, &given);
        binaries::laws::a_short_needs_twice_what_a_long_does(case, &given);
        binaries::laws::margins_grow(case, random, &given);
        binaries::laws::a_pair_never_needs_more_than_apart(case, &given);
    });
}

/// Blocks of two accounts or of two forms in one file.
#[test]
fn joined_files() {
    run("joined_files", 5, &[0, 3, 17, 20], |case, random, tally| {
        let tables = sheets::valid(random).tables();
        let mut file = files::joined(random, &tables);
        if random.one_in(4) {
            files::damage(random, &mut file);
        }
        try_file(case, random, &file, &tables, tally);
    });
}

#[test]
fn damaged_files() {
    let wanted = [0, 1, 2, 3, 4, 5, 6, 10, 11, 12, 14, 17, 20];
    run("damaged_files", 10, &wanted, |case, random, tally| {
        let mut tables = sheets::valid(random).tables();
        if random.one_in(4) {
            faults::one(random, &mut tables);
        }
        let mut file = files::of(&tables, files::origin(random));
        for _ in 0..1 + random.below(2) {
            files::damage(random, &mut file);
        }
        try_file(case, random, &file, &tables, tally);
    });
}
