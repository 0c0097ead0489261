//! Lists of option symbols that are timed, in and out.

use usm::{leg_table, list_of_holdings, root_table, Leg, Root, Table, LONGEST_LIST, MOST_LINES, MOST_ROOTS};
use usm_kit::accounts::{in_group, leg, root};

use crate::row::{folded, row, Row};

/// As many as a member trades on a day.
const FEW_ROOTS: usize = 8;

/// Roots of so many underlyings.
fn roots(count: usize) -> Vec<Root> {
    let numbered = |underlying: u32| Root { underlying, ..root(&format!("R{underlying}")) };
    (1..=count as u32).map(numbered).collect()
}

/// As many holdings as a table takes, in lines of all lengths, over these roots in mixed order.
fn holdings(roots: &[Root]) -> Vec<Leg> {
    let held = |index: usize| Leg {
        // 101 has no common factor with any count used here, so each root comes up.
        underlying: roots[index * 101 % roots.len()].underlying,
        strike: 50_000 + 250 * index as u32,
        contracts: 10_u32.pow(index as u32 % 6),
        ..in_group(0, leg("L50c"))
    };
    (0..MOST_LINES).map(held).collect()
}

/// The list of these holdings, taken by a table of roots.
fn import(name: &'static str, legs: &[Leg], written_by: &[Root], taken_by: &[Root]) -> Row {
    row(name, |calls| {
        let list = list_of_holdings(written_by, legs).expect("a list to be timed can be written");
        let roots = root_table(taken_by);
        let mut holdings = vec![0; Table::Holdings.most_bytes()];
        move || folded((calls.import)(&roots, &list, &mut holdings), |records| records as u64)
    })
}

fn export(name: &'static str, legs: &[Leg], roots: &[Root]) -> Row {
    row(name, |calls| {
        let (roots, holdings) = (root_table(roots), leg_table(legs));
        let mut list = vec![0; LONGEST_LIST];
        move || folded((calls.export)(&roots, &holdings, &mut list), |length| length as u64)
    })
}

pub fn rows() -> Vec<Row> {
    let (few, all) = (roots(FEW_ROOTS), roots(MOST_ROOTS));
    let (of_few, of_all) = (holdings(&few), holdings(&all));
    let mut rows = vec![
        import("import 256 lines (8 roots)", &of_few, &few, &few),
        export("export 256 records (8 roots)", &of_few, &few),
        import("import 256 lines (256 roots)", &of_all, &all, &all),
        export("export 256 records (256 roots)", &of_all, &all),
    ];
    // Only the last line is of the root that is not there, so that all others are looked for, too.
    let missed = of_all[MOST_LINES - 1].underlying;
    let others: Vec<Root> = all.iter().copied().filter(|root| root.underlying != missed).collect();
    rows.push(import("refused: last line's root not there (24)", &of_all, &all, &others));
    rows.push(export("refused: last record's terms not there (24)", &of_all, &others));
    rows
}
