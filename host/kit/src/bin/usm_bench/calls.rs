//! A row of each call, over an input that is made before anything is timed.

use usm::{
    fill_table, leg_table, Accepted, Fill, Leg, Origin, Settlement, Sheet, Style, Table, Tables,
    LONGEST_FILE, MOST_BLOCKS, MOST_CLAIMS, MOST_FILLS, MOST_LEGS,
};

use crate::binaries::{cells, pairs, VALUED};
use crate::row::{folded, row, Row};

/// The account of the files that are of the new form.
pub const ACCOUNT: u64 = 0x0102_0304_0506_0708;

fn total(accepted: Accepted) -> u64 {
    accepted.total as u64
}

pub fn check_sheet(name: &'static str, tables: &Tables) -> Row {
    let Tables { holdings, placement, claims } = tables;
    let work = usm::check_sheet(holdings, placement, claims).ok().map(|accepted| accepted.work);
    let row = row(name, |calls| {
        let Tables { holdings, placement, claims } = tables.clone();
        move || folded((calls.check_sheet)(&holdings, &placement, &claims), total)
    });
    Row { work, ..row }
}

pub fn check_file(name: &'static str, file: &[u8]) -> Row {
    let work = usm::check_file(file).ok().map(|accepted| accepted.work);
    let row = row(name, |calls| {
        let file = file.to_vec();
        move || folded((calls.check_file)(&file), total)
    });
    Row { work, ..row }
}

pub fn file_table(name: &'static str, file: &[u8]) -> Row {
    row(name, |calls| {
        let file = file.to_vec();
        move || (calls.file_table)(&file).len() as u64
    })
}

pub fn margin(name: &'static str, legs: &[Leg]) -> Row {
    row(name, |calls| {
        let placement = leg_table(legs);
        move || folded((calls.margin)(&placement, 1), |margin| margin as u64)
    })
}

pub fn cash(name: &'static str, legs: &[Leg]) -> Row {
    row(name, |calls| {
        let legs: Vec<Leg> = legs
            .iter()
            .map(|leg| Leg { style: Style::European, settlement: Settlement::Cash, ..*leg })
            .collect();
        let placement = leg_table(&legs);
        move || folded((calls.cash)(&placement, 1), |cash| cash as u64)
    })
}

pub fn margins(name: &'static str, sheet: &Sheet) -> Row {
    row(name, |calls| {
        let (placement, n) = (leg_table(&sheet.placement), sheet.claims.len() as u64);
        let mut out = [0; MOST_CLAIMS];
        move || folded((calls.margins)(&placement, n, &mut out), |groups| groups as u64)
    })
}

pub fn worksheet(name: &'static str, sheet: &Sheet) -> Row {
    row(name, |calls| {
        let placement = leg_table(&sheet.placement);
        let (mut strikes, mut nets) = ([0; MOST_LEGS], [0; MOST_LEGS]);
        move || folded((calls.worksheet)(&placement, 1, &mut strikes, &mut nets), |rows| rows as u64)
    })
}

pub fn read_file(name: &'static str, file: &[u8]) -> Row {
    row(name, |calls| {
        let file = file.to_vec();
        let [mut holdings, mut placement, mut claims] = Table::ALL.map(|table| vec![0; table.most_bytes()]);
        move || {
            let counts = (calls.read_file)(&file, &mut holdings, &mut placement, &mut claims);
            folded(counts, |(counts, _)| (counts.holdings + counts.placement + counts.claims) as u64)
        }
    })
}

pub fn write_file(name: &'static str, sheet: &Sheet) -> Row {
    row(name, |calls| {
        let Tables { holdings, placement, claims } = sheet.tables();
        let origin = Origin::of_account(sheet.account);
        let mut out = vec![0; LONGEST_FILE];
        move || {
            let length = (calls.write_file)(&holdings, &placement, &claims, origin, &mut out);
            folded(length, |length| length as u64)
        }
    })
}

/// The table is copied anew for each call, so that there are marks to set.
pub fn mark_paid(name: &'static str, legs: &[Leg]) -> Row {
    row(name, |calls| {
        let placement = leg_table(legs);
        let mut marked = placement.clone();
        move || {
            marked.copy_from_slice(&placement);
            folded((calls.mark_paid)(&mut marked), |marks| marks as u64)
        }
    })
}

pub fn move_to_new(name: &'static str, file: &[u8]) -> Row {
    row(name, |calls| {
        let file = file.to_vec();
        let mut out = vec![0; LONGEST_FILE];
        move || folded((calls.move_to_new)(&file, ACCOUNT, &mut out), |length| length as u64)
    })
}

pub fn move_to_old(name: &'static str, file: &[u8]) -> Row {
    row(name, |calls| {
        let file = file.to_vec();
        let mut out = vec![0; LONGEST_FILE];
        move || folded((calls.move_to_old)(&file, &mut out), |length| length as u64)
    })
}

pub fn play_fills(name: &'static str, holdings: &[Leg], fills: &[Fill]) -> Row {
    row(name, |calls| {
        let (holdings, fills) = (leg_table(holdings), fill_table(fills));
        let mut result = vec![0; Table::Holdings.most_bytes()];
        let (mut indices, mut numbers) = ([0; MOST_FILLS], [0; MOST_FILLS]);
        move || {
            let counts = (calls.play_fills)(&holdings, &fills, &mut result, &mut indices, &mut numbers);
            folded(counts, |counts| (counts.records << 16 | counts.refused) as u64)
        }
    })
}

pub fn salvage(name: &'static str, bytes: &[u8]) -> Row {
    row(name, |calls| {
        let bytes = bytes.to_vec();
        let mut out = vec![0; LONGEST_FILE];
        let (mut indices, mut numbers) = ([0; MOST_BLOCKS], [0; MOST_BLOCKS]);
        move || {
            let counts = (calls.salvage)(&bytes, &mut out, &mut indices, &mut numbers);
            folded(counts, |counts| (counts.bytes << 16 | counts.dropped) as u64)
        }
    })
}

/// The cells come up in turn, so that no side learns the answer by heart.
pub fn binary_margin(name: &'static str) -> Row {
    row(name, |calls| {
        let mut turns = cells().into_iter().cycle();
        move || {
            let (side, of) = turns.next().expect("it never ends");
            let margin = (calls.binary_margin)(side, of.spread, VALUED, of.expiry, of.contracts);
            folded(margin, |margin| margin as u64)
        }
    })
}

pub fn binary_pair(name: &'static str) -> Row {
    row(name, |calls| {
        let mut turns = pairs().into_iter().cycle();
        move || {
            let (long, short) = turns.next().expect("it never ends");
            folded((calls.binary_pair)(VALUED, long, short), |margin| margin as u64)
        }
    })
}

/// A thousand different files in turn, as a nightly run meets them.
pub fn check_files(name: &'static str, files: &[Vec<u8>]) -> Row {
    row(name, |calls| {
        let files = files.to_vec();
        let mut turns = (0..files.len()).cycle();
        move || folded((calls.check_file)(&files[turns.next().expect("it never ends")]), total)
    })
}
