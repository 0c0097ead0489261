//! Each call of the library against the model: the four numbers of the answer, and the
//! whole content of every lent buffer. The raw C interface is called, with guards.

use std::fmt::{Debug, Display};

use usm::ffi::{self, Answer, LINE_BYTES, TABLE_BYTES};
use usm::{Accepted, Form, Origin, PlayCounts, Refusal, Table, Tables, RECORD_BYTES};
use usm_kit::lent::Lent;
use usm_kit::model;

use crate::fills::Day;

/// What no answer ever holds.
const UNWRITTEN: u64 = 0xFEED_FACE_CAFE_BEEF;

/// The four numbers that a call makes its answer, if the guards around them stayed and the first is what it returned.
pub fn answer_of(call: impl FnOnce(&mut Answer) -> u64) -> Option<Answer> {
    let mut numbers = [UNWRITTEN; 6];
    let returned = call((&mut numbers[1..5]).try_into().expect("four numbers"));
    let [before, answer @ .., behind] = numbers;
    (before == UNWRITTEN && behind == UNWRITTEN && returned == answer[0]).then_some(answer)
}

/// The four numbers a result stands for.
pub fn numbers<T: Copy>(result: &Result<T, Refusal>, of_success: impl Fn(T) -> [u64; 3]) -> Answer {
    match result {
        Ok(success) => {
            let [first, second, third] = of_success(*success);
            [0, first, second, third]
        }
        Err(refusal) => [refusal.number, refusal.table, refusal.place, 0],
    }
}

/// Fails unless the library's answer is the model's; hands back the refusal number or 0.
pub fn same(case: &dyn Display, call: &str, library: Option<Answer>, model: Answer) -> u64 {
    assert_eq!(library, Some(model), "{case}: {call}: library (left) and model (right) differ");
    model[0]
}

/// Fails unless a lent buffer holds what the model made of it, and no more was written.
pub fn same_buffer<T>(case: &dyn Display, call: &str, library: &Lent<T>, model: &Lent<T>, output: usize)
where
    T: Copy + From<u8> + PartialEq + Debug,
{
    assert!(library == model, "{case}: {call}: buffers differ\nlibrary {library:?}\nmodel   {model:?}");
    assert!(model.stayed_past(output), "{case}: {call}: both wrote past their output of {output}");
}

/// A call that fills one lent buffer: `unit` entries for each of what it counts.
fn same_output<T>(
    case: &dyn Display,
    call: &str,
    (room, unit): (usize, usize),
    library: impl FnOnce(&mut [T], &mut Answer) -> u64,
    model: impl FnOnce(&mut [T]) -> Result<usize, Refusal>,
) -> u64
where
    T: Copy + From<u8> + PartialEq + Debug,
{
    let mut out = Lent::of_length(room);
    let mut expected_out = out.clone();
    let answer = answer_of(|answer| library(out.slice(), answer));
    let expected = model(expected_out.slice());
    same_buffer(case, call, &out, &expected_out, expected.unwrap_or(0) * unit);
    same(case, call, answer, numbers(&expected, |count| [count as u64, 0, 0]))
}

pub fn check_table(case: &dyn Display, kind: u64, table: &[u8]) -> u64 {
    let answer = answer_of(|answer| ffi::check_table(kind, table, answer));
    let expected = match Table::ALL.iter().find(|which| which.number() == kind) {
        Some(which) => model::check_table(*which, table),
        None => Err(Refusal::new(1, 0, 0)),
    };
    same(
        case,
        &format!("usm_check_table {kind}"),
        answer,
        numbers(&expected, |records| [records as u64, 0, 0]),
    )
}

pub fn margin(case: &dyn Display, placement: &[u8], g: u64) -> u64 {
    let answer = answer_of(|answer| ffi::margin(placement, g, answer));
    let expected = model::margin(placement, g);
    same(case, &format!("usm_margin {g}"), answer, numbers(&expected, |margin| [margin as u64, 0, 0]))
}

pub fn cash(case: &dyn Display, placement: &[u8], g: u64) -> u64 {
    let answer = answer_of(|answer| ffi::cash(placement, g, answer));
    let expected = model::cash(placement, g);
    same(case, &format!("usm_cash {g}"), answer, numbers(&expected, |cash| [cash as u64, 0, 0]))
}

/// The table is changed where it stands.
pub fn mark_paid(case: &dyn Display, placement: &[u8]) -> u64 {
    let mut marked = Lent::of_length(placement.len());
    marked.slice().copy_from_slice(placement);
    let mut expected_marked = marked.clone();
    let answer = answer_of(|answer| ffi::mark_paid(marked.slice(), answer));
    let expected = model::mark_paid(expected_marked.slice());
    same_buffer(case, "usm_mark_paid", &marked, &expected_marked, placement.len());
    same(case, "usm_mark_paid", answer, numbers(&expected, |marks| [marks as u64, 0, 0]))
}

pub fn margins(case: &dyn Display, placement: &[u8], n: u64, room: usize) -> u64 {
    let call = format!("usm_margins {n}, room {room}");
    let library = |out: &mut [i64], answer: &mut Answer| ffi::margins(placement, n, out, answer);
    same_output(case, &call, (room, 1), library, |out| model::margins(placement, n, out))
}

pub fn worksheet(case: &dyn Display, placement: &[u8], g: u64, strikes_room: usize, nets_room: usize) -> u64 {
    let call = format!("usm_worksheet {g}, rooms {strikes_room} and {nets_room}");
    let (mut strikes, mut nets) = (Lent::of_length(strikes_room), Lent::of_length(nets_room));
    let (mut expected_strikes, mut expected_nets) = (strikes.clone(), nets.clone());
    let answer = answer_of(|answer| ffi::worksheet(placement, g, strikes.slice(), nets.slice(), answer));
    let expected = model::worksheet(placement, g, expected_strikes.slice(), expected_nets.slice());
    let output = expected.unwrap_or(0);
    same_buffer(case, &call, &strikes, &expected_strikes, output);
    same_buffer(case, &call, &nets, &expected_nets, output);
    same(case, &call, answer, numbers(&expected, |rows| [rows as u64, 0, 0]))
}

/// The numbers of a verdict: groups, total, and the work behind them.
fn verdict(sheet: Accepted) -> [u64; 3] {
    [sheet.groups, sheet.total as u64, sheet.work]
}

pub fn check_sheet(case: &dyn Display, tables: &Tables) -> u64 {
    let Tables { holdings, placement, claims } = tables;
    let answer = answer_of(|answer| ffi::check_sheet(holdings, placement, claims, answer));
    let expected = model::check_sheet(holdings, placement, claims);
    same(case, "usm_check_sheet", answer, numbers(&expected, verdict))
}

/// The form and the account are numbers here, so that there may be another form than the two.
pub fn write_file(case: &dyn Display, tables: &Tables, [form, account]: [u64; 2], room: usize) -> u64 {
    let Tables { holdings, placement, claims } = tables;
    let call = format!("usm_write_file, form {form}, account {account}, room {room}");
    let library = |out: &mut [u8], answer: &mut Answer| {
        ffi::write_file(holdings, placement, claims, [form, account], out, answer)
    };
    same_output(case, &call, (room, 1), library, |out| match Form::of_number(form) {
        Some(form) => model::write_file(holdings, placement, claims, Origin { form, account }, out),
        None => Err(Refusal::new(1, 0, 0)),
    })
}

pub fn move_to_new(case: &dyn Display, file: &[u8], account: u64, room: usize) -> u64 {
    let call = format!("usm_move_to_new, account {account}, room {room}");
    let library = |out: &mut [u8], answer: &mut Answer| ffi::move_to_new(file, account, out, answer);
    same_output(case, &call, (room, 1), library, |out| model::move_to_new(file, account, out))
}

pub fn move_to_old(case: &dyn Display, file: &[u8], room: usize) -> u64 {
    let call = format!("usm_move_to_old, room {room}");
    let library = |out: &mut [u8], answer: &mut Answer| ffi::move_to_old(file, out, answer);
    same_output(case, &call, (room, 1), library, |out| model::move_to_old(file, out))
}

pub fn import(case: &dyn Display, roots: &[u8], list: &[u8], room: usize) -> u64 {
    let call = format!("usm_import, room {room}");
    let library = |out: &mut [u8], answer: &mut Answer| ffi::import(roots, list, out, answer);
    same_output(case, &call, (room, RECORD_BYTES), library, |out| model::import(roots, list, out))
}

pub fn export(case: &dyn Display, roots: &[u8], holdings: &[u8], room: usize) -> u64 {
    let call = format!("usm_export, room {room}");
    let library = |out: &mut [u8], answer: &mut Answer| ffi::export(roots, holdings, out, answer);
    same_output(case, &call, (room, 1), library, |out| model::export(roots, holdings, out))
}

pub fn check_file(case: &dyn Display, file: &[u8]) -> u64 {
    let answer = answer_of(|answer| ffi::check_file(file, answer));
    let expected = model::check_file(file);
    same(case, "usm_check_file", answer, numbers(&expected, verdict))
}

pub fn read_file(case: &dyn Display, file: &[u8], rooms: [usize; 3]) -> u64 {
    let call = format!("usm_read_file, rooms {rooms:?}");
    let mut lent = rooms.map(Lent::of_length);
    let mut expected_lent = lent.clone();
    let [holdings, placement, claims] = &mut lent;
    let mut origin = [UNWRITTEN; 4];
    let answer = answer_of(|answer| {
        let origin = (&mut origin[1..3]).try_into().expect("two numbers");
        ffi::read_file(file, holdings.slice(), placement.slice(), claims.slice(), origin, answer)
    });
    let [holdings, placement, claims] = &mut expected_lent;
    let expected = model::read_file(file, holdings.slice(), placement.slice(), claims.slice());
    let outputs = expected.map_or([0; 3], |(counts, _)| [counts.holdings, counts.placement, counts.claims]);
    let expected_origin =
        expected.map_or([UNWRITTEN; 2], |(_, Origin { form, account })| [form.number(), account]);
    let [form, account] = expected_origin;
    assert_eq!(origin, [UNWRITTEN, form, account, UNWRITTEN], "{case}: {call}: where the file comes from");
    for ((library, model), records) in lent.iter().zip(&expected_lent).zip(outputs) {
        same_buffer(case, &call, library, model, records * RECORD_BYTES);
    }
    same(case, &call, answer, numbers(&expected, |_| outputs.map(|records| records as u64)))
}

/// `listed` is told the number of each refused fill.
pub fn play_fills(case: &dyn Display, day: &Day, listed: impl FnMut(u64)) -> u64 {
    let Day { holdings, fills, result_room, list_rooms } = day;
    let call = format!("usm_play_fills, rooms {result_room} and {list_rooms:?}");
    let mut result = Lent::of_length(*result_room);
    let (mut indices, mut numbers) = (Lent::of_length(list_rooms[0]), Lent::of_length(list_rooms[1]));
    let (mut expected_result, mut expected_indices, mut expected_numbers) =
        (result.clone(), indices.clone(), numbers.clone());
    let answer = answer_of(|answer| {
        ffi::play_fills(holdings, fills, result.slice(), indices.slice(), numbers.slice(), answer)
    });
    let expected = model::play_fills(
        holdings,
        fills,
        expected_result.slice(),
        expected_indices.slice(),
        expected_numbers.slice(),
    );
    let PlayCounts { records, refused } = expected.unwrap_or(PlayCounts { records: 0, refused: 0 });
    same_buffer(case, &call, &result, &expected_result, records * RECORD_BYTES);
    same_buffer(case, &call, &indices, &expected_indices, refused);
    same_buffer(case, &call, &numbers, &expected_numbers, refused);
    expected_numbers.slice()[..refused].iter().copied().map(u64::from).for_each(listed);
    same(case, &call, answer, self::numbers(&expected, |_| [records as u64, refused as u64, 0]))
}

pub fn file_line(case: &dyn Display, file: &[u8]) {
    let mut line = Lent::of_length(LINE_BYTES);
    let lent = line.slice().try_into().expect("just the bytes of a line");
    let length = ffi::file_line(file, lent);
    let expected = model::file_line(file);
    assert!(length <= LINE_BYTES, "{case}: usm_file_line answers the length {length}");
    assert!(line.stayed_past(length), "{case}: usm_file_line wrote past its line");
    let found = String::from_utf8_lossy(&line.slice()[..length]).into_owned();
    assert_eq!(found, expected, "{case}: usm_file_line: library (left) and model (right) differ");
}

pub fn file_table(case: &dyn Display, file: &[u8]) {
    let mut text = Lent::of_length(TABLE_BYTES);
    let lent = text.slice().try_into().expect("just the bytes of a table");
    let length = ffi::file_table(file, lent);
    let expected = model::file_table(file);
    assert!(length <= TABLE_BYTES, "{case}: usm_file_table answers the length {length}");
    assert!(text.stayed_past(length), "{case}: usm_file_table wrote past its table");
    let found = String::from_utf8_lossy(&text.slice()[..length]).into_owned();
    assert_eq!(found, expected, "{case}: usm_file_table: library (left) and model (right) differ");
}
