//! The library's calls on Rust slices: tables and files as bytes, lent buffers as `&mut`.
//!
//! Each answers for every input. On a refusal nothing lent is written; on success what
//! lies past the output stays as it was.

use crate::ffi;
use usm_values::{Accepted, Form, Origin, PlayCounts, RecordCounts, Refusal, SalvageCounts, Table};

/// Runs a call that fills the four numbers of an answer, and parts results from refusals.
pub(crate) fn ask(call: impl FnOnce(&mut ffi::Answer) -> u64) -> Result<[u64; 3], Refusal> {
    let mut answer = [0; 4];
    match (call(&mut answer), answer) {
        (0, [_, first, second, third]) => Ok([first, second, third]),
        (number, [_, table, place, _]) => Err(Refusal::new(number, table, place)),
    }
}

/// How many records the table has, if it is whole (1) and its fields are in range (4).
///
/// ```
/// use usm::{check_table, Refusal, Table};
/// assert_eq!(check_table(Table::Claims, &[]), Ok(0));
/// assert_eq!(check_table(Table::Claims, &[0; 31]), Err(Refusal::new(1, 0, 0)));
/// assert_eq!(check_table(Table::Claims, &[0; 32]), Err(Refusal::new(4, 3, 0)));
/// ```
pub fn check_table(which: Table, table: &[u8]) -> Result<usize, Refusal> {
    ask(|answer| ffi::check_table(which.number(), table, answer)).map(|[records, ..]| records as usize)
}

/// The margin of group `g` in mills: 1, 4, then 6 to 13.
///
/// ```
/// use usm::{margin, Refusal};
/// assert_eq!(margin(&[], 1), Err(Refusal::new(6, 2, 1)));
/// ```
pub fn margin(placement: &[u8], g: u64) -> Result<i64, Refusal> {
    ask(|answer| ffi::margin(placement, g, answer)).map(|[margin, ..]| margin as i64)
}

/// The cash that group `g` requires in a cash account, in mills: 1, 4, 6 to 13, then 21 unless all its legs are
/// European, stated as cash, and of one expiry. It is the greatest of 0 and the group's
/// losses, also of a European long box, which so requires none.
///
/// ```
/// use usm::{cash, Refusal};
/// assert_eq!(cash(&[], 1), Err(Refusal::new(6, 2, 1)));
/// ```
pub fn cash(placement: &[u8], g: u64) -> Result<i64, Refusal> {
    ask(|answer| ffi::cash(placement, g, answer)).map(|[cash, ..]| cash as i64)
}

/// The margins of groups 1 to `n` from `out[0]` on; answers `n`.
///
/// After 1 and 4 the groups are judged in ascending order (6 to 13); then 17, with place
/// `n`, if `out` is shorter.
///
/// ```
/// let mut out = [-7; 2];
/// assert_eq!(usm::margins(&[], 0, &mut out), Ok(0));
/// assert_eq!(out, [-7, -7]);
/// ```
pub fn margins(placement: &[u8], n: u64, out: &mut [i64]) -> Result<usize, Refusal> {
    ask(|answer| ffi::margins(placement, n, out, answer)).map(|[groups, ..]| groups as usize)
}

/// The distinct strikes of group `g`, ascending, and the net at each; answers how many.
///
/// 1, 4, 6 to 13, then 17, with the number of strikes, if either slice is shorter.
///
/// ```
/// let (mut strikes, mut nets) = ([0; 4], [0; 4]);
/// let refusal = usm::worksheet(&[], 3, &mut strikes, &mut nets).unwrap_err();
/// assert_eq!((refusal.number, refusal.place), (6, 3));
/// ```
pub fn worksheet(placement: &[u8], g: u64, strikes: &mut [u32], nets: &mut [i64]) -> Result<usize, Refusal> {
    ask(|answer| ffi::worksheet(placement, g, strikes, nets, answer)).map(|[rows, ..]| rows as usize)
}

/// Sets the paid mark on every unplaced long of a placement, where it stands; answers how many had none.
///
/// 1, then 4; then nothing is changed.
///
/// ```
/// assert_eq!(usm::mark_paid(&mut []), Ok(0));
/// assert_eq!(usm::mark_paid(&mut [0; 32]), Err(usm::Refusal::new(4, 2, 0)));
/// ```
pub fn mark_paid(placement: &mut [u8]) -> Result<usize, Refusal> {
    ask(|answer| ffi::mark_paid(placement, answer)).map(|[marks, ..]| marks as usize)
}

/// The verdict on a sheet given as three tables.
///
/// ```
/// use usm::{check_sheet, Accepted};
/// assert_eq!(check_sheet(&[], &[], &[]), Ok(Accepted { groups: 0, total: 0, work: 0 }));
/// ```
pub fn check_sheet(holdings: &[u8], placement: &[u8], claims: &[u8]) -> Result<Accepted, Refusal> {
    ask(|answer| ffi::check_sheet(holdings, placement, claims, answer)).map(accepted)
}

/// The verdict on a sheet file.
///
/// ```
/// assert_eq!(usm::check_file(b"no sheet"), Err(usm::Refusal::new(1, 0, 0)));
/// ```
pub fn check_file(file: &[u8]) -> Result<Accepted, Refusal> {
    ask(|answer| ffi::check_file(file, answer)).map(accepted)
}

/// Takes a sheet file of either form apart: each kind's records from byte 0 of its lent table. Answers how
/// many there are, and where the file comes from.
///
/// The lent tables may have any length. 1 to 4 and 20 about the file, then 17 at the first table
/// that is too short, with the bytes it needs.
///
/// ```
/// let mut holdings = [0; 8];
/// let refusal = usm::read_file(&[0; 512], &mut holdings, &mut [], &mut []).unwrap_err();
/// assert_eq!(refusal.to_string(), "the 1st block is out of form: its header, its unused bytes, \
///     its place among the kinds, or a table that grows past its limit");
/// ```
pub fn read_file(
    file: &[u8],
    holdings: &mut [u8],
    placement: &mut [u8],
    claims: &mut [u8],
) -> Result<(RecordCounts, Origin), Refusal> {
    let mut origin = [0; 2];
    let [holdings, placement, claims] =
        ask(|answer| ffi::read_file(file, holdings, placement, claims, &mut origin, answer))?;
    let counts =
        RecordCounts { holdings: holdings as usize, placement: placement as usize, claims: claims as usize };
    let [form, account] = origin;
    let form = Form::of_number(form).expect("the reader answers one of two forms");
    Ok((counts, Origin { form, account }))
}

/// Writes three tables as a sheet file of this form and account into `out`; answers its length in bytes.
///
/// 1 (also for three empty tables), 20 for the account 0 in the new form, 4, then 17 with the bytes needed.
/// Tables that no check would accept are written all the same.
///
/// ```
/// use usm::{write_file, Origin};
/// let claim = usm::Claim { group: 1, margin: 0 }.to_bytes();
/// let mut out = [0; 600];
/// assert_eq!(write_file(&[], &[], &claim, Origin::OLD, &mut out), Ok(512));
/// assert_eq!(&out[..4], b"USM1");
/// assert_eq!(write_file(&[], &[], &claim, Origin::new(4711), &mut out), Ok(512));
/// assert_eq!(&out[..4], b"USM2");
/// ```
pub fn write_file(
    holdings: &[u8],
    placement: &[u8],
    claims: &[u8],
    origin: Origin,
    out: &mut [u8],
) -> Result<usize, Refusal> {
    let origin = [origin.form.number(), origin.account];
    ask(|answer| ffi::write_file(holdings, placement, claims, origin, out, answer))
        .map(|[length, ..]| length as usize)
}

/// Moves a file of the old form to the new one, with this account, into `out`; answers its length in bytes.
///
/// 1; 20 for the account 0; then the reader's refusals; 3 at block 0 for a file of the new form; 17 with the
/// bytes needed.
///
/// ```
/// use usm::{move_to_new, move_to_old, write_file, Origin};
/// let claim = usm::Claim { group: 1, margin: 0 }.to_bytes();
/// let [mut old, mut new, mut back] = [[0; 512]; 3];
/// write_file(&[], &[], &claim, Origin::OLD, &mut old)?;
/// assert_eq!(move_to_new(&old, 4711, &mut new), Ok(512));
/// assert_eq!(move_to_old(&new, &mut back), Ok(512));
/// assert_eq!(back, old);
/// # Ok::<(), usm::Refusal>(())
/// ```
pub fn move_to_new(file: &[u8], account: u64, out: &mut [u8]) -> Result<usize, Refusal> {
    ask(|answer| ffi::move_to_new(file, account, out, answer)).map(|[length, ..]| length as usize)
}

/// Moves a file of the new form to the old one, which says no account, into `out`; answers its length.
///
/// The reader's refusals; 3 at block 0 for a file of the old form; 17 with the bytes needed.
pub fn move_to_old(file: &[u8], out: &mut [u8]) -> Result<usize, Refusal> {
    ask(|answer| ffi::move_to_old(file, out, answer)).map(|[length, ..]| length as usize)
}

/// Plays a table of fills over a table of holdings. The holdings that come out stand in `result` from byte 0;
/// the index and the number of each refused fill in `indices` and `numbers`, in order.
///
/// 1 for either table; 4 and 19 at a record of the holdings; then 17 if `result` is shorter than the longest
/// holdings (table 1), or a list shorter than the number of fills (table 4). A refused fill is listed only.
///
/// ```
/// let mut result = [0; 8192];
/// let counts = usm::play_fills(&[], &[], &mut result, &mut [], &mut []).unwrap();
/// assert_eq!((counts.records, counts.refused), (0, 0));
/// ```
pub fn play_fills(
    holdings: &[u8],
    fills: &[u8],
    result: &mut [u8],
    indices: &mut [u32],
    numbers: &mut [u8],
) -> Result<PlayCounts, Refusal> {
    ask(|answer| ffi::play_fills(holdings, fills, result, indices, numbers, answer))
        .map(|[records, refused, _]| PlayCounts { records: records as usize, refused: refused as usize })
}

/// Makes holdings of a list of option symbols, in line order and without paid marks, by a table of roots;
/// answers how many records there are.
///
/// 23 for the roots; line by line 22, 4 and 24; then 1 for more than 256 lines, and 17 with the bytes needed.
///
/// ```
/// use usm::{import, padded_root, Leg, Market, Refusal, Root, Settlement, Style};
/// let root = Root {
///     name: padded_root("AAPL").unwrap(),
///     style: Style::American,
///     market: Market::Listed,
///     unit_size: 100,
///     settlement: Settlement::Physical,
///     underlying: 7,
/// };
/// let mut record = [0; 32];
/// assert_eq!(import(&root.to_bytes(), b"AAPL  110521C00060000 L 5\n", &mut record), Ok(1));
/// let held = Leg::from_bytes(&record).unwrap();
/// assert_eq!((held.expiry, held.strike, held.contracts), (20110521, 60_000, 5));
/// assert_eq!(import(&[], b"", &mut record), Err(Refusal::new(23, 5, 0)));
/// ```
pub fn import(roots: &[u8], list: &[u8], holdings: &mut [u8]) -> Result<usize, Refusal> {
    ask(|answer| ffi::import(roots, list, holdings, answer)).map(|[records, ..]| records as usize)
}

/// Writes holdings without paid marks as a list of option symbols, a line for each record, by a table of
/// roots; answers the list's length in bytes, which is at most [`crate::LONGEST_LIST`].
///
/// 23 for the roots; 1; record by record 4, also for a paid mark, and 24; then 17 with the bytes needed.
///
/// ```
/// use usm::{export, import, padded_root, Market, Refusal, Root, Settlement, Style};
/// let root = Root {
///     name: padded_root("SPX").unwrap(),
///     style: Style::European,
///     market: Market::Listed,
///     unit_size: 100,
///     settlement: Settlement::Cash,
///     underlying: 7,
/// };
/// let (roots, list) = (root.to_bytes(), b"SPX   110521P01250000 S 12\n");
/// let (mut holdings, mut back) = ([0; 32], [0; 40]);
/// import(&roots, list, &mut holdings)?;
/// assert_eq!(export(&roots, &holdings, &mut back), Ok(27));
/// assert_eq!(&back[..27], list);
/// # Ok::<(), Refusal>(())
/// ```
pub fn export(roots: &[u8], holdings: &[u8], list: &mut [u8]) -> Result<usize, Refusal> {
    ask(|answer| ffi::export(roots, holdings, list, answer)).map(|[bytes, ..]| bytes as usize)
}

/// Makes a sound file of what is whole in a damaged one, 1 to 19,968 bytes, into `out`. Each block is judged by
/// itself, its number and the order of blocks apart; the index in `bytes` and the number of each that is dropped
/// stand in `indices` and `numbers`, in file order: the first of 2, 3, 4 and 20, and 1 for a torn last block.
///
/// 1 for the size; 2 if nothing is kept; 3 if the kept records pass a table's limit; then 17, with the bytes that
/// the file needs if `out` is shorter, or with the entries of the list if either of its slices is.
///
/// ```
/// use usm::{salvage, Refusal};
/// let (mut indices, mut numbers) = ([0; 39], [0; 39]);
/// assert_eq!(salvage(&[0; 700], &mut [], &mut indices, &mut numbers), Err(Refusal::new(2, 0, 0)));
/// assert_eq!(salvage(&[], &mut [], &mut indices, &mut numbers), Err(Refusal::new(1, 0, 0)));
/// ```
pub fn salvage(
    bytes: &[u8],
    out: &mut [u8],
    indices: &mut [u32],
    numbers: &mut [u8],
) -> Result<SalvageCounts, Refusal> {
    ask(|answer| ffi::salvage(bytes, out, indices, numbers, answer))
        .map(|[bytes, dropped, _]| SalvageCounts { bytes: bytes as usize, dropped: dropped as usize })
}

/// The line `usm_check` prints for this file, with its newline.
///
/// ```
/// assert_eq!(usm::file_line(&[]), "REFUSE 1 0 0\n");
/// ```
pub fn file_line(file: &[u8]) -> String {
    let mut line = [0; ffi::LINE_BYTES];
    let length = ffi::file_line(file, &mut line);
    line[..length].iter().copied().map(char::from).collect()
}

/// The table `usm_table` prints for this file: of each group its margin and the net at each strike, or
/// the line of a refusal.
///
/// ```
/// assert_eq!(usm::file_table(&[]), "REFUSE 1 0 0\n");
/// ```
pub fn file_table(file: &[u8]) -> String {
    let mut text = [0; ffi::TABLE_BYTES];
    let length = ffi::file_table(file, &mut text);
    String::from_utf8_lossy(&text[..length]).into_owned()
}

fn accepted([groups, total, work]: [u64; 3]) -> Accepted {
    Accepted { groups, total: total as i64, work }
}
