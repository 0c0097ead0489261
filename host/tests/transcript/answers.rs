//! The calls that the transcript's questions make, and what is said of each answer.

use usm::{Form, Origin, PlayCounts, Refusal, Table, LONGEST_FILE, RECORD_BYTES};
use usm_kit::both::Calls;
use usm_kit::fields::{get, put, records, CONTRACTS, PAID, SIDE, STRIKE, TYPE};
use usm_kit::lent::Lent;

use crate::memory::Memory;

/// So many rows of a result, and refused fills, are printed.
const MOST_PRINTED: usize = 8;

/// What a success says, or the refusal.
fn told<T>(answer: Result<T, Refusal>, success: impl FnOnce(T) -> String) -> String {
    match answer {
        Ok(answer) => success(answer),
        Err(refusal) => refusal.line().trim_end().to_string(),
    }
}

/// The word for whether what lies past the output of a call stayed as it was.
fn kept(stayed: bool) -> &'static str {
    if stayed {
        "kept"
    } else {
        "OVERWRITTEN"
    }
}

pub fn check(calls: &Calls, which: Table, table: &[u8]) -> String {
    told((calls.check_table)(which, table), |records| records.to_string())
}

pub fn margin(calls: &Calls, placement: &[u8], g: u64) -> String {
    told((calls.margin)(placement, g), |mills| mills.to_string())
}

pub fn cash(calls: &Calls, placement: &[u8], g: u64) -> String {
    told((calls.cash)(placement, g), |mills| mills.to_string())
}

/// The placement is marked where it stands; whether all but its marks stayed, and all of it on a refusal.
pub fn mark(calls: &Calls, memory: &mut Memory) -> String {
    let before = memory.placement.clone();
    let answer = (calls.mark_paid)(&mut memory.placement);
    let mut stayed = memory.placement.clone();
    if answer.is_ok() {
        for record in 0..records(&before) {
            put(&mut stayed, record, PAID, get(&before, record, PAID));
        }
    }
    format!("{} {}", told(answer, |marks| marks.to_string()), kept(stayed == before))
}

pub fn margins(calls: &Calls, placement: &[u8], n: u64, room: usize) -> String {
    let mut out: Lent<i64> = Lent::of_length(room);
    let answer = (calls.margins)(placement, n, out.slice());
    let kept = kept(out.stayed_past(answer.unwrap_or(0)));
    let said = told(answer, |count| {
        let list: String = out.slice()[..count].iter().map(|mills| format!(" {mills}")).collect();
        format!("{count}:{list}")
    });
    format!("{said} {kept}")
}

pub fn worksheet(calls: &Calls, placement: &[u8], g: u64, rooms: [usize; 2]) -> String {
    let mut strikes: Lent<u32> = Lent::of_length(rooms[0]);
    let mut nets: Lent<i64> = Lent::of_length(rooms[1]);
    let answer = (calls.worksheet)(placement, g, strikes.slice(), nets.slice());
    let output = answer.unwrap_or(0);
    let kept = kept(strikes.stayed_past(output) && nets.stayed_past(output));
    let said = told(answer, |count| {
        let rows = strikes.slice()[..count].iter().zip(&nets.slice()[..count]);
        let list: String = rows.map(|(strike, net)| format!(" {strike} net {net},")).collect();
        format!("{count}:{list}")
    });
    format!("{said} {kept}")
}

pub fn sheet(calls: &Calls, memory: &Memory) -> String {
    let verdict = (calls.check_sheet)(&memory.holdings, &memory.placement, &memory.claims);
    told(verdict, |accepted| accepted.line().trim_end().to_string())
}

pub fn file(calls: &Calls, memory: &Memory) -> String {
    let verdict = told((calls.check_file)(&memory.file), |accepted| accepted.line().trim_end().to_string());
    assert_eq!((calls.file_line)(&memory.file), format!("{verdict}\n"), "{}: the line", calls.name);
    verdict
}

/// The table's lines. Their bytes, and that nothing else of the lent ones changes, are tried for every call by the
/// differential tests.
pub fn table(calls: &Calls, memory: &Memory) -> String {
    match (calls.file_table)(&memory.file).trim_end() {
        "" => String::from("nothing"),
        lines => String::from(lines),
    }
}

/// The tables as a file of this form and account, by their numbers.
fn written(calls: &Calls, memory: &Memory, origin: [u64; 2], out: &mut [u8]) -> Result<usize, Refusal> {
    let Memory { holdings, placement, claims, .. } = memory;
    let [form, account] = origin;
    // The calls of Rust have no other form than the two; by its number it would be refusal 1.
    let form = Form::of_number(form).ok_or(Refusal::new(1, 0, 0))?;
    (calls.write_file)(holdings, placement, claims, Origin { form, account }, out)
}

/// What is written becomes the file; after a refusal there is none.
pub fn write(calls: &Calls, memory: &mut Memory, room: usize, origin: [u64; 2]) -> String {
    let mut out: Lent<u8> = Lent::of_length(room);
    let answer = written(calls, memory, origin, out.slice());
    let length = answer.unwrap_or(0);
    memory.file = out.slice()[..length].to_vec();
    format!("{} {}", told(answer, |length| length.to_string()), kept(out.stayed_past(length)))
}

/// Whether the tables, written in this form, are the file.
pub fn again(calls: &Calls, memory: &Memory, origin: [u64; 2]) -> String {
    let mut out = vec![0; LONGEST_FILE];
    let length = written(calls, memory, origin, &mut out);
    let same = length.map_or(false, |length| out[..length] == memory.file);
    String::from(if same { "same" } else { "DIFFERENT" })
}

/// The file, moved to the new form with this account, or to the old one without, takes the file's place; a
/// refusal leaves it.
pub fn moved(calls: &Calls, memory: &mut Memory, account: Option<u64>, room: usize) -> String {
    let mut out: Lent<u8> = Lent::of_length(room);
    let answer = match account {
        Some(account) => (calls.move_to_new)(&memory.file, account, out.slice()),
        None => (calls.move_to_old)(&memory.file, out.slice()),
    };
    let kept = kept(out.stayed_past(answer.unwrap_or(0)));
    if let Ok(length) = answer {
        memory.file = out.slice()[..length].to_vec();
    }
    format!("{} {kept}", told(answer, |length| length.to_string()))
}

/// The records of each kind, the form and the account that the reader finds in the file.
pub fn judge(calls: &Calls, memory: &Memory) -> String {
    let [mut h, mut p, mut c] = Table::ALL.map(|table| vec![0; table.most_bytes()]);
    told((calls.read_file)(&memory.file, &mut h, &mut p, &mut c), |(counts, origin)| {
        let (form, account) = (origin.form.number(), origin.account);
        format!("{} {} {} {form} {account}", counts.holdings, counts.placement, counts.claims)
    })
}

/// Tables of so many bytes are lent, and compared with those of the memory.
pub fn read(calls: &Calls, memory: &Memory, rooms: [usize; 3]) -> String {
    let [mut h, mut p, mut c] = rooms.map(Lent::<u8>::of_length);
    let answer = (calls.read_file)(&memory.file, h.slice(), p.slice(), c.slice());
    let counts = answer.map_or([0; 3], |(counts, _)| [counts.holdings, counts.placement, counts.claims]);
    let [held, placed, claimed] = counts.map(|records| records * RECORD_BYTES);
    let kept = kept(h.stayed_past(held) && p.stayed_past(placed) && c.stayed_past(claimed));
    let said = told(answer, |_| {
        let read = [&h.slice()[..held], &p.slice()[..placed], &c.slice()[..claimed]];
        let same = read == [&memory.holdings[..], &memory.placement, &memory.claims];
        let [holdings, placement, claims] = counts;
        format!("{holdings} {placement} {claims} {}", if same { "same" } else { "DIFFERENT" })
    });
    format!("{said} {kept}")
}

/// What comes out becomes the holdings, and no fills are left; a refusal leaves both. Of the rows the last
/// are printed, as side, type, strike and contracts, with the word paid where there is a mark, and of the refused
/// fills the first.
pub fn play(calls: &Calls, memory: &mut Memory, rooms: [usize; 3]) -> String {
    let (mut result, mut indices, mut numbers) =
        (Lent::<u8>::of_length(rooms[0]), Lent::<u32>::of_length(rooms[1]), Lent::<u8>::of_length(rooms[2]));
    let (start, fills) = (&memory.holdings, &memory.fills);
    let answer = (calls.play_fills)(start, fills, result.slice(), indices.slice(), numbers.slice());
    let PlayCounts { records, refused } = answer.unwrap_or(PlayCounts { records: 0, refused: 0 });
    let bytes = records * RECORD_BYTES;
    let kept =
        kept(result.stayed_past(bytes) && indices.stayed_past(refused) && numbers.stayed_past(refused));
    let said = told(answer, |_| {
        memory.holdings = result.slice()[..bytes].to_vec();
        memory.fills.clear();
        let row = |record| {
            let fields = [SIDE, TYPE, STRIKE, CONTRACTS].map(|field| get(&memory.holdings, record, field));
            let paid = if get(&memory.holdings, record, PAID) == 0 { "" } else { " paid" };
            fields.map(|number| format!(" {number}")).concat() + paid + ","
        };
        let rows: String = (records.saturating_sub(MOST_PRINTED)..records).map(row).collect();
        let listed = indices.slice()[..refused].iter().zip(&numbers.slice()[..refused]).take(MOST_PRINTED);
        let list: String = listed.map(|(index, number)| format!(" {index} {number},")).collect();
        format!("{records}:{rows} refused {refused}:{list}")
    });
    format!("{said} {kept}")
}
