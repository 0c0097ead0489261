//! Refusals 2, 3 and 20: what is wrong with a block.

use usm_values::block::{
    account_of, Header, ACCOUNT_AT, ACCOUNT_END, BLOCK_BYTES, CHECKS_AT, RECORDS_AT, RECORDS_IN_BLOCK,
};
use usm_values::numbers::{count, ordinal};
use usm_values::{Form, Reason, Refusal, Table, RECORD_BYTES};

pub fn sentence(file: &[u8], refusal: &Refusal) -> Option<String> {
    let number = usize::try_from(refusal.place).ok()?;
    let block = file.chunks_exact(BLOCK_BYTES).nth(number)?;
    let blocks = file.len() / BLOCK_BYTES;
    let which = format!("the {} of {}", ordinal(refusal.place), count(blocks as u64, "block"));
    match refusal.reason() {
        Some(Reason::ChecksDiffer) => {
            return Some(format!("{which} is damaged: its check sums do not fit its bytes"));
        }
        Some(Reason::WrongAccount) => {
            return account_fault(block, file, "first block").map(|fault| format!("{which} {fault}"))
        }
        _ => {}
    }
    let first = Form::of_block(file).unwrap_or(Form::Old);
    let fault = mark_fault(block, first, "first block")
        .or_else(|| header_fault(block, first))
        .or_else(|| number_fault(block, number, blocks))
        .or_else(|| order_fault(file, number))?;
    Some(format!("{which} is out of form: {fault}"))
}

/// Another account than that of the first block, by the name it goes by, or none.
pub fn account_fault(block: &[u8], first: &[u8], named: &str) -> Option<String> {
    match (account_of(block), account_of(first)) {
        (0, _) => Some(String::from("has the account number 0; accounts are numbered from 1")),
        (this, first) if this != first => {
            Some(format!("is of account {this}, and the {named} of account {first}: two accounts are joined"))
        }
        _ => None,
    }
}

/// No mark, or another one than the first block has.
pub fn mark_fault(block: &[u8], first: Form, named: &str) -> Option<String> {
    let name = |form: Form| String::from_utf8_lossy(&form.mark()).into_owned();
    match Form::of_block(block) {
        None => Some(String::from("it does not begin with the mark `USM1` or `USM2`")),
        Some(form) if form != first => {
            Some(format!("it begins with the mark `{}` and the {named} with `{}`", name(form), name(first)))
        }
        Some(_) => None,
    }
}

/// The number of a block, or the count of blocks in it.
fn number_fault(block: &[u8], number: usize, blocks: usize) -> Option<String> {
    let says = Header::of(block);
    if usize::from(says.number) != number {
        Some(format!("its number is {} and should be {number}", says.number))
    } else if usize::from(says.blocks) != blocks {
        Some(format!("it says that the file has {}, not {blocks}", count(u64::from(says.blocks), "block")))
    } else {
        None
    }
}

/// A fault of the block by itself, behind its mark.
pub fn header_fault(block: &[u8], form: Form) -> Option<String> {
    let Header { kind, records, .. } = Header::of(block);
    let records = usize::from(records);
    let zero = |bytes: &[u8]| bytes.iter().all(|&byte| byte == 0);
    if table_of(kind).is_none() {
        Some(format!("its kind is {kind}, not 1 (holdings), 2 (placement) or 3 (claims)"))
    } else if !(1..=RECORDS_IN_BLOCK).contains(&records) {
        Some(format!("it says that it has {}, not 1 to {RECORDS_IN_BLOCK}", count(records as u64, "record")))
    } else if !zero(&block[10..RECORDS_AT]) {
        Some(String::from("its bytes 10 to 15 are not zero"))
    } else if !zero(&block[RECORDS_AT + records * RECORD_BYTES..ACCOUNT_AT])
        || !zero(&block[ACCOUNT_END..CHECKS_AT])
        || form == Form::Old && account_of(block) != 0
    {
        Some(format!("bytes behind its {} are not zero", count(records as u64, "record")))
    } else {
        None
    }
}

/// A fault of the block behind those before it, each of which is in form.
fn order_fault(file: &[u8], number: usize) -> Option<String> {
    let says = file.chunks_exact(BLOCK_BYTES).take(number + 1).map(Header::of);
    let heads: Vec<(u8, usize)> = says.map(|header| (header.kind, header.records.into())).collect();
    let (kind, _) = *heads.last()?;
    let table = table_of(kind)?;
    if let Some(&(before, records)) = heads.iter().rev().nth(1) {
        if before > kind {
            let (this, before) = (name(table), name(table_of(before)?));
            return Some(format!(
                "it is of the {this} and the block before it of the {before}; \
                 holdings come first, then placement, then claims"
            ));
        }
        if before == kind && records < RECORDS_IN_BLOCK {
            return Some(format!(
                "the block before it, of the same kind, has {}; \
                 only a kind's last block may have fewer than {RECORDS_IN_BLOCK}",
                count(records as u64, "record")
            ));
        }
    }
    let records: usize = heads.iter().filter(|head| head.0 == kind).map(|head| head.1).sum();
    let most = table.most_records();
    (records > most)
        .then(|| format!("with it there are {records} records of the {}, more than {most}", name(table)))
}

pub fn table_of(kind: u8) -> Option<Table> {
    Table::ALL.into_iter().find(|table| table.number() == u64::from(kind))
}

pub fn name(table: Table) -> &'static str {
    match table {
        Table::Holdings => "holdings",
        Table::Placement => "placement",
        Table::Claims => "claims",
    }
}
