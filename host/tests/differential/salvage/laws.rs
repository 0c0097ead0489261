//! What holds of every file that comes out, tried on the library's own answers, without the model.

use std::fmt::Display;

use usm::{salvage_file, Form, Origin, Reason, Salvaged, Sheet, Table, BLOCK_BYTES, RECORD_BYTES};
use usm_kit::block::{account_of, RECORDS_AT};

/// A file that is not damaged comes out the same, with an empty list.
pub fn undamaged_stays(case: &dyn Display, file: &[u8]) {
    let same = Salvaged { file: file.to_vec(), dropped: Vec::new() };
    assert!(salvage_file(file) == Ok(same), "{case}: an undamaged file does not come out the same");
}

/// The reader takes what comes out, its records by kind are those of the kept blocks in file order, and to salvage
/// it changes nothing more. Each block is kept or listed, once.
pub fn hold(case: &dyn Display, bytes: &[u8]) {
    if let Ok(Salvaged { file, dropped }) = salvage_file(bytes) {
        let indices: Vec<usize> = dropped.iter().map(|block| block.index).collect();
        let blocks = (bytes.len() + BLOCK_BYTES - 1) / BLOCK_BYTES;
        let ascend = indices.windows(2).all(|pair| pair[0] < pair[1]);
        assert!(ascend && indices.iter().all(|index| *index < blocks), "{case}: the list {indices:?}");
        let torn = dropped.iter().any(|block| block.reason == Reason::WrongSize);
        assert_eq!(
            torn,
            bytes.len() % BLOCK_BYTES != 0,
            "{case}: a torn last block is 1, and nothing else is"
        );
        let kept: Vec<&[u8]> = bytes
            .chunks_exact(BLOCK_BYTES)
            .enumerate()
            .filter(|(index, _)| !indices.contains(index))
            .map(|(_, block)| block)
            .collect();
        let sheet = Sheet::from_file(&file).unwrap_or_else(|refusal| panic!("{case}: {refusal:?}"));
        assert_eq!(
            Origin::of_account(sheet.account),
            origin(kept[0]),
            "{case}: the first kept block's account"
        );
        for (kind, table) in sheet.tables().in_order() {
            assert!(table == records(&kept, kind), "{case}: the records of the {kind:?}");
        }
        undamaged_stays(case, &file);
    }
}

fn origin(block: &[u8]) -> Origin {
    match Form::of_block(block).expect("a mark") {
        Form::Old => Origin::OLD,
        Form::New => Origin::new(account_of(block)),
    }
}

/// The records of one kind in these blocks.
fn records(blocks: &[&[u8]], kind: Table) -> Vec<u8> {
    let of_kind = blocks.iter().filter(|block| block[4] == kind as u8);
    of_kind.flat_map(|block| &block[RECORDS_AT..][..RECORD_BYTES * usize::from(block[5])]).copied().collect()
}
