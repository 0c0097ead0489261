//! What is said of blocks that were dropped, of what is left out, and of files that cannot be salvaged.

use usm::{salvage_file, sentences, Claim, Dropped, Reason, Refusal, Sheet};
use usm_kit::accounts::fullest;
use usm_kit::block::{seal, BLOCK_BYTES, LONGEST_FILE};

use crate::entry::entry;
use crate::sheets::accepted;

fn file(account: u64) -> Vec<u8> {
    Sheet { account, ..accepted() }.to_file().expect("a file")
}

/// The lines of one file's salvage: of each block that is dropped, and what is left out.
fn listed(name: &str, bytes: &[u8]) -> String {
    let dropped = salvage_file(bytes).expect(name).dropped;
    assert!(!dropped.is_empty(), "{name}");
    let sentences = sentences::of_dropped(bytes, &dropped);
    assert_eq!(sentences.len(), dropped.len(), "{name}: a sentence each");
    let lines = sentences.into_iter().chain(sentences::of_left_out(bytes, &dropped));
    format!("salvage of {name}:\n{}", lines.map(|line| format!("  {line}\n")).collect::<String>())
}

fn refused(name: &str, bytes: &[u8]) -> String {
    let refusal = salvage_file(bytes).expect_err(name);
    entry(&format!("salvage of {name}"), &refusal, &sentences::of_salvage(bytes, &refusal))
}

/// The file of this account with bytes of one block set, its checks to match.
fn set(account: u64, block: usize, at: usize, bytes: &[u8]) -> Vec<u8> {
    let mut file = file(account);
    let block = &mut file[block * BLOCK_BYTES..][..BLOCK_BYTES];
    block[at..at + bytes.len()].copy_from_slice(bytes);
    seal(block);
    file
}

/// The file with a byte of its second block changed, and its checks not.
fn damaged(at: usize) -> Vec<u8> {
    let mut file = file(0);
    file[BLOCK_BYTES + at] ^= 0x40;
    file
}

pub fn sentences() -> String {
    let [old, seven, eight] = [file(0), file(7), file(8)];
    let joined = |one: &[u8], two: &[u8]| [one, &two[..BLOCK_BYTES]].concat();
    let claims: Vec<Claim> = (1..=17).map(|group| Claim { group, margin: 0 }).collect();
    let claims = Sheet { claims, ..Sheet::default() }.to_file().expect("a file");
    let nothing = salvage_file(&old).expect("a sound file").dropped;
    assert_eq!(
        (sentences::of_dropped(&old, &nothing), sentences::of_left_out(&old, &nothing)),
        (vec![], None)
    );
    let no_room = Refusal::new(17, 0, 512);
    [
        listed("a byte of a record", &damaged(40)),
        listed("a byte of the mark", &damaged(1)),
        listed("a byte of the count", &damaged(5)),
        listed("a byte of an unused place", &damaged(400)),
        listed("a mark that is none", &set(0, 1, 0, b"USM9")),
        listed("a kind that is none", &set(0, 1, 4, &[0])),
        listed("no record", &set(0, 2, 5, &[0])),
        listed("bytes behind the head", &set(0, 2, 10, &[1])),
        listed("bytes behind the account", &set(7, 0, 507, &[1])),
        listed("an account in the old form", &set(0, 2, 503, &[1])),
        listed("a field of a holding", &set(7, 0, 16 + 2, &[9])),
        listed("a record of zeros", &set(7, 1, 16 + 32, &[0; 32])),
        listed("a field of a claim", &set(0, 2, 16, &[33])),
        listed("another account", &joined(&seven, &eight)),
        listed("no account", &set(7, 0, 496, &[0])),
        listed("the new form behind the old", &joined(&old, &seven)),
        listed("the old form behind the new", &joined(&seven, &old)),
        listed("a torn block", &old[..2 * BLOCK_BYTES + 300]),
        listed("a torn header", &old[..2 * BLOCK_BYTES + 5]),
        refused("no byte", &[]),
        refused("a byte too many", &b"USM1".repeat(LONGEST_FILE / 4 + 1)),
        refused("less than a block", &old[..100]),
        refused("one bad block", &b"USM1".repeat(BLOCK_BYTES / 4)),
        refused("bad blocks", &b"USM1".repeat(3 * BLOCK_BYTES / 4)),
        refused("zeros", &[0; 3 * BLOCK_BYTES]),
        refused("a PDF", b"%PDF-1.4"),
        refused("a sheet's text", b"holdings\n"),
        refused("too many claims", &claims.repeat(2)),
        refused("holdings twice", &fullest().to_file().expect("a file")[..18 * BLOCK_BYTES].repeat(2)),
        entry("salvage with no room", &no_room, &sentences::of_salvage(&old, &no_room)),
    ]
    .concat()
}

/// A list of another file, or none that salvage would make.
#[test]
fn a_list_of_something_else_has_a_sentence_for_each_block() {
    let zeros = [0; 2 * BLOCK_BYTES];
    let full = [0xFF; 2 * BLOCK_BYTES];
    for bytes in [&[][..], &zeros, &full, &file(7), &file(0)[..600]] {
        let blocks = bytes.chunks(BLOCK_BYTES).len();
        for reason in Reason::ALL {
            for index in [0, 1, blocks, usize::MAX] {
                let list = [Dropped { index, reason }, Dropped { index: 0, reason }];
                let known = list.iter().filter(|block| block.index < blocks).count();
                assert_eq!(sentences::of_dropped(bytes, &list).len(), known);
                assert!(sentences::of_left_out(bytes, &list).is_some());
                assert!(!sentences::of_salvage(bytes, &Refusal::new(reason.number(), 0, 0)).is_empty());
            }
        }
    }
}
