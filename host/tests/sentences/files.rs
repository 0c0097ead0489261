//! Refusals 1 to 3: files of a wrong size, texts, and blocks that are damaged or out of form.

use usm::{Claim, Sheet, BLOCK_BYTES};
use usm_kit::accounts::fullest;
use usm_kit::block::{renumber, seal};

use crate::entry::Case;
use crate::sheets::accepted;

fn file() -> Vec<u8> {
    accepted().to_file().expect("a file")
}

pub fn sizes() -> Vec<Case> {
    let text = "# mine\nholdings\n";
    let cases = [
        ("an empty file", Vec::new()),
        ("a torn file", file()[..1_436].to_vec()),
        ("less than a block", file()[..20].to_vec()),
        ("a byte too many", [fullest().to_file().expect("a file"), vec![0]].concat()),
        ("a sheet's text", text.into()),
        ("a sheet's text with a byte order mark", format!("\u{FEFF}{text}").into()),
        ("a sheet's text, cut off in a character", [text.as_bytes(), b"# \xC3"].concat()),
        (
            "a sheet's text of a block's length",
            format!("{text}{}", " ".repeat(BLOCK_BYTES - text.len())).into(),
        ),
        ("another text", "Dear sirs,\r\n\tplease find enclosed".into()),
    ];
    cases.map(|(name, file)| (String::from(name), file)).into()
}

/// Files of other kinds, of a wrong size and of a block's.
pub fn strangers() -> Vec<Case> {
    let kinds: [(&str, &[u8]); 13] = [
        ("a PDF", b"%PDF-1.4\n% of plain text\n"),
        ("gzip", b"\x1f\x8b\x08\0\0"),
        ("bzip2", b"BZh91AY&SY\0"),
        ("xz", b"\xfd7zXZ\0\0\x04"),
        ("zstd", b"\x28\xb5\x2f\xfd\x04"),
        ("a spreadsheet", b"PK\x03\x04\x14\0"),
        ("an old spreadsheet", b"\xd0\xcf\x11\xe0\xa1"),
        ("a PNG", b"\x89PNG\r\n\x1a\n"),
        ("a JPEG", b"\xff\xd8\xff\xe0\0"),
        ("a program", b"\x7fELF\x02"),
        ("text in UTF-16, little end first", b"\xff\xfeh\0o\0"),
        ("text in UTF-16, big end first", b"\xfe\xff\0h\0o"),
        ("bytes of no known kind", b"\x01\x02usm1\xff"),
    ];
    let padded = |start: &[u8]| [start, &vec![0; BLOCK_BYTES - start.len()]].concat();
    let cases = kinds.into_iter().flat_map(|(name, start)| {
        [(String::from(name), start.to_vec()), (format!("{name}, a block long"), padded(start))]
    });
    let zeros = (String::from("a block of zeros"), vec![0; BLOCK_BYTES]);
    // A mark further on tells that it is a sheet file, and damaged.
    let torn_mark = (String::from("a torn file without its first mark"), [b"\0", &file()[1..700]].concat());
    cases.chain([zeros, torn_mark]).collect()
}

/// The same of account 7, in the new form.
fn of_account(name: &str, block: usize, at: usize, bytes: &[u8]) -> Case {
    set(name, Sheet { account: 7, ..accepted() }.to_file().expect("a file"), block, at, bytes)
}

/// The file with bytes of one block set, its checks to match.
fn changed(name: &str, block: usize, at: usize, bytes: &[u8]) -> Case {
    set(name, file(), block, at, bytes)
}

fn set(name: &str, mut file: Vec<u8>, block: usize, at: usize, bytes: &[u8]) -> Case {
    let block = &mut file[block * BLOCK_BYTES..][..BLOCK_BYTES];
    block[at..at + bytes.len()].copy_from_slice(bytes);
    seal(block);
    (String::from(name), file)
}

pub fn blocks() -> Vec<Case> {
    let mut damaged = file();
    damaged[BLOCK_BYTES + 20] ^= 1;
    let mut out_of_order = file();
    out_of_order[BLOCK_BYTES..].rotate_left(BLOCK_BYTES);
    renumber(&mut out_of_order);
    vec![
        (String::from("a damaged block"), damaged),
        changed("no mark", 0, 0, b"USM9"),
        changed("no mark behind the first block", 1, 0, b"USN1"),
        changed("a block of the new form behind the old", 1, 0, b"USM2"),
        of_account("a block of the old form behind the new", 1, 0, b"USM1"),
        of_account("a block of another account", 2, 496, &[9]),
        of_account("a block with no account", 1, 496, &[0]),
        of_account("a first block with no account", 0, 496, &[0]),
        of_account("bytes behind the account", 0, 504, &[1]),
        of_account("bytes before the account", 0, 495, &[1]),
        changed("an account in the old form", 1, 496, &[7]),
        changed("no such kind", 1, 4, &[4]),
        changed("no record", 0, 5, &[0]),
        changed("too many records in a block", 0, 5, &[16]),
        changed("another number", 2, 6, &[1]),
        changed("another count of blocks", 0, 8, &[1]),
        changed("bytes behind the head", 0, 15, &[1]),
        changed("bytes behind the records", 1, 490, &[1]),
        changed("bytes before the checks", 2, 507, &[1]),
        (String::from("kinds that fall"), out_of_order),
        (String::from("behind a short block"), behind_a_short_block()),
        (String::from("too many claims"), too_many_claims()),
        (String::from("too many holdings"), too_many_holdings()),
    ]
}

/// A second block of claims where the first has one claim.
fn behind_a_short_block() -> Vec<u8> {
    let claim = Sheet { claims: vec![Claim { group: 1, margin: 0 }], ..Sheet::default() };
    let mut file = claim.to_file().expect("a file").repeat(2);
    renumber(&mut file);
    file
}

/// Three full blocks of claims.
fn too_many_claims() -> Vec<u8> {
    let claims = (1..=15).map(|group| Claim { group, margin: 0 }).collect();
    let mut file = Sheet { claims, ..Sheet::default() }.to_file().expect("a file").repeat(3);
    renumber(&mut file);
    file
}

/// The longest sheet with one holding more.
fn too_many_holdings() -> Vec<u8> {
    let mut file = fullest().to_file().expect("a file");
    let last = &mut file[17 * BLOCK_BYTES..][..BLOCK_BYTES];
    last.copy_within(16..48, 48);
    last[5] = 2;
    seal(last);
    file
}
