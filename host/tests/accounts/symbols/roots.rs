//! The table of roots, which is looked at first (23).

use usm::{root_table, Market, Root, Settlement, Style, ROOT_BYTES};
use usm_kit::accounts::root;

use super::{assert_list, assert_no_holdings, assert_no_list, three_roots};

/// Both calls refuse the table there, also for a list and holdings that are bad themselves.
#[track_caller]
fn assert_no_roots(roots: &[u8], place: u64) {
    for list in [&b""[..], b"nonsense"] {
        assert_no_list(roots, list, (23, 5, place));
    }
    for holdings in [&[][..], &[9; 32], &[0; 31], &[0; 257 * 32]] {
        assert_no_holdings(roots, holdings, (23, 5, place));
    }
}

/// Roots that differ in their names and in their underlyings.
fn many(count: u32) -> Vec<Root> {
    (1..=count).map(|underlying| Root { underlying, ..root(&format!("R{underlying}")) }).collect()
}

#[test]
fn there_are_1_to_256_roots() {
    assert_no_roots(&[], 0);
    for length in [1, 8, 15, 17, 31, 33, 256 * ROOT_BYTES - 1, 256 * ROOT_BYTES + 1, 257 * ROOT_BYTES] {
        assert_no_roots(&root_table(&many(257))[..length], 0);
    }
    for count in [1, 2, 255, 256] {
        assert_list(&many(count), "", &[]);
    }
    // The size comes before a bad root.
    let mut bad = root_table(&many(257));
    bad[4 * ROOT_BYTES] = b'a';
    assert_no_roots(&bad, 0);
    assert_no_roots(&bad[..256 * ROOT_BYTES], 4);
}

#[test]
fn a_root_is_well_formed_and_in_range() {
    let good = root_table(&three_roots());
    for (at, bytes) in [
        (0, &b"      "[..]),
        (0, b"a"),
        (0, b"1"),
        (0, b" A"),
        (0, b"AB D"),
        (0, b"A\0"),
        (5, b"\0"),
        (5, b"z"),
        (1, b"-"),
        (1, b"@"),
        (1, b"["),
        (1, b"/"),
        (1, b":"),
        (0, b"\xC1"),
        (6, &[0]),
        (6, &[3]),
        (7, &[0]),
        (7, &[3]),
        (8, &[0, 0]),
        (8, &[0xE9, 3]),
        (8, &[0xFF, 0xFF]),
        (10, &[3]),
        (10, &[255]),
        (11, &[1]),
        (11, &[255]),
        (12, &[0, 0, 0, 0]),
    ] {
        for place in 0..3 {
            let mut roots = good.clone();
            roots[place * ROOT_BYTES + at..][..bytes.len()].copy_from_slice(bytes);
            assert_no_roots(&roots, place as u64);
        }
    }
}

#[test]
fn neither_a_name_nor_five_terms_come_twice() {
    let roots = many(5);
    for (earlier, later) in [(0, 1), (0, 4), (2, 3), (3, 4)] {
        let mut same_name = roots.clone();
        same_name[later].name = roots[earlier].name;
        assert_no_roots(&root_table(&same_name), later as u64);
        let mut same_terms = roots.clone();
        same_terms[later] = Root { name: roots[later].name, ..roots[earlier] };
        assert_no_roots(&root_table(&same_terms), later as u64);
    }
    // A name alike in its beginning is another, and so are terms that differ in one of the five.
    let first = root("A");
    let others = [
        Root { style: Style::European, ..root("AA") },
        Root { market: Market::Otc, ..root("AAA") },
        Root { unit_size: 10, ..root("AAAA") },
        Root { settlement: Settlement::Cash, ..root("AAAAA") },
        Root { underlying: 8, ..root("AAAAAA") },
    ];
    assert_list(&[&[first], &others[..]].concat(), "", &[]);
}

#[test]
fn the_first_bad_root_is_named() {
    let mut roots = root_table(&many(6));
    roots[3 * ROOT_BYTES + 11] = 1;
    assert_no_roots(&roots, 3);
    roots.copy_within(0..6, 2 * ROOT_BYTES);
    assert_no_roots(&roots, 2);
    roots[ROOT_BYTES] = b'r';
    assert_no_roots(&roots, 1);
    roots[6] = 0;
    assert_no_roots(&roots, 0);
}
