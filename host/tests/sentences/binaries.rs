//! Refusals of credit event binaries, of one position and of a pair.

use usm::{binary_margin, binary_pair, sentences, Binary, LongBinary, Refusal, Side};

use crate::entry::entry;

const VALUED: u64 = 20110315;
const GOOD: Binary = Binary { reference: 7, spread: 250, expiry: 20160620, contracts: 10 };

fn single(name: &str, valuation: u64, binary: Binary) -> String {
    let Binary { spread, expiry, contracts, .. } = binary;
    let refusal = binary_margin(Side::Short, spread, valuation, expiry, contracts).expect_err(name);
    let sentence = sentences::of_binary(spread, valuation, expiry, contracts, &refusal);
    entry(&format!("a binary: {name}"), &refusal, &sentence)
}

fn pair(name: &str, valuation: u64, binary: Binary, short: Binary) -> String {
    let long = LongBinary { binary, paid: true };
    let refusal = binary_pair(valuation, long, short).expect_err(name);
    entry(&format!("a pair: {name}"), &refusal, &sentences::of_pair(valuation, &long, &short, &refusal))
}

pub fn sentences() -> String {
    let wide = Binary { spread: 100_001, ..GOOD };
    let past = Binary { expiry: 20110314, ..GOOD };
    let all = Binary { spread: u64::MAX, expiry: 1 << 32 | 20160620, contracts: 0, ..GOOD };
    let strange = Refusal::new(17, 0, 0);
    let by_itself = |number, place| {
        let refusal = Refusal::new(number, 0, place);
        entry("binaries by themselves", &refusal, &refusal.to_string())
    };
    [
        by_itself(4, 0),
        by_itself(4, 1),
        by_itself(25, 0),
        by_itself(25, 1),
        single("spread", VALUED, wide),
        single("expiry", VALUED, Binary { expiry: 20110229, ..GOOD }),
        single("contracts", VALUED, Binary { contracts: 100_001, ..GOOD }),
        single("valuation date", 19991231, GOOD),
        single("every number", 0, all),
        single("expiry too early", VALUED, past),
        pair("the long", VALUED, wide, all),
        pair("the valuation date", 20110431, GOOD, all),
        pair("the short", VALUED, past, wide),
        pair("the long too early", VALUED, past, past),
        pair("the short too early", VALUED, GOOD, past),
        entry("a binary: another refusal", &strange, &sentences::of_binary(0, VALUED, VALUED, 1, &strange)),
    ]
    .concat()
}
