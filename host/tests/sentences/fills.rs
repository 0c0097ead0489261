//! Refusals of fills: those that are listed, and those of the holdings that they are played over.

use usm::{play, sentences, Action, Fill, Leg, Refusal};
use usm_kit::accounts::{in_group, leg, times};

use crate::entry::entry;

fn held(leg: Leg) -> Leg {
    in_group(0, leg)
}

fn fill(action: Action, leg: Leg) -> Fill {
    Fill { action, leg: held(leg) }
}

fn listed(name: &str, holdings: &[Leg], fills: &[Fill]) -> String {
    let played = play(holdings, fills).expect(name);
    let entries = played
        .refused
        .iter()
        .map(|refusal| entry(name, refusal, &sentences::of_fills(holdings, fills, refusal)));
    entries.collect()
}

pub fn sentences() -> String {
    use Action::{Close, Open};
    let full: Vec<Leg> = (1..=256).map(|strike| held(Leg { strike, ..leg("L60c") })).collect();
    let past = [held(times(60_000, "L60c")), held(leg("S50c")), held(times(40_001, "L60c"))];
    let refusal = play(&past, &[]).expect_err("too much of one");
    [
        listed("nothing held", &[], &[fill(Close, leg("L60c"))]),
        listed("one held", &[held(leg("S50p"))], &[fill(Close, times(2, "S50p"))]),
        listed(
            "less held by then",
            &[held(times(2_000, "L60c"))],
            &[fill(Close, times(500, "L60c")), fill(Close, times(2_000, "L60c"))],
        ),
        listed("too much of one", &[held(times(99_999, "L60c"))], &[fill(Open, times(2, "L60c"))]),
        listed("one line too many", &full, &[fill(Open, leg("S50c"))]),
        entry("holdings with too much of one", &refusal, &sentences::of_fills(&past, &[], &refusal)),
        entry(
            "a fill that is not there",
            &Refusal::new(18, 4, 9),
            &sentences::of_fills(&past, &[], &Refusal::new(18, 4, 9)),
        ),
    ]
    .concat()
}
