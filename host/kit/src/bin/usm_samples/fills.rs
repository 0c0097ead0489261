//! A day's fills over yesterday's holdings, as texts.

use usm::text::{show_fills, show_holdings};
use usm::{play, sentences, Action, Fill, Leg};
use usm_kit::accounts::{in_group, leg, times};

/// Repeats of a line, and both sides of one.
fn yesterday() -> Vec<Leg> {
    let lots = [times(3, "L60c"), times(5, "S50c"), times(2, "L60c"), leg("S60c"), leg("L50p")];
    lots.map(|leg| in_group(0, leg)).to_vec()
}

fn fill(action: Action, leg: Leg) -> Fill {
    Fill { action, leg: in_group(0, leg) }
}

fn fills() -> Vec<Fill> {
    use Action::{Close, Open};
    vec![
        fill(Open, times(4, "L60c")),
        fill(Close, times(6, "S50c")),
        fill(Close, leg("S60c")),
        fill(Open, leg("L70c")),
        fill(Open, leg("S60c")),
        fill(Open, times(100_000, "L50p")),
        fill(Close, leg("L80c")),
        fill(Close, times(5, "S50c")),
    ]
}

/// The names and the texts of the samples: what is held before, the fills, what is held after, and what is
/// said of the fills that are refused.
pub fn texts() -> Result<[(&'static str, String); 4], String> {
    let (yesterday, fills) = (yesterday(), fills());
    let played = play(&yesterday, &fills).map_err(|refusal| refusal.to_string())?;
    let refused: String = played
        .refused
        .iter()
        .map(|refusal| format!("{} {}\n", refusal.number, sentences::of_fills(&yesterday, &fills, refusal)))
        .collect();
    Ok([
        (
            "yesterday.txt",
            format!(
                "# Yesterday's holdings: a line in two records, another line both long and short.\n\n{}",
                show_holdings(&yesterday)
            ),
        ),
        (
            "fills.txt",
            format!("# The day's fills, in the order in which they came.\n\n{}", show_fills(&fills)),
        ),
        ("today.txt", show_holdings(&played.holdings)),
        ("refused.txt", refused),
    ])
}
