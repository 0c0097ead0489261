//! A worksheet as a table, with a bar for the net at each strike: losses to the left of the line, gains
//! to its right.

use usm::numbers::dollars;

/// The longest bar, in characters.
const LONGEST_BAR: i128 = 24;

pub fn table(rows: &[(u32, i64)]) -> String {
    let cells: Vec<(String, String)> =
        rows.iter().map(|&(strike, net)| (dollars(i64::from(strike)), dollars(net))).collect();
    let strike_width = cells.iter().map(|(strike, _)| strike.len()).max().unwrap_or(0).max("strike".len());
    let net_width = cells.iter().map(|(_, net)| net.len()).max().unwrap_or(0).max("net".len());
    let mut table = format!("{:>strike_width$}  {:>net_width$}\n", "strike", "net");
    for ((strike, net), bar) in cells.iter().zip(bars(rows)) {
        table += format!("{strike:>strike_width$}  {net:>net_width$}  {bar}").trim_end();
        table += "\n";
    }
    table
}

/// A bar for each row; the greatest net, gain or loss, has the longest.
fn bars(rows: &[(u32, i64)]) -> Vec<String> {
    let greatest = rows.iter().map(|(_, net)| i128::from(*net).abs()).max().unwrap_or(0).max(1);
    // Rounded up, so that no net but zero has a bar of no length.
    let length = |net: i64| ((i128::from(net).abs() * LONGEST_BAR + greatest - 1) / greatest) as usize;
    let left = rows.iter().filter(|(_, net)| *net < 0).map(|(_, net)| length(*net)).max().unwrap_or(0);
    let bar = |net: i64| match net {
        0.. => format!("{:left$}|{}", "", "+".repeat(length(net))),
        _ => format!("{:>left$}|", "-".repeat(length(net))),
    };
    rows.iter().map(|(_, net)| bar(*net)).collect()
}
