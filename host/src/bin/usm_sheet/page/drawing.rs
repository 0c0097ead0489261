//! The drawing of a group: its net over the price of the underlying.

use usm::numbers::dollars;

use super::html::{all, element, words, Html};
use super::scale::{written, Scale, HEIGHT, WIDTH};

/// How wide one character of a word is at most, and how high a line.
const CHARACTER: f64 = 6.6;
const LINE: f64 = 13.0;
/// Where the strikes are marked.
const AXIS: f64 = 204.0;

/// The worst of a worksheet, which has at least one row: the first strike with the lowest net.
pub fn worst(rows: &[(u32, i64)]) -> (u32, i64) {
    rows.iter().copied().min_by_key(|(_, net)| *net).unwrap_or((0, 0))
}

/// The picture of a worksheet and a margin. `name` is what stands before its parts' own names.
pub fn drawing(name: &str, title: &str, told: &str, rows: &[(u32, i64)], margin: i64) -> Html {
    let scale = Scale::of(rows, margin);
    let (title_id, told_id) = (format!("{name}-title"), format!("{name}-told"));
    let (first, last) = scale.prices;
    let (low, high) = scale.nets;
    element(
        "svg",
        &[
            ("viewBox", &format!("0 0 {WIDTH} {HEIGHT}")),
            ("role", "img"),
            ("aria-labelledby", &format!("{title_id} {told_id}")),
            ("data-prices", &format!("{first} {last}")),
            ("data-nets", &format!("{low} {high}")),
            ("data-box", &scale.field()),
        ],
        [
            words("title", &[("id", &title_id)], title),
            words("desc", &[("id", &told_id)], told),
            area(&scale, rows),
            line("zero", scale.sides(), scale.y(0)),
            line("margin", scale.sides(), scale.y(-i128::from(margin))),
            element("path", &[("class", "net"), ("d", &path(&scale, rows))], []),
            strikes(&scale, rows),
            labels(&scale, rows, margin),
        ],
    )
}

/// The net at the left end, at each strike, and at the right end; beyond the outer strikes it is level, since the
/// long and short units of calls balance, and so do those of puts.
fn points(scale: &Scale, rows: &[(u32, i64)]) -> Vec<(f64, f64)> {
    let (left, right) = scale.sides();
    let at = |&(strike, net): &(u32, i64)| (scale.x(strike.into()), scale.y(net));
    let end = |x: f64, row: Option<&(u32, i64)>| row.map(|(_, net)| (x, scale.y(*net)));
    let ends = (end(left, rows.first()), end(right, rows.last()));
    ends.0.into_iter().chain(rows.iter().map(at)).chain(ends.1).collect()
}

fn path(scale: &Scale, rows: &[(u32, i64)]) -> String {
    let steps: Vec<String> =
        points(scale, rows).iter().map(|(x, y)| format!("{} {}", written(*x), written(*y))).collect();
    format!("M{}", steps.join(" L"))
}

/// What lies between the net and the zero line.
fn area(scale: &Scale, rows: &[(u32, i64)]) -> Html {
    let (left, right) = scale.sides();
    let zero = written(scale.y(0));
    let d = format!("{} L{} {zero} L{} {zero} Z", path(scale, rows), written(right), written(left));
    element("path", &[("class", "area"), ("d", &d)], [])
}

fn line(class: &str, (left, right): (f64, f64), y: f64) -> Html {
    let y = written(y);
    let ends = [written(left), written(right)];
    element("line", &[("class", class), ("x1", &ends[0]), ("x2", &ends[1]), ("y1", &y), ("y2", &y)], [])
}

/// A tick on the axis and a dot on the net for each strike; the worst has a ring.
fn strikes(scale: &Scale, rows: &[(u32, i64)]) -> Html {
    let worst = worst(rows);
    let marks = rows.iter().map(|&(strike, net)| {
        let (x, y) = (written(scale.x(strike.into())), written(scale.y(net)));
        let ends = [written(AXIS), written(AXIS + 5.0)];
        let tick: [(&str, &str); 5] =
            [("class", "tick"), ("x1", &x), ("x2", &x), ("y1", &ends[0]), ("y2", &ends[1])];
        let (class, radius) = if (strike, net) == worst { ("worst", "5") } else { ("dot", "2.5") };
        all([
            element("line", &tick, []),
            element("circle", &[("class", class), ("cx", &x), ("cy", &y), ("r", radius)], []),
        ])
    });
    all(marks.collect::<Vec<Html>>())
}

fn labels(scale: &Scale, rows: &[(u32, i64)], margin: i64) -> Html {
    let (left, right) = scale.sides();
    let (strike, net) = worst(rows);
    // Below the ring.
    let worst_y = scale.y(net) + LINE + 5.0;
    let margin_y = scale.y(-i128::from(margin)) + LINE;
    // Where both would stand in one line, that of the margin goes below.
    let margin_y = if (margin_y - worst_y).abs() < LINE { worst_y + LINE } else { margin_y };
    let worst_says = match net {
        0.. => format!("lowest {}", dollars(net)),
        _ => format!("worst {}", dollars(net)),
    };
    let worst_x = within(scale, scale.x(strike.into()), &worst_says);
    all([
        label("axis", "start", (left, 14.0), "net in dollars"),
        label("axis", "end", (left - 3.0, scale.y(0) + 4.0), "$0"),
        line("axis", (left, right), AXIS),
        strike_labels(scale, rows),
        label("axis", "middle", ((left + right) / 2.0, HEIGHT - 5.0), "price of the underlying"),
        label("margin", "start", (left, margin_y), &format!("margin {}", dollars(margin))),
        label("worst", "middle", (worst_x, worst_y), &worst_says),
    ])
}

/// The prices at the strikes: the worst one's, the outer ones', and then as many as have room.
fn strike_labels(scale: &Scale, rows: &[(u32, i64)]) -> Html {
    let first = [Some(worst(rows).0), rows.first().map(|row| row.0), rows.last().map(|row| row.0)];
    let wanted = first.into_iter().flatten().chain(rows.iter().map(|row| row.0));
    let mut taken: Vec<(f64, f64)> = Vec::new();
    let mut shown = Vec::new();
    for strike in wanted {
        let says = dollars(strike);
        let (x, half) = (within(scale, scale.x(strike.into()), &says), half_width(&says));
        if taken.iter().all(|(other, width)| (other - x).abs() > width + half) {
            taken.push((x, half));
            shown.push(label("axis", "middle", (x, AXIS + LINE + 4.0), &says));
        }
    }
    all(shown)
}

fn half_width(says: &str) -> f64 {
    says.chars().count() as f64 * CHARACTER / 2.0
}

/// The place nearest to `x` where words that are centred there stay between the picture's sides.
fn within(scale: &Scale, x: f64, says: &str) -> f64 {
    let ((left, right), half) = (scale.sides(), half_width(says));
    x.min(right - half).max(left + half)
}

fn label(class: &str, anchor: &str, (x, y): (f64, f64), says: &str) -> Html {
    let (x, y) = (written(x), written(y));
    words("text", &[("class", class), ("text-anchor", anchor), ("x", &x), ("y", &y)], says)
}
