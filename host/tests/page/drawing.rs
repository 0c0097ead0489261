//! Drawings, read back from their numbers.

use usm::{check_file, Leg, Sheet};
use usm_kit::accounts::{leg, placed, times};

use crate::reader::{body, pieces, tags, texts, Piece, Tag};
use crate::{page_of, sample, sample_names};

/// The measures that a drawing says it has.
struct Scale {
    prices: [f64; 2],
    nets: [f64; 2],
    field: [f64; 4],
}

fn numbers<const N: usize>(text: &str) -> [f64; N] {
    let numbers: Vec<f64> = text.split_whitespace().map(|word| word.parse().expect("a number")).collect();
    numbers.try_into().expect("so many numbers")
}

fn number(tag: &Tag, key: &str) -> f64 {
    tag.get(key).expect(key).parse().expect("a number")
}

impl Scale {
    fn of(svg: &Tag) -> Scale {
        let get = |key| svg.get(key).expect(key);
        Scale {
            prices: numbers(get("data-prices")),
            nets: numbers(get("data-nets")),
            field: numbers(get("data-box")),
        }
    }

    /// The price and the net of a place in the picture, in mills.
    fn at(&self, [x, y]: [f64; 2]) -> [f64; 2] {
        let [left, top, right, bottom] = self.field;
        let between = |[from, to]: [f64; 2], part: f64| from + (to - from) * part;
        [between(self.prices, (x - left) / (right - left)), between(self.nets, (bottom - y) / (bottom - top))]
    }

    /// What the last digit of the picture's numbers is worth.
    fn nearly(&self, found: [f64; 2], expected: [f64; 2]) {
        let [left, top, right, bottom] = self.field;
        let last = [
            0.006 * (self.prices[1] - self.prices[0]) / (right - left),
            0.006 * (self.nets[1] - self.nets[0]) / (bottom - top),
        ];
        for index in [0, 1] {
            let apart = (found[index] - expected[index]).abs();
            assert!(apart <= last[index] + 1e-6, "{found:?} and not {expected:?}");
        }
    }
}

/// The drawings of a page: the tags in each, its own first.
fn drawings(page: &str) -> Vec<Vec<Tag>> {
    let mut drawings: Vec<Vec<Tag>> = Vec::new();
    for piece in pieces(body(page)) {
        match piece {
            Piece::Open(tag) if tag.name == "svg" => drawings.push(vec![tag]),
            Piece::Open(tag) => drawings.last_mut().into_iter().for_each(|tags| tags.push(tag.clone())),
            _ => {}
        }
    }
    drawings
}

fn of_class<'a>(drawing: &'a [Tag], name: &str, class: &str) -> Vec<&'a Tag> {
    drawing.iter().filter(|tag| tag.name == name && tag.get("class") == Some(class)).collect()
}

/// The points of a path of straight lines.
fn points(path: &Tag) -> Vec<[f64; 2]> {
    path.get("d").expect("a path").trim_start_matches('M').split(" L").map(numbers).collect()
}

/// Holds one drawing against the library's answers.
fn is_of(drawing: &[Tag], rows: &[(u32, i64)], margin: i64) {
    let scale = Scale::of(&drawing[0]);
    let mills = |&(strike, net): &(u32, i64)| [f64::from(strike), net as f64];
    let strikes: Vec<[f64; 2]> = rows.iter().map(mills).collect();
    // The left end, each strike, the right end: the two ends level with the outer strikes.
    let path = points(of_class(drawing, "path", "net")[0]);
    assert_eq!(path.len(), rows.len() + 2);
    let (first, last) = (strikes[0], strikes[rows.len() - 1]);
    scale.nearly(scale.at(path[0]), [scale.prices[0], first[1]]);
    scale.nearly(scale.at(path[rows.len() + 1]), [scale.prices[1], last[1]]);
    assert!(scale.prices[0] < first[0] && last[0] < scale.prices[1], "both ends are to be seen");
    for (point, strike) in path[1..].iter().zip(&strikes) {
        scale.nearly(scale.at(*point), *strike);
    }
    // A mark for each strike, and a ring at the first of those with the lowest net.
    let lowest = rows.iter().map(|row| row.1).min().expect("a strike");
    let worst = rows.iter().find(|row| row.1 == lowest).expect("a strike");
    let place = |tag: &&Tag| scale.at([number(tag, "cx"), number(tag, "cy")]);
    let rings = of_class(drawing, "circle", "worst");
    assert_eq!((rings.len(), of_class(drawing, "circle", "dot").len()), (1, rows.len() - 1));
    scale.nearly(place(&rings[0]), mills(worst));
    let ticks = of_class(drawing, "line", "tick");
    assert_eq!(ticks.len(), rows.len());
    for (tick, strike) in ticks.iter().zip(&strikes) {
        assert_eq!(tick.get("x1"), tick.get("x2"));
        scale.nearly(scale.at([number(tick, "x1"), scale.field[3]]), [strike[0], scale.nets[0]]);
    }
    for (class, net) in [("zero", 0.0), ("margin", -(margin as f64))] {
        let line = of_class(drawing, "line", class)[0];
        scale.nearly(scale.at([number(line, "x1"), number(line, "y1")]), [scale.prices[0], net]);
        scale.nearly(scale.at([number(line, "x2"), number(line, "y2")]), [scale.prices[1], net]);
    }
}

/// Sheets whose drawings go to some end: one strike, the lowest and the highest, a mill apart, very many.
fn ends() -> Vec<(&'static str, Sheet)> {
    let mill = |notation, strike| Leg { strike, ..leg(notation) };
    let many: Vec<Leg> =
        (1..=256).map(|number| mill(if number % 2 == 0 { "L1c" } else { "S1c" }, number * 90)).collect();
    vec![
        ("one strike", placed(&[leg("S50c"), Leg { unit_size: 10, ..times(10, "L50c") }], &[])),
        ("lowest", placed(&[mill("S1c", 1), mill("L1c", 2)], &[])),
        ("highest", placed(&[mill("S1c", 99_999_998), mill("L1c", 99_999_999)], &[])),
        ("far apart", placed(&[mill("S1c", 1), mill("L1c", 99_999_999)], &[])),
        ("many", placed(&many, &[])),
    ]
}

#[test]
fn each_drawing_is_the_worksheet() {
    let samples = sample_names().into_iter().filter(|name| check_file(&sample(name)).is_ok());
    let samples = samples.map(|name| (name.clone(), Sheet::from_file(&sample(&name)).expect("a sheet")));
    let ends = ends().into_iter().map(|(name, mut sheet)| {
        sheet.claim_margins().expect("spreads");
        (String::from(name), sheet)
    });
    let mut drawn = 0;
    for (name, sheet) in samples.chain(ends) {
        let page = page_of("page-drawing", &[("sheet.usm", &sheet.to_file().expect("a file"))]);
        let drawings = drawings(&page);
        assert_eq!(drawings.len(), sheet.claims.len(), "{name}");
        for (drawing, claim) in drawings.iter().zip(&sheet.claims) {
            let group = u64::from(claim.group);
            is_of(
                drawing,
                &sheet.worksheet(group).expect("a spread"),
                sheet.margin(group).expect("a spread"),
            );
            drawn += 1;
        }
    }
    assert!(drawn >= 20, "{drawn} drawings");
}

#[test]
fn each_drawing_is_told_in_words() {
    let page = page_of("page-told", &[("sheet.usm", &sample("iron-condor-in-two-groups.usm"))]);
    let pieces = pieces(body(&page));
    let told = texts(&pieces, "figcaption");
    assert!(told[0].contains("At worst it loses $1,000.000, at $50.000."), "{}", told[0]);
    assert!(told[1].contains("At worst it loses $500.000, at $70.000."), "{}", told[1]);
    for (told, svg) in told.iter().zip(tags(&pieces, "svg")) {
        assert!(told.contains("Below the lowest strike and above the highest it is level"), "{told}");
        assert_eq!(svg.get("role"), Some("img"));
        let ids: Vec<&str> = svg.get("aria-labelledby").expect("a name").split(' ').collect();
        let named = |name| tags(&pieces, name).any(|tag| ids.contains(&tag.get("id").unwrap_or("")));
        assert!(named("title") && named("desc"), "{ids:?}");
    }
    let labels = texts(&pieces, "text");
    for label in ["worst -$1,000.000", "margin $1,000.000", "$0", "$50.000", "$60.000"] {
        assert!(labels.iter().any(|text| text == label), "{label}: {labels:?}");
    }
}
