//! Colours that can be read, in light and in dark: the contrast that WCAG 2 asks for (level AA).

use std::collections::BTreeMap;

use crate::{page_of, sample};

/// The colours of the first block in a part of the style.
fn colours(style: &str) -> BTreeMap<String, [u8; 3]> {
    let block = style.split_once('{').expect("a block").1.split_once('}').expect("its end").0;
    let pairs = block.split(';').filter_map(|pair| pair.split_once(':'));
    let colour = |value: &str| -> Option<[u8; 3]> {
        let digits = value.trim().strip_prefix('#')?;
        Some([0, 2, 4].map(|at| u8::from_str_radix(&digits[at..at + 2], 16).expect("a colour")))
    };
    pairs.filter_map(|(name, value)| Some((String::from(name.trim()), colour(value)?))).collect()
}

/// Relative luminance.
fn light(colour: [u8; 3]) -> f64 {
    let linear = colour.map(|part| {
        let part = f64::from(part) / 255.0;
        if part <= 0.04045 {
            part / 12.92
        } else {
            ((part + 0.055) / 1.055).powf(2.4)
        }
    });
    0.2126 * linear[0] + 0.7152 * linear[1] + 0.0722 * linear[2]
}

fn contrast(one: [u8; 3], other: [u8; 3]) -> f64 {
    let (one, other) = (light(one), light(other));
    (one.max(other) + 0.05) / (one.min(other) + 0.05)
}

#[test]
fn contrast_is_that_of_text_in_light_and_in_dark() {
    let page = page_of("page-style", &[("sheet.usm", &sample("vertical.usm"))]);
    let style = page.split_once("<style>").expect("a style").1.split_once("</style>").expect("its end").0;
    let dark = style.split_once("(prefers-color-scheme: dark) {").expect("dark colours").1;
    assert!((contrast([0; 3], [255; 3]) - 21.0).abs() < 1e-9, "black on white");
    for colours in [colours(style), colours(dark)] {
        assert!(colours.len() >= 11, "{colours:?}");
        for (text, ground) in [
            ("--ink", "--paper"),
            ("--soft", "--paper"),
            ("--soft", "--shade"),
            ("--ink", "--shade"),
            ("--good", "--paper"),
            ("--bad", "--paper"),
            ("--link", "--paper"),
            ("--net", "--paper"),
            ("--marked-ink", "--marked"),
        ] {
            let contrast = contrast(colours[text], colours[ground]);
            assert!(contrast >= 4.5, "{text} on {ground}: {contrast:.2}");
        }
    }
}
