//! A real browser looks at pages: nothing is fetched from outside, no text leaves its box on a phone or on a
//! screen, and pictures are taken, for a person to look at in the folder that `USM_PICTURES` names.

use std::fs;
use std::path::{Path, PathBuf};

use usm::{Leg, Market, Settlement, Sheet};
use usm_kit::accounts::{in_group, leg, placed};

use crate::chromium::Chromium;
use crate::common::folder;
use crate::scripts::on_path;
use crate::{run, sample, sample_names};

const WIDTHS: [u32; 2] = [360, 1280];

/// Texts that lie outside of the box that they stand in, of the screen, or of their drawing; and labels of a drawing
/// that lie over one another. None is said as nothing.
const OVERFLOWS: &str = r#"
(() => {
  const wrong = [];
  const wide = document.documentElement.clientWidth;
  const told = (what, text) => wrong.push(what + ' ' + encodeURIComponent(text.trim().slice(0, 60)));
  const inside = (rect, box) => rect.left >= box.left - 1 && rect.right <= box.right + 1
    && rect.top >= box.top - 1 && rect.bottom <= box.bottom + 1;
  const walker = document.createTreeWalker(document.body, NodeFilter.SHOW_TEXT);
  let texts = 0;
  for (let node = walker.nextNode(); node; node = walker.nextNode()) {
    if (!node.data.trim() || node.parentElement.closest('svg')) continue;
    texts += 1;
    let box = node.parentElement;
    while (getComputedStyle(box).display === 'inline') box = box.parentElement;
    const range = document.createRange();
    range.selectNodeContents(node);
    for (const rect of range.getClientRects()) {
      if (!inside(rect, box.getBoundingClientRect())) told('box', node.data);
      if (rect.left < 0 || rect.right > wide) told('screen', node.data);
    }
    if (box.scrollWidth > box.clientWidth + 1) told('scroll', node.data);
  }
  for (const svg of document.querySelectorAll('svg')) {
    const labels = [...svg.querySelectorAll('text')];
    const frame = svg.getBoundingClientRect();
    labels.forEach((label, index) => {
      texts += 1;
      const rect = label.getBoundingClientRect();
      if (!inside(rect, frame)) told('drawing', label.textContent);
      for (const other of labels.slice(index + 1)) {
        const over = other.getBoundingClientRect();
        const apart = rect.right <= over.left || over.right <= rect.left
          || rect.bottom <= over.top + 4 || over.bottom <= rect.top + 4;
        if (!apart) told('labels', label.textContent + ' / ' + other.textContent);
      }
    });
  }
  if (document.documentElement.scrollWidth > wide) told('page', String(document.documentElement.scrollWidth));
  if (texts < 10) told('texts', String(texts));
  return wrong.join('\n');
})()
"#;

/// Words of a leg's terms that stand on two lines. Only the widest numbers leave too little room for a word.
const PARTED: &str = r#"
[...document.querySelectorAll('.long')].flatMap(long => {
  const node = long.firstChild;
  return [...node.data.matchAll(/\S+/g)].filter(word => {
    const range = document.createRange();
    range.setStart(node, word.index);
    range.setEnd(node, word.index + word[0].length);
    return range.getClientRects().length > 1;
  }).map(word => word[0]);
}).join(' ')
"#;

/// The lightness of the page's ground.
const GROUND: &str = "getComputedStyle(document.body).backgroundColor";

struct Page {
    name: &'static str,
    path: PathBuf,
}

/// A sheet of the widest numbers and words, under a long name; and one with as many strikes as there can be.
fn widest() -> [(&'static str, Sheet); 2] {
    let most = |notation, strike| Leg {
        unit_size: 1_000,
        contracts: 100_000,
        strike,
        underlying: u32::MAX,
        market: Market::Otc,
        settlement: Settlement::Physical,
        paid: true,
        ..leg(notation)
    };
    let unplaced = in_group(0, most("L1p", 99_999_998));
    let great = placed(&[most("S1c", 1), most("L1c", 99_999_999), unplaced], &[]);
    let many = |number: u32| Leg { strike: number * 90, ..leg(if number % 2 == 0 { "L1c" } else { "S1c" }) };
    let many = placed(&(1..=256).map(many).collect::<Vec<Leg>>(), &[]);
    [
        (
            "a-long-name-without-a-place-where-it-could-be-parted-into-lines.usm",
            Sheet { account: u64::MAX, ..great },
        ),
        ("many.usm", many),
    ]
}

/// The pages to look at, in a folder.
fn made(folder: &Path) -> Vec<Page> {
    for file in sample_names() {
        fs::write(folder.join(&file), sample(&file)).expect("a file");
    }
    for (file, mut sheet) in widest() {
        sheet.claim_margins().expect("spreads");
        fs::write(folder.join(file), sheet.to_file().expect("a file")).expect("a file");
    }
    let samples: Vec<String> = sample_names();
    let samples: Vec<&str> = samples.iter().map(String::as_str).collect();
    let widest = widest().map(|(file, _)| file);
    let pages: [(&str, &[&str]); 6] = [
        ("accepted", &["iron-condor-in-two-groups.usm"]),
        ("box", &["european-box.usm"]),
        ("refused", &["claim-one-mill-short.usm"]),
        ("leg", &["short-outlives-a-long.usm"]),
        ("widest", &widest),
        ("samples", &samples),
    ];
    let page = |(name, files): &(&'static str, &[&str])| {
        let out = format!("{name}.html");
        let words: Vec<&str> = files.iter().copied().chain([out.as_str()]).collect();
        assert_ne!(run(folder, &words).status.code(), Some(2), "{name}");
        Page { name, path: folder.join(&out) }
    };
    pages.iter().map(page).collect()
}

/// Keeps a picture where somebody wants to look at it.
fn keep(name: &str, picture: &[u8]) {
    assert!(picture.starts_with(b"\x89PNG\r\n"), "{name} is no picture");
    assert!(picture.len() > 5_000, "{name}: {} bytes are an empty picture", picture.len());
    if let Some(folder) = std::env::var_os("USM_PICTURES") {
        fs::write(Path::new(&folder).join(format!("{name}.png")), picture).expect("a picture");
    }
}

/// A page with too long a line, and a picture from elsewhere.
const WRONG: &str = "<body>a<p>b<p>c<p>d<p>e<p>f<p>g<p>h<p>i\
                     <p style='width:50px;white-space:nowrap'>longer than its box</p><img src='other.png'>";

/// What is looked for is found where it is.
fn sees_what_is_wrong(browser: &mut Chromium, folder: &Path) {
    let path = folder.join("wrong.html");
    fs::write(&path, WRONG).expect("a page");
    let fetched = browser.open(&path, 360, "screen", "light");
    assert_eq!(fetched.len(), 2, "{fetched:?}");
    let told = browser.run(OVERFLOWS);
    assert!(told.contains("box longer%20than%20its%20box"), "{told}");
}

#[test]
fn a_browser_shows_pages_whole_and_fetches_nothing() {
    let folder = folder("page-browser");
    let program = match on_path("chromium") {
        Some(program) => program,
        None => {
            println!("The browser's test was left out: there is no chromium (Debian's package chromium).");
            return;
        }
    };
    let pages = made(&folder);
    let mut browser = Chromium::start(&program, &folder);
    sees_what_is_wrong(&mut browser, &folder);
    for Page { name, path } in &pages {
        for width in WIDTHS {
            let fetched = browser.open(path, width, "screen", "light");
            assert_eq!(
                fetched,
                [format!("file://{}", path.display())],
                "{name}: nothing but the page itself"
            );
            assert_eq!(browser.run(OVERFLOWS), "", "{name} at {width}");
            assert_eq!(
                browser.run(PARTED).is_empty(),
                (*name, width) != ("widest", 360),
                "{name} at {width}"
            );
            assert_eq!(browser.run(GROUND), "rgb(255, 255, 255)");
            keep(&format!("{name}-{width}"), &browser.picture());
        }
        browser.open(path, 360, "screen", "dark");
        assert_eq!(browser.run(GROUND), "rgb(18, 22, 27)");
        keep(&format!("{name}-360-dark"), &browser.picture());
        // On paper it is light, whatever the screen is.
        browser.open(path, 800, "print", "dark");
        assert_eq!(browser.run(GROUND), "rgb(255, 255, 255)");
    }
}
