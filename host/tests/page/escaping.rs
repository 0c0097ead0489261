//! Text from outside never becomes a tag, and the page is whole whatever stands in it.

use std::collections::BTreeSet;
use std::ffi::OsStr;
use std::fs;
use std::os::unix::ffi::OsStrExt;

use crate::common::folder;
use crate::reader::{body, pieces, tags, texts, Piece};
use crate::{page_of, run, sample, sample_names};

/// Every element that is opened is closed, in order; names are there once, and links lead to one.
fn is_whole(page: &str) {
    let pieces = pieces(page.split_once("<html lang=\"en\">").expect("a page in English").1);
    let mut open = vec!["html"];
    let mut ids = BTreeSet::new();
    for piece in &pieces {
        match piece {
            Piece::Open(tag) => {
                if tag.name != "meta" {
                    open.push(&tag.name);
                }
                for (key, value) in &tag.attributes {
                    assert!(key != "id" || ids.insert(value.as_str()), "{value} is there twice");
                }
            }
            Piece::Close(name) => assert_eq!(open.pop(), Some(name.as_str())),
            Piece::Text(_) => {}
        }
    }
    assert!(open.is_empty(), "{open:?}");
    for link in tags(&pieces, "a").filter_map(|link| link.get("href")) {
        assert!(ids.contains(link.strip_prefix('#').expect("a place of this page")), "{link}");
    }
    for name in ["script", "img", "link", "iframe", "object", "embed", "use", "image"] {
        assert_eq!(tags(&pieces, name).count(), 0, "{name}");
    }
    for word in ["url(", "@import", "http:", "https:", "src=\""] {
        assert!(!page.contains(word), "{word} leads outside");
    }
}

#[test]
fn every_sample_has_a_whole_page() {
    let files: Vec<(String, Vec<u8>)> =
        sample_names().into_iter().map(|name| (name.clone(), sample(&name))).collect();
    let files: Vec<(&str, &[u8])> =
        files.iter().map(|(name, file)| (name.as_str(), file.as_slice())).collect();
    is_whole(&page_of("page-whole", &files));
    is_whole(&page_of("page-whole-alone", &files[..1]));
}

#[test]
fn names_are_escaped() {
    let folder = folder("page-names");
    let names = [
        &b"<script>alert(1)<\\script>.usm"[..],
        b"\"onload='x' & &amp;.usm",
        b"`code` --> ]]>.usm",
        b"\xff\x1b[2J\n.usm",
        b"<none>",
    ]
    .map(OsStr::from_bytes);
    for name in &names[..4] {
        fs::write(folder.join(name), sample("vertical.usm")).expect("a file");
    }
    let mut words = names.to_vec();
    words.push("page.html".as_ref());
    assert_eq!(run(&folder, &words).status.code(), Some(2), "the last one cannot be read");
    let page = fs::read_to_string(folder.join("page.html")).expect("a page");
    is_whole(&page);
    let pieces = pieces(body(&page));
    let headings = texts(&pieces, "h2");
    let shown = [
        "<script>alert(1)<\\\\script>.usm",
        "\"onload='x' & &amp;.usm",
        "`code` --> ]]>.usm",
        "\\xff\\u{1b}[2J\\n.usm",
    ];
    for (heading, name) in headings.iter().zip(shown) {
        assert_eq!(heading, &format!("{name} accepted"));
    }
    assert_eq!(headings[4], "<none> not read");
    for (link, name) in texts(&pieces, "a").iter().zip(shown) {
        assert_eq!(link, name);
    }
    // Alone, the name is in the title, too.
    let alone = page_of("page-names-alone", &[("<b>&.usm", &sample("vertical.usm"))]);
    assert!(alone.contains("<title>&lt;b&gt;&amp;.usm: accepted</title>"), "{alone}");
}
