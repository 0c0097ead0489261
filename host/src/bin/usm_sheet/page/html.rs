//! Elements of the page. All text, of attributes too, goes through one function that escapes it.

/// A part of the page, ready to be written.
pub struct Html(String);

/// Elements that stand in a line of text, and cells: no line ends behind them.
const INLINE: [&str; 9] = ["a", "code", "dd", "dt", "span", "strong", "td", "text", "th"];

impl Html {
    pub fn into_string(self) -> String {
        self.0
    }
}

/// The one way from text to the page.
pub fn escaped(text: &str) -> String {
    let mut safe = String::with_capacity(text.len());
    for c in text.chars() {
        match c {
            '&' => safe.push_str("&amp;"),
            '<' => safe.push_str("&lt;"),
            '>' => safe.push_str("&gt;"),
            '"' => safe.push_str("&quot;"),
            '\'' => safe.push_str("&#39;"),
            c => safe.push(c),
        }
    }
    safe
}

pub fn text(words: impl AsRef<str>) -> Html {
    Html(escaped(words.as_ref()))
}

/// Several parts, one behind the other.
pub fn all(parts: impl IntoIterator<Item = Html>) -> Html {
    Html(parts.into_iter().map(Html::into_string).collect())
}

pub fn element(name: &str, attributes: &[(&str, &str)], inside: impl IntoIterator<Item = Html>) -> Html {
    let end = if INLINE.contains(&name) { "" } else { "\n" };
    Html(format!("{}{}</{name}>{end}", opened(name, attributes), all(inside).0))
}

/// An element that has nothing in it and no end.
pub fn single(name: &str, attributes: &[(&str, &str)]) -> Html {
    Html(opened(name, attributes) + "\n")
}

fn opened(name: &str, attributes: &[(&str, &str)]) -> String {
    let attributes: String =
        attributes.iter().map(|(key, value)| format!(" {key}=\"{}\"", escaped(value))).collect();
    format!("<{name}{attributes}>")
}

/// An element that has just text in it.
pub fn words(name: &str, attributes: &[(&str, &str)], inside: impl AsRef<str>) -> Html {
    element(name, attributes, [text(inside)])
}

/// A sentence in which what stands between `backquotes` is code, as the tool's sentences have it.
pub fn sentence(words: &str) -> Html {
    let parts = words.split('`').enumerate().map(|(index, part)| match index % 2 {
        0 => text(part),
        _ => element("code", &[], [text(part)]),
    });
    all(parts)
}

/// The whole file: what a browser reads first, and the style, which is ours and has nothing to escape.
pub fn document(head: Html, style: &str, body: Html) -> String {
    format!(
        "<!DOCTYPE html>\n<html lang=\"en\">\n<head>\n{}<style>\n{style}</style>\n</head>\n<body>\n{}</body>\n</html>\n",
        head.0, body.0
    )
}
