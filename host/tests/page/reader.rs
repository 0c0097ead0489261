//! A page as a program reads it: tags, texts and tables.

/// A piece of a page. Texts and attributes are unescaped.
#[derive(Clone, Debug, PartialEq)]
pub enum Piece {
    Open(Tag),
    Close(String),
    Text(String),
}

#[derive(Clone, Debug, PartialEq)]
pub struct Tag {
    pub name: String,
    pub attributes: Vec<(String, String)>,
}

impl Tag {
    pub fn get(&self, key: &str) -> Option<&str> {
        self.attributes.iter().find(|(name, _)| name == key).map(|(_, value)| value.as_str())
    }
}

/// A table as it is shown: the row under the headers is the first.
#[derive(Debug)]
pub struct Table {
    pub caption: String,
    pub heads: Vec<String>,
    /// The class of each row, and its cells.
    pub rows: Vec<(String, Vec<String>)>,
}

impl Table {
    /// The rows without those that say what a mark means.
    pub fn records(&self) -> Vec<&[String]> {
        self.rows
            .iter()
            .filter(|(class, _)| !class.ends_with("said"))
            .map(|(_, cells)| cells.as_slice())
            .collect()
    }
}

/// What stands behind the style of a page: the body.
pub fn body(page: &str) -> &str {
    page.split_once("<body>").expect("a body").1
}

pub fn unescaped(text: &str) -> String {
    let entities = [("&lt;", "<"), ("&gt;", ">"), ("&quot;", "\""), ("&#39;", "'"), ("&amp;", "&")];
    entities.iter().fold(String::from(text), |text, (from, to)| text.replace(from, to))
}

/// All pieces of a body, in order.
pub fn pieces(text: &str) -> Vec<Piece> {
    let mut pieces = Vec::new();
    let mut rest = text;
    while let Some((before, after)) = rest.split_once('<') {
        if !before.is_empty() {
            pieces.push(Piece::Text(unescaped(before)));
        }
        let (tag, further) = after.split_once('>').expect("a tag is closed");
        pieces.push(match tag.strip_prefix('/') {
            Some(name) => Piece::Close(String::from(name)),
            None => Piece::Open(tag_of(tag)),
        });
        rest = further;
    }
    pieces
}

fn tag_of(tag: &str) -> Tag {
    let (name, mut rest) = tag.split_once(' ').unwrap_or((tag, ""));
    let mut attributes = Vec::new();
    while let Some((key, after)) = rest.split_once("=\"") {
        let (value, further) = after.split_once('"').expect("a value is closed");
        attributes.push((String::from(key.trim()), unescaped(value)));
        rest = further;
    }
    Tag { name: String::from(name), attributes }
}

pub fn tags<'a>(pieces: &'a [Piece], name: &'a str) -> impl Iterator<Item = &'a Tag> {
    pieces.iter().filter_map(move |piece| match piece {
        Piece::Open(tag) if tag.name == name => Some(tag),
        _ => None,
    })
}

/// The texts of all elements of this name.
pub fn texts(pieces: &[Piece], name: &str) -> Vec<String> {
    let mut found = Vec::new();
    let mut inside = false;
    for piece in pieces {
        match piece {
            Piece::Open(tag) if tag.name == name => {
                inside = true;
                found.push(String::new());
            }
            Piece::Close(closed) if closed == name => inside = false,
            Piece::Text(text) if inside => found.last_mut().expect("one was opened").push_str(text),
            _ => {}
        }
    }
    found
}

/// All that a person reads, with a line for each element.
pub fn read_aloud(pieces: &[Piece]) -> String {
    let texts = pieces.iter().map(|piece| match piece {
        Piece::Text(text) => text.as_str(),
        _ => "\n",
    });
    texts.collect()
}

pub fn tables(pieces: &[Piece]) -> Vec<Table> {
    let mut tables: Vec<Table> = Vec::new();
    let mut in_head = false;
    let mut text = String::new();
    for piece in pieces {
        match piece {
            Piece::Open(tag) => match tag.name.as_str() {
                "table" => tables.push(Table { caption: String::new(), heads: Vec::new(), rows: Vec::new() }),
                "thead" => in_head = true,
                "tr" if !in_head => {
                    let class = tag.get("class").unwrap_or_default();
                    tables.last_mut().expect("a table").rows.push((String::from(class), Vec::new()));
                }
                "th" | "td" | "caption" => text.clear(),
                _ => {}
            },
            Piece::Text(words) => text.push_str(words),
            Piece::Close(name) => {
                let table = tables.last_mut();
                match (name.as_str(), table) {
                    ("thead", _) => in_head = false,
                    ("caption", Some(table)) => table.caption = text.clone(),
                    ("th", Some(table)) if in_head => table.heads.push(text.clone()),
                    ("th" | "td", Some(table)) => table.rows.last_mut().expect("a row").1.push(text.clone()),
                    _ => {}
                }
            }
        }
    }
    tables
}

/// The table with this caption.
pub fn table<'a>(tables: &'a [Table], caption: &str) -> &'a Table {
    tables.iter().find(|table| table.caption == caption).unwrap_or_else(|| panic!("no table `{caption}`"))
}
