//! How each command is said: one text, which the help prints and the usage lines and options are read from.

/// The form of each command, with its options in brackets; a form goes on behind four blanks, and what the
/// command does stands behind eight.
pub const COMMANDS: &str = "usage:
  sheet make TEXT OUT [--force]
        make the sheet file OUT from the text file TEXT, or of a CSV of holdings
  sheet make HOLDINGS.csv PLACEMENT.csv OUT [--force]
        make it of two CSVs, without claims
  sheet claim FILE OUT [--force]
        write a sheet file, or a sheet's text, with each group's margin as its claim, and tell
        what changed; OUT is of the same kind, or a sheet file where it ends in .usm
  sheet show FILE [--holdings]
        print a sheet file as text that `make` reads, or only its account and its holdings
  sheet check FILE.. [--files-from LIST] [--json] [--work] [--quiet]
        print the verdict on sheet files; a folder stands for the files in it that end in .usm;
        LIST has names of files, one a line or each with a zero byte behind it; with --work also
        how many intrinsic values were worked out; with --quiet nothing about files that are
        accepted
  sheet margins FILE [--json]
        print the margin of each group
  sheet cash FILE [--json]
        print the cash that each group requires in a cash account
  sheet worksheet FILE G [--json]
        print the net of group G at each of its strikes
  sheet page FILE.. OUT [--force]
        make the HTML page OUT of sheet files: verdicts, margins and drawings, and of a refused
        sheet where it is wrong; a folder stands for the files in it that end in .usm
  sheet join FILE G K OUT [--force]
        put groups G and K of an accepted sheet file into one, restate the claims, and tell the
        total before and after: joining never costs more, unless it makes a European long box
  sheet to-new FILE ACCOUNT OUT [--force]
        move a sheet file to the new form, with the number of its account in each block
  sheet to-old FILE OUT [--force]
        move it back to the old form
  sheet to-csv holdings|placement|fills FILE OUT [--force]
        write a table of a sheet file, of a sheet's text or of a text of fills as a CSV
  sheet from-csv holdings|placement|fills CSV OUT [--force]
        write a CSV as the section of a text
  sheet mark-paid FILE OUT [--force]
        take a sheet file from before the paid mark through the pass that marks every unplaced
        long as paid
  sheet salvage FILE OUT [--force] [--json]
        make the sound file OUT of what is whole in a damaged one, and tell what was dropped
  sheet play HOLDINGS FILLS OUT [--force] [--json]
        play fills over holdings, each a text, or a CSV where its name ends in .csv, and write
        what is held then as the text OUT, or as a CSV or a sheet file where OUT ends in .csv or
        .usm
  sheet import ROOTS LIST OUT [--force] [--json]
        make holdings of a list of option symbols, by a text of roots, and write them as the text
        OUT, or as a sheet file or a CSV where OUT ends in .usm or .csv
  sheet export ROOTS FILE OUT [--force]
        write the holdings of a sheet file, of a sheet's text or of a CSV as a list of option
        symbols
  sheet binary long|short spread BASIS-POINTS valued DATE expires DATE contracts COUNT
        tell the margin of a position in credit event binaries
  sheet binary --table
        print the tables that it comes from
  sheet pair valued DATE
    long REFERENCE spread BASIS-POINTS expires DATE contracts COUNT [paid]
    short REFERENCE spread BASIS-POINTS expires DATE contracts COUNT
        tell the margin of a long and a short beside each other, each with the number of its
        reference obligation
  sheet help [COMMAND]
        tell about all commands and the text formats, or about one (-h, --help)
  sheet --version
        print the version
";

/// What holds of all commands.
pub const NOTES: &str = "\
`-` stands for standard input or, for OUT, standard output; words behind `--` are no
options. An OUT that is there already is left alone unless --force is given. `check` prints
the line of each file on standard output, behind its name if there are several, and
sentences for people on standard error. With --json a command prints one object a file on
standard output in place of lines and sentences; docs/JSON.md tells its keys. The exit
status is 0 if all is well; 1 if `check`, `page` or `join` refuses a file, `play` a fill,
`import` a list or `export` holdings, `salvage` drops a block, a group of `margins`,
`worksheet`, `claim` or `join` is no spread, or one of `cash` not fit for it, or the numbers
of `binary` or `pair` are refused; 2 if something could not be done.
";

/// What a line of [`COMMANDS`] is.
enum Line<'a> {
    Form(&'a str),
    FormGoesOn(&'a str),
    About,
}

fn kind(line: &str) -> Line<'_> {
    let words = line.trim_start();
    match line.len() - words.len() {
        2 => Line::Form(words),
        4 => Line::FormGoesOn(words),
        _ => Line::About,
    }
}

/// The command that a form is of.
fn command_of(form: &str) -> &str {
    form.split_whitespace().nth(1).unwrap_or_default()
}

/// The names of all commands.
fn names() -> Vec<&'static str> {
    let forms = COMMANDS.lines().filter_map(|line| match kind(line) {
        Line::Form(form) => Some(command_of(form)),
        _ => None,
    });
    let mut names: Vec<&str> = forms.filter(|name| !name.starts_with('-')).collect();
    names.dedup();
    names
}

pub fn is_command(name: &str) -> bool {
    names().contains(&name)
}

/// What [`COMMANDS`] says of a command.
pub fn block(command: &str) -> String {
    let mut inside = false;
    let mut lines = String::new();
    for line in COMMANDS.lines() {
        if let Line::Form(form) = kind(line) {
            inside = command_of(form) == command;
        }
        if inside {
            lines += &format!("{line}\n");
        }
    }
    lines
}

/// The ways in which a command is said.
fn forms(command: &str) -> Vec<String> {
    let mut forms: Vec<String> = Vec::new();
    for line in block(command).lines() {
        match (kind(line), forms.last_mut()) {
            (Line::Form(form), _) => forms.push(String::from(form)),
            (Line::FormGoesOn(words), Some(form)) => *form += &format!(" {words}"),
            _ => {}
        }
    }
    forms
}

/// Whether the command takes this option.
pub fn takes(command: &str, option: &str) -> bool {
    let is_option = |word: &str| word.trim_matches(|c| c == '[' || c == ']') == option;
    forms(command).iter().any(|form| form.split_whitespace().any(is_option))
}

/// The usage of a command in one line.
pub fn line(command: &str) -> String {
    format!("usage: {}", forms(command).join(", or "))
}

/// The command that a misspelt word is nearest to, if it is near to one.
pub fn nearest(word: &str) -> Option<&'static str> {
    let far = if word.chars().count() < 6 { 3 } else { 4 };
    let near = names().into_iter().map(|name| (distance(word, name), name));
    near.filter(|(distance, _)| *distance < far).min_by_key(|(distance, _)| *distance).map(|(_, name)| name)
}

/// How many letters have to be put in, taken out or changed to make one word of the other.
fn distance(from: &str, to: &str) -> usize {
    let mut above: Vec<usize> = (0..=to.chars().count()).collect();
    for (row, letter) in from.chars().enumerate() {
        let mut this = vec![row + 1];
        for (column, other) in to.chars().enumerate() {
            let changed = above[column] + usize::from(letter != other);
            this.push(changed.min(above[column + 1] + 1).min(this[column] + 1));
        }
        above = this;
    }
    above[to.chars().count()]
}
