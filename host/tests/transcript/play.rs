//! The transcript's language, which README.md beside this file tells of: a case by its name, and under it
//! commands, a question last in its line and its answer behind it.

use usm_kit::both::Calls;

use crate::answers;
use crate::memory::{number, table_named, Memory};

/// A case that begins from nothing, and one that goes on where the one before it ended.
pub const BEGINS: &str = "== ";
const GOES_ON: &str = "-- ";
/// What stands between two commands of a line, and between question and answer.
const NEXT_COMMAND: &str = "; ";
const ANSWER: &str = " -> ";
/// How a further line of an answer begins, and how the rest of a line that was too long.
const NEXT_LINE: &str = "  ";
const REST_OF_LINE: &str = "    ";

/// A question that was played.
pub struct Played {
    pub line: usize,
    pub case: String,
    pub question: String,
    /// What the transcript has, and what the call says.
    pub expected: String,
    pub said: String,
    /// The file as it then stands.
    pub file: Vec<u8>,
}

/// The questions of a transcript, or where and why it cannot be played.
pub fn play(calls: &Calls, transcript: &str) -> Result<Vec<Played>, String> {
    let mut memory = Memory::default();
    let mut played = Vec::new();
    let mut case = String::new();
    for (line, text) in whole_lines(transcript) {
        if text.is_empty() || text.starts_with('#') {
            continue;
        }
        if let Some(name) = text.strip_prefix(BEGINS) {
            (memory, case) = (Memory::default(), name.into());
            continue;
        }
        if let Some(name) = text.strip_prefix(GOES_ON) {
            case = name.into();
            continue;
        }
        let asked = play_line(calls, &mut memory, &text).map_err(|error| format!("line {line}: {error}"))?;
        if let Some((question, expected, said)) = asked {
            let file = memory.file.clone();
            played.push(Played { line, case: case.clone(), question, expected, said, file });
        }
    }
    Ok(played)
}

/// The lines, each with those that belong to its answer, and their numbers.
fn whole_lines(transcript: &str) -> Vec<(usize, String)> {
    let mut whole: Vec<(usize, String)> = Vec::new();
    for (index, line) in transcript.lines().enumerate() {
        let joint = if line.starts_with(REST_OF_LINE) { ' ' } else { '\n' };
        match whole.last_mut() {
            Some((_, before)) if line.starts_with(NEXT_LINE) => {
                before.push(joint);
                before.push_str(line.trim_start());
            }
            _ => whole.push((index + 1, line.into())),
        }
    }
    whole
}

/// Does the commands of a line; if the last of them is a question, answers it, what is expected and what is said.
fn play_line(
    calls: &Calls,
    memory: &mut Memory,
    line: &str,
) -> Result<Option<(String, String, String)>, String> {
    let (commands, expected) = match line.split_once(ANSWER) {
        Some((commands, expected)) => (commands, Some(expected)),
        None => (line, None),
    };
    let mut asked = None;
    for command in commands.split(NEXT_COMMAND) {
        if let Some((question, _)) = asked {
            return Err(format!("`{question}`: a question stands last in its line"));
        }
        let said = step(calls, memory, command).map_err(|error| format!("`{command}`: {error}"))?;
        asked = said.map(|said| (String::from(command), said));
    }
    match (asked, expected) {
        (None, None) => Ok(None),
        (Some((question, said)), Some(expected)) => Ok(Some((question, expected.into(), said))),
        (Some((question, _)), None) => Err(format!("`{question}`: there is no answer behind it")),
        (None, Some(expected)) => Err(format!("`{expected}`: there is no question before it")),
    }
}

/// Does one command; answers what it says, or nothing for one that changes the memory only.
fn step(calls: &Calls, memory: &mut Memory, command: &str) -> Result<Option<String>, String> {
    let words: Vec<&str> = command.split_whitespace().collect();
    match words[..] {
        [table @ ("h" | "p" | "c" | "open" | "close"), ref records @ ..] => memory.append(table, records)?,
        ["clear"] => *memory = Memory::default(),
        ["fill", table, count] => memory.fill(table, number(count)?, 0, 0)?,
        ["fill", table, count, strike] => memory.fill(table, number(count)?, number(strike)?, 0)?,
        ["fill", table, count, strike, group] => {
            memory.fill(table, number(count)?, number(strike)?, number(group)?)?
        }
        ["byte", letter, at, value] => *memory.byte(letter, number(at)?)? = number(value)?,
        ["bump", letter, at, more] => {
            let byte = memory.byte(letter, number(at)?)?;
            *byte = byte.wrapping_add(number(more)?);
        }
        ["cut", letter, length] => memory.cut(letter, number(length)?)?,
        ["seal", block] => memory.seal(number(block)?)?,
        _ => return ask(calls, memory, &words).map(Some),
    }
    Ok(None)
}

/// The commands that answer.
fn ask(calls: &Calls, memory: &mut Memory, words: &[&str]) -> Result<String, String> {
    let answer = match *words {
        ["try", table, ref record @ ..] => {
            memory.cut(table, 0)?;
            memory.append(table, record)?;
            check(calls, memory, table)?
        }
        ["check", table] => check(calls, memory, table)?,
        ["margin", g] => answers::margin(calls, &memory.placement, number(g)?),
        ["cash", g] => answers::cash(calls, &memory.placement, number(g)?),
        ["mark"] => answers::mark(calls, memory),
        ["margins", n, room] => answers::margins(calls, &memory.placement, number(n)?, number(room)?),
        ["worksheet", g, strikes, nets] => {
            answers::worksheet(calls, &memory.placement, number(g)?, [number(strikes)?, number(nets)?])
        }
        ["sheet"] => answers::sheet(calls, memory),
        ["file"] => answers::file(calls, memory),
        ["table"] => answers::table(calls, memory),
        ["write", room, ref origin @ ..] => answers::write(calls, memory, number(room)?, numbers(origin)?),
        ["again", ref origin @ ..] => answers::again(calls, memory, numbers(origin)?),
        ["judge"] => answers::judge(calls, memory),
        ["to_new", account, room] => answers::moved(calls, memory, Some(number(account)?), number(room)?),
        ["to_old", room] => answers::moved(calls, memory, None, number(room)?),
        ["play", result, indices, numbers] => {
            answers::play(calls, memory, [number(result)?, number(indices)?, number(numbers)?])
        }
        ["read", h, p, c] => answers::read(calls, memory, [number(h)?, number(p)?, number(c)?]),
        _ => return Err(String::from("no such command")),
    };
    Ok(answer)
}

fn check(calls: &Calls, memory: &mut Memory, table: &str) -> Result<String, String> {
    let which = table_named(table)?;
    Ok(answers::check(calls, which, memory.table(which)))
}

/// A form and an account: without them it is the old form, which has none.
fn numbers(origin: &[&str]) -> Result<[u64; 2], String> {
    match *origin {
        [] => Ok([1, 0]),
        [form] => Ok([number(form)?, 0]),
        [form, account] => Ok([number(form)?, number(account)?]),
        _ => Err(String::from("no such command")),
    }
}
