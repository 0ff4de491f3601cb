//! The rival of bench/traces: a plain program without proofs that does what `rls` does for members who keep the rules. It has the same
//! commands, makes the same identifiers, and writes the same files and messages byte for byte (docs/FORMATS.md). What it leaves out: lines `b`,
//! sessions, files of older forms, and all refusals; it believes what other members send, and looks at bytes only as far as it has to.
//!
//!     rival new GROUP ME MEMBERS | edit | text | stat | send TO | take | leave

mod epochs;
mod file;
mod format;
mod ident;
mod replica;
mod text;

use std::io::{self, Read, Write};
use std::process::ExitCode;

use file::{load, read_message, store, write_message};
use replica::Replica;

/// What a command ends with if it fails: its status and its line.
pub struct Failure(u8, String);

impl From<io::Error> for Failure {
    fn from(error: io::Error) -> Self {
        Failure(7, error.to_string())
    }
}

enum Line<'a> {
    Insert(usize, &'a str),
    Delete(usize, usize),
    Rename,
}

/// What is before the first such byte and what is after it. Most texts are short, so this is quicker than a search for a pattern.
fn cut(text: &str, end: u8) -> Option<(&str, &str)> {
    let at = text.bytes().position(|byte| byte == end)?;
    Some((&text[..at], &text[at + 1..]))
}

fn line(line: &str) -> Option<Line<'_>> {
    if line == "r" {
        return Some(Line::Rename);
    }
    let (place, rest) = cut(line.get(2..)?, b' ')?;
    let place = place.parse().ok()?;
    match line.get(..2)? {
        "i " => Some(Line::Insert(place, rest)),
        "d " => Some(Line::Delete(place, rest.parse().ok()?)),
        _ => None,
    }
}

/// The text that a line means; none if a backslash stands before anything but `n`, `r` and a backslash.
fn unescaped(text: &str, room: &mut String) -> Option<()> {
    room.clear();
    let mut rest = text;
    while let Some((plain, escaped)) = cut(rest, b'\\') {
        room.push_str(plain);
        room.push(match escaped.chars().next()? {
            'n' => '\n',
            'r' => '\r',
            '\\' => '\\',
            _ => return None,
        });
        rest = &escaped[1..];
    }
    room.push_str(rest);
    Some(())
}

fn perform(replica: &mut Replica, line: &Line, room: &mut String) -> Result<(), String> {
    let total = replica.text.len();
    match *line {
        Line::Insert(_, "") | Line::Delete(_, 0) => Err("empty edit".into()),
        Line::Insert(place, _) if place > total => Err(format!("range {place} {total}")),
        Line::Delete(place, count) if place.saturating_add(count) > total => Err(format!("range {place} {total}")),
        Line::Rename if total == 0 => Err("empty document".into()),
        Line::Insert(place, text) => {
            unescaped(text, room).ok_or("bad line")?;
            replica.insert(place, room);
            Ok(())
        }
        Line::Delete(place, count) => {
            replica.delete(place, count);
            Ok(())
        }
        Line::Rename => {
            replica.rename();
            Ok(())
        }
    }
}

fn input() -> io::Result<Vec<u8>> {
    let mut bytes = Vec::new();
    io::stdin().read_to_end(&mut bytes)?;
    Ok(bytes)
}

fn edit() -> Result<String, Failure> {
    let script = String::from_utf8(input()?).map_err(|_| Failure(4, "bad line".into()))?;
    let mut replica = load()?;
    let mut lines = Vec::new();
    for (number, text) in script.split_terminator('\n').enumerate() {
        lines.push(line(text).ok_or_else(|| Failure(4, format!("bad line {}", number + 1)))?);
    }
    let mut room = String::new();
    for (number, line) in lines.iter().enumerate() {
        perform(&mut replica, line, &mut room).map_err(|why| Failure(6, format!("line {}: {why}", number + 1)))?;
    }
    store(&replica)?;
    Ok(format!("edits {} released 0 refused 0\n", lines.len()))
}

fn take() -> Result<String, Failure> {
    let (mut replica, message) = (load()?, input()?);
    let taken = read_message(&mut replica, &message)?;
    store(&replica)?;
    Ok(format!("applied {} released {} repeated {} held {} refused 0\n", taken.applied, taken.released, taken.repeated, taken.held))
}

fn leave() -> Result<String, Failure> {
    let mut replica = load()?;
    replica.leave();
    store(&replica)?;
    Ok("edits 1 released 0 refused 0\n".into())
}

fn text() -> Result<String, Failure> {
    let replica = load()?;
    let mut text = String::new();
    replica.text.visit(|block| text.push_str(&block.text));
    Ok(text)
}

fn stat() -> Result<String, Failure> {
    let replica = load()?;
    let stable = replica.stable();
    let retained = replica.retained(&stable);
    let former: i32 = retained[1..].iter().filter_map(|&it| replica.epochs.list[it].renaming.as_ref()).map(|it| it.total()).sum();
    let counts: Vec<String> = replica.counts().iter().map(u32::to_string).collect();
    Ok(format!(
        "group {}\nme {}\nmembers {}\naccepted {}\ntotal {}\nruns {}\nheld {}\nunstable {}\nepochs {}\nformer {former}\n",
        replica.group,
        replica.me,
        replica.members(),
        counts.join(" "),
        replica.text.len(),
        replica.text.runs(0, replica.text.len()).len(),
        replica.waiting.len(),
        replica.unstable(&stable).count(),
        retained.len()
    ))
}

fn number<T: std::str::FromStr>(word: &str) -> Result<T, Failure> {
    word.parse().map_err(|_| Failure(1, "usage: new GROUP ME MEMBERS | edit | text | stat | send TO | take | leave".into()))
}

fn new(group: &str, me: &str, members: &str) -> Result<String, Failure> {
    let (group_number, number_of_me, count) = (number(group)?, number(me)?, number(members)?);
    store(&Replica::new(group_number, number_of_me, count))?;
    Ok(format!("new {group} {me} {members}\n"))
}

fn run(words: &[&str], out: &mut impl Write) -> Result<(), Failure> {
    let printed = match words {
        ["new", group, me, members] => new(group, me, members)?,
        ["edit"] => edit()?,
        ["text"] => text()?,
        ["stat"] => stat()?,
        ["take"] => take()?,
        ["leave"] => leave()?,
        ["send", to] => return Ok(write_message(&load()?, number(to)?, out)?),
        _ => number("")?,
    };
    Ok(out.write_all(printed.as_bytes())?)
}

fn main() -> ExitCode {
    let words: Vec<String> = std::env::args().skip(1).collect();
    match run(&words.iter().map(String::as_str).collect::<Vec<_>>(), &mut io::stdout().lock()) {
        Ok(()) => ExitCode::SUCCESS,
        Err(Failure(status, line)) => {
            eprintln!("{line}");
            ExitCode::from(status)
        }
    }
}
