//! The floor of bench/traces: a plain gap buffer that reads the same scripts as `rls edit` and keeps the same text in a file, with no
//! identifiers, no messages and no proofs. What the program costs is told as a ratio to this.
//!
//!     floor edit FILE < SCRIPT    performs the script on the file's text (none: empty), and writes the file anew
//!     floor copy FILE             writes the file's bytes to standard output

use std::fs;
use std::io::{self, Read, Write};
use std::process::ExitCode;

/// A text with a gap at the place of the last edit: `room[..start]` and `room[end..]` are its characters.
struct GapBuffer {
    room: Vec<char>,
    start: usize,
    end: usize,
}

impl GapBuffer {
    fn new(text: &str) -> Self {
        let room: Vec<char> = text.chars().collect();
        let end = room.len();
        Self { room, start: end, end }
    }

    fn len(&self) -> usize {
        self.room.len() - (self.end - self.start)
    }

    /// Moves the gap to this place.
    fn seek(&mut self, at: usize) {
        if at < self.start {
            let count = self.start - at;
            self.room.copy_within(at..self.start, self.end - count);
            self.start -= count;
            self.end -= count;
        } else {
            let count = at - self.start;
            self.room.copy_within(self.end..self.end + count, self.start);
            self.start += count;
            self.end += count;
        }
    }

    /// Makes the gap at least this long.
    fn reserve(&mut self, count: usize) {
        if self.end - self.start < count {
            let more = self.room.len().max(count).max(64);
            let (old, tail) = (self.room.len(), self.room.len() - self.end);
            self.room.resize(old + more, '\0');
            self.room.copy_within(self.end..old, old + more - tail);
            self.end += more;
        }
    }

    fn insert(&mut self, at: usize, text: impl Iterator<Item = char>) -> Option<()> {
        if at > self.len() {
            return None;
        }
        self.seek(at);
        for c in text {
            self.reserve(1);
            self.room[self.start] = c;
            self.start += 1;
        }
        Some(())
    }

    fn delete(&mut self, at: usize, count: usize) -> Option<()> {
        if at.checked_add(count)? > self.len() {
            return None;
        }
        self.seek(at);
        self.end += count;
        Some(())
    }

    fn text(&self) -> String {
        self.room[..self.start].iter().chain(&self.room[self.end..]).collect()
    }
}

/// The characters that a line means: `\n`, `\r` and `\\` are one each.
fn unescaped(text: &str) -> impl Iterator<Item = char> + '_ {
    let mut rest = text.chars();
    std::iter::from_fn(move || match rest.next()? {
        '\\' => match rest.next()? {
            'n' => Some('\n'),
            'r' => Some('\r'),
            c => Some(c),
        },
        c => Some(c),
    })
}

fn perform(buffer: &mut GapBuffer, line: &str) -> Option<()> {
    if line == "r" {
        return Some(());
    }
    let (kind, rest) = line.split_once(' ')?;
    let (at, rest) = rest.split_once(' ')?;
    let at = at.parse().ok()?;
    match kind {
        "i" => buffer.insert(at, unescaped(rest)),
        "d" => buffer.delete(at, rest.parse().ok()?),
        _ => None,
    }
}

fn edit(path: &str) -> io::Result<()> {
    let mut script = String::new();
    io::stdin().read_to_string(&mut script)?;
    let mut buffer = GapBuffer::new(&fs::read_to_string(path).unwrap_or_default());
    for line in script.lines() {
        perform(&mut buffer, line).ok_or_else(|| io::Error::other(format!("bad line: {line}")))?;
    }
    fs::write(path, buffer.text())
}

fn main() -> ExitCode {
    let words: Vec<String> = std::env::args().collect();
    let done = match words.iter().map(String::as_str).collect::<Vec<_>>()[1..] {
        ["edit", path] => edit(path),
        ["copy", path] => fs::read(path).and_then(|bytes| io::stdout().write_all(&bytes)),
        _ => Err(io::Error::other("usage: floor edit FILE | copy FILE")),
    };
    match done {
        Ok(()) => ExitCode::SUCCESS,
        Err(error) => {
            eprintln!("{error}");
            ExitCode::FAILURE
        }
    }
}
