//! The words of a text, with the lines that they stand in; `#` begins a comment.
use super::Problem;
use std::str::FromStr;

pub struct Words<'a> {
    lines: std::iter::Enumerate<std::str::Lines<'a>>,
    line: usize,
    words: std::str::SplitWhitespace<'a>,
}

impl<'a> Words<'a> {
    pub fn new(text: &'a str) -> Self {
        Words {
            lines: text.lines().enumerate(),
            line: 0,
            words: "".split_whitespace(),
        }
    }

    pub fn problem<T>(&self, what: &str) -> Result<T, Problem> {
        Err(Problem(format!("line {}: {what}", self.line)))
    }

    /// The next word, wherever it stands.
    pub fn next(&mut self) -> Option<&'a str> {
        loop {
            if let Some(word) = self.words.next() {
                return Some(word);
            }
            let (at, line) = self.lines.next()?;
            self.line = at + 1;
            self.words = line.split('#').next().unwrap_or("").split_whitespace();
        }
    }

    /// The next word as a number.
    pub fn number<T: FromStr>(&mut self, what: &str) -> Result<T, Problem> {
        match self.next() {
            None => self.problem(&format!("the file ends where {what} should be")),
            Some(word) => match word.parse() {
                Ok(number) => Ok(number),
                Err(_) => self.problem(&format!("'{word}' should be {what}")),
            },
        }
    }

    /// Passes over the rest of the line.
    pub fn end_line(&mut self) {
        self.words = "".split_whitespace();
    }
}

/// The text of a file.
pub fn text(bytes: &[u8]) -> Result<&str, Problem> {
    std::str::from_utf8(bytes)
        .map_err(|error| Problem(format!("byte {} is no text", error.valid_up_to())))
}
