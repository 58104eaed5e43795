//! Words that lines are made of.

use crate::numbers::FdId;
use std::fmt;
use std::str::FromStr;

/// A line that says no event or no action, or a word of it that doesn't fit; or memory lacked for what it says.
///
/// ```
/// use fulltimehen::{Event, LineError};
///
/// let refused: Result<Event, LineError> = "bound 0".parse();
/// assert_eq!(refused.unwrap_err().to_string(), "not a line that is known: \"bound 0\"");
/// ```
#[derive(Clone, Debug, PartialEq, Eq)]
pub struct LineError {
    /// None where memory lacked.
    line: Option<String>,
}

impl LineError {
    pub(crate) fn new(line: &str) -> LineError {
        let mut copy = String::new();
        if copy.try_reserve_exact(line.len()).is_err() {
            return LineError::no_memory();
        }
        copy.push_str(line);
        LineError { line: Some(copy) }
    }

    fn no_memory() -> LineError {
        LineError { line: None }
    }

    /// Memory lacked.
    pub(crate) fn is_no_memory(&self) -> bool {
        self.line.is_none()
    }
}

impl fmt::Display for LineError {
    fn fmt(&self, f: &mut fmt::Formatter<'_>) -> fmt::Result {
        match &self.line {
            Some(line) => write!(f, "not a line that is known: {line:?}"),
            None => f.write_str("out of memory"),
        }
    }
}

impl std::error::Error for LineError {}

/// The words of a line, one after the other.
pub(crate) struct Words<'a> {
    line: &'a str,
    words: std::str::SplitAsciiWhitespace<'a>,
}

impl<'a> Words<'a> {
    pub(crate) fn of(line: &'a str) -> Words<'a> {
        Words { line, words: line.split_ascii_whitespace() }
    }

    pub(crate) fn error(&self) -> LineError {
        LineError::new(self.line)
    }

    pub(crate) fn word(&mut self) -> Result<&'a str, LineError> {
        self.words.next().ok_or_else(|| self.error())
    }

    pub(crate) fn number<T: FromStr>(&mut self) -> Result<T, LineError> {
        let word = self.word()?;
        word.parse().map_err(|_| self.error())
    }

    /// One of two words: the first is true.
    pub(crate) fn either(&mut self, yes: &str, no: &str) -> Result<bool, LineError> {
        match self.word()? {
            word if word == yes => Ok(true),
            word if word == no => Ok(false),
            _ => Err(self.error()),
        }
    }

    pub(crate) fn bytes(&mut self) -> Result<Vec<u8>, LineError> {
        let word = self.word()?;
        if word == "-" {
            return Ok(Vec::new());
        }
        let byte = |pair: &[u8]| match pair {
            [high, low] => Some(digit(*high)? << 4 | digit(*low)?),
            _ => None,
        };
        self.list(word.as_bytes().chunks(2).map(byte))
    }

    pub(crate) fn fds(&mut self) -> Result<Vec<FdId>, LineError> {
        let word = self.word()?;
        if word == "-" {
            return Ok(Vec::new());
        }
        self.list(word.split(',').map(|number| number.parse().ok()))
    }

    /// What all words say that are left.
    pub(crate) fn rest<T: FromStr>(&mut self) -> Result<Vec<T>, LineError> {
        let words = std::mem::replace(&mut self.words, "".split_ascii_whitespace());
        self.list(words.map(|word| word.parse().ok()))
    }

    /// The items; an error where one is none, or memory lacks for them.
    fn list<T>(&self, items: impl Iterator<Item = Option<T>> + Clone) -> Result<Vec<T>, LineError> {
        let mut list = Vec::new();
        let count = items.clone().count();
        list.try_reserve_exact(count).map_err(|_| LineError::no_memory())?;
        for item in items {
            list.push(item.ok_or_else(|| self.error())?);
        }
        Ok(list)
    }

    pub(crate) fn end(&mut self) -> Result<(), LineError> {
        match self.words.next() {
            None => Ok(()),
            Some(_) => Err(self.error()),
        }
    }
}

fn digit(byte: u8) -> Option<u8> {
    match byte {
        b'0'..=b'9' => Some(byte - b'0'),
        b'a'..=b'f' => Some(byte - b'a' + 10),
        _ => None,
    }
}

/// Bytes as a word of hexadecimal digits, and a dash for none.
pub(crate) struct Hex<'a>(pub &'a [u8]);

impl fmt::Display for Hex<'_> {
    fn fmt(&self, f: &mut fmt::Formatter<'_>) -> fmt::Result {
        if self.0.is_empty() {
            return f.write_str("-");
        }
        self.0.iter().try_for_each(|byte| write!(f, "{byte:02x}"))
    }
}

/// Numbers as a word, joined by commas, and a dash for none.
pub(crate) struct Joined<'a>(pub &'a [FdId]);

impl fmt::Display for Joined<'_> {
    fn fmt(&self, f: &mut fmt::Formatter<'_>) -> fmt::Result {
        let Some((first, others)) = self.0.split_first() else {
            return f.write_str("-");
        };
        write!(f, "{first}")?;
        others.iter().try_for_each(|number| write!(f, ",{number}"))
    }
}
