//! The values of a configuration's keys.

use super::HistogramScale;
use std::fmt;

/// A value as it stands in a text: what it means, and whether it stood in quotes.
#[derive(Debug, PartialEq, Eq)]
pub(super) struct Value {
    pub(super) is_quoted: bool,
    pub(super) text: String,
}

fn is_blank(c: char) -> bool {
    c == ' ' || c == '\t'
}

/// Nothing, or blanks with a comment behind them perhaps.
pub(super) fn is_end(text: &str) -> bool {
    let rest = text.trim_start_matches(is_blank);
    rest.is_empty() || (rest.len() < text.len() && rest.starts_with('#'))
}

/// Blanks alone, or a comment behind them.
pub(super) fn is_skipped(line: &str) -> bool {
    let rest = line.trim_start_matches(is_blank);
    rest.is_empty() || rest.starts_with('#')
}

/// What stands before a comment, which begins at a `#` that is first or follows a blank.
fn before_comment(text: &str) -> &str {
    let mut is_free = true;
    for (at, c) in text.char_indices() {
        if is_free && c == '#' {
            return &text[..at];
        }
        is_free = is_blank(c);
    }
    text
}

/// The text up to the closing single quote, and what follows it. Two quotes stand for one.
fn single(text: &str) -> Option<(String, &str)> {
    let mut meant = String::new();
    let mut rest = text;
    loop {
        let (front, behind) = rest.split_once('\'')?;
        meant.push_str(front);
        match behind.strip_prefix('\'') {
            Some(more) => {
                meant.push('\'');
                rest = more;
            }
            None => return Some((meant, behind)),
        }
    }
}

/// The text up to the closing double quote, and what follows it.
fn double(text: &str) -> Option<(String, &str)> {
    let mut meant = String::new();
    let mut chars = text.chars();
    loop {
        meant.push(match chars.next()? {
            '"' => return Some((meant, chars.as_str())),
            '\\' => match chars.next()? {
                '"' => '"',
                '\\' => '\\',
                'n' => '\n',
                'r' => '\r',
                't' => '\t',
                _ => return None,
            },
            c => c,
        });
    }
}

impl Value {
    /// The value that stands behind a key's colon or an item's dash, if it is one.
    pub(super) fn of(rest: &str) -> Option<Value> {
        let text = rest.trim_start_matches(is_blank);
        let quoted = |cut: Option<(String, &str)>| match cut {
            Some((text, behind)) if is_end(behind) => Some(Value { is_quoted: true, text }),
            _ => None,
        };
        match text.chars().next() {
            Some('\'') => quoted(single(&text[1..])),
            Some('"') => quoted(double(&text[1..])),
            _ => Value::plain(before_comment(text).trim_end_matches(is_blank)),
        }
    }

    fn plain(text: &str) -> Option<Value> {
        let is_marked = text.starts_with(|c| "[{]}&*!|>%@,?`".contains(c));
        let is_plain = text == "[]" || !(is_marked || text.contains(": ") || text.ends_with(':'));
        is_plain.then(|| Value { is_quoted: false, text: text.to_owned() })
    }

    fn is_unset(&self) -> bool {
        !self.is_quoted && (self.text.is_empty() || is_null_word(&self.text))
    }

    /// The text that it means, if it is one.
    pub(super) fn into_text(self) -> Option<String> {
        String::read(self)
    }

    /// The text, where it isn't in quotes.
    fn word(&self) -> Option<&str> {
        (!self.is_quoted).then_some(self.text.as_str())
    }
}

fn is_null_word(text: &str) -> bool {
    matches!(text, "null" | "Null" | "NULL" | "~")
}

/// A key's value by its type.
pub(super) trait KeyValue: Sized {
    /// What the key takes.
    const WANTED: &'static str;
    /// It is a list, whose items stand in lines of their own.
    const IS_LIST: bool = false;

    /// The value that the text means, if it is of this sort.
    fn read(value: Value) -> Option<Self>;

    /// The lines of a key with this value.
    fn write(&self, key: &str, f: &mut impl fmt::Write) -> fmt::Result;
}

impl KeyValue for u64 {
    const WANTED: &'static str = "a number in decimal digits, without sign or leading zero";

    fn read(value: Value) -> Option<u64> {
        let word = value.word()?;
        let is_number =
            word.bytes().all(|b| b.is_ascii_digit()) && (word == "0" || !word.starts_with('0'));
        if is_number { word.parse().ok() } else { None }
    }

    fn write(&self, key: &str, f: &mut impl fmt::Write) -> fmt::Result {
        writeln!(f, "{key}: {self}")
    }
}

impl KeyValue for bool {
    const WANTED: &'static str = "true or false";

    fn read(value: Value) -> Option<bool> {
        match value.word()? {
            "true" | "True" | "TRUE" => Some(true),
            "false" | "False" | "FALSE" => Some(false),
            _ => None,
        }
    }

    fn write(&self, key: &str, f: &mut impl fmt::Write) -> fmt::Result {
        writeln!(f, "{key}: {self}")
    }
}

impl KeyValue for HistogramScale {
    const WANTED: &'static str = "linear or log";

    fn read(value: Value) -> Option<HistogramScale> {
        match value.word()? {
            "linear" => Some(HistogramScale::Linear),
            "log" => Some(HistogramScale::Log),
            _ => None,
        }
    }

    fn write(&self, key: &str, f: &mut impl fmt::Write) -> fmt::Result {
        let word = match self {
            HistogramScale::Linear => "linear",
            HistogramScale::Log => "log",
        };
        writeln!(f, "{key}: {word}")
    }
}

/// A text as it stands in a configuration: as it is where that is plain, else in double quotes.
struct Quoted<'a>(&'a str);

impl fmt::Display for Quoted<'_> {
    fn fmt(&self, f: &mut fmt::Formatter<'_>) -> fmt::Result {
        let text = self.0;
        let is_front = |c: char| c.is_ascii_alphanumeric() || "/._".contains(c);
        let is_inner = |c: char| c.is_ascii_alphanumeric() || "_-./:,".contains(c);
        let is_plain = text.starts_with(is_front) && text.chars().all(is_inner);
        if is_plain && !is_null_word(text) && !text.ends_with(':') {
            return f.write_str(text);
        }
        f.write_str("\"")?;
        for c in text.chars() {
            match c {
                '"' => f.write_str("\\\"")?,
                '\\' => f.write_str("\\\\")?,
                '\n' => f.write_str("\\n")?,
                '\r' => f.write_str("\\r")?,
                '\t' => f.write_str("\\t")?,
                c => fmt::Write::write_char(f, c)?,
            }
        }
        f.write_str("\"")
    }
}

impl KeyValue for String {
    const WANTED: &'static str = "a text";

    fn read(value: Value) -> Option<String> {
        (!value.is_unset()).then_some(value.text)
    }

    fn write(&self, key: &str, f: &mut impl fmt::Write) -> fmt::Result {
        writeln!(f, "{key}: {}", Quoted(self))
    }
}

impl<T: KeyValue> KeyValue for Option<T> {
    const WANTED: &'static str = T::WANTED;

    fn read(value: Value) -> Option<Option<T>> {
        if value.is_unset() { Some(None) } else { T::read(value).map(Some) }
    }

    fn write(&self, key: &str, f: &mut impl fmt::Write) -> fmt::Result {
        match self {
            Some(value) => value.write(key, f),
            None => writeln!(f, "{key}: null"),
        }
    }
}

impl KeyValue for Vec<String> {
    const WANTED: &'static str = "[], or below it an item, - TEXT, a line";
    const IS_LIST: bool = true;

    /// The list without items.
    fn read(value: Value) -> Option<Vec<String>> {
        (value.word()? == "[]").then(Vec::new)
    }

    fn write(&self, key: &str, f: &mut impl fmt::Write) -> fmt::Result {
        if self.is_empty() {
            return writeln!(f, "{key}: []");
        }
        writeln!(f, "{key}:")?;
        self.iter().try_for_each(|item| writeln!(f, "- {}", Quoted(item)))
    }
}
