//! Configurations are read from their text.

use super::value::{Value, is_end, is_skipped};
use super::{Configuration, ConfigurationError, ConfigurationFault, KEYS, is_list, wanted};
use crate::messages::{Shown, near, nearest};

/// What matters of the lines before a line.
#[derive(Default)]
struct Place<'a> {
    configuration: Configuration,
    /// `---` or a key stood before.
    has_begun: bool,
    /// It is behind an unknown key.
    skips: bool,
    /// The list whose items may stand here.
    list: Option<&'a str>,
    /// The known keys that stood before.
    keys: Vec<&'a str>,
}

/// What a line is, with what its value is looked for in.
enum Kind<'a> {
    Skipped,
    Start,
    Key(&'a str, &'a str),
    Item(&'a str),
    Other,
}

fn is_blank(c: char) -> bool {
    c == ' ' || c == '\t'
}

/// The key at the front of a line, where a colon is behind it and then nothing or a blank.
fn split_key(line: &str) -> Option<(&str, &str)> {
    let is_key = |c: char| c.is_ascii_alphanumeric() || "_-.".contains(c);
    let (key, rest) = line.split_at(line.find(|c| !is_key(c))?);
    let behind = rest.strip_prefix(':')?;
    let is_gap = behind.is_empty() || behind.starts_with(is_blank);
    (!key.is_empty() && is_gap).then_some((key, behind))
}

fn split_item(line: &str) -> Option<&str> {
    let rest = line.trim_start_matches(is_blank).strip_prefix('-')?;
    rest.starts_with(is_blank).then_some(rest)
}

fn kind(line: &str) -> Kind<'_> {
    if is_skipped(line) {
        return Kind::Skipped;
    }
    if line.strip_prefix("---").is_some_and(is_end) {
        return Kind::Start;
    }
    match (split_key(line), split_item(line)) {
        (Some((key, rest)), _) => Kind::Key(key, rest),
        (None, Some(rest)) => Kind::Item(rest),
        (None, None) => Kind::Other,
    }
}

/// The next line that isn't blank and isn't a comment is an item.
fn item_follows<'a>(mut lines: impl Iterator<Item = &'a str>) -> bool {
    lines.find(|line| !is_skipped(line)).is_some_and(|line| split_item(line).is_some())
}

/// A number that the key refuses where its line is read, and not only before a run.
fn is_refused(key: &str, value: &Value) -> bool {
    let is_timeout =
        matches!(key, "daemon_ready_timeout_seconds" | "daemon_notify_timeout_seconds");
    is_timeout && !value.is_quoted && value.text == "0"
}

impl<'a> Place<'a> {
    /// Takes one more line, before these.
    fn take(
        &mut self,
        line: &'a str,
        after: impl Iterator<Item = &'a str>,
    ) -> Result<(), ConfigurationFault> {
        if self.skips && line.starts_with(|c| is_blank(c) || c == '-') {
            return Ok(());
        }
        match kind(line) {
            Kind::Skipped => {}
            Kind::Start if self.has_begun => return Err(ConfigurationFault::Line),
            Kind::Start => self.open(None, false),
            Kind::Key(key, _) if wanted(key).is_none() => self.open(None, true),
            Kind::Key(key, _) if self.keys.contains(&key) => return Err(ConfigurationFault::Line),
            Kind::Key(key, rest) if is_list(key) && is_skipped(rest) => {
                if !item_follows(after) {
                    return Err(ConfigurationFault::Value);
                }
                self.keys.push(key);
                self.open(Some(key), false);
            }
            Kind::Key(key, rest) => {
                let value = Value::of(rest).ok_or(ConfigurationFault::Line)?;
                if is_refused(key, &value) {
                    return Err(ConfigurationFault::Value);
                }
                self.configuration.take(key, value).ok_or(ConfigurationFault::Value)?;
                self.keys.push(key);
                self.open(None, false);
            }
            Kind::Item(rest) => self.take_item(rest)?,
            Kind::Other => return Err(ConfigurationFault::Line),
        }
        Ok(())
    }

    /// A key, or `---`, ends a list, and begins what is skipped or ends it.
    fn open(&mut self, list: Option<&'a str>, skips: bool) {
        self.has_begun = true;
        self.skips = skips;
        self.list = list;
    }

    fn take_item(&mut self, rest: &str) -> Result<(), ConfigurationFault> {
        let list = match self.list.ok_or(ConfigurationFault::Line)? {
            "client_bind_to_ipv4" => &mut self.configuration.client_bind_to_ipv4,
            _ => &mut self.configuration.client_bind_to_ipv6,
        };
        let value = Value::of(rest).ok_or(ConfigurationFault::Line)?;
        list.push(value.into_text().ok_or(ConfigurationFault::Value)?);
        self.skips = false;
        Ok(())
    }
}

/// The settings of a text that stands behind so many lines.
pub(super) fn read(text: &str, behind: usize) -> Result<Configuration, ConfigurationError> {
    let mut place = Place::default();
    let mut lines = text.lines();
    let mut number = 0;
    while let Some(line) = lines.next() {
        number += 1;
        if let Err(fault) = place.take(line, lines.clone()) {
            return Err(error(text, behind, (number, line), fault));
        }
    }
    Ok(place.configuration)
}

/// What stands before the first colon of a line, and what behind it.
fn front(line: &str) -> Option<(&str, &str)> {
    let is_keyless = line.starts_with([' ', '\t', '-', '#', ':']);
    if is_keyless { None } else { line.split_once(':') }
}

/// The number of the first line, from 1, that has this key.
pub(super) fn key_line(text: &str, key: &str) -> Option<usize> {
    let has_key = |line: &str| front(line).is_some_and(|(found, _)| found == key);
    text.lines().position(has_key).map(|at| at + 1)
}

/// Why a line without a key is refused.
fn keyless(line: &str) -> &'static str {
    let word = line.split([' ', '\t']).find(|word| !word.is_empty()).unwrap_or_default();
    if word.starts_with('-') {
        "an item, - TEXT, stands below client_bind_to_ipv4: or client_bind_to_ipv6: alone, and --- once, before any key"
    } else if word.ends_with(':') {
        "the line doesn't begin with its key; KEY: VALUE begins at the first byte of a line"
    } else {
        "the line is no setting; a line of the configuration is KEY: VALUE or a comment behind #"
    }
}

fn error(
    text: &str,
    behind: usize,
    (number, line): (usize, &str),
    fault: ConfigurationFault,
) -> ConfigurationError {
    let found = front(line);
    let first = found.and_then(|(key, _)| key_line(text, key)).filter(|first| *first < number);
    ConfigurationError {
        fault,
        key: found.map(|(key, _)| key.to_owned()),
        line: Some(behind + number),
        message: match (found, first) {
            (None, _) => keyless(line).to_owned(),
            (Some((key, _)), Some(first)) => format!(
                "{} stands twice, first in line {}; a key stands once",
                Shown(key),
                behind + first
            ),
            (Some((key, value)), None) => message(key, value, fault),
        },
    }
}

/// Why the line of this key with this value is refused.
fn message(key: &str, value: &str, fault: ConfigurationFault) -> String {
    let shown = Shown(key);
    if let (Some(wanted), ConfigurationFault::Value) = (wanted(key), fault) {
        let value = Shown(value.trim_ascii());
        return format!("{shown}: {value} isn't taken; {shown} takes {wanted}");
    }
    if value.is_empty() || value.starts_with(is_blank) {
        format!(
            "the line of {shown} isn't in the form KEY: VALUE; a value that isn't plain stands in quotes"
        )
    } else {
        format!("a blank lacks behind {shown}:, as in {shown}: VALUE")
    }
}

/// How many keys that aren't known are told.
const TOLD: usize = 10;

/// All keys, those of one sort together.
fn keys_by_sort() -> Vec<&'static str> {
    const SORTS: [&str; 5] = ["a number", "true", "a text", "[]", "linear"];
    let sort = |key: &&str| {
        let wanted = wanted(key).unwrap_or_default();
        SORTS.iter().position(|sort| wanted.starts_with(sort))
    };
    let mut keys = KEYS.to_vec();
    keys.sort_by_key(sort);
    keys
}

/// What is said of the first ten keys of a text that aren't known: the known one that each is one letter off, or
/// those that are near.
pub(super) fn misspelled(text: &str) -> Vec<String> {
    let note = |(at, line)| {
        let (key, _) = front(line)?;
        if wanted(key).is_some() {
            return None;
        }
        let meant = match nearest(key, KEYS.iter().copied()) {
            Some(meant) => format!("did you mean {meant}?"),
            None => {
                let near = near(key, keys_by_sort().into_iter());
                format!("known keys near it: {}", near.join(" ")).trim_end().to_owned()
            }
        };
        let (line, key) = (at + 1, Shown(key));
        Some(format!("line {line}: {key} is no key and is skipped; {meant}"))
    };
    text.lines().enumerate().filter_map(note).take(TOLD).collect()
}
