//! What is said to people, in the words of the program `svc`.

use crate::event::Event;
use std::fmt::{self, Display, Write};

/// The most characters of a word that are shown.
const LONGEST: usize = 60;

/// Text on one line: a long one is cut, and control characters are named by number.
pub(crate) struct Shown<T>(pub T);

/// Passes on so many characters, and then two dots.
struct Cut<'a, 'b> {
    f: &'a mut fmt::Formatter<'b>,
    left: usize,
    is_cut: bool,
}

impl Write for Cut<'_, '_> {
    fn write_str(&mut self, text: &str) -> fmt::Result {
        for c in text.chars() {
            if self.is_cut {
                return Ok(());
            }
            if self.left == 0 {
                self.is_cut = true;
                return self.f.write_str("..");
            }
            self.left -= 1;
            if c.is_control() {
                write!(self.f, "<{:02x}>", u32::from(c))?;
            } else {
                self.f.write_char(c)?;
            }
        }
        Ok(())
    }
}

impl<T: Display> Display for Shown<T> {
    fn fmt(&self, f: &mut fmt::Formatter<'_>) -> fmt::Result {
        let mut cut = Cut { f, left: LONGEST, is_cut: false };
        write!(cut, "{}", self.0)
    }
}

/// Where the event fits.
pub(crate) fn fits_where(event: &Event) -> &'static str {
    match event {
        Event::Moment { .. } => "its time is not below the last moment's",
        Event::Ready { .. } => {
            "its service is of the kind notify, is started and hasn't said so before"
        }
        Event::WorkEnded { .. } => {
            "its service is started, bootstraps not, has no endpoints and hasn't ended before"
        }
        Event::Bound { .. } => {
            "a bind of the endpoint was told and isn't answered yet, and the number is a new one"
        }
        Event::AddrInUse { .. } | Event::BindFailed { .. } => {
            "a bind of the endpoint was told and isn't answered yet"
        }
        Event::Adopted { .. } | Event::AdoptFailed { .. } => {
            "an adopt of the endpoint was told and isn't answered yet"
        }
        Event::Received { .. } => {
            "a tryreceive was told and isn't answered yet, and each number is a new one"
        }
        Event::NoSender | Event::ReceiveFailed => "a tryreceive was told and isn't answered yet",
        Event::Signal { .. } => "phase Running was told",
        Event::Connected | Event::NoSuccessor | Event::Connecting | Event::ConnectFailed => {
            "a connect was told and isn't answered yet"
        }
        Event::Sent | Event::SendBusy | Event::SendFailed => {
            "a send was told and isn't answered yet"
        }
        Event::Arrived { .. } => {
            "all endpoints of its service are bound, and the number is a new one"
        }
        Event::AcceptFailed { .. } => {
            "all endpoints of its service are bound, and an accept loop goes on"
        }
        Event::SettingsApplied { .. } | Event::SettingsFailed { .. } => {
            "settings of the connection were told and aren't answered yet"
        }
        Event::HandshakeDone { .. } | Event::HandshakeFailed { .. } => {
            "a handshake of the connection was told and isn't answered yet"
        }
        Event::Finished { .. } => "a serve of the connection was told, and it is live",
        Event::LoopEnded { .. } => {
            "broadcast was told, and the accept loop is there and hasn't ended before"
        }
        Event::Side { .. } => "daemonize was told and isn't answered yet",
        Event::ChildReady | Event::ChildGone | Event::DropRightsFailed => {
            "the process is a parent that waits for its child"
        }
    }
}

/// The known words that the word is one letter off: the first of them.
pub(crate) fn nearest<'a>(word: &str, known: impl Iterator<Item = &'a str>) -> Option<&'a str> {
    known.into_iter().find(|name| is_one_off(word.as_bytes(), name.as_bytes()))
}

/// How many known words are named at most that are near another one.
const NAMED: usize = 3;

/// The known words that share the longest stretch with the word, by the length of both: at most three, none of them less
/// than half as near as the first.
pub(crate) fn near<'a>(word: &str, known: impl Iterator<Item = &'a str>) -> Vec<&'a str> {
    let word = &word.as_bytes()[..word.len().min(LONGEST)];
    let mut near: Vec<(usize, &str)> =
        known.map(|name| (nearness(word, name.as_bytes()), name)).filter(|(n, _)| *n > 0).collect();
    near.sort_by_key(|(nearness, _)| std::cmp::Reverse(*nearness));
    let least = near.first().map_or(0, |(nearness, _)| nearness / 2);
    near.into_iter().take_while(|(n, _)| *n >= least).take(NAMED).map(|(_, name)| name).collect()
}

/// How much of both words the longest stretch is that stands in both, in thousandths.
fn nearness(a: &[u8], b: &[u8]) -> usize {
    let shared = |a: &[u8], b: &[u8]| a.iter().zip(b).take_while(|(x, y)| x == y).count();
    let starts = (0..a.len()).flat_map(|i| (0..b.len()).map(move |j| (i, j)));
    let longest = starts.map(|(i, j)| shared(&a[i..], &b[j..])).max().unwrap_or(0);
    longest * 2000 / (a.len() + b.len()).max(1)
}

/// The one is the other with one byte too many, too few, another one, or two neighbours swapped.
fn is_one_off(a: &[u8], b: &[u8]) -> bool {
    let shared = a.iter().zip(b).take_while(|(x, y)| x == y).count();
    match (&a[shared..], &b[shared..]) {
        ([], rest) | (rest, []) => rest.len() == 1,
        ([x, left @ ..], [y, right @ ..]) => {
            left == right
                || left == [&[*y], right].concat()
                || right == [&[*x], left].concat()
                || matches!((left, right), ([z, l @ ..], [w, r @ ..]) if x == w && z == y && l == r)
        }
    }
}

#[cfg(test)]
mod tests {
    use super::*;

    #[test]
    fn a_word_is_meant_that_is_one_letter_off() {
        let known = ["threads", "user"];
        for word in ["thread", "threadss", "thraeds", "threats", "uuser", "sser"] {
            assert!(nearest(word, known.into_iter()).is_some(), "{word}");
        }
        for word in ["threads_of", "threads", "use_r_", "reads", ""] {
            assert_eq!(nearest(word, known.into_iter()), None, "{word}");
        }
    }

    #[test]
    fn words_are_shown_on_one_line() {
        assert_eq!(Shown("a\nb\u{7f}").to_string(), "a<0a>b<7f>");
        assert_eq!(Shown("x".repeat(61)).to_string(), format!("{}..", "x".repeat(60)));
    }
}
