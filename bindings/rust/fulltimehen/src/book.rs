//! What the lines of a record say of which descriptors are open.

use crate::numbers::FdId;
use std::collections::TryReserveError;

/// How many descriptors an event brings at most.
const MOST_DESCRIPTORS: usize = 32;

/// The lines of a text, without their line feeds. Each connection has some, and they are short, so that
/// looking at byte after byte is the fastest.
pub(crate) struct Lines<'a>(pub(crate) &'a str);

impl<'a> Iterator for Lines<'a> {
    type Item = &'a str;

    fn next(&mut self) -> Option<&'a str> {
        let end = self.0.bytes().position(|byte| byte == b'\n');
        let (line, rest) = match end {
            Some(end) => (&self.0[..end], &self.0[end + 1..]),
            None if self.0.is_empty() => return None,
            None => (self.0, ""),
        };
        self.0 = rest;
        Some(line)
    }
}

/// A book that is kept from the lines of a record.
#[derive(Debug, Default)]
pub(crate) struct Book {
    /// The descriptors that events brought and that weren't told to be closed.
    open: Vec<FdId>,
}

/// The descriptor whose number a word of a record is.
fn fd_of(digits: &[u8]) -> FdId {
    let with = |n: u64, digit: &u8| n.wrapping_mul(10).wrapping_add(u64::from(digit & 15));
    FdId(digits.iter().fold(0, with))
}

impl Book {
    /// Room for what the lines of a call bring: an event is one of them at most.
    pub(crate) fn reserve(&mut self) -> Result<(), TryReserveError> {
        self.open.try_reserve(MOST_DESCRIPTORS)
    }

    /// Enters the lines of a call, for which there is room.
    pub(crate) fn enter(&mut self, lines: &str) {
        for line in Lines(lines).map(str::as_bytes) {
            // Most lines are of connections.
            if !matches!(line, [b'c', ..] | [b'g', _, _, _, b'b' | b'r', ..]) {
                continue;
            }
            if let Some(words) = line.strip_prefix(b"close ") {
                let fd = fd_of(words);
                self.open.retain(|open| *open != fd);
            } else if let Some(words) = line.strip_prefix(b"got bound ") {
                self.open.extend(words.split(|byte| *byte == b' ').nth(2).map(fd_of));
            } else if let Some(words) = line.strip_prefix(b"got received ") {
                let fds = words.split(|byte| *byte == b' ').nth(1).filter(|word| *word != b"-");
                let fds = fds.into_iter().flat_map(|word| word.split(|byte| *byte == b','));
                self.open.extend(fds.map(fd_of));
            }
        }
    }

    /// The descriptor is one that an event brought, and it wasn't told to be closed.
    pub(crate) fn is_open(&self, fd: FdId) -> bool {
        self.open.contains(&fd)
    }
}

#[cfg(test)]
mod tests {
    use super::*;

    #[test]
    fn open_are_those_that_came_and_were_not_closed() {
        let mut book = Book::default();
        for (lines, open) in [
            ("got bound 0 0 7\nphase Running 0\n", &[7][..]),
            ("got bound 1 0 8\n", &[7, 8]),
            ("got received 6120 3,9,10\nbind 0 0\n", &[3, 7, 8, 9, 10]),
            ("got received - -\n", &[3, 7, 8, 9, 10]),
            ("got arrived 0 0 1 -\nsettings 1 nodelay\n", &[3, 7, 8, 9, 10]),
            ("got loopended 1 0 0\nclose 9\nclose 3\nstop 5\n", &[7, 8, 10]),
            ("got ready 0\nclose 7\nclose 8\nclose 10\n", &[]),
        ] {
            book.enter(lines);
            let is_open: Vec<u64> = (0..20).filter(|fd| book.is_open(FdId(*fd))).collect();
            assert_eq!(is_open, open, "{lines}");
        }
    }
}
