//! Text that grows only where there is memory.

use std::fmt::{self, Write};
use std::net::SocketAddrV4;
use std::str;

/// Text that refuses what there is no memory for.
#[derive(Debug, Default)]
pub(crate) struct Line(String);

impl Write for Line {
    fn write_str(&mut self, text: &str) -> fmt::Result {
        self.0.try_reserve(text.len()).map_err(|_| fmt::Error)?;
        self.0.push_str(text);
        Ok(())
    }
}

/// The digits of a number, at the end of the room for them.
fn digits(mut number: u64, room: &mut [u8; 20]) -> &str {
    let mut start = room.len();
    loop {
        start -= 1;
        room[start] = b'0' + u8::try_from(number % 10).unwrap_or_default();
        number /= 10;
        if number == 0 {
            return str::from_utf8(&room[start..]).unwrap_or_default();
        }
    }
}

impl Line {
    fn reserve(&mut self, bytes: usize) -> fmt::Result {
        self.0.try_reserve(bytes).map_err(|_| fmt::Error)
    }

    /// A word, and numbers behind it.
    pub(crate) fn put(&mut self, word: &str, numbers: &[u64]) -> fmt::Result {
        let mut room = [0; 20];
        self.reserve(word.len() + numbers.len() * (" ".len() + room.len()))?;
        self.0.push_str(word);
        for number in numbers {
            self.0.push(' ');
            self.0.push_str(digits(*number, &mut room));
        }
        Ok(())
    }

    /// An address, behind a space.
    pub(crate) fn put_address(&mut self, address: SocketAddrV4) -> fmt::Result {
        self.reserve(" 255.255.255.255:65535".len())?;
        let mut room = [0; 20];
        for (byte, before) in address.ip().octets().into_iter().zip([' ', '.', '.', '.']) {
            self.0.push(before);
            self.0.push_str(digits(byte.into(), &mut room));
        }
        self.0.push(':');
        self.0.push_str(digits(address.port().into(), &mut room));
        Ok(())
    }

    pub(crate) fn clear(&mut self) {
        self.0.clear();
    }

    pub(crate) fn as_bytes(&self) -> &[u8] {
        self.0.as_bytes()
    }

    pub(crate) fn as_str(&self) -> &str {
        &self.0
    }
}
