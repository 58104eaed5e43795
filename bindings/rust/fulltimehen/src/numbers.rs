//! Numbers for descriptors and connections.

use std::fmt;
use std::num::ParseIntError;
use std::str::FromStr;

/// The number by which a program and its core know a descriptor. It isn't the system's (a `RawFd`), which comes
/// again once the descriptor is closed: this one is the program's own, and of one descriptor alone in a run.
///
/// ```
/// use fulltimehen::{Core, Event, FdId, Numbers, Plan, Service};
/// use std::collections::HashMap;
/// use std::net::TcpListener;
///
/// let web = Service::plain("web").tcp("127.0.0.1:0");
/// let mut core = Core::new(&Plan::new().service(web))?.begin()?;
/// let (mut numbers, mut sockets) = (Numbers::new(), HashMap::new());
/// let fd = FdId(numbers.take());
/// sockets.insert(fd, TcpListener::bind("127.0.0.1:0")?);
/// let told = core.step(&Event::Bound { service: 0, endpoint: 0, fd })?;
/// assert_eq!(told.record(), "got bound 0 0 1\n");
/// # Ok::<(), Box<dyn std::error::Error>>(())
/// ```
#[derive(Clone, Copy, Debug, PartialEq, Eq, PartialOrd, Ord, Hash)]
pub struct FdId(pub u64);

/// As the record has it.
impl fmt::Display for FdId {
    fn fmt(&self, f: &mut fmt::Formatter<'_>) -> fmt::Result {
        self.0.fmt(f)
    }
}

impl FromStr for FdId {
    type Err = ParseIntError;

    fn from_str(digits: &str) -> Result<FdId, ParseIntError> {
        digits.parse().map(FdId)
    }
}

impl From<u64> for FdId {
    fn from(number: u64) -> FdId {
        FdId(number)
    }
}

/// Gives the numbers of a run's descriptors and connections: each once, and ascending, so that a core
/// can keep those that came as one range.
///
/// ```
/// use fulltimehen::Numbers;
///
/// let mut numbers = Numbers::new();
/// let (first, second) = (numbers.take(), numbers.take());
/// assert!(first < second);
/// ```
#[derive(Debug, Default)]
pub struct Numbers {
    last: u64,
}

impl Numbers {
    /// The first number that it gives is 1.
    #[must_use]
    pub fn new() -> Numbers {
        Numbers::default()
    }

    /// The next number. After `u64::MAX` it gives that one again, and the core refuses it.
    #[must_use = "a number that isn't used is lost"]
    pub fn take(&mut self) -> u64 {
        self.last = self.last.saturating_add(1);
        self.last
    }
}
