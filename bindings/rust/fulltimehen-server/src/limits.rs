//! The limit of open descriptors: how many connections there is room for, and what is kept for a handover.

use nix::sys::resource::{Resource, getrlimit, setrlimit};
use std::fs;
use std::io;
use std::os::fd::AsRawFd;
use std::os::unix::net::UnixDatagram;
use std::sync::Arc;
use std::sync::atomic::{AtomicBool, Ordering};
use tokio::sync::{OwnedSemaphorePermit, Semaphore};

/// Raises the number of descriptors that the process may have open to the most that it may set, and answers
/// that number.
pub(crate) fn raise_descriptors() -> io::Result<u64> {
    let (soft, hard) = getrlimit(Resource::RLIMIT_NOFILE)?;
    if soft < hard {
        setrlimit(Resource::RLIMIT_NOFILE, hard, hard)?;
    }
    Ok(hard)
}

/// How many descriptors the process has open, as far as it can see.
fn open_descriptors() -> usize {
    let listed = fs::read_dir("/proc/self/fd").map(Iterator::count);
    // Without `/proc`: those below the first one that is free.
    let below = || UnixDatagram::unbound().map_or(0, |it| it.as_raw_fd().unsigned_abs() as usize);
    listed.unwrap_or_else(|_| below())
}

/// The descriptors that connections may have, so that one which is accepted has what it takes.
#[derive(Clone, Debug)]
pub(crate) struct Room {
    left: Arc<Semaphore>,
    all: usize,
    /// How many a connection takes.
    each: u32,
}

/// What a connection has of the room, as long as this lives.
#[derive(Debug)]
pub(crate) struct Seat {
    _taken: OwnedSemaphorePermit,
}

impl Room {
    /// What the limit leaves to connections where so many listening sockets come still, and a sixteenth of it,
    /// at most 64, is for all else.
    pub(crate) fn within_limit(listeners: usize) -> Room {
        let (limit, _) = getrlimit(Resource::RLIMIT_NOFILE).unwrap_or((1_024, 1_024));
        let limit = usize::try_from(limit).unwrap_or(usize::MAX).min(Semaphore::MAX_PERMITS);
        let others = open_descriptors() + listeners + (limit / 16).min(64);
        let all = limit.saturating_sub(others);
        Room { left: Arc::new(Semaphore::new(all)), all, each: 1 }
    }

    /// The same room for connections that take so many each. There is room for one at least.
    pub(crate) fn of(&self, each: u32) -> Room {
        let each = each.max(1);
        self.left.add_permits((each as usize).saturating_sub(self.all));
        Room { left: Arc::clone(&self.left), all: self.all, each }
    }

    /// Waits until there is room for a connection, and takes it.
    pub(crate) async fn enter(&self) -> Seat {
        match Arc::clone(&self.left).acquire_many_owned(self.each).await {
            Ok(taken) => Seat { _taken: taken },
            // It is never closed.
            Err(_) => std::future::pending().await,
        }
    }

    /// Takes room for a connection, if there is some.
    pub(crate) fn try_enter(&self) -> Option<Seat> {
        let taken = Arc::clone(&self.left).try_acquire_many_owned(self.each).ok()?;
        Some(Seat { _taken: taken })
    }
}

/// How many descriptors are held: a handover opens a few at once.
const SPARES: usize = 4;

/// Descriptors that are held so that some can be had where none is left: for a handover. They are sockets, which want
/// no file: a program may see none but its own.
#[derive(Debug)]
pub(crate) struct Spare {
    held: Vec<UnixDatagram>,
    /// None is missing.
    is_whole: Arc<AtomicBool>,
}

impl Spare {
    pub(crate) fn hold() -> Spare {
        let mut spare = Spare::none();
        spare.fill();
        spare
    }

    /// None at all.
    pub(crate) fn none() -> Spare {
        Spare { held: Vec::new(), is_whole: Arc::default() }
    }

    /// Whether none is missing, as it is at each moment.
    pub(crate) fn is_whole(&self) -> Arc<AtomicBool> {
        Arc::clone(&self.is_whole)
    }

    /// Takes as many as are missing, and answers whether none is missing now.
    pub(crate) fn fill(&mut self) -> bool {
        while self.held.len() < SPARES
            && let Ok(socket) = UnixDatagram::unbound()
        {
            self.held.push(socket);
        }
        let is_whole = self.held.len() >= SPARES;
        self.is_whole.store(is_whole, Ordering::SeqCst);
        is_whole
    }

    /// Lets them go for this call, and takes them again.
    pub(crate) fn lend<T>(&mut self, call: impl FnOnce() -> T) -> T {
        self.is_whole.store(false, Ordering::SeqCst);
        self.held.clear();
        let answer = call();
        self.fill();
        answer
    }
}
