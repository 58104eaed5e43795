//! Listening sockets that a service manager started the program with (`sd_listen_fds(3)`).

use crate::listener::Listener;
use listenfd::ListenFd;
use std::os::fd::{AsFd, IntoRawFd, OwnedFd, RawFd};
use std::sync::atomic::{AtomicBool, Ordering};
use std::{env, fs, io, process};

/// The first descriptor that is passed.
const FIRST: RawFd = 3;
/// The most that are taken.
const MOST: usize = 1_024;
/// How a service manager says what it passes, and to whom.
pub(crate) const VARIABLES: [&str; 4] =
    ["LISTEN_PID", "LISTEN_PIDFDID", "LISTEN_FDS", "LISTEN_FDNAMES"];

/// What a service manager passed.
#[derive(Debug, Default)]
pub(crate) struct Inherited {
    /// The sockets, each with its name (`FileDescriptorName=`).
    pub(crate) sockets: Vec<(String, Listener)>,
    /// What it passed besides, and why that is left.
    pub(crate) left: Vec<String>,
}

/// What a descriptor of the process is by `/proc`: a socket that isn't closed at `exec`. All that Rust's
/// standard library opens is closed there, so such a socket was there before the program.
fn is_from_before(fd: RawFd) -> bool {
    let what = fs::read_link(format!("/proc/self/fd/{fd}"));
    let is_socket = what.is_ok_and(|path| path.to_string_lossy().starts_with("socket:["));
    let info = fs::read_to_string(format!("/proc/self/fdinfo/{fd}")).unwrap_or_default();
    let flags = info.lines().find_map(|line| line.strip_prefix("flags:"));
    let flags = flags.and_then(|word| u32::from_str_radix(word.trim(), 8).ok());
    const CLOSED_AT_EXEC: u32 = 0o2_000_000;
    is_socket && flags.is_some_and(|flags| flags & CLOSED_AT_EXEC == 0)
}

/// How many sockets are passed to this process.
fn count() -> usize {
    let is_ours = env::var("LISTEN_PID").is_ok_and(|pid| pid == process::id().to_string());
    let count = env::var("LISTEN_FDS").ok().filter(|_| is_ours);
    count.and_then(|count| count.parse().ok()).filter(|count| *count <= MOST).unwrap_or(0)
}

/// The listening sockets that a service manager started the process with. Only the first call gives them.
///
/// Each number is looked at: what isn't a listening socket, or was opened by this program, is left alone. Their
/// variables are taken out of the environment, so that no other part of the program takes them for its own.
/// To change it isn't safe while other threads may read it: where the program has some, all is left as it is.
pub(crate) fn take() -> Inherited {
    static TAKEN: AtomicBool = AtomicBool::new(false);
    let mut inherited = Inherited::default();
    let count = count();
    if count == 0 || TAKEN.swap(true, Ordering::SeqCst) {
        return inherited;
    }
    if !fs::read_dir("/proc/self/task").is_ok_and(|threads| threads.count() == 1) {
        let text = "the program has threads already: make its server first".to_owned();
        inherited.left.push(text);
        return inherited;
    }
    let names = env::var("LISTEN_FDNAMES").unwrap_or_default();
    let mut names = names.split(':');
    let mut passed = ListenFd::from_env();
    for (place, fd) in (0..count).zip(FIRST..) {
        let name = names.next().unwrap_or_default().to_owned();
        let taken = match is_from_before(fd) {
            true => take_at(&mut passed, place),
            false => Err(io::Error::other("it is no socket, or one of the program's own")),
        };
        match taken {
            Ok(listener) => inherited.sockets.push((name, listener)),
            Err(error) => inherited.left.push(format!("descriptor {fd} ({name:?}): {error}")),
        }
    }
    inherited
}

fn take_at(passed: &mut ListenFd, place: usize) -> io::Result<Listener> {
    let fd: OwnedFd = match passed.take_tcp_listener(place) {
        Ok(listener) => listener.map(OwnedFd::from),
        Err(_) => passed.take_unix_listener(place)?.map(OwnedFd::from),
    }
    .ok_or(io::ErrorKind::NotFound)?;
    // A copy is looked at, so that what isn't taken stays open.
    let listener = fd.as_fd().try_clone_to_owned().and_then(Listener::from_outside);
    if listener.is_err() {
        _ = fd.into_raw_fd();
    }
    listener
}
