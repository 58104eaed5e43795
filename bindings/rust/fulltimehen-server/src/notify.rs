//! What a service manager is told: the protocol of systemd's `sd_notify`, over a socket that never blocks.

use crate::fds;
use crate::listener::Listener;
use std::env;
use std::io;
use std::os::linux::net::SocketAddrExt;
use std::os::unix::net::{SocketAddr, UnixDatagram};
use std::process;
use std::time::Duration;

/// The service manager, if there is one.
#[derive(Debug)]
pub(crate) struct Manager {
    socket: Option<UnixDatagram>,
    /// How often it wants to hear from the server.
    watchdog: Option<Duration>,
}

fn connect() -> io::Result<Option<UnixDatagram>> {
    let Some(name) = env::var_os("NOTIFY_SOCKET") else {
        return Ok(None);
    };
    let address = match name.as_encoded_bytes() {
        [b'@', name @ ..] => SocketAddr::from_abstract_name(name)?,
        [b'/', ..] => SocketAddr::from_pathname(&name)?,
        // A socket of a virtual machine, say.
        _ => return Err(io::ErrorKind::Unsupported.into()),
    };
    let socket = UnixDatagram::unbound()?;
    socket.set_nonblocking(true)?;
    socket.connect_addr(&address)?;
    Ok(Some(socket))
}

impl Manager {
    /// The manager that the environment names.
    pub(crate) fn find() -> io::Result<Manager> {
        let number = |name| env::var(name).ok().and_then(|value| value.parse::<u64>().ok());
        // Where no process is named, each one may speak.
        let is_ours = number("WATCHDOG_PID").is_none_or(|pid| pid == process::id().into());
        let watchdog = number("WATCHDOG_USEC").filter(|us| *us > 0 && is_ours);
        let watchdog = watchdog.map(|us| Duration::from_micros(us) / 2);
        connect().map(|socket| Manager { socket, watchdog })
    }

    /// None at all.
    pub(crate) fn none() -> Manager {
        Manager { socket: None, watchdog: None }
    }

    pub(crate) fn watchdog(&self) -> Option<Duration> {
        self.watchdog.filter(|_| self.socket.is_some())
    }

    /// Tells it a state: lines `NAME=value`.
    pub(crate) fn tell(&self, state: &str) -> io::Result<()> {
        self.socket.as_ref().map_or(Ok(()), |socket| socket.send(state.as_bytes()).map(drop))
    }

    /// Gives it copies of listening sockets, which it passes to the next start of the service, in place of
    /// those that it has.
    pub(crate) fn store<'a>(
        &self,
        listeners: impl Iterator<Item = &'a Listener>,
    ) -> io::Result<()> {
        let Some(socket) = &self.socket else {
            return Ok(());
        };
        // Those of addresses that were given up would be held open for ever.
        self.tell("FDSTOREREMOVE=1\nFDNAME=fulltimehen")?;
        let state = b"FDSTORE=1\nFDNAME=fulltimehen";
        let listeners: Vec<_> = listeners.map(Listener::share).collect();
        listeners.chunks(fds::MOST_FDS).try_for_each(|fds| fds::send(socket, state, fds).map(drop))
    }
}
