//! Listening sockets, and the connections that they accept.

use crate::pid_file::{FileId, PathLock};
use crate::sys;
use fulltimehen::{Peer, Setting};
use socket2::{Domain, SockAddr, SockRef, Socket, TcpKeepalive, Type};
use std::fs::{self, Permissions};
use std::io;
use std::net::{self, Ipv4Addr, Ipv6Addr, SocketAddr, ToSocketAddrs};
use std::os::fd::{AsFd, AsRawFd, BorrowedFd, OwnedFd, RawFd};
use std::os::unix::fs::{FileTypeExt, PermissionsExt};
use std::os::unix::net as unix;
use std::path::{Path, PathBuf};
use std::sync::atomic::{AtomicBool, AtomicU8, Ordering};
use std::time::Duration;

/// How many connections wait to be accepted at most, where the system allows as many.
const BACKLOG: i32 = 4_096;

/// Where a service listens.
#[derive(Clone, Debug, PartialEq, Eq)]
pub(crate) enum Address {
    Tcp(SocketAddr),
    Unix { path: PathBuf, mode: u32 },
}

impl Address {
    /// The address of a text as `127.0.0.1:80` or `localhost:80`, of which the first address counts.
    ///
    /// # Errors
    ///
    /// What looking the name up says.
    pub(crate) fn tcp(text: &str) -> io::Result<Address> {
        let mut found = text.to_socket_addrs()?;
        let none = || io::Error::new(io::ErrorKind::NotFound, "the name has no address");
        found.next().ok_or_else(none).map(Address::Tcp)
    }

    /// As a plan has it.
    pub(crate) fn word(&self) -> String {
        match self {
            Address::Tcp(address) => address.to_string(),
            Address::Unix { path, .. } => path.display().to_string(),
        }
    }
}

/// How connections are kept alive while nothing is sent.
#[derive(Clone, Copy, Debug, PartialEq, Eq)]
pub(crate) struct KeepAlive {
    pub(crate) idle: Duration,
    pub(crate) interval: Duration,
    pub(crate) count: u32,
}

/// A listening socket. It doesn't block.
#[derive(Debug)]
pub(crate) struct Listener {
    socket: Listening,
    no_delay: NoDelayCell,
    /// Another program has it, too, or had it: that one may have it block.
    is_shared: AtomicBool,
}

#[derive(Debug)]
enum Listening {
    Tcp(net::TcpListener),
    Unix(unix::UnixListener),
}

/// Whether what a listening socket accepts sends without delay: it has that from its listener, from the moment on at
/// which that is set so.
#[derive(Clone, Copy, Debug, PartialEq, Eq)]
pub(crate) enum NoDelay {
    No,
    /// Not those that waited before.
    Later,
    Yes,
}

/// A `NoDelay` that the loops of a listening socket have in common.
#[derive(Debug, Default)]
pub(crate) struct NoDelayCell(AtomicU8);

impl NoDelayCell {
    fn get(&self) -> NoDelay {
        match self.0.load(Ordering::SeqCst) {
            0 => NoDelay::No,
            1 => NoDelay::Later,
            _ => NoDelay::Yes,
        }
    }

    fn set(&self, no_delay: NoDelay) {
        self.0.store(no_delay as u8, Ordering::SeqCst);
    }
}

/// An accepted connection. It doesn't block.
#[derive(Debug)]
pub(crate) enum Accepted {
    Tcp(net::TcpStream, NoDelay),
    Unix(unix::UnixStream),
}

/// Removes the path of a Unix socket at which nobody listens any more.
fn remove_stale(path: &Path) -> io::Result<()> {
    match fs::symlink_metadata(path) {
        Err(error) if error.kind() == io::ErrorKind::NotFound => return Ok(()),
        Ok(old) if old.file_type().is_socket() => {}
        Ok(_) => return Err(io::Error::new(io::ErrorKind::AlreadyExists, "it is no socket")),
        Err(error) => return Err(error),
    }
    let socket = Socket::new(Domain::UNIX, Type::STREAM, None)?;
    // Where as many wait there as may, this one doesn't.
    socket.set_nonblocking(true)?;
    match socket.connect(&SockAddr::unix(path)?) {
        Err(error) if error.kind() == io::ErrorKind::ConnectionRefused => fs::remove_file(path),
        _ => Err(io::ErrorKind::AddrInUse.into()),
    }
}

fn is_would_block<T>(answer: &io::Result<T>) -> bool {
    matches!(answer, Err(error) if error.kind() == io::ErrorKind::WouldBlock)
}

impl Listener {
    /// Binds the address and listens.
    pub(crate) fn bind(address: &Address) -> io::Result<Listener> {
        let socket = match address {
            Address::Tcp(address) => {
                let socket = Socket::new(Domain::for_address(*address), Type::STREAM, None)?;
                socket.set_reuse_address(true)?;
                socket.bind(&SockAddr::from(*address))?;
                socket.listen(BACKLOG)?;
                socket
            }
            Address::Unix { path, mode } => {
                // To another server that begins at the same time it would look like one that is left behind until it listens.
                let lock = PathLock::take(path)?;
                remove_stale(path)?;
                let socket = Socket::new(Domain::UNIX, Type::STREAM, None)?;
                socket.bind(&SockAddr::unix(path)?)?;
                // Nobody can connect before it listens.
                fs::set_permissions(path, Permissions::from_mode(*mode))?;
                socket.listen(BACKLOG)?;
                drop(lock);
                socket
            }
        };
        socket.set_nonblocking(true)?;
        let socket = match address {
            Address::Tcp(_) => Listening::Tcp(socket.into()),
            Address::Unix { .. } => Listening::Unix(socket.into()),
        };
        Ok(Listener { socket, no_delay: NoDelayCell::default(), is_shared: AtomicBool::new(false) })
    }

    /// The listening socket of a descriptor that came from outside.
    ///
    /// # Errors
    ///
    /// What looking at it says; `InvalidInput` where it isn't a listening socket of streams, of the internet
    /// or of a Unix path.
    pub(crate) fn from_outside(fd: OwnedFd) -> io::Result<Listener> {
        let socket = SockRef::from(&fd);
        let refused = |text: &str| Err(io::Error::new(io::ErrorKind::InvalidInput, text));
        if !socket.is_listener()? || socket.r#type()? != Type::STREAM {
            return refused("it isn't a listening socket");
        }
        let socket = match socket.domain()? {
            Domain::IPV4 | Domain::IPV6 => Listening::Tcp(net::TcpListener::from(fd)),
            Domain::UNIX => Listening::Unix(unix::UnixListener::from(fd)),
            _ => return refused("it is a socket of another family"),
        };
        let is_shared = AtomicBool::new(true);
        let listener = Listener { socket, no_delay: NoDelayCell::default(), is_shared };
        listener.unblock()?;
        Ok(listener)
    }

    /// The socket, for another program.
    pub(crate) fn share(&self) -> BorrowedFd<'_> {
        self.is_shared.store(true, Ordering::SeqCst);
        match &self.socket {
            Listening::Tcp(listener) => listener.as_fd(),
            Listening::Unix(listener) => listener.as_fd(),
        }
    }

    pub(crate) fn is_tcp(&self) -> bool {
        matches!(self.socket, Listening::Tcp(_))
    }

    /// The socket, for its options.
    fn options(&self) -> SockRef<'_> {
        match &self.socket {
            Listening::Tcp(listener) => SockRef::from(listener),
            Listening::Unix(listener) => SockRef::from(listener),
        }
    }

    /// Whether it listens at this address. A port 0 is any port; and a socket of all addresses of IPv6 that takes IPv4,
    /// too, as service managers make it for a port alone, is one of all addresses of IPv4.
    pub(crate) fn is_at(&self, address: &Address) -> bool {
        match (&self.socket, address) {
            (Listening::Tcp(listener), Address::Tcp(address)) => {
                listener.local_addr().is_ok_and(|local| {
                    (local.ip() == address.ip() || self.has_all_of(local, *address))
                        && (address.port() == 0 || local.port() == address.port())
                })
            }
            (Listening::Unix(listener), Address::Unix { path, .. }) => {
                listener.local_addr().is_ok_and(|local| local.as_pathname() == Some(path))
            }
            _ => false,
        }
    }

    /// Whether it is of all addresses of both families, and all of IPv4 are asked for.
    fn has_all_of(&self, local: SocketAddr, address: SocketAddr) -> bool {
        local.ip() == Ipv6Addr::UNSPECIFIED
            && address.ip() == Ipv4Addr::UNSPECIFIED
            && self.options().only_v6().is_ok_and(|only| !only)
    }

    /// Its address, for messages.
    pub(crate) fn address(&self) -> String {
        match &self.socket {
            Listening::Tcp(listener) => {
                listener.local_addr().map_or("?".to_owned(), |address| address.to_string())
            }
            Listening::Unix(listener) => {
                let address = listener.local_addr().ok();
                let path = address.as_ref().and_then(|address| address.as_pathname());
                path.map_or("?".to_owned(), |path| path.display().to_string())
            }
        }
    }

    /// Sees to it that accepting doesn't block: another program that has the socket may have changed that.
    fn unblock(&self) -> io::Result<()> {
        match &self.socket {
            Listening::Tcp(listener) => listener.set_nonblocking(true),
            Listening::Unix(listener) => listener.set_nonblocking(true),
        }
    }

    /// The same, where another program has the socket.
    pub(crate) fn unblock_if_shared(&self) -> io::Result<()> {
        if self.is_shared.load(Ordering::SeqCst) { self.unblock() } else { Ok(()) }
    }

    /// Listens once more, with the backlog of this program, and has connections send without delay and kept alive.
    pub(crate) fn prepare(&self, keep_alive: Option<KeepAlive>) -> io::Result<()> {
        self.unblock()?;
        let socket = self.options();
        socket.listen(BACKLOG)?;
        if !self.is_tcp() {
            return Ok(());
        }
        // An accepted connection has what its listener has.
        socket.set_nodelay(true)?;
        self.no_delay.set(NoDelay::Later);
        if let Some(times) = keep_alive {
            let keep_alive = TcpKeepalive::new()
                .with_time(times.idle)
                .with_interval(times.interval)
                .with_retries(times.count);
            socket.set_tcp_keepalive(&keep_alive)?;
        }
        Ok(())
    }

    /// The file of a Unix socket's path.
    pub(crate) fn file(&self) -> Option<(PathBuf, FileId)> {
        let Listening::Unix(listener) = &self.socket else {
            return None;
        };
        let path = listener.local_addr().ok()?.as_pathname()?.to_owned();
        let id = FileId::at(&path)?;
        Some((path, id))
    }

    /// Accepts a connection, without waiting.
    pub(crate) fn accept(&self) -> io::Result<(Accepted, Peer)> {
        Ok(match &self.socket {
            Listening::Tcp(listener) => {
                // What is accepted later came later.
                let before = self.no_delay.get();
                let accepted = sys::accept(listener);
                if before == NoDelay::Later && is_would_block(&accepted) {
                    // None waits any more that came before.
                    self.no_delay.set(NoDelay::Yes);
                }
                let (stream, address) = accepted?;
                let peer = address.as_socket().ok_or(io::ErrorKind::InvalidData)?;
                let stream = net::TcpStream::from(stream);
                (Accepted::Tcp(stream, before), Peer::from(peer))
            }
            Listening::Unix(listener) => {
                let (stream, _) = sys::accept(listener)?;
                (Accepted::Unix(unix::UnixStream::from(stream)), Peer::Unix)
            }
        })
    }
}

/// For a poller. Who passes the socket on calls [`Listener::share`].
impl AsRawFd for Listener {
    fn as_raw_fd(&self) -> RawFd {
        match &self.socket {
            Listening::Tcp(listener) => listener.as_raw_fd(),
            Listening::Unix(listener) => listener.as_raw_fd(),
        }
    }
}

/// Applies a setting to an accepted connection.
fn apply(setting: &Setting, stream: &Accepted, peer: Peer) -> io::Result<()> {
    let socket = stream.socket();
    let size = |bytes: u64| usize::try_from(bytes).unwrap_or(usize::MAX);
    match *setting {
        // Nothing waits in a socket of the Unix domain.
        Setting::NoDelay if peer == Peer::Unix || stream.has_no_delay() => Ok(()),
        Setting::NoDelay => socket.set_nodelay(true),
        Setting::KeepAlive { idle, interval, count, user_timeout } => {
            let count = u32::try_from(count).map_err(|_| io::ErrorKind::InvalidInput)?;
            let times = TcpKeepalive::new()
                .with_time(Duration::from_nanos(idle))
                .with_interval(Duration::from_nanos(interval))
                .with_retries(count);
            socket.set_tcp_keepalive(&times)?;
            socket.set_tcp_user_timeout(Some(Duration::from_nanos(user_timeout)))
        }
        Setting::Dscp(byte) => {
            if socket.domain()? == Domain::IPV6 {
                sys::set_traffic_class(&*socket, byte)?;
            }
            // A peer of IPv4 may come to a socket of IPv6.
            match peer {
                Peer::Inet(peer) if peer.ip().to_canonical().is_ipv6() => Ok(()),
                _ => socket.set_tos(byte.into()),
            }
        }
        Setting::SndBuf(bytes) => socket.set_send_buffer_size(size(bytes)),
        Setting::RcvBuf(bytes) => socket.set_recv_buffer_size(size(bytes)),
        _ => Err(io::ErrorKind::Unsupported.into()),
    }
}

impl Accepted {
    /// Applies the settings, and answers whether that went well.
    pub(crate) fn set(&self, settings: &[Setting], peer: Peer) -> bool {
        let set = settings.iter().try_for_each(|setting| apply(setting, self, peer));
        if let Err(error) = &set {
            tracing::debug!("the settings of a connection of {peer}: {error}");
        }
        set.is_ok()
    }

    /// Whether it sends without delay already.
    pub(crate) fn has_no_delay(&self) -> bool {
        matches!(self, Accepted::Tcp(_, NoDelay::Yes))
    }

    /// The connection, for its options.
    pub(crate) fn socket(&self) -> SockRef<'_> {
        match self {
            Accepted::Tcp(stream, _) => SockRef::from(stream),
            Accepted::Unix(stream) => SockRef::from(stream),
        }
    }
}

#[cfg(test)]
mod tests {
    use super::*;
    use std::process;
    use std::sync::Barrier;
    use std::thread;
    use std::time::Instant;

    /// Of servers that begin at once at a path one has it, and its path leads to it.
    #[test]
    fn one_of_many_has_a_path() {
        let path = PathBuf::from(format!("/tmp/fulltimehen-bind-{}", process::id()));
        let address = Address::Unix { path: path.clone(), mode: 0o600 };
        for _ in 0..200 {
            let begin = Barrier::new(4);
            let bind = || {
                begin.wait();
                Listener::bind(&address)
            };
            let bound: Vec<_> = thread::scope(|scope| {
                let threads: Vec<_> = (0..4).map(|_| scope.spawn(bind)).collect();
                threads.into_iter().filter_map(|it| it.join().unwrap().ok()).collect()
            });
            let [listener] = bound.try_into().unwrap();
            drop(unix::UnixStream::connect(&path).unwrap());
            assert!(listener.accept().is_ok());
            fs::remove_file(&path).unwrap();
        }
    }

    #[test]
    fn a_socket_that_another_program_has_is_seen_to() {
        let listener = Listener::bind(&Address::tcp("127.0.0.1:0").unwrap()).unwrap();
        let theirs = listener.share().try_clone_to_owned().unwrap();
        let copy = Listener::from_outside(theirs.try_clone().unwrap()).unwrap();
        // One that blocks all the same answers late, and not never.
        SockRef::from(&theirs).set_read_timeout(Some(Duration::from_secs(20))).unwrap();
        for listener in [&listener, &copy] {
            SockRef::from(&theirs).set_nonblocking(false).unwrap();
            listener.unblock_if_shared().unwrap();
            let then = Instant::now();
            assert!(is_would_block(&listener.accept()));
            assert!(then.elapsed() < Duration::from_secs(10));
        }
    }
}
