//! A connection, as a handler has it.

use crate::limits::Seat;
use crate::listener::Accepted;
use crate::log::say;
use fulltimehen::Peer;
use socket2::SockRef;
use std::fmt;
use std::io;
use std::net::SocketAddr;
use std::pin::Pin;
use std::sync::Arc;
use std::task::{Context, Poll};
use std::thread;
use std::time::Duration;
use tokio::io::{AsyncRead, AsyncWrite, ReadBuf};
use tokio::net::{TcpStream, UnixStream};
use tokio::sync::watch;
use tokio::time::{Instant, Sleep, sleep_until};

/// Tells that the server shuts down: it drains, or ends.
#[derive(Clone, Debug)]
pub struct Shutdown(watch::Receiver<bool>);

impl Shutdown {
    /// One that can be started, for a test of a handler.
    ///
    /// ```
    /// use fulltimehen_server::Shutdown;
    ///
    /// let (start, shutdown) = Shutdown::pair();
    /// assert!(!shutdown.has_begun());
    /// start();
    /// assert!(shutdown.has_begun());
    /// ```
    pub fn pair() -> (impl FnOnce() + Send + 'static, Shutdown) {
        let (tell, told) = watch::channel(false);
        (move || _ = tell.send(true), Shutdown(told))
    }

    pub(crate) fn channel() -> (watch::Sender<bool>, Shutdown) {
        let (tell, told) = watch::channel(false);
        (tell, Shutdown(told))
    }

    /// Whether the shutdown has begun.
    #[must_use]
    pub fn has_begun(&self) -> bool {
        *self.0.borrow()
    }

    /// Waits until the shutdown begins. It may be dropped and called again at any time.
    pub async fn begins(&mut self) {
        while !*self.0.borrow_and_update() {
            if self.0.changed().await.is_err() {
                // The server is gone.
                return;
            }
        }
    }
}

#[derive(Debug)]
enum Stream {
    Tcp(TcpStream),
    Unix(UnixStream),
}

/// What the connections of a server have in common.
pub(crate) trait Common: Send + Sync {
    /// A connection is done with.
    fn finished(&self, connection: u64);
    fn shutdown(&self) -> &Shutdown;
    fn service_name(&self, service: u32) -> &str;
}

/// Tells that a connection is done with once it is dropped.
pub(crate) struct Guard {
    pub(crate) number: u64,
    pub(crate) service: u32,
    pub(crate) common: Arc<dyn Common>,
    /// The descriptors that it may have are others' from then on.
    pub(crate) _seat: Seat,
}

impl Drop for Guard {
    fn drop(&mut self) {
        if thread::panicking() {
            let name = self.common.service_name(self.service);
            say!(error, "{name}: the handler of connection {} panicked", self.number);
        }
        self.common.finished(self.number);
    }
}

/// So long after the moment, or as far ahead as there are moments that matter.
fn later(moment: Instant, after: Duration) -> Instant {
    const FAR: Duration = Duration::from_secs(1 << 32);
    moment + after.min(FAR)
}

struct Idle {
    after: Duration,
    last: Instant,
    sleep: Pin<Box<Sleep>>,
}

impl Idle {
    /// Whether nothing has moved for too long. Else the task is woken once that may be so.
    fn is_over(&mut self, context: &mut Context<'_>) -> bool {
        loop {
            if self.sleep.as_mut().poll(context).is_pending() {
                return false;
            }
            let end = later(self.last, self.after);
            if end <= Instant::now() {
                return true;
            }
            self.sleep.as_mut().reset(end);
        }
    }
}

/// An accepted connection: bytes to read and to write, where it comes from, and whether the server shuts
/// down.
///
/// The server counts it as live until the handler has ended and the connection is dropped. When the server
/// ends, a handler that goes on still is aborted.
///
/// ```
/// use fulltimehen_server::{Connection, Opt, Server, listening};
/// use std::io;
/// use std::time::Duration;
/// use tokio::io::{AsyncReadExt, AsyncWriteExt};
///
/// /// Answers each byte, until the server shuts down.
/// async fn answer(mut connection: Connection) -> io::Result<()> {
///     connection.set_idle_timeout(Some(Duration::from_secs(60)));
///     let mut shutdown = connection.shutdown_signal();
///     loop {
///         let byte = tokio::select! {
///             byte = connection.read_u8() => byte?,
///             () = shutdown.begins() => return Ok(()),
///         };
///         connection.write_u8(byte).await?;
///     }
/// }
///
/// let mut server = Server::new(Opt::default())?;
/// server.add_service(listening("answer", answer).tcp("127.0.0.1:8080"));
/// # Ok::<(), fulltimehen_server::ServerError>(())
/// ```
pub struct Connection {
    stream: Stream,
    peer: Peer,
    idle: Option<Idle>,
    guard: Arc<Guard>,
}

impl fmt::Debug for Connection {
    fn fmt(&self, f: &mut fmt::Formatter<'_>) -> fmt::Result {
        f.debug_struct("Connection")
            .field("number", &self.guard.number)
            .field("peer", &self.peer)
            .finish_non_exhaustive()
    }
}

/// What a connection is made of, where its handler runs.
pub(crate) struct Served {
    pub(crate) stream: Accepted,
    pub(crate) peer: Peer,
    pub(crate) guard: Arc<Guard>,
}

impl Connection {
    pub(crate) fn new(served: Served) -> io::Result<Connection> {
        let Served { stream, peer, guard } = served;
        let stream = match stream {
            Accepted::Tcp(stream, _) => Stream::Tcp(TcpStream::from_std(stream)?),
            Accepted::Unix(stream) => Stream::Unix(UnixStream::from_std(stream)?),
        };
        Ok(Connection { stream, peer, idle: None, guard })
    }

    /// Its number: each of a server has its own, as in the record.
    ///
    /// ```
    /// use fulltimehen_server::{Connection, Opt, Server, listening};
    /// use std::io;
    /// use tokio::io::AsyncWriteExt;
    ///
    /// /// Tells clients who they are.
    /// async fn greet(mut connection: Connection) -> io::Result<()> {
    ///     let who = match (connection.peer_addr(), connection.as_unix()) {
    ///         (Some(address), _) => address.to_string(),
    ///         (None, Some(stream)) => format!("user {}", stream.peer_cred()?.uid()),
    ///         (None, None) => connection.peer().to_string(),
    ///     };
    ///     if let Some(stream) = connection.as_tcp() {
    ///         stream.set_ttl(32)?;
    ///     }
    ///     let text = format!("connection {} of {who}\n", connection.number());
    ///     connection.write_all(text.as_bytes()).await
    /// }
    ///
    /// let mut server = Server::new(Opt::default())?;
    /// server.add_service(listening("greet", greet).tcp("127.0.0.1:8080").unix("/run/greet.sock", 0o660));
    /// # Ok::<(), fulltimehen_server::ServerError>(())
    /// ```
    #[must_use]
    pub fn number(&self) -> u64 {
        self.guard.number
    }

    /// Where it comes from.
    #[must_use]
    pub fn peer(&self) -> Peer {
        self.peer
    }

    /// The address from which it comes, if it is one of the internet.
    #[must_use]
    pub fn peer_addr(&self) -> Option<SocketAddr> {
        match self.peer {
            Peer::Inet(address) => Some(address),
            _ => None,
        }
    }

    /// The stream of a connection of the internet, for its options.
    #[must_use]
    pub fn as_tcp(&self) -> Option<&TcpStream> {
        match &self.stream {
            Stream::Tcp(stream) => Some(stream),
            Stream::Unix(_) => None,
        }
    }

    /// The stream of a connection of the Unix domain, for its options and the credentials of its peer.
    #[must_use]
    pub fn as_unix(&self) -> Option<&UnixStream> {
        match &self.stream {
            Stream::Tcp(_) => None,
            Stream::Unix(stream) => Some(stream),
        }
    }

    /// Tells when the server shuts down. A handler that keeps a connection for many asks ends it then, after
    /// the ask that is under way. (`shutdown` itself is `AsyncWriteExt`'s: it ends what the connection sends.)
    ///
    /// ```
    /// use fulltimehen_server::{Server, listening};
    /// use tokio::io::AsyncWriteExt;
    ///
    /// let patient = listening("patient", |mut connection| async move {
    ///     connection.shutdown_signal().begins().await;
    ///     connection.write_all(b"goodbye\n").await?;
    ///     connection.shutdown().await
    /// });
    /// Server::new(None)?.add_service(patient.tcp("127.0.0.1:8080"));
    /// # Ok::<(), fulltimehen_server::ServerError>(())
    /// ```
    #[must_use]
    pub fn shutdown_signal(&self) -> Shutdown {
        self.guard.common.shutdown().clone()
    }

    /// Ends the connection by a reset (RST): its client sees an error, and doesn't take what it got for all there is. At
    /// the end of a handler alone the client sees an end, or an error where bytes of its own weren't read. A peer of the
    /// Unix domain sees an end.
    ///
    /// ```
    /// use fulltimehen_server::{Server, connect, listening, relay};
    /// use std::time::Duration;
    ///
    /// let forward = listening("forward", |mut client| async move {
    ///     let upstream = connect("127.0.0.1:8000".parse().unwrap(), Duration::from_secs(10)).await;
    ///     match upstream {
    ///         Ok(mut server) => relay(&mut client, &mut server).await.map(drop),
    ///         Err(error) => {
    ///             client.reset();
    ///             Err(error)
    ///         }
    ///     }
    /// });
    /// Server::new(None)?.add_service(forward.tcp("127.0.0.1:8080"));
    /// # Ok::<(), fulltimehen_server::ServerError>(())
    /// ```
    pub fn reset(self) {
        if let Stream::Tcp(stream) = &self.stream {
            // Where it can't be set, the connection ends as others do.
            _ = SockRef::from(stream).set_linger(Some(Duration::ZERO));
        }
    }

    /// Reading and writing fail with `TimedOut` where nothing was read or written for so long and they have
    /// to wait. `None` waits without an end, as a connection does where nothing is set.
    pub fn set_idle_timeout(&mut self, after: Option<Duration>) {
        self.idle = after.map(|after| {
            let last = Instant::now();
            Idle { after, last, sleep: Box::pin(sleep_until(later(last, after))) }
        });
    }

    /// What an operation that may be timed out answers.
    fn timed<T>(
        &mut self,
        context: &mut Context<'_>,
        answer: Poll<io::Result<T>>,
    ) -> Poll<io::Result<T>> {
        let Some(idle) = &mut self.idle else {
            return answer;
        };
        if answer.is_ready() {
            idle.last = Instant::now();
            return answer;
        }
        if idle.is_over(context) {
            return Poll::Ready(Err(io::ErrorKind::TimedOut.into()));
        }
        Poll::Pending
    }
}

impl AsyncRead for Connection {
    fn poll_read(
        mut self: Pin<&mut Self>,
        context: &mut Context<'_>,
        buffer: &mut ReadBuf<'_>,
    ) -> Poll<io::Result<()>> {
        let answer = match &mut self.stream {
            Stream::Tcp(stream) => Pin::new(stream).poll_read(context, buffer),
            Stream::Unix(stream) => Pin::new(stream).poll_read(context, buffer),
        };
        self.timed(context, answer)
    }
}

impl AsyncWrite for Connection {
    fn poll_write(
        mut self: Pin<&mut Self>,
        context: &mut Context<'_>,
        bytes: &[u8],
    ) -> Poll<io::Result<usize>> {
        let answer = match &mut self.stream {
            Stream::Tcp(stream) => Pin::new(stream).poll_write(context, bytes),
            Stream::Unix(stream) => Pin::new(stream).poll_write(context, bytes),
        };
        self.timed(context, answer)
    }

    fn poll_write_vectored(
        mut self: Pin<&mut Self>,
        context: &mut Context<'_>,
        pieces: &[io::IoSlice<'_>],
    ) -> Poll<io::Result<usize>> {
        let answer = match &mut self.stream {
            Stream::Tcp(stream) => Pin::new(stream).poll_write_vectored(context, pieces),
            Stream::Unix(stream) => Pin::new(stream).poll_write_vectored(context, pieces),
        };
        self.timed(context, answer)
    }

    fn is_write_vectored(&self) -> bool {
        match &self.stream {
            Stream::Tcp(stream) => stream.is_write_vectored(),
            Stream::Unix(stream) => stream.is_write_vectored(),
        }
    }

    fn poll_flush(mut self: Pin<&mut Self>, context: &mut Context<'_>) -> Poll<io::Result<()>> {
        match &mut self.stream {
            Stream::Tcp(stream) => Pin::new(stream).poll_flush(context),
            Stream::Unix(stream) => Pin::new(stream).poll_flush(context),
        }
    }

    fn poll_shutdown(mut self: Pin<&mut Self>, context: &mut Context<'_>) -> Poll<io::Result<()>> {
        match &mut self.stream {
            Stream::Tcp(stream) => Pin::new(stream).poll_shutdown(context),
            Stream::Unix(stream) => Pin::new(stream).poll_shutdown(context),
        }
    }
}

/// Connects to an address of the internet, for at most so long, without waiting to send more.
///
/// # Errors
///
/// What `connect` says, and `TimedOut`.
pub async fn connect(address: SocketAddr, within: Duration) -> io::Result<TcpStream> {
    let connected = tokio::time::timeout(within, TcpStream::connect(address)).await;
    let stream = connected.unwrap_or_else(|_| Err(io::ErrorKind::TimedOut.into()))?;
    stream.set_nodelay(true)?;
    Ok(stream)
}
