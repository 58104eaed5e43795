//! Services: what a server runs.

use crate::connection::{Connection, Served, Shutdown};
use crate::filter::Cidr;
use crate::listener::Address;
use crate::log::say;
use fulltimehen::Peer;
use std::fmt;
use std::future::Future;
use std::io;
use std::path::PathBuf;
use std::pin::Pin;
use std::sync::Arc;
use tokio::runtime::Handle;
use tokio::task::JoinHandle;

pub(crate) type Work = Pin<Box<dyn Future<Output = ()> + Send>>;
type ReadyCall = Arc<dyn Fn() + Send + Sync>;

/// What a handler answers: nothing, or a result, whose error is logged.
///
/// ```
/// use fulltimehen_server::{Answer, Listening, listening};
/// use std::io;
///
/// fn at_home<R>(answer: impl Fn() -> R + Send + Sync + 'static) -> Listening
/// where
///     R: Future<Output: Answer> + Send + 'static,
/// {
///     listening("home", move |_| answer()).tcp("127.0.0.1:8080")
/// }
/// # let _ =
/// at_home(|| async {});
/// # let _ =
/// at_home(|| async { io::Result::Ok(()) });
/// ```
pub trait Answer {
    /// Logs what went wrong.
    #[doc(hidden)]
    fn look(self, service: &str);
}

impl Answer for () {
    fn look(self, _service: &str) {}
}

impl<T, E: fmt::Display> Answer for Result<T, E> {
    fn look(self, service: &str) {
        if let Err(error) = self {
            tracing::debug!("{service}: {error}");
        }
    }
}

/// What the work of a background service has of its server.
///
/// ```
/// use fulltimehen_server::{Outcome, RunArgs, Server, Signal, Task, background};
/// use std::time::Duration;
///
/// async fn work(task: Task) {
///     assert_eq!(task.name(), "cache");
///     task.ready();
///     while !task.is_shutting_down() {
///         tokio::select! {
///             () = tokio::time::sleep(Duration::from_secs(60)) => { /* .. keep it fresh .. */ }
///             () = task.shutdown() => {}
///         }
///     }
/// }
///
/// let mut server = Server::new(None)?;
/// server.add_service(background("cache", work));
/// let (operator, signals) = tokio::sync::mpsc::channel(1);
/// operator.blocking_send(Signal::Terminate)?;
/// assert_eq!(server.run(RunArgs::default().signals(signals))?, Outcome::Served);
/// # Ok::<(), Box<dyn std::error::Error>>(())
/// ```
#[derive(Clone)]
pub struct Task {
    name: Arc<str>,
    shutdown: Shutdown,
    ready: ReadyCall,
}

impl fmt::Debug for Task {
    fn fmt(&self, f: &mut fmt::Formatter<'_>) -> fmt::Result {
        f.debug_struct("Task").field("name", &self.name).finish_non_exhaustive()
    }
}

impl Task {
    pub(crate) fn new(name: &str, shutdown: Shutdown, ready: ReadyCall) -> Task {
        Task { name: name.into(), shutdown, ready }
    }

    /// The service's name.
    #[must_use]
    pub fn name(&self) -> &str {
        &self.name
    }

    /// Says that the service is ready: what depends on it may start. Only the first call counts.
    pub fn ready(&self) {
        (self.ready)();
    }

    /// Waits until the server shuts down. The work has the grace period from then on.
    pub async fn shutdown(&self) {
        self.shutdown.clone().begins().await;
    }

    /// Whether the server shuts down.
    #[must_use]
    pub fn is_shutting_down(&self) -> bool {
        self.shutdown.has_begun()
    }
}

/// Begins a handler that gets the connection at once.
pub(crate) type Plain = Arc<dyn Fn(Served, &Handle) -> JoinHandle<()> + Send + Sync>;

/// What a listening service does with a connection.
#[derive(Clone)]
pub(crate) enum Handler {
    /// The handler gets the connection at once.
    Plain(Plain),
    /// A handshake comes first, which answers the handler's work.
    Shaking(Arc<dyn Fn(Connection) -> Handshake + Send + Sync>),
}

pub(crate) type Handshake = Pin<Box<dyn Future<Output = io::Result<Work>> + Send>>;
type Filter = Arc<dyn Fn(&Peer) -> bool + Send + Sync>;

/// An endpoint of a listening service.
#[derive(Clone, Debug)]
pub(crate) struct Endpoint {
    /// As it was given.
    pub(crate) word: String,
    pub(crate) kind: EndpointKind,
    pub(crate) dscp: Option<u8>,
    pub(crate) send_buffer: Option<u64>,
    pub(crate) receive_buffer: Option<u64>,
}

#[derive(Clone, Debug)]
pub(crate) enum EndpointKind {
    Tcp,
    Unix { path: PathBuf, mode: u32 },
}

impl Endpoint {
    /// Its address, looked up.
    pub(crate) fn address(&self) -> io::Result<Address> {
        match &self.kind {
            EndpointKind::Tcp => Address::tcp(&self.word),
            EndpointKind::Unix { path, mode } => {
                Ok(Address::Unix { path: path.clone(), mode: *mode })
            }
        }
    }
}

#[derive(Clone)]
pub(crate) enum Kind {
    Background { work: Arc<dyn Fn(Task) -> Work + Send + Sync>, says_ready: bool },
    Listening { handler: Handler, endpoints: Vec<Endpoint>, filters: Vec<Filter>, descriptors: u32 },
}

/// A service that a server can be given: [`background`] and [`listening`] make them.
///
/// ```
/// use fulltimehen_server::{Server, Service, background, listening};
///
/// let services: [Service; 2] = [
///     background("cache", |task| async move { task.shutdown().await }).into(),
///     listening("web", |_| async {}).tcp("127.0.0.1:8080").into(),
/// ];
/// let mut server = Server::new(None)?;
/// for service in services {
///     server.add_service(service);
/// }
/// # Ok::<(), fulltimehen_server::ServerError>(())
/// ```
#[derive(Clone)]
pub struct Service {
    pub(crate) name: String,
    pub(crate) kind: Kind,
}

impl fmt::Debug for Service {
    fn fmt(&self, f: &mut fmt::Formatter<'_>) -> fmt::Result {
        f.debug_struct("Service").field("name", &self.name).finish_non_exhaustive()
    }
}

impl Service {
    pub(crate) fn endpoints(&self) -> &[Endpoint] {
        match &self.kind {
            Kind::Background { .. } => &[],
            Kind::Listening { endpoints, .. } => endpoints,
        }
    }

    /// How many descriptors a connection takes.
    pub(crate) fn descriptors(&self) -> u32 {
        match &self.kind {
            Kind::Background { .. } => 0,
            Kind::Listening { descriptors, .. } => *descriptors,
        }
    }

    /// Whether a peer may connect by the filters.
    pub(crate) fn lets_in(&self, peer: &Peer) -> bool {
        match &self.kind {
            Kind::Background { .. } => true,
            Kind::Listening { filters, .. } => filters.iter().all(|filter| filter(peer)),
        }
    }

    pub(crate) fn is_filtered(&self) -> bool {
        matches!(&self.kind, Kind::Listening { filters, .. } if !filters.is_empty())
    }
}

/// A service that works in the background, as a cache that fills or a job that runs now and then. Its work
/// is begun once what it depends on is ready, and what depends on it starts once it says [`Task::ready`], or
/// its work has ended.
///
/// Work that panics is as work that has ended: the others go on.
///
/// ```
/// use fulltimehen_server::{Opt, Server, background};
///
/// let mut server = Server::new(Opt::default())?;
/// server.add_service(background("cache", |task| async move {
///     // .. load it ..
///     task.ready();
///     // .. keep it fresh ..
///     task.shutdown().await;
/// }));
/// # Ok::<(), fulltimehen_server::ServerError>(())
/// ```
pub fn background<F, R>(name: &str, work: F) -> Background
where
    F: Fn(Task) -> R + Send + Sync + 'static,
    R: Future<Output: Answer> + Send + 'static,
{
    let service: Arc<str> = name.into();
    let work = move |task: Task| -> Work {
        let (work, service) = (work(task), Arc::clone(&service));
        Box::pin(async move {
            let answer = work.await;
            answer.look(&service);
        })
    };
    Background { name: name.to_owned(), work: Arc::new(work), says_ready: true }
}

/// A background service that is being described.
///
/// ```
/// use fulltimehen_server::{Background, Server, background};
///
/// let jobs: Background = background("jobs", |task| async move { task.shutdown().await });
/// Server::new(None)?.add_service(jobs.ready_at_once());
/// # Ok::<(), fulltimehen_server::ServerError>(())
/// ```
#[must_use = "it runs once a server has it: `Server::add_service`"]
pub struct Background {
    name: String,
    work: Arc<dyn Fn(Task) -> Work + Send + Sync>,
    says_ready: bool,
}

impl fmt::Debug for Background {
    fn fmt(&self, f: &mut fmt::Formatter<'_>) -> fmt::Result {
        f.debug_struct("Background").field("name", &self.name).finish_non_exhaustive()
    }
}

impl Background {
    /// What depends on it starts as soon as it is started itself.
    pub fn ready_at_once(mut self) -> Background {
        self.says_ready = false;
        self
    }
}

impl From<Background> for Service {
    fn from(background: Background) -> Service {
        let Background { name, work, says_ready } = background;
        Service { name, kind: Kind::Background { work, says_ready } }
    }
}

/// A service that listens: the handler gets each connection that comes. It runs on the threads of the
/// server, side by side with the others; one that panics is a connection that is over.
///
/// ```
/// use fulltimehen_server::{Opt, Server, listening};
/// use tokio::io::AsyncWriteExt;
///
/// let mut server = Server::new(Opt::default())?;
/// let hello = listening("hello", |mut connection| async move {
///     connection.write_all(b"hello\n").await
/// });
/// server.add_service(hello.tcp("127.0.0.1:8080"));
/// # Ok::<(), fulltimehen_server::ServerError>(())
/// ```
pub fn listening<F, R>(name: &str, handler: F) -> Listening
where
    F: Fn(Connection) -> R + Send + Sync + 'static,
    R: Future<Output: Answer> + Send + 'static,
{
    let service = Arc::new((name.to_owned(), handler));
    let begin = move |served: Served, handlers: &Handle| {
        let service = Arc::clone(&service);
        handlers.spawn(async move {
            let (name, handler) = &*service;
            let guard = Arc::clone(&served.guard);
            match Connection::new(served) {
                Ok(connection) => handler(connection).await.look(name),
                Err(error) => tracing::warn!("{name}: a connection isn't served: {error}"),
            }
            drop(guard);
        })
    };
    Listening::new(name, Handler::Plain(Arc::new(begin)))
}

/// A service that listens and shakes hands first: what `handshake` makes of a connection, as a stream of
/// TLS, the handler gets. A handshake has 60 seconds; one that fails ends the connection.
///
/// ```
/// use fulltimehen_server::{Connection, Opt, Server, listening_with_handshake};
/// use std::io;
/// use tokio::io::{AsyncReadExt, AsyncWriteExt};
///
/// async fn shake(mut connection: Connection) -> io::Result<Connection> {
///     let mut word = [0; 5];
///     connection.read_exact(&mut word).await?;
///     if word == *b"hello" { Ok(connection) } else { Err(io::ErrorKind::InvalidData.into()) }
/// }
///
/// let mut server = Server::new(Opt::default())?;
/// let service = listening_with_handshake("polite", shake, |mut connection| async move {
///     connection.write_all(b"and hello to you\n").await
/// });
/// server.add_service(service.tcp("127.0.0.1:8080"));
/// # Ok::<(), fulltimehen_server::ServerError>(())
/// ```
pub fn listening_with_handshake<S, T, A, F, R>(name: &str, handshake: S, handler: F) -> Listening
where
    S: Fn(Connection) -> T + Send + Sync + 'static,
    T: Future<Output = io::Result<A>> + Send + 'static,
    A: Send + 'static,
    F: Fn(A) -> R + Send + Sync + 'static,
    R: Future<Output: Answer> + Send + 'static,
{
    let service: Arc<str> = name.into();
    let handler = Arc::new(handler);
    let shake = move |connection| -> Handshake {
        let shaken = handshake(connection);
        let (handler, service) = (Arc::clone(&handler), Arc::clone(&service));
        Box::pin(async move {
            let stream = shaken.await?;
            let work: Work = Box::pin(async move {
                let answer = handler(stream).await;
                answer.look(&service);
            });
            Ok(work)
        })
    };
    Listening::new(name, Handler::Shaking(Arc::new(shake)))
}

/// A listening service that is being described.
///
/// ```
/// use fulltimehen_server::{Listening, Server, listening};
///
/// let web: Listening = listening("web", |_| async {})
///     .tcp("127.0.0.1:8080")
///     .dscp(0x2e << 2)
///     .tcp("[::1]:8080")
///     .buffers(65_536, 65_536)
///     .deny(["10.0.0.0/8".parse()?]);
/// Server::new(None)?.add_service(web);
/// # Ok::<(), Box<dyn std::error::Error>>(())
/// ```
#[must_use = "it runs once a server has it: `Server::add_service`"]
pub struct Listening {
    name: String,
    handler: Handler,
    endpoints: Vec<Endpoint>,
    filters: Vec<Filter>,
    descriptors: u32,
}

impl fmt::Debug for Listening {
    fn fmt(&self, f: &mut fmt::Formatter<'_>) -> fmt::Result {
        f.debug_struct("Listening")
            .field("name", &self.name)
            .field("endpoints", &self.endpoints)
            .finish_non_exhaustive()
    }
}

impl Listening {
    fn new(name: &str, handler: Handler) -> Listening {
        Listening {
            name: name.to_owned(),
            handler,
            endpoints: Vec::new(),
            filters: Vec::new(),
            descriptors: 1,
        }
    }

    fn endpoint(mut self, word: String, kind: EndpointKind) -> Listening {
        let endpoint = Endpoint { word, kind, dscp: None, send_buffer: None, receive_buffer: None };
        self.endpoints.push(endpoint);
        self
    }

    fn last(mut self, set: impl FnOnce(&mut Endpoint)) -> Listening {
        match self.endpoints.last_mut() {
            Some(endpoint) if matches!(endpoint.kind, EndpointKind::Tcp) => set(endpoint),
            _ => say!(warn, "{}: an option comes behind the address that it is for", self.name),
        }
        self
    }

    /// It listens at this address, as `127.0.0.1:80`, `[::]:80` or `localhost:80`. A name is looked up when
    /// the server starts, and its first address counts. It may be called several times.
    pub fn tcp(self, address: &str) -> Listening {
        self.endpoint(address.to_owned(), EndpointKind::Tcp)
    }

    /// It listens at this path of the Unix domain, which gets this mode, as `0o660`. A socket at which nobody
    /// listens any more is replaced.
    pub fn unix(self, path: impl Into<PathBuf>, mode: u32) -> Listening {
        let path = path.into();
        self.endpoint(path.display().to_string(), EndpointKind::Unix { path, mode })
    }

    /// What its connections send at the last address has this differentiated services byte.
    pub fn dscp(self, byte: u8) -> Listening {
        self.last(|endpoint| endpoint.dscp = Some(byte))
    }

    /// The buffers of its connections at the last address are this large, in bytes.
    pub fn buffers(self, send: u64, receive: u64) -> Listening {
        self.last(|endpoint| {
            endpoint.send_buffer = Some(send);
            endpoint.receive_buffer = Some(receive);
        })
    }

    /// So many descriptors a connection takes while it is served, its own among them: 1 where this isn't said,
    /// and 2 for one that is forwarded. One for which the limit of descriptors leaves too few isn't accepted: it
    /// waits until others have ended.
    ///
    /// ```
    /// use fulltimehen_server::{Server, connect, listening, relay};
    /// use std::time::Duration;
    ///
    /// let forward = listening("forward", |mut client| async move {
    ///     let mut server = connect("127.0.0.1:8000".parse().unwrap(), Duration::from_secs(10)).await?;
    ///     relay(&mut client, &mut server).await
    /// });
    /// Server::new(None)?.add_service(forward.tcp("127.0.0.1:8080").descriptors(2));
    /// # Ok::<(), fulltimehen_server::ServerError>(())
    /// ```
    pub fn descriptors(mut self, descriptors: u32) -> Listening {
        self.descriptors = descriptors;
        self
    }

    /// A connection comes in only where this says yes of its peer, and every other filter does.
    ///
    /// A filter that panics refuses. An IPv4 address that is mapped into IPv6 comes as one of IPv4.
    ///
    /// ```
    /// use fulltimehen_server::{Cidr, Opt, Peer, Server, listening};
    ///
    /// let office: Cidr = "10.0.0.0/8".parse()?;
    /// let web = listening("web", |_| async {})
    ///     .tcp("[::]:8080")
    ///     .unix("/run/web.sock", 0o660)
    ///     .allow([office])
    ///     .filter(|peer| !matches!(peer, Peer::Inet(peer) if peer.port() < 1024));
    /// Server::new(Opt::default())?.add_service(web);
    /// # Ok::<(), Box<dyn std::error::Error>>(())
    /// ```
    pub fn filter(mut self, lets_in: impl Fn(&Peer) -> bool + Send + Sync + 'static) -> Listening {
        self.filters.push(Arc::new(lets_in));
        self
    }

    /// Only peers of these ranges come in. A peer of the Unix domain comes in always.
    pub fn allow(self, ranges: impl IntoIterator<Item = Cidr>) -> Listening {
        let ranges: Vec<Cidr> = ranges.into_iter().collect();
        self.filter(move |peer| match peer {
            Peer::Inet(peer) => ranges.iter().any(|range| range.contains(peer.ip())),
            _ => true,
        })
    }

    /// No peers of these ranges come in.
    pub fn deny(self, ranges: impl IntoIterator<Item = Cidr>) -> Listening {
        let ranges: Vec<Cidr> = ranges.into_iter().collect();
        self.filter(move |peer| match peer {
            Peer::Inet(peer) => !ranges.iter().any(|range| range.contains(peer.ip())),
            _ => true,
        })
    }
}

impl From<Listening> for Service {
    fn from(listening: Listening) -> Service {
        let Listening { name, handler, endpoints, filters, descriptors } = listening;
        Service { name, kind: Kind::Listening { handler, endpoints, filters, descriptors } }
    }
}
