//! The server: what it runs, and its run.

use crate::accept::{self, Place};
use crate::driver::{Drive, Driver, Inputs, Setup};
use crate::error::{Outcome, ServerError};
use crate::inherited::{self, Inherited};
use crate::limits;
use crate::listener::{Address, KeepAlive, Listener};
use crate::log::{self, say};
use crate::notify::Manager;
use crate::opt::Opt;
use crate::pid_file::{self, Holder};
use crate::record;
use crate::service::Service;
use crate::signals::Signals;
use crate::succession::{Held, Paths, Shared, Succession};
use crate::takeover::{self, Addresses, Predecessor};
use fulltimehen::{self as machine, Configuration, OnStray, Phase, Plan, Signal, TcpOptions};
use std::cell::RefCell;
use std::collections::BTreeSet;
use std::env;
use std::fmt;
use std::fs;
use std::io::Write;
use std::net::IpAddr;
use std::path::Path;
use std::process;
use std::rc::Rc;
use std::thread;
use std::time::Duration;
use tokio::runtime::{Builder, Handle, Runtime};
use tokio::sync::{broadcast, mpsc};
use tokio::task::LocalSet;

/// How many phases a watcher may be behind.
const PHASES: usize = 64;
/// An address that no peer has: with it blocked, the core asks of each peer.
const NOBODY: IpAddr = IpAddr::V4(std::net::Ipv4Addr::UNSPECIFIED);

/// What services start after, as their handles say it.
type Dependencies = Rc<RefCell<Vec<BTreeSet<u32>>>>;

/// A service of a server: others may start after it.
///
/// ```
/// use fulltimehen_server::{Server, ServiceHandle, background};
///
/// let mut server = Server::new(None)?;
/// let cache: ServiceHandle = server.add_service(background("cache", |_| async {}));
/// assert_eq!(cache.name(), "cache");
/// # Ok::<(), fulltimehen_server::ServerError>(())
/// ```
#[derive(Clone)]
pub struct ServiceHandle {
    number: u32,
    name: String,
    dependencies: Dependencies,
}

impl fmt::Debug for ServiceHandle {
    fn fmt(&self, f: &mut fmt::Formatter<'_>) -> fmt::Result {
        f.debug_struct("ServiceHandle")
            .field("number", &self.number)
            .field("name", &self.name)
            .finish_non_exhaustive()
    }
}

/// Why a service can't start after another one.
///
/// ```
/// use fulltimehen_server::{DependencyError, Server, background};
///
/// let mut server = Server::new(None)?;
/// let (one, other) = (background("one", |_| async {}), background("other", |_| async {}));
/// let (one, other) = (server.add_service(one), server.add_service(other));
/// one.add_dependency(&other)?;
/// let error = other.add_dependency(&one).unwrap_err();
/// assert!(matches!(&error, DependencyError::Circular { .. }));
/// assert_eq!(error.to_string(), "one starts after other already");
/// # Ok::<(), Box<dyn std::error::Error>>(())
/// ```
#[derive(Clone, Debug, PartialEq, Eq, thiserror::Error)]
#[non_exhaustive]
pub enum DependencyError {
    /// The other one starts after this one already, or is this one.
    #[error("{dependency} starts after {dependent} already")]
    Circular {
        /// The service that was to start later.
        dependent: String,
        /// The service that it was to wait for.
        dependency: String,
    },
    /// The services are of two servers.
    #[error("{dependency} is a service of another server")]
    Unknown {
        /// The service that it was to wait for.
        dependency: String,
    },
}

impl ServiceHandle {
    /// Its name.
    #[must_use]
    pub fn name(&self) -> &str {
        &self.name
    }

    /// It starts once the other one is ready.
    ///
    /// ```
    /// use fulltimehen_server::{Opt, Server, background, listening};
    ///
    /// let mut server = Server::new(Opt::default())?;
    /// let cache = server.add_service(background("cache", |task| async move { task.ready() }));
    /// let web = server.add_service(listening("web", |_| async {}).tcp("127.0.0.1:8080"));
    /// web.add_dependency(&cache)?;
    /// assert!(cache.add_dependency(&web).is_err());
    /// # Ok::<(), Box<dyn std::error::Error>>(())
    /// ```
    ///
    /// # Errors
    ///
    /// [`DependencyError::Circular`] where the other one starts after this one already, by way of others too,
    /// and [`DependencyError::Unknown`] where it is of another server. Nothing changes then.
    pub fn add_dependency(&self, dependency: &ServiceHandle) -> Result<(), DependencyError> {
        if !Rc::ptr_eq(&self.dependencies, &dependency.dependencies) {
            return Err(DependencyError::Unknown { dependency: dependency.name.clone() });
        }
        let mut dependencies = self.dependencies.borrow_mut();
        let (mut seen, mut open) = (BTreeSet::new(), vec![dependency.number]);
        while let Some(service) = open.pop() {
            if service == self.number {
                return Err(DependencyError::Circular {
                    dependent: self.name.clone(),
                    dependency: dependency.name.clone(),
                });
            }
            if seen.insert(service) {
                open.extend(&dependencies[service as usize]);
            }
        }
        dependencies[self.number as usize].insert(dependency.number);
        Ok(())
    }

    /// It starts once all of these are ready.
    ///
    /// ```
    /// use fulltimehen_server::{Server, background, listening};
    ///
    /// let mut server = Server::new(None)?;
    /// let cache = server.add_service(background("cache", |task| async move { task.ready() }));
    /// let keys = server.add_service(background("keys", |task| async move { task.ready() }));
    /// let web = server.add_service(listening("web", |_| async {}).tcp("127.0.0.1:8080"));
    /// web.add_dependencies([&cache, &keys])?;
    /// # Ok::<(), Box<dyn std::error::Error>>(())
    /// ```
    ///
    /// # Errors
    ///
    /// As for [`ServiceHandle::add_dependency`], of the first one that is refused. Those before it stay.
    pub fn add_dependencies<'a>(
        &self,
        dependencies: impl IntoIterator<Item = &'a ServiceHandle>,
    ) -> Result<(), DependencyError> {
        dependencies.into_iter().try_for_each(|dependency| self.add_dependency(dependency))
    }
}

/// How a server is run.
#[derive(Debug, Default)]
#[non_exhaustive]
pub struct RunArgs {
    /// Where the operator's signals come from, in place of the process's: then none of those is taken.
    pub signals: Option<mpsc::Receiver<Signal>>,
    /// What is done where the core refuses an event. By itself it is logged, and the run goes on.
    pub on_stray: Option<OnStray>,
    record: Option<record::Sink>,
}

impl RunArgs {
    /// The operator's signals come over a channel, as in a test.
    #[must_use]
    pub fn signals(mut self, signals: mpsc::Receiver<Signal>) -> RunArgs {
        self.signals = Some(signals);
        self
    }

    /// What is done where the core refuses an event, which no event of this crate's should be.
    ///
    /// ```
    /// use fulltimehen_server::{OnStray, RunArgs};
    ///
    /// // A test ends by it.
    /// let args = RunArgs::default().on_stray(OnStray::End);
    /// # drop(args);
    /// ```
    #[must_use]
    pub fn on_stray(mut self, on_stray: OnStray) -> RunArgs {
        self.on_stray = Some(on_stray);
        self
    }

    /// The record goes to what this makes of the plan's script, in place of the file of `--record`. It is called
    /// once for each run of the machine: where another program should have served and doesn't, a new one begins. The
    /// writer has a thread of its own, and where it fails or falls behind, the rest of the record is lost alone.
    ///
    /// ```
    /// use fulltimehen_server::{Outcome, RunArgs, Server, Signal};
    /// use std::io::{Read, pipe};
    ///
    /// let (mut reader, writer) = pipe()?;
    /// let mut writer = Some(writer);
    /// let (operator, signals) = tokio::sync::mpsc::channel(1);
    /// operator.blocking_send(Signal::Fast)?;
    /// let args = RunArgs::default().signals(signals).record(move |plan| {
    ///     assert!(plan.contains("%services"));
    ///     writer.take().expect("one run")
    /// });
    /// assert_eq!(Server::new(None)?.run(args)?, Outcome::Served);
    /// let mut record = String::new();
    /// reader.read_to_string(&mut record)?;
    /// assert!(record.contains("got signal fast\n"));
    /// # Ok::<(), Box<dyn std::error::Error>>(())
    /// ```
    #[must_use]
    pub fn record<W: Write + Send + 'static>(
        mut self,
        begin: impl FnMut(&str) -> W + Send + 'static,
    ) -> RunArgs {
        self.record = Some(record::Sink::new(begin));
        self
    }
}

/// A server: services, and the lifecycle over them.
///
/// SIGTERM ends it gracefully: no connection is accepted any more, and those that are live have
/// `grace_period_seconds` (300 where the configuration doesn't say it), or as long as some are. SIGINT ends it at
/// once. SIGQUIT has the next program take over ([`Succession`]).
pub struct Server {
    /// The settings. The server acts on `threads`, `listener_tasks_per_fd`, `max_blocking_threads`,
    /// `blocking_threads_ttl_seconds`, `grace_period_seconds`, and, for upgrades, `pid_file`, `upgrade_sock` and
    /// `upgrade_sock_connect_accept_max_retries`. [`Server::new`] refuses what a service manager does better. The other
    /// keys are taken, as pingora's are, and change nothing that it does.
    pub configuration: Configuration,
    opt: Opt,
    name: String,
    services: Vec<Service>,
    dependencies: Dependencies,
    phases: broadcast::Sender<Phase>,
    succession: Option<Succession>,
    keep_alive: Option<KeepAlive>,
    /// What a service manager passed.
    inherited: Inherited,
}

impl fmt::Debug for Server {
    fn fmt(&self, f: &mut fmt::Formatter<'_>) -> fmt::Result {
        f.debug_struct("Server")
            .field("name", &self.name)
            .field("services", &self.services)
            .finish_non_exhaustive()
    }
}

/// The name of the program's file.
fn program_name() -> String {
    let own = env::args_os().next();
    let name = own.as_deref().map(Path::new).and_then(Path::file_stem);
    name.map_or("server".to_owned(), |name| name.to_string_lossy().into_owned())
}

/// The configuration of a text. Where it doesn't say how many threads there are, they are as many as processors.
fn configuration(text: &str) -> Result<Configuration, ServerError> {
    for key in Configuration::misspelled(text) {
        say!(warn, "the configuration: {key}");
    }
    let configuration: Configuration = text.parse().map_err(ServerError::Configuration)?;
    let says_threads = text.lines().any(|line| line.starts_with("threads:"));
    let processors = thread::available_parallelism().map_or(1, usize::from) as u64;
    Ok(if says_threads { configuration } else { configuration.threads(processors) })
}

impl Server {
    /// A server without services, with the settings of the file that `-c` names. Where there is no file, or it doesn't say
    /// `threads`, they are as many as processors.
    ///
    /// # Errors
    ///
    /// [`ServerError::ConfigurationFile`] and [`ServerError::Configuration`] where there is a file and it
    /// can't be read or is refused; [`ServerError::Unsupported`] for what this server doesn't do (`-d`).
    pub fn new(opt: impl Into<Option<Opt>>) -> Result<Server, ServerError> {
        let opt: Opt = opt.into().unwrap_or_default();
        let text = match &opt.conf {
            Some(path) => fs::read_to_string(path)
                .map_err(|source| ServerError::ConfigurationFile { path: path.clone(), source })?,
            None => String::new(),
        };
        Server::new_with_opt_and_conf(opt, configuration(&text)?)
    }

    /// A server without services, with these settings: `Configuration::default` has one thread. A file that `-c` names
    /// isn't read.
    ///
    /// The first server of a process takes the listening sockets that a service manager passed (`LISTEN_FDS`), and
    /// takes that out of the environment. Where the process has threads already it leaves both, and says so when it
    /// runs: a program makes its server before it begins threads, and before anything else that knows of such sockets.
    ///
    /// ```
    /// use fulltimehen_server::{Configuration, Opt, Server};
    ///
    /// let configuration = Configuration::default().grace_period_seconds(20);
    /// let server = Server::new_with_opt_and_conf(Opt::default(), configuration)?;
    /// assert_eq!(server.configuration.grace_period_seconds, Some(20));
    /// # Ok::<(), fulltimehen_server::ServerError>(())
    /// ```
    ///
    /// # Errors
    ///
    /// [`ServerError::Unsupported`] for what this server doesn't do (`-d`).
    pub fn new_with_opt_and_conf(
        opt: impl Into<Option<Opt>>,
        configuration: Configuration,
    ) -> Result<Server, ServerError> {
        let opt = opt.into().unwrap_or_default();
        let hint = "a service manager runs a server in the background (systemd: Type=notify)";
        let by_manager = "a service manager sets it (systemd: User=, Group=, WorkingDirectory=)";
        for (is_set, key, hint) in [
            (opt.daemon, "--daemon", hint),
            (configuration.daemon, "daemon", hint),
            (configuration.user.is_some(), "user", by_manager),
            (configuration.group.is_some(), "group", by_manager),
            (configuration.working_directory.is_some(), "working_directory", by_manager),
        ] {
            if is_set {
                return Err(ServerError::Unsupported { key, hint });
            }
        }
        Ok(Server {
            configuration,
            opt,
            name: program_name(),
            services: Vec::new(),
            dependencies: Dependencies::default(),
            phases: broadcast::channel(PHASES).0,
            succession: None,
            keep_alive: Some(KeepAlive {
                idle: Duration::from_secs(60),
                interval: Duration::from_secs(10),
                count: 6,
            }),
            inherited: inherited::take(),
        })
    }

    /// Adds a service. Services are numbered in the order in which they come.
    pub fn add_service(&mut self, service: impl Into<Service>) -> ServiceHandle {
        let service = service.into();
        let number = u32::try_from(self.services.len()).unwrap_or(u32::MAX);
        let name = service.name.clone();
        self.services.push(service);
        self.dependencies.borrow_mut().push(BTreeSet::new());
        ServiceHandle { number, name, dependencies: Rc::clone(&self.dependencies) }
    }

    /// Turns upgrades on: at SIGQUIT another program takes over, without a lost connection, and this one
    /// serves until that one does.
    ///
    /// The programs meet at `pid_file` and `upgrade_sock` of the configuration. Where it doesn't say them, they
    /// stand in the folder that `RUNTIME_DIRECTORY` names (systemd sets it), or in one with the program's name
    /// below `XDG_RUNTIME_DIR`, or below `/run` for root.
    pub fn succession(&mut self, succession: Succession) {
        self.succession = Some(succession);
    }

    /// When the connections of all services are looked at whether they live: after so long without a byte, and
    /// then so often in this interval. By itself it is after 60 seconds, and then 6 times, every 10 seconds. The system counts
    /// whole seconds, from 1 to 32,767, and from 1 to 127 times: what is less or more is the nearest of these.
    ///
    /// ```
    /// use fulltimehen_server::Server;
    /// use std::time::Duration;
    ///
    /// let mut server = Server::new(None)?;
    /// server.tcp_keepalive(Duration::from_secs(30), Duration::from_secs(5), 3);
    /// # Ok::<(), fulltimehen_server::ServerError>(())
    /// ```
    pub fn tcp_keepalive(&mut self, idle: Duration, interval: Duration, count: u32) {
        let seconds = |time: Duration| {
            let whole = time.as_secs().saturating_add((time.subsec_nanos() > 0).into());
            Duration::from_secs(whole.clamp(1, 32_767))
        };
        let (idle, interval) = (seconds(idle), seconds(interval));
        self.keep_alive = Some(KeepAlive { idle, interval, count: count.clamp(1, 127) });
    }

    /// The phases of the run, as they come. One who is more than 64 behind misses some.
    ///
    /// ```
    /// use fulltimehen_server::{Phase, RunArgs, Server, Signal};
    ///
    /// let server = Server::new(None)?;
    /// let mut phases = server.watch_execution_phase();
    /// let (operator, signals) = tokio::sync::mpsc::channel(1);
    /// operator.blocking_send(Signal::Fast)?;
    /// server.run(RunArgs::default().signals(signals))?;
    /// assert_eq!(phases.try_recv(), Ok(Phase::Bootstrap));
    /// # Ok::<(), Box<dyn std::error::Error>>(())
    /// ```
    #[must_use]
    pub fn watch_execution_phase(&self) -> broadcast::Receiver<Phase> {
        self.phases.subscribe()
    }

    /// Runs the server to its end, and ends the program: with status 0, or [`ServerError::status`] and the
    /// error on standard error.
    ///
    /// ```
    /// use fulltimehen_server::{Opt, Server, listening};
    ///
    /// // It is only looked whether the server could start.
    /// let opt = Opt::parse_from_args(["web", "--test"]).unwrap();
    /// let mut server = Server::new(opt).unwrap();
    /// server.add_service(listening("web", |_| async {}).tcp("127.0.0.1:8080"));
    /// server.run_forever();
    /// ```
    pub fn run_forever(self) -> ! {
        match self.run(RunArgs::default()) {
            Ok(_) => {
                log::flush();
                process::exit(0)
            }
            Err(error) => error.exit(),
        }
    }

    /// Runs the server to its end.
    ///
    /// ```
    /// use fulltimehen_server::{Opt, Outcome, RunArgs, Server, Signal, listening};
    ///
    /// let mut server = Server::new(Opt::default())?;
    /// server.add_service(listening("web", |_| async {}).tcp("127.0.0.1:0"));
    /// let (operator, signals) = tokio::sync::mpsc::channel(1);
    /// operator.blocking_send(Signal::Terminate)?;
    /// assert_eq!(server.run(RunArgs::default().signals(signals))?, Outcome::Served);
    /// # Ok::<(), Box<dyn std::error::Error>>(())
    /// ```
    ///
    /// # Errors
    ///
    /// Why it didn't start, or ended: [`ServerError`] says what each means. All of its sockets are closed.
    ///
    /// After it SIGINT, SIGTERM and SIGQUIT do what they did before it: at first, where nothing else was set, they end the process.
    /// That also goes for what another part of the program has set for them meanwhile.
    pub fn run(self, args: RunArgs) -> Result<Outcome, ServerError> {
        if Handle::try_current().is_ok() {
            return Err(ServerError::WithinRuntime);
        }
        let addresses = Rc::new(self.addresses()?);
        let paths = match self.succession.is_some() || self.opt.upgrade {
            true => Some(Paths::find(&self.configuration, &self.name)?),
            false => None,
        };
        let plan = self.plan(&addresses, paths.as_ref());
        if let Err(error) = limits::raise_descriptors() {
            say!(warn, "the limit of descriptors stays as it is: {error}");
        }
        let handlers = self.handlers()?;
        let own = Builder::new_current_thread().enable_all().build();
        let own = own.map_err(ServerError::system("the poller"))?;
        let run = self.run_on(args, plan, addresses, paths, handlers.handle().clone());
        let outcome = LocalSet::new().block_on(&own, run);
        // Handlers that don't yield are left.
        handlers.shutdown_timeout(Duration::from_millis(100));
        outcome
    }

    /// The runtime that the handlers run on.
    fn handlers(&self) -> Result<Runtime, ServerError> {
        let mut builder = Builder::new_multi_thread();
        let threads = usize::try_from(self.configuration.threads).unwrap_or(usize::MAX);
        builder.worker_threads(threads.clamp(1, 1024)).thread_name("handler").enable_all();
        if let Some(most) = self.configuration.max_blocking_threads {
            builder.max_blocking_threads(usize::try_from(most).unwrap_or(usize::MAX).max(1));
        }
        if let Some(seconds) = self.configuration.blocking_threads_ttl_seconds {
            builder.thread_keep_alive(Duration::from_secs(seconds));
        }
        builder.build().map_err(ServerError::system("the threads"))
    }

    /// The address of each endpoint, looked up.
    fn addresses(&self) -> Result<Addresses, ServerError> {
        let mut addresses = Addresses::new();
        for (service, number) in self.services.iter().zip(0..) {
            for (endpoint, place) in service.endpoints().iter().zip(0..) {
                let address = endpoint.address().map_err(|source| ServerError::Address {
                    service: service.name.clone(),
                    address: endpoint.word.clone(),
                    source,
                })?;
                let place = Place { service: number, endpoint: place };
                addresses.insert(place, (address.word(), address));
            }
        }
        Ok(addresses)
    }

    fn plan(&self, addresses: &Addresses, paths: Option<&Paths>) -> Plan {
        let mut configuration = self.configuration.clone();
        if let Some(paths) = paths {
            configuration.pid_file = paths.pid_file.display().to_string();
            configuration.upgrade_sock = paths.upgrade_sock.display().to_string();
        }
        let plan = Plan::new().configuration(configuration).eager(true).test(self.opt.test);
        let dependencies = self.dependencies.borrow();
        let services = self.services.iter().zip(0..).zip(dependencies.iter());
        services.fold(plan, |plan, ((service, number), after)| {
            plan.service(planned(service, number, addresses, after))
        })
    }

    async fn run_on(
        self,
        mut args: RunArgs,
        plan: Plan,
        addresses: Rc<Addresses>,
        paths: Option<Paths>,
        handlers: Handle,
    ) -> Result<Outcome, ServerError> {
        let manager = Manager::find().unwrap_or_else(|error| {
            say!(warn, "the service manager isn't told anything: {error}");
            Manager::none()
        });
        let (inputs, mut from) = Inputs::channel();
        let is_upgrade = self.opt.upgrade;
        let shared =
            Shared::new(self.succession, is_upgrade, paths.clone(), manager, inputs.clone());
        let shared = Rc::new(shared);
        let mut signals = match args.signals {
            Some(signals) => Signals::Channel(signals),
            None => Signals::of_process().map_err(ServerError::system("the signals"))?,
        };
        if let (Some(paths), false) = (&paths, is_upgrade)
            && let Ok(Holder::Serves(pid)) = pid_file::holder(&paths.pid_file)
        {
            return Err(ServerError::AlreadyRunning { pid });
        }
        if !self.opt.test {
            shared.prepare()?;
        }
        let (mut pool, mut link, mut served) = (held(self.inherited, &handlers)?, None, None);
        let mut waits = is_upgrade;
        let mut takes_over = is_upgrade;
        if let (true, Some(paths)) = (is_upgrade && shared.succession.is_some(), &paths) {
            match takeover::meet(&shared, paths, &addresses).await {
                Predecessor::Known { link: found, number, copies } => {
                    (link, served) = (Some(Rc::new(found)), number);
                    for (word, listener) in copies {
                        pool.push(polled(word, listener, &handlers)?);
                    }
                }
                Predecessor::Gone => (waits, takes_over) = (false, false),
                Predecessor::Unknown => {}
            }
        }
        let services: Rc<[Service]> = self.services.into();
        let (mut upgrade, mut serves_on) = (waits, false);
        loop {
            let plan = plan.clone().upgrade(upgrade);
            let record = match (&mut args.record, &self.opt.record) {
                (Some(sink), _) => sink.begin(&plan),
                (None, Some(path)) => record::begin(path, &plan),
                (None, None) => None,
            };
            let setup = Setup {
                services: Rc::clone(&services),
                addresses: Rc::clone(&addresses),
                plan,
                tasks: self.configuration.listener_tasks_per_fd,
                handlers: handlers.clone(),
                keep_alive: self.keep_alive,
                phases: self.phases.clone(),
                on_stray: args.on_stray.unwrap_or(OnStray::Drop),
                shared: Rc::clone(&shared),
                link: link.take(),
                pool,
                takes_over,
                serves_on,
            };
            let driver = Driver::new(setup, record)?;
            let sockets = match driver.run(&mut from, &mut signals).await {
                Ok(Drive::Anew(sockets)) => Ok(sockets),
                Ok(Drive::Instead(sockets)) => match shared.follower(served).await {
                    Some(pid) => Err(Err(ServerError::AlreadyRunning { pid })),
                    None => Ok(sockets),
                },
                Ok(Drive::Done(outcome)) => Err(Ok(outcome)),
                Err(error) => Err(Err(error)),
            };
            let ended = match sockets {
                Ok(sockets) => {
                    // What was still to be told is of the run before.
                    while from.try_recv().is_ok() {}
                    (pool, upgrade, takes_over, serves_on) = (sockets, false, false, true);
                    continue;
                }
                Err(ended) => ended,
            };
            shared.leave();
            shared.tell_rest().await;
            return ended;
        }
    }
}

/// A service as the plan has it.
fn planned(
    service: &Service,
    number: u32,
    addresses: &Addresses,
    after: &BTreeSet<u32>,
) -> machine::Service {
    let says_ready =
        matches!(service.kind, crate::service::Kind::Background { says_ready: true, .. });
    let name = service.name.as_str();
    let mut planned = match says_ready {
        true => machine::Service::notify(name),
        false => machine::Service::plain(name),
    };
    for (endpoint, place) in service.endpoints().iter().zip(0..) {
        let (word, address) = &addresses[&Place { service: number, endpoint: place }];
        let options = TcpOptions::new()
            .dscp(endpoint.dscp)
            .sndbuf(endpoint.send_buffer)
            .rcvbuf(endpoint.receive_buffer);
        planned = match address {
            Address::Tcp(_) => planned.tcp_with(word.as_str(), options),
            Address::Unix { .. } => planned.unix(word.as_str()),
        };
    }
    if service.is_filtered() {
        planned = planned.block(NOBODY);
    }
    after.iter().fold(planned, |planned, dependency| planned.after(*dependency))
}

fn polled(word: String, listener: Listener, on: &Handle) -> Result<Held, ServerError> {
    let listener = accept::polled(listener, on);
    let listener = listener.map_err(ServerError::system("a listening socket"))?;
    Ok(Held { word, listener })
}

/// The listening sockets of a service manager, under their names.
fn held(inherited: Inherited, on: &Handle) -> Result<Vec<Held>, ServerError> {
    for text in inherited.left {
        say!(warn, "LISTEN_FDS: {text}");
    }
    inherited.sockets.into_iter().map(|(name, listener)| polled(name, listener, on)).collect()
}
