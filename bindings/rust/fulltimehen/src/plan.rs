//! Plans: what a core is made of.

use crate::configuration::{Configuration, ConfigurationError};
use crate::event::IpWord;
use crate::line::Line;
use crate::messages::Shown;
use crate::sys::{Refused, Session};
use std::fmt::{self, Write};
use std::net::IpAddr;
use std::time::Duration;

/// The most services of a plan, the most endpoints of a service, and the most bytes of a name and of an
/// address.
const MOST_SERVICES: usize = 1024;
const MOST_ENDPOINTS: usize = 64;
const LONGEST_NAME: usize = 255;
const LONGEST_ADDRESS: usize = 4096;

/// A configuration, services and flags. Services are numbered from 0 in the order in which they come.
///
/// ```
/// use fulltimehen::{Configuration, Plan, Service};
///
/// let plan = Plan::new()
///     .configuration(Configuration::new().grace_period_seconds(10))
///     .service(Service::notify("cache"))
///     .service(Service::plain("web").after(0).tcp("127.0.0.1:8080"));
/// assert_eq!(
///     plan.script(),
///     "%conf\ngrace_period_seconds: 10\n%services\ncache notify\nweb plain after 0 tcp 127.0.0.1:8080\n%events\n"
/// );
/// ```
#[derive(Clone, Debug, Default, PartialEq, Eq)]
pub struct Plan {
    configuration: Configuration,
    services: Vec<Service>,
    written: Option<String>,
    eager: bool,
    upgrade: bool,
    daemon: bool,
    test: bool,
}

impl Plan {
    /// No services, and the default configuration.
    #[must_use]
    pub fn new() -> Plan {
        Plan::default()
    }

    /// A plan from the text of a script, as `svc run` reads it. Its events aren't looked at. A
    /// configuration and services that are set besides don't count.
    ///
    /// ```
    /// use fulltimehen::{Core, Plan};
    ///
    /// let plan = Plan::from_script("%conf\nthreads: 2\n%services\nweb plain tcp 127.0.0.1:80\n%events\n");
    /// let mut core = Core::new(&plan)?.begin()?;
    /// assert!(core.last_told()?.record().starts_with("start 0\nbind 0 0\n"));
    /// # Ok::<(), Box<dyn std::error::Error>>(())
    /// ```
    #[must_use]
    pub fn from_script(script: &str) -> Plan {
        Plan { written: Some(script.to_owned()), ..Plan::default() }
    }

    /// The settings of the server, in place of those that were set before.
    #[must_use]
    pub fn configuration(mut self, configuration: Configuration) -> Plan {
        self.configuration = configuration;
        self
    }

    /// One more service.
    #[must_use]
    pub fn service(mut self, service: Service) -> Plan {
        self.services.push(service);
        self
    }

    /// The server bootstraps before its run begins.
    #[must_use]
    pub fn eager(mut self, eager: bool) -> Plan {
        self.eager = eager;
        self
    }

    /// The server takes over the sockets of an older one where it bootstraps: `--upgrade`.
    #[must_use]
    pub fn upgrade(mut self, upgrade: bool) -> Plan {
        self.upgrade = upgrade;
        self
    }

    /// The server forks before all else: `--daemon`.
    #[must_use]
    pub fn daemon(mut self, daemon: bool) -> Plan {
        self.daemon = daemon;
        self
    }

    /// The run ends where it bootstraps: `--test`.
    #[must_use]
    pub fn test(mut self, test: bool) -> Plan {
        self.test = test;
        self
    }

    /// The services, in order.
    #[must_use]
    pub fn services(&self) -> &[Service] {
        &self.services
    }

    /// The settings of the server.
    #[must_use]
    pub fn settings(&self) -> &Configuration {
        &self.configuration
    }

    /// The plan as a script without events: with events behind it, `svc run` runs it again.
    #[must_use]
    pub fn script(&self) -> String {
        let mut script = String::new();
        // A String takes all that is written to it.
        let _ = self.write(&mut script, format_args!(""));
        script
    }

    /// The script whose run by `svc run`, with the words of [`Plan::words`], prints this record again: the
    /// plan with the events of the record behind it. A caller's own word on a peer, other than the plan's,
    /// can't stand in a script.
    ///
    /// ```
    /// use fulltimehen::{Core, Event, Plan, Signal};
    ///
    /// let plan = Plan::new();
    /// let mut core = Core::new(&plan)?.begin()?;
    /// let told = core.step(&Event::Signal { kind: Signal::Fast })?;
    /// assert!(plan.replay(told.record()).ends_with("%events\nsignal fast\n"));
    /// # Ok::<(), Box<dyn std::error::Error>>(())
    /// ```
    #[must_use]
    pub fn replay(&self, record: &str) -> String {
        let script = self.script();
        let mut replay =
            match script.split_inclusive('\n').position(|line| line.trim_end() == "%events") {
                Some(at) => script.split_inclusive('\n').take(at + 1).collect(),
                None => script,
            };
        for event in record.lines().filter_map(|line| line.strip_prefix("got ")) {
            replay.push_str(event);
            replay.push('\n');
        }
        replay
    }

    /// The words of the flags, as `svc run` takes them.
    ///
    /// ```
    /// use fulltimehen::{Configuration, Plan};
    ///
    /// let plan = Plan::new()
    ///     .configuration(Configuration::new().threads(2_u64))
    ///     .eager(true)
    ///     .upgrade(true)
    ///     .daemon(false)
    ///     .test(true);
    /// assert_eq!(plan.words(), ["--upgrade", "--test"]);
    /// assert_eq!(plan.settings().threads, 2);
    /// assert_eq!(plan.script(), "%conf\nthreads: 2\n%services\neager\n%events\n");
    /// ```
    #[must_use]
    pub fn words(&self) -> Vec<&'static str> {
        let flags = [(self.upgrade, "--upgrade"), (self.daemon, "--daemon"), (self.test, "--test")];
        flags.into_iter().filter(|(is_set, _)| *is_set).map(|(_, word)| word).collect()
    }

    /// The plan's script, with a line behind its services.
    fn write(&self, out: &mut impl Write, line: fmt::Arguments<'_>) -> fmt::Result {
        if let Some(script) = &self.written {
            return out.write_str(script);
        }
        out.write_str("%conf\n")?;
        self.configuration.write(out, false)?;
        out.write_str("%services\n")?;
        if self.eager {
            out.write_str("eager\n")?;
        }
        self.services.iter().try_for_each(|service| writeln!(out, "{service}"))?;
        out.write_fmt(line)?;
        out.write_str("%events\n")
    }

    /// Some service may block an address.
    pub(crate) fn judges(&self) -> bool {
        match &self.written {
            Some(_) => true,
            None => self.services.iter().any(|service| !service.blocked.is_empty()),
        }
    }

    /// Whether each service of the plan is one of a script, by name, kind and addresses.
    pub(crate) fn check(&self) -> Result<(), PlanError> {
        if self.written.is_some() {
            return Ok(());
        }
        self.configuration.validate().map_err(PlanError::Configuration)?;
        if self.services.len() > MOST_SERVICES {
            return Err(PlanError::TooManyServices);
        }
        let mut services = self.services.iter();
        services.try_for_each(Service::check)
    }

    /// A session of the plan's script.
    pub(crate) fn session(&self) -> Result<Session, PlanError> {
        let script = self.script_with(format_args!(""))?;
        let session =
            self.session_of(&script).map_err(|refused| self.error(script.as_str(), &refused))?;
        let has_its_services = self.written.is_some() || self.has_its_services()?;
        if has_its_services { Ok(session) } else { Err(PlanError::Count) }
    }

    /// The plan's script with a line behind its services.
    fn script_with(&self, line: fmt::Arguments<'_>) -> Result<Line, PlanError> {
        let mut script = Line::default();
        self.write(&mut script, line).map_err(|_| PlanError::NoMemory)?;
        Ok(script)
    }

    fn session_of(&self, script: &Line) -> Result<Session, Refused> {
        Session::new(script.as_bytes(), [self.upgrade, self.daemon, self.test])
    }

    /// The library reads as many services of the script as the plan has: so it takes one more that starts
    /// after the last one, and none that would start after itself, or none at all beyond the most.
    fn has_its_services(&self) -> Result<bool, PlanError> {
        let count = self.services.len();
        if count == MOST_SERVICES {
            return Ok(self.takes(format_args!("probe plain\n"))? != Some(true));
        }
        if let Some(last) = count.checked_sub(1)
            && self.takes(format_args!("probe plain after {last}\n"))? == Some(false)
        {
            return Ok(false);
        }
        Ok(self.takes(format_args!("probe plain after {count}\n"))? != Some(true))
    }

    /// The library takes the plan with this line behind its services, or the script is too long then.
    fn takes(&self, line: fmt::Arguments<'_>) -> Result<Option<bool>, PlanError> {
        match self.session_of(&self.script_with(line)?) {
            Ok(_) => Ok(Some(true)),
            Err(Refused { number: 17, place: 0, .. }) => Ok(None),
            Err(Refused { number: 17, .. }) => Ok(Some(false)),
            Err(_) => Err(PlanError::NoMemory),
        }
    }

    /// Why the library refused the script.
    fn error(&self, script: &str, refused: &Refused) -> PlanError {
        let line = usize::try_from(refused.place).unwrap_or(usize::MAX);
        match (refused.number, &self.written) {
            (17, None) => self.refused_line(script, line),
            (17, Some(_)) => PlanError::of_script(script, line),
            (18, _) => PlanError::of_key(script, &refused.key),
            _ => PlanError::NoMemory,
        }
    }

    /// Why this line of the plan's own script is refused. Names, addresses and numbers were looked at, so
    /// it is what the service starts after.
    fn refused_line(&self, script: &str, line: usize) -> PlanError {
        let heads = script.lines().take_while(|text| *text != "%services").count();
        let first = heads + 2 + usize::from(self.eager);
        let service = line.checked_sub(first).filter(|at| *at < self.services.len());
        match service.and_then(|service| self.dependency_fault(service)) {
            Some(error) => error,
            None => PlanError::of_script(script, line),
        }
    }

    /// Why this service can't start after those that it names, where the services before it can.
    fn dependency_fault(&self, service: usize) -> Option<PlanError> {
        let Service { name, after, .. } = &self.services[service];
        let is_unknown = |other: &u32| self.services.get(*other as usize).is_none();
        let at = |other: &u32| is_unknown(other) || self.waits(*other as usize, service);
        let other = *after.iter().find(|other| at(other))?;
        Some(PlanError::Dependency {
            service: name.clone(),
            after: other,
            other: self.services.get(other as usize).map(|other| other.name.clone()),
        })
    }

    /// The one service starts after the other, by way of those that come before it or are that.
    fn waits(&self, one: usize, other: usize) -> bool {
        let mut seen = vec![false; self.services.len()];
        let mut left = vec![one];
        while let Some(service) = left.pop() {
            if service == other {
                return true;
            }
            if service < other && !std::mem::replace(&mut seen[service], true) {
                left.extend(self.services[service].after.iter().map(|after| *after as usize));
            }
        }
        false
    }
}

/// Why a word can't be a name or an address.
#[derive(Clone, Copy, Debug, PartialEq, Eq)]
#[non_exhaustive]
pub enum WordFault {
    /// It is empty.
    Empty,
    /// A blank or a control character is in it.
    Blank,
    /// It is a name and begins with `#` or `%`.
    Mark,
    /// A name has over 255 bytes, or an address over 4,096.
    TooLong,
}

impl fmt::Display for WordFault {
    fn fmt(&self, f: &mut fmt::Formatter<'_>) -> fmt::Result {
        f.write_str(match self {
            WordFault::Empty => "it is empty",
            WordFault::Blank => "a blank or a control character is in it",
            WordFault::Mark => "a name doesn't begin with # or %",
            WordFault::TooLong => "a name has at most 255 bytes, and an address at most 4096",
        })
    }
}

/// Why no core was made of a plan.
///
/// ```
/// use fulltimehen::{Core, Plan, PlanError, Service, WordFault};
///
/// let refused = |service| Core::new(&Plan::new().service(service)).unwrap_err();
/// let error = refused(Service::plain("#web"));
/// assert!(matches!(&error, PlanError::Word { fault: WordFault::Mark, .. }));
/// let error = refused(Service::plain("web").after(7));
/// assert_eq!(error.to_string(), "the service web starts after service 7, which isn't there");
/// ```
#[derive(Clone, Debug, PartialEq, Eq)]
#[non_exhaustive]
pub enum PlanError {
    /// Out of memory.
    NoMemory,
    /// The configuration is refused.
    Configuration(ConfigurationError),
    /// A name or an address is refused.
    Word {
        /// The name or address.
        word: String,
        /// Why it is refused.
        fault: WordFault,
    },
    /// There are over 1,024 services.
    TooManyServices,
    /// A service has over 64 endpoints.
    TooManyEndpoints {
        /// Its name.
        service: String,
    },
    /// A service whose work is bootstrapping has more than what it starts after.
    Bootstrap {
        /// Its name.
        service: String,
    },
    /// A service starts after one that isn't there, or after one that waits for it already.
    Dependency {
        /// Its name.
        service: String,
        /// The number of the one that it starts after.
        after: u32,
        /// The name of that one, if it is there.
        other: Option<String>,
    },
    /// The library reads another number of services than the plan has.
    Count,
    /// A line of a plan's script is refused.
    Line {
        /// Its number, from 1.
        line: usize,
        /// The line.
        text: String,
    },
    /// The script has over 16,777,216 bytes.
    TooLong,
}

impl PlanError {
    /// Why a script is refused at this line.
    fn of_script(script: &str, line: usize) -> PlanError {
        if line == 0 {
            return PlanError::TooLong;
        }
        let (behind, configuration) = configuration_part(script);
        if let Err(error) = Configuration::read(&configuration, behind)
            && error.line() == Some(line)
        {
            return PlanError::Configuration(error);
        }
        let text = script.lines().nth(line - 1).unwrap_or_default();
        PlanError::Line { line, text: text.to_owned() }
    }

    /// Why the value of this key of a script's configuration is refused.
    fn of_key(script: &str, key: &str) -> PlanError {
        let (behind, configuration) = configuration_part(script);
        PlanError::Configuration(ConfigurationError::of_key(&configuration, behind, key))
    }
}

/// The configuration of a script, and how many lines stand before it.
fn configuration_part(script: &str) -> (usize, String) {
    let before = script.lines().take_while(|line| *line != "%conf").count() + 1;
    let lines = script.lines().skip(before).take_while(|line| *line != "%services");
    (before, lines.flat_map(|line| [line, "\n"]).collect())
}

impl fmt::Display for PlanError {
    fn fmt(&self, f: &mut fmt::Formatter<'_>) -> fmt::Result {
        match self {
            PlanError::NoMemory => f.write_str("out of memory"),
            PlanError::Configuration(error) => write!(f, "the configuration is refused: {error}"),
            PlanError::Word { word, fault } => {
                write!(f, "{:?} is no name or address: {fault}", Shown(word).to_string())
            }
            PlanError::TooManyServices => write!(f, "there are over {MOST_SERVICES} services"),
            PlanError::TooManyEndpoints { service } => {
                write!(f, "the service {} has over {MOST_ENDPOINTS} endpoints", Shown(service))
            }
            PlanError::Bootstrap { service } => write!(
                f,
                "the service {} bootstraps, and has more than what it starts after",
                Shown(service)
            ),
            PlanError::Dependency { service, after, other: None } => {
                write!(
                    f,
                    "the service {} starts after service {after}, which isn't there",
                    Shown(service)
                )
            }
            PlanError::Dependency { service, after, other: Some(other) } => {
                let (service, other) = (Shown(service), Shown(other));
                write!(
                    f,
                    "the service {service} starts after service {after}, {other}, which waits for {service} already"
                )
            }
            PlanError::Count => f.write_str("the library reads another number of services"),
            PlanError::Line { line, text } => {
                write!(f, "line {line} of the script is refused: {}", Shown(text))
            }
            PlanError::TooLong => f.write_str("the script has over 16777216 bytes"),
        }
    }
}

impl std::error::Error for PlanError {
    fn source(&self) -> Option<&(dyn std::error::Error + 'static)> {
        match self {
            PlanError::Configuration(error) => Some(error),
            _ => None,
        }
    }
}

/// A service of a plan.
///
/// ```
/// use fulltimehen::{KeepAlive, Service, TcpOptions};
/// use std::time::Duration;
///
/// let keepalive = KeepAlive {
///     idle: Duration::from_secs(60),
///     interval: Duration::from_secs(5),
///     count: 5,
///     user_timeout: Duration::ZERO,
/// };
/// let web = Service::plain("web")
///     .tcp_with("[::1]:80", TcpOptions::new().keepalive(keepalive).dscp(10))
///     .block("10.0.0.1".parse()?);
/// assert_eq!(
///     web.to_string(),
///     "web plain tcp [::1]:80 keepalive 60000000000,5000000000,5,0 dscp 10 block 10.0.0.1"
/// );
/// # Ok::<(), std::net::AddrParseError>(())
/// ```
#[derive(Clone, Debug, PartialEq, Eq)]
pub struct Service {
    name: String,
    kind: &'static str,
    after: Vec<u32>,
    endpoints: Vec<Endpoint>,
    claims: Vec<String>,
    blocked: Vec<IpAddr>,
    undeclared: bool,
}

/// Where a service listens.
///
/// ```
/// use fulltimehen::{Endpoint, Service, TcpOptions};
///
/// let buffers = TcpOptions::new().sndbuf(65_536).rcvbuf(65_536);
/// let web = Service::plain("web").tcp_with("127.0.0.1:80", buffers).unix("/run/web.sock");
/// assert_eq!(web.name(), "web");
/// let addresses: Vec<&str> = web.endpoints().iter().map(Endpoint::address).collect();
/// assert_eq!(addresses, ["127.0.0.1:80", "/run/web.sock"]);
/// ```
#[derive(Clone, Debug, PartialEq, Eq)]
#[non_exhaustive]
pub enum Endpoint {
    /// An address of the internet.
    Tcp {
        /// The address, as `127.0.0.1:80`, of at most 4,096 bytes.
        address: String,
        /// The options of its connections.
        options: TcpOptions,
    },
    /// A path of the Unix domain.
    Unix {
        /// The path, of at most 4,096 bytes.
        path: String,
    },
}

impl Endpoint {
    /// Its address or path.
    #[must_use]
    pub fn address(&self) -> &str {
        match self {
            Endpoint::Tcp { address, .. } => address,
            Endpoint::Unix { path } => path,
        }
    }
}

/// The options of a TCP endpoint, which the core tells for each connection as its settings.
#[derive(Clone, Debug, Default, PartialEq, Eq)]
#[non_exhaustive]
pub struct TcpOptions {
    /// Keeping alive.
    pub keepalive: Option<KeepAlive>,
    /// The differentiated services byte.
    pub dscp: Option<u8>,
    /// The size of the buffer for what is sent, in bytes.
    pub sndbuf: Option<u64>,
    /// The size of the buffer for what is received, in bytes.
    pub rcvbuf: Option<u64>,
}

impl TcpOptions {
    /// No option.
    #[must_use]
    pub fn new() -> TcpOptions {
        TcpOptions::default()
    }

    /// Keeping alive.
    #[must_use]
    pub fn keepalive(mut self, keepalive: impl Into<Option<KeepAlive>>) -> TcpOptions {
        self.keepalive = keepalive.into();
        self
    }

    /// The differentiated services byte.
    #[must_use]
    pub fn dscp(mut self, byte: impl Into<Option<u8>>) -> TcpOptions {
        self.dscp = byte.into();
        self
    }

    /// The size of the buffer for what is sent, in bytes.
    #[must_use]
    pub fn sndbuf(mut self, bytes: impl Into<Option<u64>>) -> TcpOptions {
        self.sndbuf = bytes.into();
        self
    }

    /// The size of the buffer for what is received, in bytes.
    #[must_use]
    pub fn rcvbuf(mut self, bytes: impl Into<Option<u64>>) -> TcpOptions {
        self.rcvbuf = bytes.into();
        self
    }
}

/// How a connection is kept alive. A time of over 584 years counts as the longest that nanoseconds of 64
/// bits have.
#[derive(Clone, Copy, Debug, PartialEq, Eq)]
pub struct KeepAlive {
    /// How long a connection is idle before the first probe.
    pub idle: Duration,
    /// The time between two probes.
    pub interval: Duration,
    /// How many probes without an answer end the connection.
    pub count: u64,
    /// How long sent bytes may stay unacknowledged; zero: the system decides.
    pub user_timeout: Duration,
}

/// The option as a script has it.
impl fmt::Display for KeepAlive {
    fn fmt(&self, f: &mut fmt::Formatter<'_>) -> fmt::Result {
        let nanos = |time: Duration| u64::try_from(time.as_nanos()).unwrap_or(u64::MAX);
        let (idle, interval) = (nanos(self.idle), nanos(self.interval));
        write!(f, "{idle},{interval},{},{}", self.count, nanos(self.user_timeout))
    }
}

fn check_word(word: &str, longest: usize) -> Result<(), PlanError> {
    let refused = |fault| Err(PlanError::Word { word: word.to_owned(), fault });
    if word.is_empty() {
        refused(WordFault::Empty)
    } else if word.chars().any(|c| c.is_whitespace() || c.is_control()) {
        refused(WordFault::Blank)
    } else if word.len() > longest {
        refused(WordFault::TooLong)
    } else {
        Ok(())
    }
}

fn check_name(name: &str) -> Result<(), PlanError> {
    if name.starts_with(['#', '%']) {
        return Err(PlanError::Word { word: name.to_owned(), fault: WordFault::Mark });
    }
    check_word(name, LONGEST_NAME)
}

impl Service {
    fn of_kind(name: impl Into<String>, kind: &'static str) -> Service {
        Service {
            name: name.into(),
            kind,
            after: Vec::new(),
            endpoints: Vec::new(),
            claims: Vec::new(),
            blocked: Vec::new(),
            undeclared: false,
        }
    }

    /// A service that is ready as soon as it is started. Its name has 1 to 255 bytes, no blanks and no
    /// control characters, and doesn't begin with `#` or `%`: another name is refused by
    /// [`Core::new`](crate::Core::new).
    #[must_use]
    pub fn plain(name: impl Into<String>) -> Service {
        Service::of_kind(name, "plain")
    }

    /// A service that says when it is ready.
    #[must_use]
    pub fn notify(name: impl Into<String>) -> Service {
        Service::of_kind(name, "notify")
    }

    /// A service whose work is bootstrapping. It takes [`Service::after`] alone.
    ///
    /// ```
    /// use fulltimehen::{Core, Plan, Service};
    ///
    /// let plan = Plan::new()
    ///     .service(Service::bootstrap("takeover"))
    ///     .service(Service::plain("web").after(0).tcp("127.0.0.1:80"));
    /// assert!(Core::new(&plan).is_ok());
    /// ```
    #[must_use]
    pub fn bootstrap(name: impl Into<String>) -> Service {
        Service::of_kind(name, "bootstrap")
    }

    /// It starts once this service is ready.
    #[must_use]
    pub fn after(mut self, service: u32) -> Service {
        self.after.push(service);
        self
    }

    /// One more endpoint, at an address of the internet, without options.
    #[must_use]
    pub fn tcp(self, address: impl Into<String>) -> Service {
        self.tcp_with(address, TcpOptions::new())
    }

    /// One more endpoint, at an address of the internet.
    #[must_use]
    pub fn tcp_with(mut self, address: impl Into<String>, options: TcpOptions) -> Service {
        self.endpoints.push(Endpoint::Tcp { address: address.into(), options });
        self
    }

    /// One more endpoint, at a path of the Unix domain.
    #[must_use]
    pub fn unix(mut self, path: impl Into<String>) -> Service {
        self.endpoints.push(Endpoint::Unix { path: path.into() });
        self
    }

    /// One more address that it declares beside those of its endpoints: a descriptor that an older server
    /// hands over for it is kept.
    #[must_use]
    pub fn claim(mut self, address: impl Into<String>) -> Service {
        self.claims.push(address.into());
        self
    }

    /// It doesn't say which addresses it uses, so that all that an older server hands over are kept.
    ///
    /// ```
    /// use fulltimehen::Service;
    ///
    /// let web = Service::plain("web").claim("127.0.0.1:81");
    /// assert_eq!(web.to_string(), "web plain claim 127.0.0.1:81");
    /// assert_eq!(Service::plain("web").undeclared(true).to_string(), "web plain undeclared");
    /// ```
    #[must_use]
    pub fn undeclared(mut self, undeclared: bool) -> Service {
        self.undeclared = undeclared;
        self
    }

    /// Connections from this address are refused. An IPv4 address that is mapped into IPv6 is one of IPv4.
    #[must_use]
    pub fn block(mut self, ip: IpAddr) -> Service {
        self.blocked.push(ip.to_canonical());
        self
    }

    /// Its name.
    #[must_use]
    pub fn name(&self) -> &str {
        &self.name
    }

    /// Where it listens, numbered from 0 in this order.
    #[must_use]
    pub fn endpoints(&self) -> &[Endpoint] {
        &self.endpoints
    }

    fn check(&self) -> Result<(), PlanError> {
        check_name(&self.name)?;
        let addresses = self.endpoints.iter().map(Endpoint::address);
        let mut words = addresses.chain(self.claims.iter().map(String::as_str));
        words.try_for_each(|word| check_word(word, LONGEST_ADDRESS))?;
        let service = || self.name.clone();
        if self.endpoints.len() > MOST_ENDPOINTS {
            return Err(PlanError::TooManyEndpoints { service: service() });
        }
        let has_more =
            !(self.endpoints.is_empty() && self.claims.is_empty() && self.blocked.is_empty());
        if self.kind == "bootstrap" && (has_more || self.undeclared) {
            return Err(PlanError::Bootstrap { service: service() });
        }
        Ok(())
    }
}

impl fmt::Display for Endpoint {
    fn fmt(&self, f: &mut fmt::Formatter<'_>) -> fmt::Result {
        let (address, options) = match self {
            Endpoint::Unix { path } => return write!(f, "unix {path}"),
            Endpoint::Tcp { address, options } => (address, options),
        };
        write!(f, "tcp {address}")?;
        if let Some(keepalive) = options.keepalive {
            write!(f, " keepalive {keepalive}")?;
        }
        if let Some(byte) = options.dscp {
            write!(f, " dscp {byte}")?;
        }
        if let Some(bytes) = options.sndbuf {
            write!(f, " sndbuf {bytes}")?;
        }
        match options.rcvbuf {
            Some(bytes) => write!(f, " rcvbuf {bytes}"),
            None => Ok(()),
        }
    }
}

/// The service's line in a script.
impl fmt::Display for Service {
    fn fmt(&self, f: &mut fmt::Formatter<'_>) -> fmt::Result {
        write!(f, "{} {}", self.name, self.kind)?;
        if let Some((first, others)) = self.after.split_first() {
            write!(f, " after {first}")?;
            others.iter().try_for_each(|service| write!(f, ",{service}"))?;
        }
        self.endpoints.iter().try_for_each(|endpoint| write!(f, " {endpoint}"))?;
        self.claims.iter().try_for_each(|address| write!(f, " claim {address}"))?;
        self.blocked.iter().try_for_each(|ip| write!(f, " block {}", IpWord(*ip)))?;
        if self.undeclared { f.write_str(" undeclared") } else { Ok(()) }
    }
}

#[cfg(test)]
mod tests {
    use super::*;

    /// A service whose line the library would skip as a comment is missed, were its name let through.
    #[test]
    fn a_service_that_vanishes_is_missed() {
        let services = |first: &str| {
            Plan::new().service(Service::plain(first)).service(Service::plain("web").tcp("a:1"))
        };
        assert!(services("first").session().is_ok());
        assert!(matches!(services("#first").session(), Err(PlanError::Count)));
        assert!(services("#first").check().is_err());
    }
}
